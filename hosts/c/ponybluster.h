/* The query check for C: the two functions that the static library of the crate door exports, and the five numbers of a reply.

   A pointer and the number after it belong together: so many elements lie there. No pointer is null, not even where the number is 0.
   What a function writes (reply, scratch) overlaps nothing else that it is given. The functions keep nothing between two calls, so
   threads may call them at once. */
#ifndef PONYBLUSTER_H
#define PONYBLUSTER_H

#include <stddef.h>
#include <stdint.h>

#ifdef __cplusplus
extern "C" {
#endif

#define PONYBLUSTER_NONE 4294967295u
#define PONYBLUSTER_MOST_BYTES 32768
#define PONYBLUSTER_REPLY_BYTES 20
#define PONYBLUSTER_REPLY_WORDS 5
/* bytes of stack that suffice for a thread which calls check_query, or check_query_lent */
#define PONYBLUSTER_STACK (192 * 1024)
#define PONYBLUSTER_STACK_LENT (96 * 1024)

/* Checks an image that is given as bytes: little-endian 32-bit words. Any bytes may be given; what is no image gets its own reply.

   image, image_bytes   the image, only read. A length that is no multiple of 4 or over 32,768 is answered with kind 18.
   budget               the units of work that the check may use, at most 1,000,000. The scratch inside has room for 1536 at most, and
                        for fewer the more rows the image has (kind 3): 1000 will do for 268 rows.
   reply, reply_bytes   where the reply goes: exactly 20 bytes, five little-endian words (kind, operation, a, b, used).
   returns              1: the reply is written. 0: reply_bytes is not 20, and nothing is written.

   It takes no memory but the caller's stack: 167,104 bytes of a thread's stack on the deepest images known, of which 98,304 are arrays
   for the image and the scratch. That is measured (compare/faults/stack.c), not proved. PONYBLUSTER_STACK bytes suffice for a thread. */
uint32_t check_query(const uint8_t *image, size_t image_bytes, uint32_t budget, uint8_t *reply, size_t reply_bytes);

/* Checks an image of any length that is given as words, with scratch that the caller lends.

   image, image_words       the image, only read.
   budget                   as above, at most 1,000,000.
   scratch, scratch_words   room to work in: 8 x budget + 16 x (rows of all nine tables) + 4096 words. With fewer the reply is kind 3,
                            and its a says how many it takes. What lies there before changes no answer. Afterwards it is untouched on
                            kinds 1 to 3; on others the words needed are 0 and those beyond are untouched.
   reply, reply_words       where the reply goes: exactly 5 words (kind, operation, a, b, used).
   returns                  1: the reply is written. 0: reply_words is not 5, and nothing is written.

   It takes 68,784 bytes of a thread's stack on the deepest images known, and no other memory. PONYBLUSTER_STACK_LENT bytes suffice. */
uint32_t check_query_lent(const uint32_t *image, size_t image_words, uint32_t budget, uint32_t *scratch, size_t scratch_words,
                          uint32_t *reply, size_t reply_words);

/* The five numbers. What a and b are depends on the kind; numbers that a kind does not name are 0. */
struct ponybluster_reply {
    uint32_t kind;      /* 0: nothing is wrong; 1 to 18: what is */
    uint32_t operation; /* in which operation, counted from 0 */
    uint32_t a;
    uint32_t b;
    uint32_t used; /* units of work that were used */
};

/* The word that four bytes spell, low byte first, on any machine. */
static inline uint32_t ponybluster_word(const uint8_t *bytes)
{
    return (uint32_t)bytes[0] | (uint32_t)bytes[1] << 8 | (uint32_t)bytes[2] << 16 | (uint32_t)bytes[3] << 24;
}

/* The reply that check_query wrote into 20 bytes. */
static inline struct ponybluster_reply ponybluster_read(const uint8_t *bytes)
{
    struct ponybluster_reply reply;
    reply.kind = ponybluster_word(bytes);
    reply.operation = ponybluster_word(bytes + 4);
    reply.a = ponybluster_word(bytes + 8);
    reply.b = ponybluster_word(bytes + 12);
    reply.used = ponybluster_word(bytes + 16);
    return reply;
}

#ifdef __cplusplus
}
#endif

#endif
