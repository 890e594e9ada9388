/* How much stack the door takes, over the deepest images, and whether the documented sizes suffice.

   stack CASES     CASES: as guard.c reads them

   Each case is checked by both functions on a thread whose stack is painted before; what is no longer painted was used, the thread's own start
   included. Then each is checked on threads with just PONYBLUSTER_STACK and PONYBLUSTER_STACK_LENT bytes of stack, above a page that may not be
   touched: too little ends the run by a signal. */
#define _GNU_SOURCE
#include "../../hosts/c/ponybluster.h"

#include <pthread.h>
#include <stdio.h>
#include <stdlib.h>
#include <string.h>
#include <sys/mman.h>

#define PAGE 4096
#define PAINT 0xa5
#define ROOMY (1 << 20)

struct call {
    const uint32_t *c;
    uint32_t *scratch, reply[5];
    int lent;
};

static void *one_call(void *given)
{
    struct call *call = given;
    const uint32_t *c = call->c;
    uint32_t returned = call->lent ? check_query_lent(c + 8, c[7], c[0], call->scratch, c[1], call->reply, 5)
                                   : check_query((const uint8_t *)(c + 8), 4 * (size_t)c[7], c[0], (uint8_t *)call->reply, 20);
    return returned == 1 && memcmp(call->reply, c + 2, 20) == 0 ? given : NULL;
}

/* The bytes of a stack of this size that a call uses; 0 where the reply is wrong. */
static size_t used(const uint32_t *c, int lent, size_t size)
{
    static uint32_t scratch[1 << 21];
    struct call call = {c, scratch, {0}, lent};
    pthread_attr_t attr;
    pthread_t thread;
    void *fine = NULL;
    uint8_t *all = mmap(NULL, size + PAGE, PROT_READ | PROT_WRITE, MAP_PRIVATE | MAP_ANONYMOUS, -1, 0), *stack = all + PAGE;
    if (all == MAP_FAILED || mprotect(all, PAGE, PROT_NONE) != 0)
        exit(4);
    memset(stack, PAINT, size);
    if (pthread_attr_init(&attr) != 0 || pthread_attr_setstack(&attr, stack, size) != 0 || pthread_create(&thread, &attr, one_call, &call) != 0 ||
        pthread_join(thread, &fine) != 0)
        exit(4);
    size_t untouched = 0;
    while (untouched < size && stack[untouched] == PAINT)
        untouched++;
    munmap(all, size + PAGE);
    return fine == NULL ? 0 : size - untouched;
}

int main(int argc, char **argv)
{
    FILE *f = argc == 2 ? fopen(argv[1], "rb") : NULL;
    uint32_t head[8];
    size_t most[2] = {0, 0}, room[2] = {PONYBLUSTER_STACK, PONYBLUSTER_STACK_LENT};
    unsigned long count = 0, wrong = 0;
    if (f == NULL)
        return 4;
    while (fread(head, 4, 8, f) == 8) {
        uint32_t *c = malloc(4 * (8 + (size_t)head[7]));
        memcpy(c, head, sizeof head);
        if (fread(c + 8, 4, head[7], f) != head[7])
            return 4;
        for (int lent = 0; lent < 2; lent++) {
            size_t bytes = used(c, lent, ROOMY);
            wrong += bytes == 0 || bytes > room[lent] || used(c, lent, room[lent]) == 0;
            most[lent] = bytes > most[lent] ? bytes : most[lent];
            printf("%s%lu", lent ? ", " : "", (unsigned long)bytes);
        }
        printf(": case %lu, %u words, reply %u %u %u %u %u\n", count, c[7], c[2], c[3], c[4], c[5], c[6]);
        count++;
        free(c);
    }
    printf("stack of %lu deep images, check_query and check_query_lent: at most %lu and %lu bytes, documented %lu and %lu; %lu wrong\n", count,
           (unsigned long)most[0], (unsigned long)most[1], (unsigned long)room[0], (unsigned long)room[1], wrong);
    return wrong != 0 || count == 0;
}
