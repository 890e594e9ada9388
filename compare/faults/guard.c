/* Calls the door with buffers of exact length between pages that may not be touched, over stored cases, and then a million times.

   guard CASES [CALLS]     CASES: little-endian words, as often as there are cases: work, scratch, the five numbers expected, n, n words

   Each buffer lies once against the page behind it and once against the page before it. The image is read-only during the call; what lies
   beside a buffer on its open side is compared afterwards. A touch outside ends the run with status 3. */
#define _GNU_SOURCE
#include "../../hosts/c/ponybluster.h"

#include <fcntl.h>
#include <signal.h>
#include <stdio.h>
#include <stdlib.h>
#include <string.h>
#include <sys/mman.h>
#include <sys/wait.h>
#include <unistd.h>

#define PAGE 4096
#define MARK 0xa5
#define DOOR_SCRATCH 16384

struct room { /* guard page, data pages, guard page */
    uint8_t *data;
    size_t size;
};
struct lent {
    uint8_t *at;
    size_t bytes;
};

static volatile unsigned long now;
static volatile int side;

static void on_fault(int signal_number)
{
    char text[100];
    int n = snprintf(text, sizeof text, "signal %d in case %lu, side %d: touched what was not given\n", signal_number, now, side);
    if (write(1, text, (size_t)n) < 0)
        _exit(4);
    _exit(3);
}

static struct room new_room(size_t most)
{
    struct room r;
    r.size = (most + PAGE - 1) / PAGE * PAGE + PAGE;
    uint8_t *all = mmap(NULL, r.size + 2 * PAGE, PROT_NONE, MAP_PRIVATE | MAP_ANONYMOUS, -1, 0);
    if (all == MAP_FAILED || mprotect(all + PAGE, r.size, PROT_READ | PROT_WRITE) != 0)
        exit(4);
    r.data = all + PAGE;
    return r;
}

/* So many bytes against the page behind (side 0) or before (side 1), all else in the room marked. */
static struct lent lend(struct room r, size_t bytes, int at_start)
{
    struct lent l = {at_start ? r.data : r.data + r.size - bytes, bytes};
    memset(r.data, MARK, r.size);
    return l;
}

static int marked(struct room r, struct lent l)
{
    for (size_t i = 0; i < r.size; i++) {
        uint8_t *p = r.data + i;
        if ((p < l.at || p >= l.at + l.bytes) && *p != MARK)
            return 0;
    }
    return 1;
}

/* Whether the scratch is as promised: the words needed 0 and the others untouched, or all untouched on kinds 1 to 3. */
static int kept(struct lent scratch, uint32_t kind, uint64_t needed)
{
    uint64_t cleared = 1 <= kind && kind <= 3 ? 0 : 4 * needed;
    for (size_t i = 0; i < scratch.bytes; i++)
        if (scratch.at[i] != (i < cleared ? 0 : MARK))
            return 0;
    return 1;
}

static uint64_t needed(const uint32_t *image, size_t n, uint32_t work)
{
    uint64_t rows = 0;
    for (int t = 0; n >= 20 && t < 9; t++)
        rows += image[2 + 2 * t];
    return 8 * (uint64_t)work + 16 * rows + 4096;
}

static struct room image_room, scratch_room, reply_room;

static int lent_call(const uint32_t *c)
{
    struct lent image = lend(image_room, 4 * (size_t)c[7], side), scratch = lend(scratch_room, 4 * (size_t)c[1], side);
    struct lent reply = lend(reply_room, 20, side);
    memcpy(image.at, c + 8, image.bytes);
    mprotect(image_room.data, image_room.size, PROT_READ);
    uint32_t returned = check_query_lent((uint32_t *)image.at, c[7], c[0], (uint32_t *)scratch.at, c[1], (uint32_t *)reply.at, 5);
    mprotect(image_room.data, image_room.size, PROT_READ | PROT_WRITE);
    return returned == 1 && memcmp(reply.at, c + 2, 20) == 0 && memcmp(image.at, c + 8, image.bytes) == 0 && marked(scratch_room, scratch) &&
           marked(reply_room, reply) && kept(scratch, c[2], needed(c + 8, c[7], c[0]));
}

/* Whether the door for bytes must give a case the same answer: it fits, and so does the scratch inside. */
static int fits_the_door(const uint32_t *c)
{
    return c[2] != 3 && 4 * (size_t)c[7] <= PONYBLUSTER_MOST_BYTES && needed(c + 8, c[7], c[0]) <= DOOR_SCRATCH;
}

/* The door for bytes: image and reply. `less` bytes are left off the end, so that the length is no multiple of 4. */
static int byte_call(const uint32_t *c, size_t less)
{
    size_t bytes = 4 * (size_t)c[7] < less ? 0 : 4 * (size_t)c[7] - less;
    struct lent image = lend(image_room, bytes, side), reply = lend(reply_room, 20, side);
    memcpy(image.at, c + 8, bytes);
    mprotect(image_room.data, image_room.size, PROT_READ);
    uint32_t returned = check_query(image.at, bytes, c[0], reply.at, 20);
    mprotect(image_room.data, image_room.size, PROT_READ | PROT_WRITE);
    struct ponybluster_reply r = ponybluster_read(reply.at);
    int refused = bytes % 4 != 0 || bytes > PONYBLUSTER_MOST_BYTES;
    int same = refused ? r.kind == 18 && r.a == bytes : !fits_the_door(c) || memcmp(reply.at, c + 2, 20) == 0;
    return returned == 1 && same && marked(reply_room, reply);
}

/* Another length than 20 or 5: nothing is written, and nothing read past the end. */
static int refused_call(const uint32_t *c, size_t length)
{
    struct lent reply = lend(reply_room, 4 * length, side), scratch = lend(scratch_room, 0, side);
    uint32_t bytes = check_query((const uint8_t *)(c + 8), 4 * (size_t)c[7], c[0], reply.at, length == 5 ? 19 : 4 * length);
    uint32_t words = length == 5 ? 0 : check_query_lent(c + 8, c[7], c[0], (uint32_t *)scratch.at, 0, (uint32_t *)reply.at, length);
    struct lent none = {reply.at, 0};
    return bytes == 0 && words == 0 && marked(reply_room, none);
}

struct memory {
    unsigned long size, resident; /* in KiB */
};

static struct memory memory(void)
{
    struct memory m = {0, 0};
    FILE *f = fopen("/proc/self/statm", "r");
    if (f == NULL || fscanf(f, "%lu %lu", &m.size, &m.resident) != 2)
        exit(4);
    fclose(f);
    m.size *= PAGE / 1024, m.resident *= PAGE / 1024;
    return m;
}

/* So many calls in one process, one round over the cases with words, the next with bytes, and so on; the same answers each time, and no more
   memory than after two rounds. */
static unsigned long many(uint32_t **cases, unsigned long count, unsigned long calls)
{
    static uint32_t scratch[1 << 21];
    unsigned long wrong = 0;
    struct memory first = memory(), last;
    for (unsigned long i = 0; i < calls; i++) {
        uint32_t *c = cases[i % count], reply[5], returned;
        if (i / count % 2 == 1 && fits_the_door(c))
            returned = check_query((uint8_t *)(c + 8), 4 * (size_t)c[7], c[0], (uint8_t *)reply, 20);
        else
            returned = check_query_lent(c + 8, c[7], c[0], scratch, c[1], reply, 5);
        wrong += returned != 1 || memcmp(reply, c + 2, 20) != 0;
        if (i == 2 * count)
            first = memory();
    }
    last = memory();
    printf("%lu calls in one process: %lu wrong; size and resident after two rounds %lu and %lu KiB, at the end %lu and %lu KiB\n", calls, wrong,
           first.size, first.resident, last.size, last.resident);
    return wrong + (last.size > first.size || last.resident > first.resident);
}

static uint32_t **read_cases(const char *path, unsigned long *count, size_t *most_image, size_t *most_scratch)
{
    FILE *f = fopen(path, "rb");
    uint32_t head[8], **cases = NULL;
    *count = 0, *most_image = 0, *most_scratch = 0;
    while (f != NULL && fread(head, 4, 8, f) == 8) {
        uint32_t *c = malloc(4 * (8 + (size_t)head[7]));
        memcpy(c, head, sizeof head);
        if (fread(c + 8, 4, head[7], f) != head[7])
            exit(4);
        cases = realloc(cases, sizeof *cases * (*count + 1));
        cases[(*count)++] = c;
        *most_image = head[7] > *most_image ? head[7] : *most_image;
        *most_scratch = head[1] > *most_scratch ? head[1] : *most_scratch;
    }
    return cases;
}

/* Whether a touch one byte past a buffer, on either side, is seen: a child does it and must end with status 3. */
static int guards_hold(void)
{
    for (side = 0; side < 2; side++) {
        struct lent l = lend(reply_room, 20, side);
        int status = 0;
        pid_t child = fork();
        if (child == 0) {
            volatile uint8_t *past = side ? l.at - 1 : l.at + l.bytes;
            dup2(open("/dev/null", O_WRONLY), 1);
            *past = 0;
            _exit(0);
        }
        if (child < 0 || waitpid(child, &status, 0) != child || !WIFEXITED(status) || WEXITSTATUS(status) != 3)
            return 0;
    }
    return 1;
}

int main(int argc, char **argv)
{
    unsigned long count, wrong = 0, calls = argc > 2 ? strtoul(argv[2], NULL, 10) : 1000000;
    size_t most_image, most_scratch;
    uint32_t **cases = argc > 1 ? read_cases(argv[1], &count, &most_image, &most_scratch) : NULL;
    if (cases == NULL)
        return 4;
    signal(SIGSEGV, on_fault);
    signal(SIGBUS, on_fault);
    image_room = new_room(4 * most_image);
    scratch_room = new_room(4 * most_scratch);
    reply_room = new_room(64);
    if (!guards_hold()) {
        printf("the guard pages do not hold\n");
        return 4;
    }
    for (now = 0; now < count; now++) {
        const uint32_t *c = cases[now];
        for (side = 0; side < 2; side++) {
            int fine = lent_call(c) && byte_call(c, 0) && byte_call(c, 1 + now % 3) && refused_call(c, now % 12);
            if (!fine && wrong++ == 0)
                printf("case %lu, side %d: not as promised\n", now, side);
        }
    }
    printf("%lu cases between guard pages, on both sides: %lu wrong, nothing touched outside\n", count, wrong);
    wrong += many(cases, count, calls);
    return wrong != 0;
}
