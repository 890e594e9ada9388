/* Times the check and another one, in turn, in one process.

   times_host < CASES      CASES: little-endian words, as often as there are cases: budget, scratch, n, n words. A budget of NONE stands for the
                           one that the check uses; the scratch is then what it would need for none.

   Linked with the door's library and with one that exports other_check (what times.py says), both for this machine. Prints for each case the
   reply, then the nanoseconds of processor time of one call, least and median: check_query_lent, the other, and check_query where the image and its scratch fit the
   door (else 0 0). Short calls are timed four at a time, 400 times; longer ones fewer times, one of more than a quarter of a second once. */
#include <stdio.h>
#include <stdlib.h>
#include <string.h>
#include <time.h>

#include "../hosts/c/ponybluster.h"

#define MOST_ROUNDS 400
#define DOOR_SCRATCH 16384
#define MOST_BUDGET 1000000

void other_check(const uint32_t *image, size_t image_words, uint32_t budget, size_t scratch_words, uint32_t *reply);

static uint32_t budget, words, scratch_words, *image, *scratch, reply[5];

static void lent(void)
{
    check_query_lent(image, words, budget, scratch, scratch_words, reply, 5);
}

static void other(void)
{
    other_check(image, words, budget, scratch_words, reply);
}

static void door(void)
{
    uint8_t bytes[20];
    check_query((const uint8_t *)image, 4 * (size_t)words, budget, bytes, 20);
    memcpy(reply, bytes, 20);
}

/* Scratch for a budget, where so much is needed for none. */
static void lend(uint32_t units, uint32_t for_none)
{
    budget = units, scratch_words = for_none + 8 * units;
    free(scratch);
    scratch = calloc((size_t)scratch_words + 1, 4);
    if (!scratch)
        exit(2);
}

static double now(void)
{
    struct timespec t;
    clock_gettime(CLOCK_PROCESS_CPUTIME_ID, &t);
    return t.tv_sec * 1e9 + t.tv_nsec;
}

static int in_order(const void *a, const void *b)
{
    double x = *(const double *)a, y = *(const double *)b;
    return (x > y) - (x < y);
}

static double timed(void (*call)(void), int times)
{
    double began = now();
    for (int i = 0; i < times; i++)
        call();
    return (now() - began) / times;
}

int main(void)
{
    static double took[3][MOST_ROUNDS];
    void (*calls[3])(void) = {lent, other, door};
    uint32_t head[3], first[5];
    while (fread(head, 4, 3, stdin) == 3) {
        budget = head[0], words = head[2];
        image = malloc(4 * (size_t)words + 4);
        if (!image || fread(image, 4, words, stdin) != words)
            return 2;
        if (budget == PONYBLUSTER_NONE) {
            lend(MOST_BUDGET, head[1]);
            lent();
            lend(reply[4], head[1]);
        } else
            lend(budget, head[1] - 8 * budget);
        int fits = words <= PONYBLUSTER_MOST_BYTES / 4 && scratch_words <= DOOR_SCRATCH;
        double one = timed(lent, 1);
        int rounds = one > 2.5e8 ? 1 : one > 1e7 ? 5 : one > 1e6 ? 20 : MOST_ROUNDS, times = one > 1e6 ? 1 : 4;
        memcpy(first, reply, sizeof first);
        printf("%u %u %u %u %u", first[0], first[1], first[2], first[3], first[4]);
        for (int i = 0; i < rounds; i++)
            for (int k = 0; k < 2 + fits; k++) {
                took[k][i] = timed(calls[k], times);
                if (memcmp(first, reply, sizeof first) != 0)
                    return 3;
            }
        for (int k = 0; k < 3; k++) {
            qsort(took[k], rounds, sizeof(double), in_order);
            printf(" %.0f %.0f", k < 2 + fits ? took[k][rounds / 50] : 0, k < 2 + fits ? took[k][rounds / 2] : 0);
        }
        printf("\n");
        fflush(stdout);
        free(image);
    }
    return 0;
}
