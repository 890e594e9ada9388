/* Reads an image from a file, has it checked with a budget of 1000, and prints the reply: five numbers, then in words. */
#include "ponybluster.h"

#include <stdio.h>

#define BUDGET 1000

/* For each kind what it says, and what its a and b are. */
static const struct {
    const char *says, *a, *b;
} KINDS[] = {
    {"nothing is wrong", NULL, NULL},
    {"the header is wrong", "word", NULL},
    {"the budget is over 1,000,000", "budget", NULL},
    {"there is too little scratch", "words needed", NULL},
    {"a rule of the tables is broken", "table", "row"},
    {"a fragment spreads itself", "fragment", NULL},
    {"over 100 fragments follow one another", "fragment", NULL},
    {"an operation goes over 500 steps deep", NULL, NULL},
    {"an operation nests over 128 levels of fields", NULL, NULL},
    {"a fragment is used by no operation", "fragment", NULL},
    {"a variable's type is no input type", "variable", NULL},
    {"a variable's name is repeated", "variable", NULL},
    {"a variable is not used", "variable", NULL},
    {"a variable does not fit its argument", "argument", NULL},
    {"two fields of one name have types of different shape", "selection", "selection"},
    {"two fields of one name are different fields", "selection", "selection"},
    {"two fields of one name have different arguments", "selection", "selection"},
    {"the budget ran out", NULL, NULL},
    {"the length is no multiple of 4 or over 32,768", "bytes", NULL},
};

static void print_reply(struct ponybluster_reply r)
{
    printf("%u %u %u %u %u\n", r.kind, r.operation, r.a, r.b, r.used);
    if (r.kind >= sizeof KINDS / sizeof KINDS[0])
        return;
    printf("%s", KINDS[r.kind].says);
    if (r.kind == 7 || r.kind == 8 || (10 <= r.kind && r.kind <= 17))
        printf(", operation %u", r.operation);
    if (KINDS[r.kind].a != NULL)
        printf(", %s %u", KINDS[r.kind].a, r.a);
    if (KINDS[r.kind].b != NULL)
        printf(", %s %u", KINDS[r.kind].b, r.b);
    printf("; %u units used\n", r.used);
}

int main(int argc, char **argv)
{
    /* one byte more than an image may have, so that a longer file is seen to be longer */
    static uint8_t image[PONYBLUSTER_MOST_BYTES + 1];
    uint8_t reply[PONYBLUSTER_REPLY_BYTES];
    FILE *file = argc == 2 ? fopen(argv[1], "rb") : NULL;
    size_t length;
    if (file == NULL) {
        printf("usage: example IMAGE\n");
        return 2;
    }
    length = fread(image, 1, sizeof image, file);
    fclose(file);
    if (check_query(image, length, BUDGET, reply, sizeof reply) != 1)
        return 1;
    print_reply(ponybluster_read(reply));
    return 0;
}
