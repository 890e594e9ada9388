/* A host that calls the check on one image so many times: limits_host TIMES < CASE, the case being the words budget, scratch, n and
   the n words of the image. Prints the last reply. It lends scratch of any size, so that images at the limits of the tables fit. */
#include <stdio.h>
#include <stdlib.h>

#include "../hosts/c/ponybluster.h"

int main(int count, char **given)
{
    uint32_t head[3], reply[5] = {0};
    if (count != 2 || fread(head, 4, 3, stdin) != 3)
        return 2;
    uint32_t *image = calloc((size_t)head[2] + 1, 4), *scratch = calloc((size_t)head[1] + 1, 4);
    if (!image || !scratch || fread(image, 4, head[2], stdin) != head[2])
        return 2;
    for (int i = atoi(given[1]); 0 < i; i--)
        if (check_query_lent(image, head[2], head[0], scratch, head[1], reply, 5) != 1)
            return 1;
    printf("%u %u %u %u %u\n", reply[0], reply[1], reply[2], reply[3], reply[4]);
    return 0;
}
