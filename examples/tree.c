/* The list of a function's cheapest expansion tree:
 *
 *     tree N <VECTOR >map.cub
 *
 * N is the number of variables, VECTOR the function's values, a byte 0 or 1 for each assignment. The function is expanded by variable 0, then 1 and so on, at
 * each node by Shannon, positive Davio or negative Davio, so that the list costs least. How many products it has, and what it costs, is printed as an error;
 * where the vector is refused, the refusal is, and nothing is written. */
#include "druthmoy.h"

#include <inttypes.h>
#include <stdio.h>
#include <stdlib.h>

#define RECORD 8
#define MOST_VALUES 256

static int usage(void)
{
    fprintf(stderr, "tree N <VECTOR >map.cub\n");
    return 2;
}

static int tree(uint64_t n)
{
    /* One value more than the most, so that a longer vector is refused by 14. No tree has more products than the vector has values. */
    static uint8_t vector[MOST_VALUES + 1], out[RECORD * MOST_VALUES];
    uint64_t answer[DM_ANSWER_WORDS];
    size_t length = fread(vector, 1, sizeof vector, stdin);

    if (ferror(stdin)) {
        perror("tree");
        return 2;
    }
    dm_write_tree(n, vector, length, out, sizeof out, answer);
    if (answer[0] != DM_ACCEPTED) {
        fprintf(stderr, "refused %" PRIu64 " at %" PRIu64 "\n", answer[0], answer[1]);
        return 1;
    }
    if (fwrite(out, RECORD, answer[2], stdout) != answer[2] || fflush(stdout) != 0) {
        perror("tree");
        return 2;
    }
    fprintf(stderr, "products %" PRIu64 ", cost %" PRIu64 "\n", answer[2], answer[3]);
    return 0;
}

int main(int count, char **words)
{
    char *end;

    if (count != 2 || words[1][0] < '0' || words[1][0] > '9')
        return usage();
    uint64_t n = strtoull(words[1], &end, 10);
    if (*end != '\0')
        return usage();
    return tree(n);
}
