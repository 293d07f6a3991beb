/* The list of a function's cheapest Kronecker form:
 *
 *     kronecker N <VECTOR >map.cub
 *
 * N is the number of variables, VECTOR the function's values, a byte 0 or 1 for each assignment. Each variable has one expansion, Shannon, positive Davio or
 * negative Davio, so that the list costs least. What it costs, the choice with the expansion of each variable, variable 0 first, and how many products it has
 * is printed as an error; where the vector is refused, the refusal is, and nothing is written. */
#include "druthmoy.h"

#include <inttypes.h>
#include <stdio.h>
#include <stdlib.h>

#define RECORD 8
#define MOST_VALUES 64

static int usage(void)
{
    fprintf(stderr, "kronecker N <VECTOR >map.cub\n");
    return 2;
}

static void print_choice(uint64_t n, uint64_t choice)
{
    static const char *const expansions[] = {"Shannon", "positive Davio", "negative Davio"};

    fprintf(stderr, "choice %" PRIu64, choice);
    for (uint64_t k = 0; k < n; k++) {
        fprintf(stderr, "%s%s", k == 0 ? " (" : ", ", expansions[choice % 3]);
        choice /= 3;
    }
    fprintf(stderr, "%s", n == 0 ? "" : ")");
}

static int kronecker(uint64_t n)
{
    /* One value more than the most, so that a longer vector is refused by 14. No choice has more products than the vector has values. */
    static uint8_t vector[MOST_VALUES + 1], out[RECORD * MOST_VALUES];
    uint64_t answer[DM_ANSWER_WORDS];
    size_t length = fread(vector, 1, sizeof vector, stdin);

    if (ferror(stdin)) {
        perror("kronecker");
        return 2;
    }
    dm_write_kronecker(n, vector, length, out, sizeof out, answer);
    if (answer[0] != DM_ACCEPTED) {
        fprintf(stderr, "refused %" PRIu64 " at %" PRIu64 "\n", answer[0], answer[1]);
        return 1;
    }
    if (fwrite(out, RECORD, answer[4], stdout) != answer[4] || fflush(stdout) != 0) {
        perror("kronecker");
        return 2;
    }
    fprintf(stderr, "cost %" PRIu64 ", ", answer[2]);
    print_choice(n, answer[3]);
    fprintf(stderr, ", products %" PRIu64 "\n", answer[4]);
    return 0;
}

int main(int count, char **words)
{
    char *end;

    if (count != 2 || words[1][0] < '0' || words[1][0] > '9')
        return usage();
    uint64_t n = strtoull(words[1], &end, 10);
    if (*end != '\0')
        return usage();
    return kronecker(n);
}
