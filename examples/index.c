/* The index of a list by number of literals:
 *
 *     index N <map.cub >map.idx
 *
 * N is the number of variables. The places of the cubes are written, 2 bytes each, ordered by number of literals and then by place. For each number of
 * literals that some cube has, it and the places of those cubes are printed as an error: a partner for a join is in the same group or in one next to it. Where
 * the list is refused, the refusal is printed, and nothing is written. */
#include "druthmoy.h"

#include <inttypes.h>
#include <stdio.h>
#include <stdlib.h>

#define RECORD 8
#define MOST_RECORDS 4096
#define PLACE 2

/* One record more than the most, so that a longer list is refused by 3. */
static uint8_t list[RECORD * (MOST_RECORDS + 1)], entries[PLACE * MOST_RECORDS];
static uint64_t starts[DM_STARTS];

static int usage(void)
{
    fprintf(stderr, "index N <map.cub >map.idx\n");
    return 2;
}

static int refused(const uint64_t *answer)
{
    fprintf(stderr, "refused %" PRIu64 " at %" PRIu64 "\n", answer[0], answer[1]);
    return 1;
}

/* Prints the groups that are not empty. */
static int print_groups(uint64_t n, size_t length)
{
    uint64_t answer[DM_ANSWER_WORDS];

    for (uint64_t number = 0; number < DM_STARTS; number++) {
        dm_group(n, list, length, entries, sizeof entries, starts, number, answer);
        if (answer[0] != DM_ACCEPTED)
            return refused(answer);
        if (answer[2] == 0)
            continue;
        fprintf(stderr, "literals %" PRIu64 ":", number);
        for (uint64_t entry = answer[3]; entry < answer[3] + answer[2]; entry++)
            fprintf(stderr, " %d", entries[PLACE * entry] + 256 * entries[PLACE * entry + 1]);
        fprintf(stderr, "\n");
    }
    return 0;
}

static int make_index(uint64_t n)
{
    uint64_t answer[DM_ANSWER_WORDS];
    size_t length = fread(list, 1, sizeof list, stdin);

    if (ferror(stdin)) {
        perror("index");
        return 2;
    }
    dm_index(n, list, length, entries, sizeof entries, starts, answer);
    if (answer[0] != DM_ACCEPTED)
        return refused(answer);
    if (fwrite(entries, PLACE, answer[2], stdout) != answer[2] || fflush(stdout) != 0) {
        perror("index");
        return 2;
    }
    return print_groups(n, length);
}

int main(int count, char **words)
{
    char *end;

    if (count != 2 || words[1][0] < '0' || words[1][0] > '9')
        return usage();
    uint64_t n = strtoull(words[1], &end, 10);
    if (*end != '\0')
        return usage();
    return make_index(n);
}
