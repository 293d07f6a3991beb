/* The easy script of a list, written for `settle`:
 *
 *     easy N <map.cub >map.scr
 *
 * N is the number of variables. Each step is the drop or the join of the lowest i, and the lowest j above it, whose cubes are equal or differ in one
 * variable. How many steps there are, and whether such a pair is left, is printed as an error; where the list is refused, the refusal is, and nothing is
 * written. */
#include "druthmoy.h"

#include <inttypes.h>
#include <stdio.h>
#include <stdlib.h>

#define RECORD 8
#define MOST_RECORDS 4096
#define STEP 8
#define MOST_STEPS 1024

static int usage(void)
{
    fprintf(stderr, "easy N <map.cub >map.scr\n");
    return 2;
}

static int easy(uint64_t n)
{
    /* One record more than the most, so that a longer list is refused by 3. */
    static uint8_t list[RECORD * (MOST_RECORDS + 1)], work[RECORD * MOST_RECORDS], script[STEP * MOST_STEPS];
    uint64_t answer[DM_ANSWER_WORDS];
    size_t length = fread(list, 1, sizeof list, stdin);

    if (ferror(stdin)) {
        perror("easy");
        return 2;
    }
    dm_write_script(n, list, length, work, sizeof work, script, sizeof script, answer);
    if (answer[0] != DM_ACCEPTED) {
        fprintf(stderr, "refused %" PRIu64 " at %" PRIu64 "\n", answer[0], answer[1]);
        return 1;
    }
    if (fwrite(script, STEP, answer[2], stdout) != answer[2] || fflush(stdout) != 0) {
        perror("easy");
        return 2;
    }
    fprintf(stderr, "steps %" PRIu64 ", %s\n", answer[2], answer[3] ? "no pair is left" : "pairs are left");
    return 0;
}

int main(int count, char **words)
{
    char *end;

    if (count != 2 || words[1][0] < '0' || words[1][0] > '9')
        return usage();
    uint64_t n = strtoull(words[1], &end, 10);
    if (*end != '\0')
        return usage();
    return easy(n);
}
