/* A script without the steps that do and undo:
 *
 *     compact N COUNT <long.scr >map.scr
 *
 * N is the number of variables, COUNT the number of records of the list that the script is for. Two equal L steps or two equal turns in a row are removed,
 * and a split followed at once by the join of its place with the place just appended, again and again. How many steps there were, and how many are left, is
 * printed as an error; where the script is refused, the refusal is, and nothing is written. */
#include "druthmoy.h"

#include <inttypes.h>
#include <stdio.h>
#include <stdlib.h>

#define STEP 8
#define MOST_STEPS 1024

static int usage(void)
{
    fprintf(stderr, "compact N COUNT <long.scr >map.scr\n");
    return 2;
}

static int compact(uint64_t n, uint64_t count)
{
    /* One step more than the most, so that a longer script is refused by 8. */
    static uint8_t script[STEP * (MOST_STEPS + 1)], out[STEP * MOST_STEPS];
    uint64_t answer[DM_ANSWER_WORDS];
    size_t length = fread(script, 1, sizeof script, stdin);

    if (ferror(stdin)) {
        perror("compact");
        return 2;
    }
    dm_compact(n, count, script, length, out, sizeof out, answer);
    if (answer[0] != DM_ACCEPTED) {
        fprintf(stderr, "refused %" PRIu64 " at %" PRIu64 "\n", answer[0], answer[1]);
        return 1;
    }
    if (fwrite(out, STEP, answer[2], stdout) != answer[2] || fflush(stdout) != 0) {
        perror("compact");
        return 2;
    }
    fprintf(stderr, "steps %zu, %" PRIu64 " left\n", length / STEP, answer[2]);
    return 0;
}

/* A number in decimal digits alone; answers whether the word is one. */
static int read_number(const char *word, uint64_t *number)
{
    char *end;

    if (word[0] < '0' || word[0] > '9')
        return 0;
    *number = strtoull(word, &end, 10);
    return *end == '\0';
}

int main(int count, char **words)
{
    uint64_t n, records;

    if (count != 3 || !read_number(words[1], &n) || !read_number(words[2], &records))
        return usage();
    return compact(n, records);
}
