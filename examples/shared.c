/* A shared list, whose products are for up to 32 outputs:
 *
 *     shared value N LABEL <map.shr
 *     shared settle N map.scr <map.shr >burned.shr
 *
 * N is the number of variables. With value, the outputs at a label are printed as one number, bit k for output k. With settle, the script's result is
 * written, or the given list where that has fewer products, and the counts are printed as an error. Where something is refused, the refusal is printed as
 * an error, and nothing is written. */
#include "druthmoy.h"

#include <inttypes.h>
#include <stdio.h>
#include <stdlib.h>
#include <string.h>

#define RECORD 12
#define MOST_RECORDS 4096
#define STEP 8
#define MOST_STEPS 1024

/* One record and one step more than the most, so that longer ones are refused by 3 and by 8. */
static uint8_t list[RECORD * (MOST_RECORDS + 1)], script[STEP * (MOST_STEPS + 1)];
static uint8_t work[RECORD * MOST_RECORDS], out[RECORD * MOST_RECORDS];

static int usage(void)
{
    fprintf(stderr, "shared value N LABEL <map.shr\nshared settle N map.scr <map.shr >burned.shr\n");
    return 2;
}

static int failed(const char *name)
{
    perror(name);
    return 2;
}

static int refused(const uint64_t *answer)
{
    fprintf(stderr, "refused %" PRIu64 " at %" PRIu64 "\n", answer[0], answer[1]);
    return 1;
}

static int print_value(uint64_t n, size_t length, uint64_t label)
{
    uint64_t answer[DM_ANSWER_WORDS];

    dm_shared_value(n, list, length, label, answer);
    if (answer[0] != DM_ACCEPTED)
        return refused(answer);
    printf("%" PRIu64 "\n", answer[2]);
    return 0;
}

static int settle(uint64_t n, size_t length, const char *name)
{
    uint64_t answer[DM_ANSWER_WORDS];
    FILE *file = fopen(name, "rb");

    if (file == NULL)
        return failed(name);
    size_t script_length = fread(script, 1, sizeof script, file);
    if (ferror(file))
        return failed(name);
    fclose(file);
    dm_shared_settle(n, list, length, script, script_length, work, sizeof work, out, sizeof out, answer);
    if (answer[0] != DM_ACCEPTED)
        return refused(answer);
    if (fwrite(out, RECORD, answer[5], stdout) != answer[5] || fflush(stdout) != 0)
        return failed("shared");
    fprintf(stderr, "in %" PRIu64 " peak %" PRIu64 " script %" PRIu64 " out %" PRIu64 "\n",
            answer[2], answer[3], answer[4], answer[5]);
    return 0;
}

/* A number in decimal digits alone; answers whether the word is one. */
static int read_number(const char *word, uint64_t *number)
{
    char *end;

    if (word[0] < '0' || word[0] > '9')
        return 0;
    *number = strtoull(word, &end, 10);
    return *end == '\0';
}

int main(int count, char **words)
{
    uint64_t n, label;

    if (count != 4 || !read_number(words[2], &n))
        return usage();
    size_t length = fread(list, 1, sizeof list, stdin);
    if (ferror(stdin))
        return failed("shared");
    if (strcmp(words[1], "value") == 0 && read_number(words[3], &label))
        return print_value(n, length, label);
    if (strcmp(words[1], "settle") == 0)
        return settle(n, length, words[3]);
    return usage();
}
