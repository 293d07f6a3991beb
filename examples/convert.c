/* An old list, of 4-byte records, as a list of 8-byte records, and back:
 *
 *     convert wide N <OLD >NEW
 *     convert narrow N <NEW >OLD
 *
 * N is the number of variables. Where the list is refused, nothing is written, and the refusal is printed as an error. */
#include "druthmoy.h"

#include <inttypes.h>
#include <stdio.h>
#include <stdlib.h>
#include <string.h>

#define RECORD 8
#define NARROW_RECORD 4
#define MOST_RECORDS 4096

typedef void call(uint64_t n, const uint8_t *list, size_t list_length, uint8_t *out, size_t out_length, uint64_t *answer);

static int usage(void)
{
    fprintf(stderr, "convert wide N <OLD >NEW, or convert narrow N <NEW >OLD\n");
    return 2;
}

static int convert(call *converted, uint64_t n, size_t record)
{
    /* One record more than the most, so that a longer list is refused by 3. */
    static uint8_t list[RECORD * (MOST_RECORDS + 1)], out[RECORD * MOST_RECORDS];
    uint64_t answer[DM_ANSWER_WORDS];
    size_t length = fread(list, 1, sizeof list, stdin);

    if (ferror(stdin)) {
        perror("convert");
        return 2;
    }
    converted(n, list, length, out, sizeof out, answer);
    if (answer[0] != DM_ACCEPTED) {
        fprintf(stderr, "refused %" PRIu64 " at %" PRIu64 "\n", answer[0], answer[1]);
        return 1;
    }
    if (fwrite(out, record, answer[2], stdout) != answer[2] || fflush(stdout) != 0) {
        perror("convert");
        return 2;
    }
    return 0;
}

int main(int count, char **words)
{
    char *end;

    if (count != 3 || words[2][0] < '0' || words[2][0] > '9')
        return usage();
    uint64_t n = strtoull(words[2], &end, 10);
    if (*end != '\0')
        return usage();
    if (strcmp(words[1], "wide") == 0)
        return convert(dm_wide_from_narrow, n, RECORD);
    if (strcmp(words[1], "narrow") == 0)
        return convert(dm_narrow_from_wide, n, NARROW_RECORD);
    return usage();
}
