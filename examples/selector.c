/* A map of several lists, one for each bit of a slot number:
 *
 *     selector slot N LENGTHS LABEL <map.cub
 *     selector reasons N LENGTHS LABEL <map.cub
 *     selector settle N LENGTHS map.scr SCRIPT_LENGTHS <map.cub >burned.cub
 *
 * N is the number of variables. The lists stand end to end in map.cub, and their scripts in map.scr; the lengths of each in bytes are numbers with a comma
 * between them. With slot, the slot number of a label is printed; with reasons, also a line for each list, with the places of its products that are true at
 * the label. With settle, the burned lists are written end to end, and their lengths and the map's cost are printed as an error. Where something is refused,
 * the refusal is printed as an error, and nothing is written. */
#include "druthmoy.h"

#include <inttypes.h>
#include <stdio.h>
#include <stdlib.h>
#include <string.h>

#define RECORD 8
#define MOST_RECORDS 4096
#define STEP 8
#define MOST_STEPS 1024
#define PLACE 2

/* One record and one step more than the most, so that longer ones are refused by 3 and by 8; and one length more, so that more lists are refused by 24. */
static uint8_t lists[RECORD * (DM_LISTS * MOST_RECORDS + 1)], scripts[STEP * (DM_LISTS * MOST_STEPS + 1)];
static uint8_t work[RECORD * MOST_RECORDS], out[sizeof lists];
static uint64_t lengths[DM_LISTS + 1], script_lengths[DM_LISTS + 1];

static int usage(void)
{
    fprintf(stderr, "selector slot N LENGTHS LABEL <map.cub\n"
                    "selector reasons N LENGTHS LABEL <map.cub\n"
                    "selector settle N LENGTHS map.scr SCRIPT_LENGTHS <map.cub >burned.cub\n");
    return 2;
}

static int failed(const char *name)
{
    perror(name);
    return 2;
}

static int refused(const uint64_t *answer)
{
    fprintf(stderr, "refused %" PRIu64 " at %" PRIu64, answer[0], answer[1]);
    if (answer[3] != DM_NO_LIST)
        fprintf(stderr, " of list %" PRIu64, answer[3]);
    fprintf(stderr, "\n");
    return 1;
}

static int print_slot(uint64_t n, size_t length, size_t count, uint64_t label)
{
    uint64_t answer[DM_ANSWER_WORDS];

    dm_slot(n, lists, length, lengths, count, label, answer);
    if (answer[0] != DM_ACCEPTED)
        return refused(answer);
    printf("%" PRIu64 "\n", answer[2]);
    return 0;
}

static int print_reasons(uint64_t n, size_t length, size_t count, uint64_t label)
{
    uint64_t answer[DM_ANSWER_WORDS], numbers[DM_LISTS];
    const uint8_t *place = out;

    dm_map_reasons(n, lists, length, lengths, count, label, out, sizeof out, numbers, answer);
    if (answer[0] != DM_ACCEPTED)
        return refused(answer);
    printf("%" PRIu64 "\n", answer[2]);
    for (size_t k = 0; k < count; k++) {
        printf("list %zu:", k);
        for (uint64_t i = 0; i < numbers[k]; i++, place += PLACE)
            printf(" %d", place[0] + 256 * place[1]);
        printf("\n");
    }
    return 0;
}

static int settle(uint64_t n, size_t length, size_t count, const char *name, size_t script_count)
{
    uint64_t answer[DM_ANSWER_WORDS], burned_lengths[DM_LISTS];
    size_t burned = 0;
    FILE *file = fopen(name, "rb");

    if (file == NULL)
        return failed(name);
    size_t scripts_length = fread(scripts, 1, sizeof scripts, file);
    if (ferror(file))
        return failed(name);
    fclose(file);
    dm_settle_map(n, lists, length, lengths, count, scripts, scripts_length, script_lengths, script_count,
                  work, sizeof work, out, sizeof out, burned_lengths, answer);
    if (answer[0] != DM_ACCEPTED)
        return refused(answer);
    for (size_t k = 0; k < count; k++)
        burned += burned_lengths[k];
    if (fwrite(out, 1, burned, stdout) != burned || fflush(stdout) != 0)
        return failed("selector");
    fprintf(stderr, "lengths ");
    for (size_t k = 0; k < count; k++)
        fprintf(stderr, k == 0 ? "%" PRIu64 : ",%" PRIu64, burned_lengths[k]);
    fprintf(stderr, " cost %" PRIu64 "\n", answer[2]);
    return 0;
}

/* Numbers in decimal digits with a comma between them, no more than the most; answers how many there are, or -1 where the word is of something else. */
static int read_numbers(const char *word, uint64_t *numbers, int most)
{
    int count = 0;

    while (*word != '\0' && count < most) {
        char *end;

        if (*word < '0' || *word > '9')
            return -1;
        numbers[count++] = strtoull(word, &end, 10);
        if (*end != '\0' && *end != ',')
            return -1;
        word = *end == ',' ? end + 1 : end;
    }
    return count;
}

int main(int words_count, char **words)
{
    uint64_t n[2], label[2];

    if (words_count < 5 || words_count > 6 || read_numbers(words[2], n, 2) != 1)
        return usage();
    int count = read_numbers(words[3], lengths, DM_LISTS + 1);
    size_t length = fread(lists, 1, sizeof lists, stdin);
    if (count < 0)
        return usage();
    if (ferror(stdin))
        return failed("selector");
    if (words_count == 6) {
        int script_count = read_numbers(words[5], script_lengths, DM_LISTS + 1);
        if (strcmp(words[1], "settle") == 0 && script_count >= 0)
            return settle(n[0], length, count, words[4], script_count);
    } else if (read_numbers(words[4], label, 2) == 1) {
        if (strcmp(words[1], "slot") == 0)
            return print_slot(n[0], length, count, label[0]);
        if (strcmp(words[1], "reasons") == 0)
            return print_reasons(n[0], length, count, label[0]);
    }
    return usage();
}
