/* Settles the map of document 01's example from C, and prints what the program prints for it. */
#include "druthmoy.h"

#include <inttypes.h>
#include <stdio.h>

#define VARIABLES 2
#define RECORD 8

/* The cubes 1-, -1 and 11: seen, then value. */
static const uint8_t list[] = {
    0x01, 0x00, 0x00, 0x00, 0x01, 0x00, 0x00, 0x00,
    0x02, 0x00, 0x00, 0x00, 0x02, 0x00, 0x00, 0x00,
    0x03, 0x00, 0x00, 0x00, 0x03, 0x00, 0x00, 0x00,
};

/* Join 1 2; then turn v=0 0 1. */
static const uint8_t script[] = {
    2, 0, 1, 0, 2, 0, 0, 0,
    4, 0, 0, 0, 1, 0, 0, 0,
};

static uint32_t number(const uint8_t *bytes)
{
    return bytes[0] | (uint32_t)bytes[1] << 8 | (uint32_t)bytes[2] << 16 | (uint32_t)bytes[3] << 24;
}

static void print_cube(const uint8_t *record)
{
    uint32_t seen = number(record), value = number(record + 4);
    for (unsigned k = 0; k < VARIABLES; k++)
        putchar(seen >> k & 1 ? '0' + (int)(value >> k & 1) : '-');
    putchar('\n');
}

int main(void)
{
    uint8_t work[sizeof list + RECORD], out[sizeof list];
    uint64_t answer[DM_ANSWER_WORDS];

    dm_settle(VARIABLES, list, sizeof list, script, sizeof script, work, sizeof work, out, sizeof out, answer);
    if (answer[0] != DM_ACCEPTED) {
        printf("refused %" PRIu64 " at %" PRIu64 "\n", answer[0], answer[1]);
        if (answer[0] >= DM_DROP_UNEQUAL && answer[0] <= DM_TURN_AGREE)
            fprintf(stderr, "differing variables of the two cubes before that step: %" PRIu64 "\n", answer[2]);
        return 1;
    }
    printf("in %" PRIu64 " peak %" PRIu64 " script %" PRIu64 " fixed %" PRIu64 " %" PRIu64 " out %" PRIu64 "\n",
           answer[2], answer[3], answer[4], answer[5], answer[6], answer[7]);
    for (uint64_t place = 0; place < answer[7]; place++)
        print_cube(out + RECORD * place);
    return 0;
}
