/* Druthmoy: cube lists, shared lists, scripts, fixed-polarity forms, expansion trees, Kronecker forms, indexes, settling a map,
 * and maps of several lists.
 *
 * A number of variables n, a count of records, an assignment a and a polarity p are uint64_t; bit k of a and of p stands for
 * variable k.
 *
 * A list is cube records end to end, 8 bytes each: four bytes "seen", four bytes "value", little-endian. Seen is set
 * where a literal stands; value holds 0 for the complemented literal, 1 for the plain one. At most 4,096 records.
 *
 * An old list is of narrow records, 4 bytes each: two bytes "seen", two bytes "value". Only dm_wide_from_narrow takes one;
 * a list has no header, so every other call reads the bytes of an old list as records of its own width.
 *
 * A shared list has products for 32 outputs. Its records are 12 bytes each: the 8 bytes of the cube, then four bytes of
 * outputs, little-endian, bit k for output k; some bit is set. At most 4,096 records. The dm_shared_ calls take one, and no
 * other call does.
 *
 * A script is steps end to end, 8 bytes each: operation, variable v, place i (2 bytes, little-endian), place j (2 bytes,
 * little-endian), literal, zero. Fields that an operation does not use are zero. At most 1,024 steps.
 *
 *     1 drop    i, j       equal cubes: both removed
 *     2 join    i, j       they differ in one variable: i gets the third code there, j is removed
 *     3 split   v, i       of the two codes that i does not have at v, the lower stays at i, the higher is appended
 *     4 turn    v, i, j    they differ in two variables, v one of them: i gets the third at v, j the third at the other
 *     5 L       v, literal in every cube, at v, that literal and none are exchanged; undone when the last step is done
 *     6 merge   i, j       in a shared list alone: equal cubes, different outputs: i gets the EXOR of the outputs, j is removed
 *
 * In a shared list the two products of a drop, a join or a turn also need equal outputs; a join keeps them, a split gives both
 * halves those of i, and L looks at cubes alone.
 *
 * A truth vector is 2^n bytes, each 0 or 1, indexed by assignment; coefficients are 2^n bytes, each 0 or 1, indexed by
 * the set of variables. A set bit k of a polarity means that variable k appears only complemented.
 *
 * An index of a list is its places, 2 bytes each, little-endian, ordered by number of literals and then by place; and the start
 * of each group, 0 to 32 literals, counted in entries, as uint64_t[DM_STARTS]. An empty group has the start of the next one, and
 * where none comes after it, the count.
 *
 * A map of several lists has 1 to 12 of them, one for each bit of a slot number, all over the same n. A label is an assignment,
 * and bit k of its slot is the value of list k there. The lists stand end to end in one buffer, and their lengths in bytes, list
 * 0 first, are an array of uint64_t, which is passed as a pointer and the number of its words. They add up to the length of the
 * buffer, as numbers without bound. Its scripts are passed likewise, one for each list; a script can be empty. dm_slot,
 * dm_settle_map and dm_map_reasons take such a map, and do with its lists in turn what another call does with one.
 *
 * The limit of n is 32 for check, value, reasons, run, settle, write script, compact, index, group, run indexed, the calls of
 * shared lists, those of maps of several lists and narrow from wide, 16 for wide from narrow, 6 for write kronecker, and 8 for
 * the other calls.
 *
 * A buffer is passed as a pointer and a length in bytes. Pointers are not null, even where a length is 0, need no
 * alignment (but those to uint64_t, which are aligned as it is), and no buffer that a call writes overlaps another argument.
 * The capacity of a work or output buffer for records is its length divided by 8, or by 12 for those of a shared list, rounded
 * down, and at most 4,096.
 *
 * Every call fills all eight words of `answer`:
 *
 *     answer[0]    0 when accepted, else the number of the refusal
 *     answer[1]    the place of the refusal; 0 when accepted
 *     answer[2..]  when accepted, the values that stand with each call below, and 0 for the rest;
 *                  when refused, answer[2] is the number of differing variables, answer[3], for a map of several lists,
 *                  the number of the list that is refused, and the rest is 0
 *
 * The number of differing variables is that of the two cubes of the refused step, as they stood before it; it is 0 in
 * every refusal but 16 to 19. A literal against its complement is one differing variable, and so is a literal against
 * none. The number of a list is 0 to 11, and DM_NO_LIST where a map of several lists is refused for no list of it: with 24, with
 * 26, and with 5 for the output. Places are those of that list alone, and of its script.
 *
 *     DM_N                1   n above the call's limit                                    place 0
 *     DM_LIST_LENGTH      2   list length not a multiple of 8 (of 4 for an old list,
 *                             of 12 for a shared list)                                    place 0
 *     DM_LIST_RECORDS     3   more than 4,096 records, or a count above 4,096             place 0
 *     DM_RECORD           4   a value bit outside seen, or a seen bit at or above n;
 *                             in a shared list, also outputs zero                         the lowest such record
 *     DM_BUFFER           5   capacity or length of a written buffer too small,
 *                             or length of a lent index                                   place 0
 *     DM_ASSIGNMENT       6   assignment has a bit at or above n                          place 0
 *     DM_SCRIPT_LENGTH    7   script length not a multiple of 8                           place 0
 *     DM_SCRIPT_STEPS     8   more than 1,024 steps                                       place 0
 *     DM_STEP             9   unknown operation, unused field not zero,
 *                             a used v at or above n, a used literal above 1              the lowest such step
 *     DM_PLACE           10   a used i or j not below the present count                   the step
 *     DM_SAME_PLACE      11   i equals j in a step with two cubes                         the step
 *     DM_FULL            13   split with the count at the work buffer's capacity          the step
 *     DM_VECTOR          14   vector or coefficient length not 2^n                        2^n
 *                             else a byte above 1                                         the lowest such byte
 *     DM_POLARITY        15   polarity has a bit at or above n                            place 0
 *     DM_DROP_UNEQUAL    16   drop of unequal cubes                                       the step
 *     DM_JOIN_NOT_ONE    17   join, number of differing variables not one                 the step
 *     DM_TURN_NOT_TWO    18   turn, number of differing variables not two                 the step
 *     DM_TURN_AGREE      19   turn at a variable where the cubes agree, number two        the step
 *     DM_NARROW_N        20   n above 16, the variables of a narrow record                place 0
 *     DM_GROUP           21   a number of literals above 32                               place 0
 *     DM_OUTPUTS         22   outputs that must be equal and aren't                       the step
 *     DM_MERGE           23   merge of cubes that differ, or of equal outputs             the step
 *     DM_MAP_LISTS       24   a map of no list, or of more than 12                        place 0
 *     DM_INDEX           25   a lent index that is not this list's                        the first wrong entry
 *                             else, its starts are not                                    the first wrong group
 *     DM_MAP_LENGTHS     26   lengths of a map's lists, or of its scripts, that don't
 *                             add up to their buffer, or not one script a list            place 0
 *
 * What a refusal leaves behind, where it is not of a map of several lists: 1 to 9, 14, 15, 20, 21 and 25 are found before
 * anything is written, and every buffer but `answer` is as it was. 10, 11, 13, 16 to 19, 22 and 23 are found at a step (run,
 * settle, run indexed, shared run and shared settle only; 22 and 23 in the last two): then every byte of `work` is zero, and so
 * is every byte of `index` and every word of `starts`, and `out` is as it was. A map of several lists that is refused for one of
 * them, by whatever number, leaves all that the call writes zero: every byte of `work` and of `out`, and every word of
 * `burned_lengths` or of `numbers`, also where no step was done. One that is refused for no list leaves all as it was.
 * Lists, vectors and coefficients are only read, and so are scripts, but by write script, an index and its starts by group, and
 * the lengths of a map's lists and scripts.
 */
#ifndef DRUTHMOY_H
#define DRUTHMOY_H

#include <stddef.h>
#include <stdint.h>

#ifdef __cplusplus
extern "C" {
#endif

enum dm_refusal {
    DM_ACCEPTED = 0,
    DM_N = 1,
    DM_LIST_LENGTH = 2,
    DM_LIST_RECORDS = 3,
    DM_RECORD = 4,
    DM_BUFFER = 5,
    DM_ASSIGNMENT = 6,
    DM_SCRIPT_LENGTH = 7,
    DM_SCRIPT_STEPS = 8,
    DM_STEP = 9,
    DM_PLACE = 10,
    DM_SAME_PLACE = 11,
    DM_FULL = 13,
    DM_VECTOR = 14,
    DM_POLARITY = 15,
    DM_DROP_UNEQUAL = 16,
    DM_JOIN_NOT_ONE = 17,
    DM_TURN_NOT_TWO = 18,
    DM_TURN_AGREE = 19,
    DM_NARROW_N = 20,
    DM_GROUP = 21,
    DM_OUTPUTS = 22,
    DM_MERGE = 23,
    DM_MAP_LISTS = 24,
    DM_INDEX = 25,
    DM_MAP_LENGTHS = 26
};

#define DM_ANSWER_WORDS 8

/* The groups of an index: 0 to 32 literals. */
#define DM_STARTS 33

/* The lists of a map, at most; and what stands for the number of one where a map is refused for none of them. */
#define DM_LISTS 12
#define DM_NO_LIST UINT64_MAX

/* Tests a list. answer[2]: the number of its records.
 * Refuses, in this order: 1, 2, 3, 4. */
void dm_check(uint64_t n,
              const uint8_t *list, size_t list_length,
              uint64_t *answer);

/* The list's value at an assignment: the parity of how many of its products are true there. answer[2]: 0 or 1;
 * answer[3]: how many are true.
 * Refuses, in this order: 1, 2, 3, 4, 6. */
void dm_value(uint64_t n,
              const uint8_t *list, size_t list_length,
              uint64_t a,
              uint64_t *answer);

/* The reasons of that value: the places of all products that are true at an assignment, ascending, 2 bytes each,
 * little-endian. answer[2]: their number; answer[3]: the value, 0 or 1, which is their number's parity.
 * Writes the first 2 * number bytes of out, and no other byte; a refusal writes none.
 * Refuses, in this order: 1, 2, 3, 4, 6, 5 (out_length below 2 bytes for each product of the list, true or not). */
void dm_reasons(uint64_t n,
                const uint8_t *list, size_t list_length,
                uint64_t a,
                uint8_t *out, size_t out_length,
                uint64_t *answer);

/* The list's values at all assignments. answer[2]: 2^n.
 * Writes the first 2^n bytes of out, and no other byte; a refusal writes none.
 * Refuses, in this order: 1, 2, 3, 4, 5 (out_length below 2^n). */
void dm_truth_vector(uint64_t n,
                     const uint8_t *list, size_t list_length,
                     uint8_t *out, size_t out_length,
                     uint64_t *answer);

/* The coefficients of a truth vector under polarity p. answer[2]: 2^n.
 * Writes the first 2^n bytes of out, and no other byte; a refusal writes none.
 * Refuses, in this order: 1, 14, 15, 5 (out_length below 2^n). */
void dm_coefficients(uint64_t n,
                     const uint8_t *vector, size_t vector_length,
                     uint64_t p,
                     uint8_t *out, size_t out_length,
                     uint64_t *answer);

/* The truth vector of coefficients under polarity p. answer[2]: 2^n.
 * Writes the first 2^n bytes of out, and no other byte; a refusal writes none.
 * Refuses, in this order: 1, 14, 15, 5 (out_length below 2^n). */
void dm_vector(uint64_t n,
               const uint8_t *coefficients, size_t coefficients_length,
               uint64_t p,
               uint8_t *out, size_t out_length,
               uint64_t *answer);

/* The list of a form: a cube for each nonzero coefficient, sets of variables ascending. answer[2]: its count.
 * Writes the first 8 * count bytes of out, and no other byte; a refusal writes none.
 * Refuses, in this order: 1, 14, 15, 5 (capacity of out below the count). */
void dm_write_form(uint64_t n,
                   const uint8_t *coefficients, size_t coefficients_length,
                   uint64_t p,
                   uint8_t *out, size_t out_length,
                   uint64_t *answer);

/* The polarity whose form costs least: a list costs its number of products, less one if at least one of them has no
 * literal. Of several such the one with the fewest products, and of those the smallest. answer[2]: the polarity;
 * answer[3]: the number of products of its form.
 * Refuses, in this order: 1, 14. */
void dm_best_polarity(uint64_t n,
                      const uint8_t *vector, size_t vector_length,
                      uint64_t *answer);

/* The list of the cheapest expansion tree of a truth vector. The function is expanded by variable 0, then 1 and so on. With f0
 * and f1 the function where the variable is 0 and 1, and d their EXOR, a node has two branches:
 *
 *     Shannon          f0 with the complemented literal    f1 with the plain literal
 *     positive Davio   f0                                  d with the plain literal
 *     negative Davio   f1                                  d with the complemented literal
 *
 * Each is expanded the same way until no variable is left; then the constant 1 is a product, of the literals that lead to it,
 * and costs 1, or 0 where no literal does. A node costs what its branches cost together, and its expansion is the one that
 * costs least, of several such the first of the three. The list has the products of the first branch before those of the
 * second, at each node. No choice of expansions in that order of the variables costs less. answer[2]: its products; answer[3]:
 * its cost, as dm_best_polarity says.
 * Writes the first 8 * products bytes of out, and no other byte; a refusal writes none.
 * Refuses, in this order: 1, 14, 5 (capacity of out below the products). */
void dm_write_tree(uint64_t n,
                   const uint8_t *vector, size_t vector_length,
                   uint8_t *out, size_t out_length,
                   uint64_t *answer);

/* The list of the cheapest Kronecker form of a truth vector: one expansion for each variable. A choice is a number below 3^n
 * whose digits to the base 3 are the expansions, variable 0 the lowest digit: 0 Shannon, 1 positive Davio, 2 negative Davio. Its
 * list is that of the tree which has a variable's expansion at every node of that variable, with branches, products and order as
 * dm_write_tree says. Of all 3^n choices the one whose list costs least is taken, of several such the smallest. It costs no more
 * than the form of any polarity, and no less than the list that dm_write_tree writes. answer[2]: its cost, as dm_best_polarity
 * says; answer[3]: the choice; answer[4]: its products.
 * Writes the first 8 * products bytes of out, and no other byte; a refusal writes none.
 * Refuses, in this order: 1, 14, 5 (capacity of out below the products). */
void dm_write_kronecker(uint64_t n,
                        const uint8_t *vector, size_t vector_length,
                        uint8_t *out, size_t out_length,
                        uint64_t *answer);

/* Runs a script on a list. answer[2]: the count of the result; answer[3]: the peak, the greatest count met.
 * Accepted: the result fills the front of work, and every other byte of work is zero.
 * Refused with 1 to 9: work is as it was. Refused at a step, with 10, 11, 13 or 16 to 19: every byte of work is zero.
 * Refuses, in this order: 1, 2, 3, 4, 5 (capacity of work below the given count), 7, 8, 9; then steps in turn,
 * each 10, 11, then 16 to 19 (18 before 19), then 13. */
void dm_run(uint64_t n,
            const uint8_t *list, size_t list_length,
            const uint8_t *script, size_t script_length,
            uint8_t *work, size_t work_length,
            uint64_t *answer);

/* Settles a map: of the script's result, the given list and, where n is at most 8, the form of the best polarity and the
 * list of the cheapest expansion tree, the one that costs least is burned, of several such the one with the fewest products,
 * and of those the earliest. A list costs as dm_best_polarity says.
 * All that is answered are numbers of products. answer[2]: given; answer[3]: peak; answer[4]: the script's result;
 * answer[5], answer[6]: the best polarity and its products, both UINT64_MAX where n is above 8; answer[7]: burned.
 * Accepted: the burned list fills the front of out, every other byte of out is zero, and every byte of work is zero.
 * Refused with 1 to 9: work and out are as they were. Refused at a step, with 10, 11, 13 or 16 to 19: every byte of work
 * is zero, and out is as it was.
 * Refuses as dm_run does; 5 tests work, then out, against the given count. */
void dm_settle(uint64_t n,
               const uint8_t *list, size_t list_length,
               const uint8_t *script, size_t script_length,
               uint8_t *work, size_t work_length,
               uint8_t *out, size_t out_length,
               uint64_t *answer);

/* Writes the easy script of a list. Two places are a pair where their cubes are equal or differ in one variable. The pair
 * with the lowest i, and of those the one with the lowest j above it, is dropped or joined, as a step of the script; then
 * the same on the new list, until it has no pair or the script has 1,024 steps. answer[2]: the number of steps; answer[3]:
 * 1 if the end list has no pair, else 0.
 * Accepted: the end list fills the front of work, and every other byte of work is zero; the steps are the first 8 * number
 * bytes of script, and no other byte of it is written. A refusal writes nothing.
 * dm_run, with these steps on the same list and a capacity of its count or more, refuses none and leaves the end list.
 * Refuses, in this order: 1, 2, 3, 4, 5 (capacity of work below the given count), 5 (script_length below 8 times the smaller
 * of the count and 1,024). */
void dm_write_script(uint64_t n,
                     const uint8_t *list, size_t list_length,
                     uint8_t *work, size_t work_length,
                     uint8_t *script, size_t script_length,
                     uint64_t *answer);

/* Compacts a script for lists of a given count. A pair is two equal L steps or two equal turns in a row, or a split
 * followed at once by the join of i, its place, and j, the place just appended, named in that order. That place is the count
 * before the split: the given one, less two for each drop and one for each join, plus one for each split, and never below
 * zero. The first pair from the front is removed; then again from the front, until there is none. answer[2]: the number of
 * steps left.
 * Writes the steps left, the first 8 * number bytes of out, and no other byte; a refusal writes none.
 * Where dm_run does not refuse the given script on a list of that count, it does not refuse the steps left, in a work buffer
 * as long, and leaves the same bytes there, with a peak no higher; dm_settle likewise leaves the same bytes in out. Where it
 * refuses the given script, nothing is said of the steps left.
 * Refuses, in this order: 1, 3 (count above 4,096), 7, 8, 9, 5 (out_length below script_length). */
void dm_compact(uint64_t n,
                uint64_t count,
                const uint8_t *script, size_t script_length,
                uint8_t *out, size_t out_length,
                uint64_t *answer);

/* The index of a list. answer[2]: its number of entries, which is the list's count.
 * Writes the first 2 * count bytes of index, and no other byte, and all DM_STARTS words of starts; a refusal writes neither.
 * Refuses, in this order: 1, 2, 3, 4, 5 (index_length below 2 bytes for each record). */
void dm_index(uint64_t n,
              const uint8_t *list, size_t list_length,
              uint8_t *index, size_t index_length,
              uint64_t *starts,
              uint64_t *answer);

/* The run of a list's index that holds the places of the cubes with so many literals, ascending. answer[2]: the number of its
 * entries, which can be 0; answer[3]: the entry that it begins at, which is the group's start.
 * Index and starts must be this list's, as dm_index leaves them; else 25 has the first wrong entry as its place or, where no
 * entry is wrong, the first group whose start is. Bytes behind the entries are not looked at. Nothing is written.
 * Cubes that can be joined differ by at most one in their number of literals, and equal cubes not at all, so a partner's group is
 * one of three.
 * Refuses, in this order: 1, 2, 3, 4, 5 (index_length below 2 bytes for each record), 25, 21. */
void dm_group(uint64_t n,
              const uint8_t *list, size_t list_length,
              const uint8_t *index, size_t index_length,
              const uint64_t *starts,
              uint64_t number,
              uint64_t *answer);

/* Runs a script on a list as dm_run does, and keeps an index of the list in work. It answers what dm_run answers, and leaves in
 * work what dm_run leaves there. answer[2]: the count of the result; answer[3]: the peak.
 * Accepted: the entries of the result's index fill the front of index, every other byte of index is zero, and starts has its
 * starts.
 * Refused with 1 to 9: work, index and starts are as they were. Refused at a step, with 10, 11, 13 or 16 to 19: every byte of
 * work and of index is zero, and so is every word of starts.
 * Refuses, in this order: 1, 2, 3, 4, 5 (capacity of work below the given count), 5 (index_length below 2 bytes for each record
 * of the capacity of work), 7, 8, 9; then steps in turn, as dm_run does. */
void dm_run_indexed(uint64_t n,
                    const uint8_t *list, size_t list_length,
                    const uint8_t *script, size_t script_length,
                    uint8_t *work, size_t work_length,
                    uint8_t *index, size_t index_length,
                    uint64_t *starts,
                    uint64_t *answer);

/* Tests a shared list. answer[2]: the number of its records.
 * Refuses, in this order: 1, 2, 3, 4. */
void dm_shared_check(uint64_t n,
                     const uint8_t *list, size_t list_length,
                     uint64_t *answer);

/* The values of all outputs at an assignment. answer[2]: a word of 32 bits, bit k for output k: the parity of how many of the
 * products that carry bit k are true there. Products without it never sway it, and an output that no product carries is 0.
 * Refuses, in this order: 1, 2, 3, 4, 6. */
void dm_shared_value(uint64_t n,
                     const uint8_t *list, size_t list_length,
                     uint64_t a,
                     uint64_t *answer);

/* Runs a script on a shared list; every output keeps its value at every assignment. answer[2]: the count of the result;
 * answer[3]: the peak, the greatest count met.
 * Accepted: the result fills the front of work, and every other byte of work is zero.
 * Refused with 1 to 9: work is as it was. Refused at a step, with 10, 11, 13, 16 to 19, 22 or 23: every byte of work is zero.
 * Refuses, in this order: 1, 2, 3, 4, 5 (capacity of work below the given count), 7, 8, 9; then steps in turn,
 * each 10, 11, then 16 to 19 (18 before 19), then 22, or 23, then 13. */
void dm_shared_run(uint64_t n,
                   const uint8_t *list, size_t list_length,
                   const uint8_t *script, size_t script_length,
                   uint8_t *work, size_t work_length,
                   uint64_t *answer);

/* Settles a shared list: of the script's result and the given list, the one with fewer products is burned, and where both have
 * as many, the script's result. No form and no cost is looked at.
 * answer[2]: given; answer[3]: peak; answer[4]: the script's result; answer[5]: burned. All are numbers of products.
 * Accepted: the burned list fills the front of out, every other byte of out is zero, and every byte of work is zero.
 * Refused with 1 to 9: work and out are as they were. Refused at a step, with 10, 11, 13, 16 to 19, 22 or 23: every byte of
 * work is zero, and out is as it was.
 * Refuses as dm_shared_run does; 5 tests work, then out, against the given count. */
void dm_shared_settle(uint64_t n,
                      const uint8_t *list, size_t list_length,
                      const uint8_t *script, size_t script_length,
                      uint8_t *work, size_t work_length,
                      uint8_t *out, size_t out_length,
                      uint64_t *answer);

/* The slot of a label in a map of several lists. answer[2]: the slot number: bit k is the value of list k at the label, and the
 * bits at and above the number of lists are 0. Another list in the place of one of them sways no bit but that list's.
 * Refuses, in this order: 24, 26; then lists in turn, each as dm_value does: 1, 2, 3, 4, 6. */
void dm_slot(uint64_t n,
             const uint8_t *lists, size_t lists_length,
             const uint64_t *lengths, size_t lengths_count,
             uint64_t a,
             uint64_t *answer);

/* Settles a map of several lists: each list with its own script, as dm_settle does it, one after the other in the same work
 * buffer. The slot of every label stays as it was. answer[2]: the cost of the map, which is that of its burned lists together,
 * each as dm_best_polarity says.
 * Accepted: the burned lists fill the front of out, end to end, every other byte of out is zero, and so is every byte of work;
 * burned_lengths, of DM_LISTS words, has their lengths in bytes, and zeros after the last.
 * Refused with 24, with 26 or with 5 for the output: work, out and burned_lengths are as they were. Refused for a list: all of
 * them are zero.
 * Refuses, in this order: 24, 26 (of the lists or of the scripts), 5 (out_length below lists_length); then lists in turn, each
 * with its script as dm_run does, where 5 tests work against that list's count. */
void dm_settle_map(uint64_t n,
                   const uint8_t *lists, size_t lists_length,
                   const uint64_t *lengths, size_t lengths_count,
                   const uint8_t *scripts, size_t scripts_length,
                   const uint64_t *script_lengths, size_t script_lengths_count,
                   uint8_t *work, size_t work_length,
                   uint8_t *out, size_t out_length,
                   uint64_t *burned_lengths,
                   uint64_t *answer);

/* The reasons of a slot: for each list in turn the places of its products that are true at the label, as dm_reasons has them,
 * end to end. A place counts from the first record of its list. answer[2]: the slot number, as dm_slot answers it.
 * Accepted: writes 2 bytes at the front of out for each place, and no other byte of it; numbers, of DM_LISTS words, has the
 * number of places of each list, and zeros after the last.
 * Refused with 24, with 26 or with 5: out and numbers are as they were. Refused for a list: both are zero.
 * Refuses, in this order: 24, 26, 5 (out_length below 2 bytes for each product of all lists, true or not; a list has as many as
 * its length divided by 8, rounded down); then lists in turn, each as dm_value does: 1, 2, 3, 4, 6. */
void dm_map_reasons(uint64_t n,
                    const uint8_t *lists, size_t lists_length,
                    const uint64_t *lengths, size_t lengths_count,
                    uint64_t a,
                    uint8_t *out, size_t out_length,
                    uint64_t *numbers,
                    uint64_t *answer);

/* An old list as a list: the same cubes at the same places. answer[2]: their number.
 * Writes the first 8 * count bytes of out, and no other byte; a refusal writes none.
 * Refuses, in this order: 1, 2 (list_length not a multiple of 4), 3, 4, 5 (out_length below 8 * count). */
void dm_wide_from_narrow(uint64_t n,
                         const uint8_t *list, size_t list_length,
                         uint8_t *out, size_t out_length,
                         uint64_t *answer);

/* A list as an old list: the same cubes at the same places. answer[2]: their number.
 * Writes the first 4 * count bytes of out, and no other byte; a refusal writes none.
 * Refuses, in this order: 1, 20, 2, 3, 4, 5 (out_length below 4 * count). */
void dm_narrow_from_wide(uint64_t n,
                         const uint8_t *list, size_t list_length,
                         uint8_t *out, size_t out_length,
                         uint64_t *answer);

#ifdef __cplusplus
}
#endif

#endif
