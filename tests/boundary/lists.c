#include <stdlib.h>

#include "boundary.h"

#define BLOCK block.words, MANT_LIST_WORDS

static MantListBlock block;

/* The list of a struct at a place of the order in which they are checked. */
static MantList *list_at(MantLists *lists, size_t place)
{
    MantTwoLists *kinds[4] = {&lists->source_pass, &lists->source_reject, &lists->destination_pass, &lists->destination_reject};
    return place % 2 == 0 ? &kinds[place / 2]->first : &kinds[place / 2]->second;
}

static bool is(MantListFault fault, uint8_t number, size_t list)
{
    return fault.number == number && fault.list == list;
}

/* Whether the lists, once laid, have that fault at that place, and every call that hears refuses them with it, whatever is chosen, takes nothing and ends a
   walk. */
static bool is_fault(const MantLists *lists, uint8_t number, size_t list)
{
    const MantNode choosing = {.edition = EDITION, .own = 2000, .source_pass = MANT_SECOND_LIST, .destination_reject = MANT_FIRST_LIST};
    MantStations table = {{0}};
    uint8_t output[22];
    bool laid = is(mant_lay_lists(&block, lists), number, list) && is(mant_list_fault(BLOCK), number, list);
    MantStep s = mant_step(choosing, BLOCK, example, 20, (MantCursor){0, false}, output, sizeof output);
    return laid && mant_hear(node, BLOCK, example, 20, output, sizeof output).delivery == number &&
           mant_hear(choosing, BLOCK, example, 20, output, sizeof output).repeat == number &&
           mant_hear_and_count(choosing, BLOCK, example, 20, output, sizeof output, &table).answer.repeat == number && table.words[0] == 0 &&
           s.kind == MANT_ANSWERED && s.answer.delivery == number && s.answer.taken == 0 && s.next.place == 0 && s.next.ended;
}

/* All eight lists are checked, kind by kind, first before second, whatever is chosen. At each place a list with 20 stands before lists with 21, so that a
   call that took two of its lists in each other's place would say 21. */
static void eight_lists(void)
{
    const uint16_t values[2] = {2, 1};
    for (size_t i = 0; i < 8; i++) {
        MantLists lists = {0};
        *list_at(&lists, i) = (MantList){values, 2};
        CHECK(is_fault(&lists, MANT_LOW_ABOVE_HIGH, i));
        for (size_t k = i + 1; k < 8; k++) {
            *list_at(&lists, k) = (MantList){values, 1};
        }
        CHECK(is_fault(&lists, MANT_LOW_ABOVE_HIGH, i));
        *list_at(&lists, i) = (MantList){NULL, 0};
        CHECK(i == 7 ? is(mant_lay_lists(&block, &lists), 0, MANT_LIST_VALUES) : is_fault(&lists, MANT_LIST_ODD, i + 1));
    }
}

/* Whether the example is stopped by a kind's number with this choice: it is in the list that is read, or for a pass list it is not. */
static bool is_stopped(size_t kind, uint8_t choice)
{
    uint8_t output[22];
    MantNode n = node;
    uint8_t *fields[4] = {&n.source_pass, &n.source_reject, &n.destination_pass, &n.destination_reject};
    *fields[kind] = choice;
    uint8_t number = mant_hear(n, BLOCK, example, 20, output, sizeof output).repeat;
    return number == MANT_SOURCE_NOT_PASSED + kind;
}

/* Each list is laid in its own place: the one list of the eight that holds the example's addresses, 1000 and 1600, is the one that its kind and choice read,
   and no other is, whatever the length of the lists beside it. A choice other than 1 and 2 reads none. */
static void places(void)
{
    const uint16_t held[4] = {1, 2, 1000, 1600}, other[6] = {1, 2, 3, 4, 5, 6};
    for (size_t i = 0; i < 8; i++) {
        MantLists lists = {0};
        for (size_t k = 0; k < 8; k++) {
            *list_at(&lists, k) = (MantList){other, 2 * (k % 4)};
        }
        *list_at(&lists, i) = (MantList){held, 4};
        CHECK(is(mant_lay_lists(&block, &lists), 0, MANT_LIST_VALUES));
        bool right = true;
        for (size_t k = 0; k < 4 * 256; k++) {
            size_t kind = k / 256, choice = k % 256;
            bool is_pass = kind % 2 == 0, reads = choice == 1 || choice == 2, holds = 2 * kind + choice - 1 == i;
            right = right && is_stopped(kind, (uint8_t)choice) == (reads && holds != is_pass);
        }
        CHECK(right);
    }
}

/* A list of more than 128 values is laid so that it keeps 22, at every place, and never passes; 65,536 values are not 0 values. */
static void long_lists(void)
{
    static uint16_t many[131074];
    const size_t lengths[] = {129, 130, 256, 65535, 65536, 65537, 65538, 65664, 70000, 131072, 131074};
    const uint16_t wrong[2] = {2, 1};
    for (size_t i = 0; i < 8; i++) {
        for (size_t k = 0; k < sizeof lengths / sizeof lengths[0]; k++) {
            MantLists lists = {0};
            *list_at(&lists, 7) = (MantList){wrong, 2};
            *list_at(&lists, i) = (MantList){many, lengths[k]};
            CHECK(is_fault(&lists, MANT_LIST_TOO_LONG, i));
        }
    }
    const MantTwoLists longest = {{many, 70000}, {many, 65536}}, full = {{many, 128}, {many, 128}};
    const MantLists most = {full, full, full, full}, above = {longest, longest, longest, longest};
    CHECK(is(mant_lay_lists(&block, &most), 0, MANT_LIST_VALUES) && is(mant_list_fault(block.words, 1032), 0, MANT_LIST_VALUES));
    CHECK(is_fault(&above, MANT_LIST_TOO_LONG, 0));
}

/* What is laid: eight lengths and the values behind them. Words behind these, and those beside the block, are kept. */
static void words_laid(void)
{
    struct {
        uint16_t before;
        MantListBlock block;
        uint16_t after;
    } room;
    const uint16_t one[2] = {11, 12}, three[3] = {21, 22, 23};
    const MantLists lists = {.source_pass.second = {one, 2}, .destination_reject.first = {three, 3}};
    const uint16_t wanted[13] = {0, 2, 0, 0, 0, 0, 3, 0, 11, 12, 21, 22, 23};
    bool kept = true;
    memset(&room, 77, sizeof room);
    const uint16_t untouched = room.before;
    CHECK(is(mant_lay_lists(&room.block, &lists), MANT_LIST_ODD, MANT_DESTINATION_REJECT_FIRST));
    CHECK(memcmp(room.block.words, wanted, sizeof wanted) == 0);
    for (size_t i = 13; i < MANT_LIST_WORDS; i++) {
        kept = kept && room.block.words[i] == untouched;
    }
    CHECK(kept && room.before == untouched && room.after == untouched);
    CHECK(is(mant_lay_lists(&room.block, NULL), 0, MANT_LIST_VALUES) && room.block.words[6] == 0 && room.block.words[7] == 0 && room.block.words[8] == 11);
}

/* The fault that a block's first words have, list by list: each is cut where the words end. */
static MantListFault fault_in(const uint16_t *words, size_t size)
{
    size_t start = 8;
    for (uint8_t k = 0; k < 8; k++) {
        size_t given = k < size ? words[k] : 0, left = start < size ? size - start : 0, length = given < left ? given : left;
        if (length > 128 || length % 2 != 0) {
            return (MantListFault){length > 128 ? 22 : 21, k};
        }
        for (size_t i = 0; i < length; i += 2) {
            if (words[start + i] > words[start + i + 1]) {
                return (MantListFault){20, k};
            }
        }
        start += given;
    }
    return (MantListFault){0, 8};
}

/* A block of any length gets a result, and nothing behind it is read. */
static void short_blocks(void)
{
    static const uint16_t blocks[5][20] = {{2, 2, 2, 2, 2, 2, 2, 2, 1, 9, 2, 9, 3, 9, 4, 9, 5, 9, 6, 9},
                                           {0, 0, 4, 0, 0, 8, 0, 0, 1, 9, 2, 9, 3, 9, 4, 9, 9, 5, 6, 9},
                                           {0, 0, 0, 0, 0, 0, 0, 65535, 1, 9, 2, 9, 3, 9, 4, 9, 5, 9, 9, 6},
                                           {65535, 65535, 65535, 65535, 65535, 65535, 65535, 65535, 1, 9, 2, 9, 3, 9, 4, 9, 5, 9, 6, 9},
                                           {0}};
    for (size_t i = 0; i < 5; i++) {
        for (size_t size = 0; size <= 20; size++) {
            uint16_t *words = malloc(size * sizeof *words);
            uint8_t output[22];
            memcpy(words, blocks[i], size * sizeof *words);
            MantListFault wanted = fault_in(blocks[i], size);
            CHECK(is(mant_list_fault(words, size), wanted.number, wanted.list));
            CHECK(mant_hear(node, words, size, example, 20, output, sizeof output).repeat == wanted.number);
            free(words);
        }
    }
}

/* A block written as a constant, of lists for two seasons, and a node that changes over. */
static void seasons(void)
{
    static const uint16_t lists[] = {
        [MANT_SOURCE_PASS_FIRST] = 2,
        [MANT_SOURCE_PASS_SECOND] = 4,
        [MANT_DESTINATION_PASS_FIRST] = 2,
        [MANT_DESTINATION_PASS_SECOND] = 2,
        [MANT_LIST_VALUES] = 1001,
        1999, /* dry */
        1000,
        1000,
        3000,
        3999, /* flood */
        0,
        65535,
        0,
        65535, /* every destination, in both */
    };
    const size_t words = sizeof lists / sizeof lists[0];
    uint8_t output[22];
    CHECK(is(mant_list_fault(lists, words), 0, MANT_LIST_VALUES));
    CHECK(mant_hear(mant_change_over(node, MANT_FIRST_LIST), lists, words, example, 20, output, 22).repeat == MANT_SOURCE_NOT_PASSED);
    CHECK(mant_hear(mant_change_over(node, MANT_SECOND_LIST), lists, words, example, 20, output, 22).repeat == MANT_DONE);
    CHECK(mant_hear(mant_change_over(node, MANT_NO_LIST), lists, words, example, 20, output, 22).repeat == MANT_DONE);
}

static void one_list(void)
{
    const uint16_t list[4] = {900, 1100, 5, 5};
    CHECK(mant_list_holds(list, 4, 900) && mant_list_holds(list, 4, 1100) && !mant_list_holds(list, 4, 1101) && !mant_list_holds(list, 4, 899));
    CHECK(mant_list_holds(list, 4, 5) && !mant_list_holds(list, 4, 6) && !mant_list_holds(list, 3, 5));
}

void address_lists(void)
{
    eight_lists();
    places();
    long_lists();
    words_laid();
    short_blocks();
    seasons();
    one_list();
}
