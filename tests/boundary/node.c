#include "boundary.h"

/* The node of these tests with a choice for the source pass lists. */
static MantNode passing_by(uint8_t choice)
{
    MantNode n = node;
    n.source_pass = choice;
    return n;
}

/* The easy node is the safe one: it drops echoes and repeats; a node of zeros is refused. */
static void settings(void)
{
    const MantNode easy = MANT_NODE(65535), zeros = {0};
    CHECK(easy.edition == MANT_EDITION_1_2 && easy.own == 65535 && easy.echo && easy.repeating);
    CHECK(easy.source_pass == 0 && easy.source_reject == 0 && easy.destination_pass == 0 && easy.destination_reject == 0);
    CHECK(mant_hear(zeros, NO_LISTS, example, 20, NULL, 0).repeat == MANT_UNKNOWN_EDITION);
}

static void null_lists(void)
{
    const MantListFault f = mant_list_fault(NO_LISTS);
    CHECK(f.number == 0 && f.list == MANT_LIST_VALUES && f.list == 8);
    CHECK(!mant_list_holds(NULL, 0, 0));
    CHECK(mant_hear(node, NO_LISTS, NULL, 0, NULL, 0).repeat == MANT_TOO_SHORT);
    CHECK(mant_hear(node, NO_LISTS, example, 20, NULL, 0).delivery == MANT_REPEAT_OUTPUT_TOO_SHORT);
    CHECK(mant_hear(passing_by(MANT_FIRST_LIST), NO_LISTS, example, 20, NULL, 0).delivery == MANT_SOURCE_NOT_PASSED);
    CHECK(mant_hear(passing_by(MANT_SECOND_LIST), NO_LISTS, example, 20, NULL, 0).delivery == MANT_SOURCE_NOT_PASSED);
    CHECK(mant_step(node, NO_LISTS, NULL, 0, (MantCursor){0, false}, NULL, 0).kind == MANT_ENDED);
}

static bool is_heard_from(MantAnswer a, uint8_t delivery, uint16_t address)
{
    return a.delivery == delivery && a.has_last_sender && a.last_sender == address;
}

/* A node's answer tells the last sender with every number but those of the lists and of reading. */
static void answers_tell_senders(void)
{
    const uint16_t wrong[] = {[MANT_SOURCE_PASS_FIRST] = 2, [MANT_LIST_VALUES] = 2, 1};
    uint8_t repeated[22], output[30];
    MantAnswer a = mant_hear(node, NO_LISTS, example, 20, repeated, sizeof repeated);
    CHECK(is_heard_from(a, MANT_FOR_ANOTHER, 1000) && a.repeated_length == 22);
    CHECK(is_heard_from(mant_hear(node, NO_LISTS, repeated, 22, output, sizeof output), MANT_ECHO, 2000));
    CHECK(is_heard_from(mant_hear(passing_by(MANT_FIRST_LIST), NO_LISTS, example, 20, output, sizeof output), MANT_SOURCE_NOT_PASSED, 1000));
    CHECK(is_heard_from(mant_hear(node, NO_LISTS, example, 20, output, 21), MANT_REPEAT_OUTPUT_TOO_SHORT, 1000));
    a = mant_hear(node, NO_LISTS, example, 19, output, sizeof output);
    CHECK(a.delivery == MANT_PAYLOAD_CUT && !a.has_last_sender && a.last_sender == 0);
    a = mant_hear(node, wrong, 10, example, 20, output, sizeof output);
    CHECK(a.delivery == MANT_LOW_ABOVE_HIGH && !a.has_last_sender && a.last_sender == 0);
}

static bool is_17(MantAnswer a)
{
    return a.delivery == MANT_UNKNOWN_EDITION && a.repeat == 17 && !a.has_last_sender && a.last_sender == 0 && a.delivered_place == 0 &&
           a.delivered_length == 0 && a.repeated_length == 0 && a.taken == 0;
}

/* Numbers that are no edition are refused with 17 before all else, also those that look like one in 32 bits. */
static void no_editions(void)
{
    const uint64_t others[7] = {0, 1, 10, 13, UINT64_C(0x10000000B), UINT64_C(0x10000000C), UINT64_MAX};
    const uint16_t wrong[] = {[MANT_SOURCE_PASS_SECOND] = 3, [MANT_LIST_VALUES] = 2, 1, 0};
    static uint8_t batch[MANT_BATCH_LIMIT + 1];
    MantStations table = {{0, 1, 2, 3, 4}};
    uint8_t output[22], untouched[22];
    memset(output, 77, sizeof output);
    memset(untouched, 77, sizeof untouched);
    for (size_t i = 0; i < 7; i++) {
        const MantFresh fresh = {.edition = others[i], .hop_limit = 8, .port = 16, .reliable = true, .encrypted = true};
        MantNode other = node;
        other.edition = others[i];
        MantHeader h = mant_read(others[i], example, 20);
        CHECK(h.number == 17 && h.source == 0 && !h.path_bit && !h.has_encrypted && !h.has_last_sender && h.pdu_length == 0);
        CHECK(mant_read(others[i], NULL, 0).number == 17 && mant_write_again(others[i], NULL, 0, NULL, 0).number == 17);
        MantWritten w = mant_write_again(others[i], example, 20, output, sizeof output);
        CHECK(w.number == 17 && w.length == 0);
        w = mant_originate(fresh, batch, sizeof batch, output, sizeof output);
        CHECK(w.number == 17 && w.length == 0);
        CHECK(is_17(mant_hear(other, NO_LISTS, example, 20, output, sizeof output)));
        CHECK(is_17(mant_hear(other, wrong, 11, NULL, 0, output, sizeof output)));
        MantListened l = mant_hear_and_count(other, NO_LISTS, example, 20, output, sizeof output, &table);
        CHECK(is_17(l.answer) && l.table_number == 0 && table.words[0] == 0 && table.words[1] == 1);
        MantStep s = mant_step(other, NO_LISTS, batch, sizeof batch, (MantCursor){3, false}, output, sizeof output);
        CHECK(s.kind == MANT_ANSWERED && is_17(s.answer) && s.next.place == 3 && s.next.ended);
        s = mant_step(other, NO_LISTS, batch, sizeof batch, s.next, output, sizeof output);
        CHECK(s.kind == MANT_ENDED && s.answer.delivery == MANT_NO_NUMBER && s.next.place == 3 && s.next.ended);
        CHECK(mant_step(other, NO_LISTS, NULL, 0, (MantCursor){0, false}, NULL, 0).kind == MANT_ENDED);
    }
    CHECK(memcmp(output, untouched, sizeof output) == 0);
}

static void a_walk(void)
{
    static uint8_t batch[MANT_BATCH_LIMIT + 1];
    uint8_t output[MANT_PDU_LIMIT];
    memcpy(batch, example, 20);
    batch[25] = 5;
    MantStep s = mant_step(node, NO_LISTS, batch, 26, (MantCursor){0, false}, output, sizeof output);
    CHECK(s.kind == MANT_ANSWERED && s.answer.delivery == 39 && s.answer.repeat == 0 && s.answer.repeated_length == 22);
    CHECK(s.answer.delivered_place == 0 && s.answer.delivered_length == 0 && s.answer.taken == 20 && s.next.place == 20 && !s.next.ended);
    CHECK(s.answer.has_last_sender && s.answer.last_sender == 1000);
    s = mant_step(node, NO_LISTS, batch, 26, s.next, output, sizeof output);
    CHECK(s.answer.delivery == 0 && s.answer.repeat == 37 && s.answer.delivered_place == 6 && s.answer.delivered_length == 0 && s.next.place == 26);
    CHECK(!s.answer.has_last_sender && s.answer.last_sender == 0);
    s = mant_step(node, NO_LISTS, batch, 26, s.next, output, sizeof output);
    CHECK(s.kind == MANT_ENDED && s.answer.delivery == MANT_NO_NUMBER && s.answer.repeat == 255 && s.answer.taken == 0);
    CHECK(!s.answer.has_last_sender && s.answer.last_sender == 0 && s.next.place == 26 && s.next.ended);
    s = mant_step(node, NO_LISTS, batch, sizeof batch, (MantCursor){3, false}, output, sizeof output);
    CHECK(s.kind == MANT_REFUSED && s.answer.delivery == MANT_BATCH_TOO_LONG && s.answer.repeat == 54 && s.answer.taken == 0 && s.next.place == 3);
}

static bool is_changed_over(MantNode before, uint64_t number, uint8_t choice)
{
    MantNode n = mant_change_over(before, number);
    return n.edition == before.edition && n.own == before.own && n.echo == before.echo && n.repeating == before.repeating && n.source_pass == choice &&
           n.source_reject == choice && n.destination_pass == choice && n.destination_reject == choice;
}

/* All four kinds get the choice and nothing else changes. A number other than 1 and 2 is no choice, also one that is 1 or 2 in fewer bits. */
static void changing_over(void)
{
    const uint64_t others[10] = {0, 3, 255, 256, 257, 258, 65537, UINT64_C(0x100000001), UINT64_C(0x8000000000000002), UINT64_MAX};
    const MantNode odd = {UINT64_C(0x0102030405060708), 0xABCD, false, true, 1, 2, 7, 255}, even = {MANT_EDITION_1_1, 7, true, false, 2, 2, 0, 1};
    CHECK(is_changed_over(odd, MANT_FIRST_LIST, 1) && is_changed_over(even, MANT_FIRST_LIST, 1));
    CHECK(is_changed_over(odd, MANT_SECOND_LIST, 2) && is_changed_over(even, MANT_SECOND_LIST, 2));
    for (size_t i = 0; i < 10; i++) {
        CHECK(is_changed_over(odd, others[i], 0) && is_changed_over(even, others[i], 0));
    }
}

void a_node(void)
{
    settings();
    null_lists();
    answers_tell_senders();
    no_editions();
    a_walk();
    changing_over();
}
