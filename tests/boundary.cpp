// What C++ sees of include/mant.h: the library's calls by C's names, and the functions that the header has itself. tests/run_boundary compiles it as C++11
// and as C++20, and runs it; it prints each fact that fails.
#include <stdio.h>
#include <string.h>

#include "mant.h"

#define CHECK(fact) check(fact, #fact)

static int failed;

static void check(bool holds, const char *fact)
{
    if (!holds) {
        failed++;
        printf("C++: fails: %s\n", fact);
    }
}

static const uint8_t report[8] = {0x02, 0x00, 0x10, 0x01, 0x03, 0xE8, 0x00, 0x2A};
static const uint16_t dry[2] = {1001, 1999}, flood[2] = {1000, 1999};

static MantNode node_of(uint16_t own)
{
    return MANT_NODE(own);
}

// A node, its lists laid, and the calls that hear, with lists and without.
static void hearing()
{
    const MantNode node = node_of(report[4] == 3 ? 2000 : 0), same = MANT_NODE(2000);
    MantLists wanted = {};
    wanted.source_pass.first = MantList{dry, 2};
    wanted.source_pass.second = MantList{flood, 2};
    static MantListBlock lists;
    const uint16_t *words = lists.words;
    uint8_t output[MANT_PDU_LIMIT];
    MantStations table = {};
    const MantCursor start = {0, false};
    const MantNode passing = mant_change_over(node, MANT_SECOND_LIST), stopping = mant_change_over(node, MANT_FIRST_LIST);

    CHECK(node.own == 2000 && same.own == 2000 && same.edition == MANT_EDITION_1_2 && same.echo && same.repeating);
    CHECK(mant_lay_lists(&lists, nullptr).list == MANT_LIST_VALUES && mant_lay_lists(&lists, &wanted).number == MANT_DONE);
    CHECK(words[MANT_SOURCE_PASS_SECOND] == 2 && words[MANT_LIST_VALUES + 2] == 1000 && mant_list_fault(words, MANT_LIST_WORDS).number == MANT_DONE);
    CHECK(mant_list_fault(nullptr, 0).list == MANT_LIST_VALUES);
    CHECK(mant_hear(passing, words, MANT_LIST_WORDS, report, sizeof report, output, sizeof output).repeated_length == 10);
    CHECK(mant_hear(stopping, words, MANT_LIST_WORDS, report, sizeof report, output, sizeof output).repeat == MANT_SOURCE_NOT_PASSED);
    CHECK(mant_hear(node, nullptr, 0, report, sizeof report, output, sizeof output).repeat == MANT_DONE);
    CHECK(mant_step(passing, words, MANT_LIST_WORDS, report, sizeof report, start, output, sizeof output).next.place == sizeof report);
    CHECK(mant_hear_and_count(stopping, words, MANT_LIST_WORDS, report, 8, output, 10, &table).table_number == MANT_DONE);
    CHECK(mant_station_of(&table, 1000).station.reads == 1);
}

// Structs by value, both ways.
static void structs()
{
    MantFresh fresh = {};
    fresh.edition = MANT_EDITION_1_2;
    fresh.source = 1000;
    fresh.hop_limit = 1;
    fresh.with_path = true;
    const MantKey key = {{1, 2, 3}};
    uint8_t written[sizeof report], sealed[sizeof report + MANT_SEAL_LENGTH], plain[1];
    MantSources record = {};

    CHECK(mant_originate(fresh, report + 7, 1, written, sizeof written).length == sizeof report && memcmp(written, report, sizeof report) == 0);
    CHECK(mant_read(MANT_EDITION_1_2, report, sizeof report).source == 1000);
    CHECK(mant_seal(key, 850, report, sizeof report, sealed, sizeof sealed).length == sizeof sealed);
    CHECK(mant_open(key, &record, sealed, sizeof sealed, plain, sizeof plain).length == 1 && plain[0] == 0x2A);
    CHECK(strcmp(mant_meaning(MANT_HASH_DIFFERS), "no such number") != 0 && strcmp(mant_meaning(MANT_NO_NUMBER), "no such number") == 0);
    CHECK(mant_limits().pdu == MANT_PDU_LIMIT);
}

int main()
{
    hearing();
    structs();
    return failed == 0 ? 0 : 1;
}
