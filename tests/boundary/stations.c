#include "boundary.h"

static bool is_station(MantFound found, uint16_t address, uint16_t reads, uint16_t echoes, bool has_path, uint16_t shortest_path)
{
    MantStation s = found.station;
    return found.number == 0 && s.address == address && s.reads == reads && s.echoes == echoes && s.has_path == has_path && s.shortest_path == shortest_path;
}

static void none_held(void)
{
    MantStations table = {{0}};
    MantFound f = mant_station_at(&table, 0);
    CHECK(mant_stations_held(&table) == 0 && mant_remove_station(&table, 0) == 56 && mant_station_of(&table, 0).number == 56);
    CHECK(f.number == 56 && f.station.address == 0 && f.station.reads == 0 && !f.station.has_path && f.station.shortest_path == 0);
    CHECK(mant_count_answer(&table, NULL, 0, (MantAnswer){.delivery = MANT_TOO_SHORT}) == 0 && mant_stations_held(&table) == 0);
}

static void hearing_and_counting(void)
{
    MantStations table = {{0}};
    uint8_t output[MANT_PDU_LIMIT], again[MANT_PDU_LIMIT];
    const uint8_t without_path[6] = {0, 0, 0, 0, 0x03, 0xE8};
    MantListened l = mant_hear_and_count(node, NO_LISTS, without_path, 6, output, sizeof output, &table);
    CHECK(l.answer.delivery == 0 && l.answer.repeat == MANT_HOP_LIMIT_0 && l.answer.delivered_place == 6 && l.answer.taken == 6 && l.table_number == 0);
    CHECK(is_station(mant_station_of(&table, 1000), 1000, 1, 0, false, 0));
    l = mant_hear_and_count(node, NO_LISTS, example, 20, output, sizeof output, &table);
    CHECK(l.answer.delivery == 39 && l.answer.repeat == 0 && l.answer.repeated_length == 22 && l.answer.taken == 20 && l.table_number == 0);
    CHECK(is_station(mant_station_at(&table, 0), 1000, 2, 0, true, 0));
    MantAnswer a = mant_hear(node, NO_LISTS, output, 22, again, sizeof again);
    CHECK(a.delivery == MANT_ECHO && mant_count_answer(&table, output, 22, a) == 0);
    CHECK(is_station(mant_station_of(&table, 1000), 1000, 3, 1, true, 0));
    l = mant_hear_and_count(node, NO_LISTS, example, 19, output, sizeof output, &table);
    CHECK(l.answer.delivery == MANT_PAYLOAD_CUT && l.table_number == 0 && mant_station_of(&table, 1000).station.reads == 3);
    CHECK(mant_remove_station(&table, 1001) == 56 && mant_stations_held(&table) == 1);
    CHECK(mant_remove_station(&table, 1000) == 0 && mant_stations_held(&table) == 0);
    CHECK(mant_station_of(&table, 1000).number == 56);
}

/* PDUs from the node itself: the example, one without a path, and one whose path has the node too. */
static void own_reports(void)
{
    const MantNode originator = MANT_NODE(1000);
    MantNode without_echo = originator, passing = originator;
    const uint8_t without_path[6] = {0, 0, 0x70, 0, 0x03, 0xE8}, with_both[9] = {2, 0, 0x70, 0, 0x03, 0xE8, 1, 0x03, 0xE8};
    MantStations table = {{0}};
    uint8_t output[24], untouched[24];
    without_echo.echo = false;
    passing.source_pass = MANT_FIRST_LIST;
    memset(output, 77, sizeof output);
    memset(untouched, 77, sizeof untouched);
    MantListened l = mant_hear_and_count(originator, NO_LISTS, example, 20, output, sizeof output, &table);
    CHECK(l.answer.delivery == MANT_OWN_REPORT && l.answer.repeat == 42 && l.answer.delivered_length == 0 && l.answer.repeated_length == 0);
    CHECK(l.answer.taken == 20 && l.table_number == 0 && memcmp(output, untouched, sizeof output) == 0);
    MantAnswer a = mant_hear(passing, NO_LISTS, without_path, 6, output, sizeof output);
    CHECK(a.delivery == 42 && a.repeat == 42 && a.taken == 6 && mant_count_answer(&table, without_path, 6, a) == 0);
    CHECK(is_station(mant_station_of(&table, 1000), 1000, 2, 2, true, 0));
    a = mant_hear(passing, NO_LISTS, with_both, 9, output, sizeof output);
    CHECK(a.delivery == MANT_ECHO && a.repeat == MANT_ECHO && memcmp(output, untouched, sizeof output) == 0);
    a = mant_hear(without_echo, NO_LISTS, without_path, 6, output, sizeof output);
    CHECK(a.delivery == 0 && a.repeat == 0 && a.repeated_length == 6 && memcmp(output, without_path, 6) == 0 && output[6] == 77);
}

static void a_full_table(void)
{
    struct {
        MantStations table;
        uint16_t behind;
    } room = {.behind = 77};
    MantStations before;
    MantHeard heard = {.echo = true, .path_bit = true, .path_count = 255};
    const uint8_t from_1001[6] = {0, 0, 0, 0, 0x03, 0xE9};
    bool taken = true, rising = true;
    for (uint16_t i = MANT_STATION_LIMIT; i > 0; i--) {
        heard.source = (uint16_t)(500 * i);
        taken = taken && mant_count_heard(&room.table, heard) == 0;
    }
    for (size_t i = 0; i < MANT_STATION_LIMIT; i++) {
        rising = rising && is_station(mant_station_at(&room.table, i), (uint16_t)(500 * (i + 1)), 1, 1, true, 255);
    }
    CHECK(taken && rising && mant_stations_held(&room.table) == 128);
    CHECK(mant_station_at(&room.table, 128).number == 56 && mant_station_at(&room.table, SIZE_MAX).number == 56);
    before = room.table;
    heard.source = 501;
    MantListened l = mant_hear_and_count(node, NO_LISTS, from_1001, 6, NULL, 0, &room.table);
    CHECK(l.answer.delivery == 0 && l.answer.repeat == MANT_HOP_LIMIT_0 && l.answer.taken == 6 && l.table_number == 55);
    CHECK(mant_count_heard(&room.table, heard) == 55 && memcmp(&before, &room.table, sizeof before) == 0);
    room.table.words[0] = 65535;
    CHECK(mant_stations_held(&room.table) == 128 && mant_count_heard(&room.table, heard) == 55 && room.table.words[0] == 65535);
    heard = (MantHeard){.source = 500};
    CHECK(mant_count_heard(&room.table, heard) == 0 && is_station(mant_station_of(&room.table, 500), 500, 2, 1, true, 255));
    CHECK(room.table.words[0] == 128 && room.behind == 77);
    before = room.table;
    CHECK(mant_remove_station(&room.table, 64000) == 0 && mant_stations_held(&room.table) == 127);
    CHECK(memcmp(before.words + 1, room.table.words + 1, sizeof before - 2) == 0 && room.behind == 77);
}

/* Counts that stop, and the words behind those that are held. */
static void counts_that_stop(void)
{
    MantStations table = {{2, 5, 65535, 65534, 0, 7, 1, 1, 4, 3}};
    const MantHeard heard = {.source = 5, .echo = true, .path_bit = true, .path_count = 3};
    CHECK(mant_stations_held(&table) == 2 && is_station(mant_station_of(&table, 7), 7, 1, 1, true, 3));
    CHECK(mant_count_heard(&table, heard) == 0 && is_station(mant_station_of(&table, 5), 5, 65535, 65535, true, 3));
    CHECK(mant_count_heard(&table, heard) == 0 && is_station(mant_station_of(&table, 5), 5, 65535, 65535, true, 3));
    CHECK(mant_remove_station(&table, 5) == 0 && table.words[0] == 1 && is_station(mant_station_at(&table, 0), 7, 1, 1, true, 3));
    CHECK(table.words[5] == 7 && table.words[8] == 4 && table.words[9] == 3);
}

void stations_heard(void)
{
    none_held();
    hearing_and_counting();
    own_reports();
    a_full_table();
    counts_that_stop();
}
