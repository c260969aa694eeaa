#define _DEFAULT_SOURCE /* mmap */
#include "boundary.h"
#ifdef __linux__
#include <sys/mman.h>
#include <unistd.h>
#endif

/* A command from 1000 to 1600 with ID 7, and its acknowledgement. */
static const uint8_t command[10] = {0x09, 0, 0x30, 0x01, 0x03, 0xE8, 0x06, 0x40, 7, 99};
static const uint8_t acknowledgement[9] = {0x09, 0x51, 0x30, 0, 0x06, 0x40, 0x03, 0xE8, 7};
static const MantSending sending = {.hop_limit = 3, .port = 5};
static const MantRetained zeros;

static bool is_outcome(MantOutcome o, uint8_t number, uint8_t deed, uint64_t last, size_t place, size_t length)
{
    bool named = o.names.source == 1000 && o.names.destination == 1600 && o.names.pdu_id == 7;
    bool nameless = o.names.source == 0 && o.names.destination == 0 && o.names.pdu_id == 0;
    return o.number == number && o.deed == deed && o.last == last && o.place == place && o.length == length && (deed != 0 ? named : nameless);
}

static bool is_retained(const MantRetained *r, uint64_t sent_at, uint64_t count)
{
    return r->length == 10 && r->sent_at == sent_at && r->count == count && memcmp(r->pdu, command, 10) == 0 && memcmp(r->pdu + 10, zeros.pdu, 246) == 0;
}

static void no_records(void)
{
    const MantAnswer delivered = {.taken = 10};
    const MantSending wrong = {.hop_limit = 8, .port = 16}, wrong_port = {.hop_limit = 7, .port = UINT64_C(0x100000000)};
    CHECK(is_outcome(mant_retain(NULL, 0, 9, 3, NULL, 0), 74, 0, 9, 0, 0));
    CHECK(is_outcome(mant_retry(NULL, 0, 9, 3, 0, 0, NULL, 0), MANT_NOT_16_RECORDS, 0, 9, 0, 0));
    CHECK(is_outcome(mant_acknowledge(NULL, 0, 9, 1600, NULL, 0, delivered, wrong, NULL, 0), 74, 0, 9, 0, 0));
    CHECK(is_outcome(mant_acknowledge(NULL, 0, 9, 1600, command, 10, delivered, wrong, NULL, 0), MANT_HOP_LIMIT_ABOVE_7, 0, 9, 0, 0));
    CHECK(is_outcome(mant_acknowledge(NULL, 0, 9, 1600, command, 10, delivered, wrong_port, NULL, 0), MANT_PORT_ABOVE_15, 0, 9, 0, 0));
    CHECK(is_outcome(mant_acknowledge(NULL, 0, 9, 1600, command, 10, delivered, sending, NULL, 0), 74, 0, 9, 0, 0));
}

/* Records of any bytes, of which the one at place 3 has a length above 256 and is free; the others hold the command. */
static void retaining(void)
{
    static MantRetained table[MANT_RECORDS + 2], before[MANT_RECORDS + 2];
    static uint8_t longest[257] = {0x09, 0, 0x00, 0xF7, 0x03, 0xE8, 0x06, 0x40, 8};
    MantRetained *records = table + 1;
    memset(table, 0xA5, sizeof table);
    for (size_t i = 0; i < MANT_RECORDS; i++) {
        memcpy(records[i].pdu, command, 10);
        records[i].length = 10;
        records[i].pdu[8] = (uint8_t)(100 + i);
    }
    records[3].length = 257;
    memcpy(before, table, sizeof table);
    CHECK(is_outcome(mant_retain(records, 15, 9, 3, command, 10), 74, 0, 9, 0, 0) && is_outcome(mant_retain(records, 17, 9, 3, command, 10), 74, 0, 9, 0, 0));
    CHECK(is_outcome(mant_retain(records, 16, 9, 8, NULL, 0), MANT_EARLIER_TIME, 0, 9, 0, 0));
    CHECK(is_outcome(mant_retain(records, 16, 9, 9, command, 9), 75, 0, 9, 0, 0) && is_outcome(mant_retain(records, 16, 9, 9, example, 20), 75, 0, 9, 0, 0));
    CHECK(is_outcome(mant_retain(records, 16, 9, 9, acknowledgement, 9), 75, 0, 9, 0, 0));
    longest[3] = 0xF8;
    CHECK(is_outcome(mant_retain(records, 16, 9, 9, longest, 257), 72, 0, 9, 0, 0));
    longest[8] = 100;
    longest[3] = 0xF7;
    CHECK(is_outcome(mant_retain(records, 16, 9, 9, longest, 256), MANT_ALREADY_RETAINED, 0, 9, 0, 0) && memcmp(table, before, sizeof table) == 0);
    CHECK(is_outcome(mant_retain(records, 16, 9, 9, command, 10), 0, MANT_DEED_RETAINED, 9, 3, 0) && is_retained(records + 3, 9, 0));
    CHECK(memcmp(table, before, 4 * sizeof table[0]) == 0 && memcmp(table + 5, before + 5, 13 * sizeof table[0]) == 0);
    longest[8] = 8;
    CHECK(is_outcome(mant_retain(records, 16, 9, 9, longest, 256), MANT_RECORDS_IN_USE, 0, 9, 0, 0));
    memset(records, 0xFF, 16 * sizeof *records);
    CHECK(mant_retain(records, 16, 0, UINT64_MAX, longest, 256).deed == 1 && records[0].length == 256 && memcmp(records[0].pdu, longest, 256) == 0);
}

/* Retained at 100, sent again at 130 and 160, and then failed. */
static void retrying(void)
{
    MantRetained table[MANT_RECORDS] = {0};
    uint8_t output[11], untouched[11];
    memset(output, 77, sizeof output);
    memset(untouched, 77, sizeof untouched);
    CHECK(is_outcome(mant_retain(table, 16, 0, 100, command, 10), 0, 1, 100, 0, 0));
    CHECK(is_outcome(mant_retry(table, 16, 100, 129, 30, 2, output, 11), 0, 0, 129, 0, 0));
    CHECK(is_outcome(mant_retry(table, 16, 129, 128, 0, 2, output, 11), 73, 0, 129, 0, 0));
    CHECK(is_outcome(mant_retry(table, 16, 129, 130, 30, 2, output, 9), 77, 0, 129, 0, 0) && is_retained(table, 100, 0));
    CHECK(memcmp(output, untouched, 11) == 0);
    CHECK(is_outcome(mant_retry(table, 16, 129, 130, 30, 2, output, 11), 0, MANT_DEED_SENT_AGAIN, 130, 0, 10) && is_retained(table, 130, 1));
    CHECK(memcmp(output, command, 10) == 0 && output[10] == 77);
    CHECK(is_outcome(mant_retry(table, 16, 130, 130, 30, 2, output, 11), 0, 0, 130, 0, 0));
    CHECK(is_outcome(mant_retry(table, 16, 130, 160, 30, 2, output, 11), 0, 2, 160, 0, 10) && is_retained(table, 160, 2));
    CHECK(is_outcome(mant_retry(table, 16, 160, 190, 30, 2, NULL, 0), 0, MANT_DEED_FAILED, 190, 0, 0) && memcmp(table, &zeros, sizeof zeros) == 0);
    CHECK(mant_retain(table, 16, 190, 190, command, 10).deed == 1);
    table[0].sent_at = UINT64_MAX;
    CHECK(is_outcome(mant_retry(table, 16, 190, UINT64_MAX - 1, 0, 0, NULL, 0), 0, 0, UINT64_MAX - 1, 0, 0));
    CHECK(is_outcome(mant_retry(table, 16, 190, UINT64_MAX, 0, 0, NULL, 0), 0, 3, UINT64_MAX, 0, 0));
}

/* The clock is set back from 1,000 to 50: with the last time 0 and each record's time 50 it goes on, late after a whole delay. */
static void a_clock_set_back(void)
{
    MantRetained table[MANT_RECORDS] = {0};
    uint8_t output[11];
    CHECK(mant_retain(table, 16, 0, 1000, command, 10).last == 1000);
    CHECK(is_outcome(mant_retry(table, 16, 1000, 50, 30, 2, output, 11), MANT_EARLIER_TIME, 0, 1000, 0, 0));
    for (size_t i = 0; i < MANT_RECORDS; i++) {
        table[i].sent_at = 50;
    }
    CHECK(is_outcome(mant_retry(table, 16, 0, 79, 30, 2, output, 11), 0, 0, 79, 0, 0));
    CHECK(is_outcome(mant_retry(table, 16, 79, 80, 30, 2, output, 11), 0, 2, 80, 0, 10) && is_retained(table, 80, 1));
    CHECK(mant_retain(table, 16, 80, 80, command, 10).number == 71);
}

/* The calls with a MantReliable: each does what the call without that word does with its records and its time, and keeps the time. */
static void with_a_struct(void)
{
    struct {
        MantReliable at_base;
        uint64_t behind;
    } room = {.behind = 77};
    MantReliable at_gate = {.last = 3}, free_table = {.last = 130};
    MantReliable *at_base = &room.at_base;
    const MantNode base = MANT_NODE(1000), gate = MANT_NODE(1600);
    uint8_t again[10], output[11];
    CHECK(is_outcome(mant_reliable_retain(at_base, 100, command, 10), 0, MANT_DEED_RETAINED, 100, 0, 0) && at_base->last == 100);
    CHECK(is_outcome(mant_reliable_retain(at_base, 99, command, 10), 73, 0, 100, 0, 0) && at_base->last == 100);
    CHECK(is_outcome(mant_reliable_retry(at_base, 129, 30, 2, again, 10), 0, 0, 129, 0, 0) && at_base->last == 129);
    CHECK(is_outcome(mant_reliable_retry(at_base, 130, 30, 2, again, 9), 77, 0, 129, 0, 0) && at_base->last == 129);
    CHECK(is_outcome(mant_reliable_retry(at_base, 130, 30, 2, again, 10), 0, MANT_DEED_SENT_AGAIN, 130, 0, 10) && at_base->last == 130);
    MantAnswer answer = mant_hear(gate, NO_LISTS, again, 10, NULL, 0);
    CHECK(is_outcome(mant_reliable_acknowledge(&at_gate, 1600, again, 10, answer, sending, output, 11), 0, MANT_DEED_ACKNOWLEDGED, 3, 0, 9));
    CHECK(memcmp(output, acknowledgement, 9) == 0 && at_gate.last == 3);
    MantHeardReliably heard = mant_reliable_hear(base, NO_LISTS, at_base, acknowledgement, 9, sending, output, 11);
    CHECK(heard.answer.delivery == 0 && is_outcome(heard.outcome, 0, MANT_DEED_FREED, 130, 0, 0));
    CHECK(memcmp(at_base, &free_table, sizeof free_table) == 0 && room.behind == 77);
}

#ifdef __linux__
static uint8_t *memory;
static size_t before_end, page;

/* Sixteen records that end at a page that may not be read. NULL if there is no such memory. */
static MantRetained *sixteen_before_the_end(void)
{
    const size_t needed = 16 * sizeof(MantRetained);
    page = (size_t)sysconf(_SC_PAGESIZE);
    before_end = (needed + page - 1) / page * page;
    memory = mmap(NULL, before_end + page, PROT_READ | PROT_WRITE, MAP_PRIVATE | MAP_ANONYMOUS, -1, 0);
    const bool there = memory != MAP_FAILED && mprotect(memory + before_end, page, PROT_NONE) == 0;
    return there ? (MantRetained *)(void *)(memory + before_end - needed) : NULL;
}

static bool given_back(void)
{
    return munmap(memory, before_end + page) == 0;
}
#else
/* A bare processor has no such page: there the library is only seen to change none of the record behind. */
static MantRetained memory[17];

static MantRetained *sixteen_before_the_end(void)
{
    return memory;
}

static bool given_back(void)
{
    return memcmp(memory + 16, &zeros, sizeof zeros) == 0;
}
#endif

/* With another number of records than 16 none is read: here they end at a page that may not be read, or begin there. */
static void records_that_are_not_there(void)
{
    const MantAnswer delivered = {.taken = 10};
    const MantNode at_gate = MANT_NODE(1600);
    uint8_t output[11];
    MantRetained *sixteen = sixteen_before_the_end(), *none = sixteen + 16;
    CHECK(sixteen != NULL);
    const size_t counts[] = {17, sizeof(MantRetained[16]), 15, 1, SIZE_MAX / sizeof(MantRetained)};
    for (size_t i = 0; i < sizeof counts / sizeof counts[0]; i++) {
        MantRetained *records = i < 2 ? sixteen : none;
        CHECK(is_outcome(mant_retain(records, counts[i], 9, 9, command, 10), MANT_NOT_16_RECORDS, 0, 9, 0, 0));
        CHECK(is_outcome(mant_retry(records, counts[i], 9, 9, 0, 1, output, 11), 74, 0, 9, 0, 0));
        CHECK(is_outcome(mant_acknowledge(records, counts[i], 9, 1000, acknowledgement, 9, delivered, sending, output, 11), 74, 0, 9, 0, 0));
        CHECK(is_outcome(mant_acknowledge(records, counts[i], 9, 1600, command, 10, delivered, (MantSending){.hop_limit = 8}, output, 11), 10, 0, 9, 0, 0));
        CHECK(is_outcome(mant_hear_reliably(at_gate, NO_LISTS, records, counts[i], 9, command, 10, sending, output, 11).outcome, 74, 0, 9, 0, 0));
    }
    CHECK(mant_retain(sixteen, 16, 9, 9, command, 10).deed == MANT_DEED_RETAINED);
    CHECK(given_back());
}

/* An answer that no node gave for these bytes: one of zeros says delivered. Nothing is acknowledged in another's name, nor for bytes that are no PDU or have an
   added header. And a command is delivered as often as it is heard. */
static void what_a_box_looks_after(void)
{
    const MantNode at_gate = MANT_NODE(1600);
    const uint8_t one[1] = {0x08};
    MantRetained table[MANT_RECORDS] = {0};
    MantStations stations = {{0}};
    uint8_t added[10], output[9] = {0}, untouched[9] = {0};
    memcpy(added, command, 10);
    added[2] |= 0x80;
    CHECK(is_outcome(mant_acknowledge(table, 16, 5, 1600, command, 8, (MantAnswer){0}, sending, output, 9), 0, 0, 5, 0, 0));
    CHECK(is_outcome(mant_acknowledge(table, 16, 5, 0, one, 1, (MantAnswer){0}, sending, output, 9), 0, 0, 5, 0, 0));
    CHECK(is_outcome(mant_acknowledge(table, 16, 5, 1600, NULL, 0, (MantAnswer){0}, sending, output, 9), 0, 0, 5, 0, 0));
    CHECK(is_outcome(mant_acknowledge(table, 16, 5, 2000, command, 10, (MantAnswer){0}, sending, output, 9), 0, 0, 5, 0, 0));
    CHECK(is_outcome(mant_acknowledge(table, 16, 5, 1600, added, 10, (MantAnswer){0}, sending, output, 9), 0, 0, 5, 0, 0));
    CHECK(memcmp(output, untouched, 9) == 0);
    CHECK(mant_count_answer(&stations, NULL, 0, (MantAnswer){.taken = 1}) == 0);
    CHECK(mant_station_of(&stations, 0).station.reads == 1);
    for (unsigned i = 0; i < 2; i++) {
        CHECK(mant_hear(at_gate, NO_LISTS, command, 10, NULL, 0).delivery == 0);
    }
}

/* In one call: at the gate the command is delivered and acknowledged; elsewhere it is repeated and not acknowledged, and with a list at fault neither. The
   acknowledgement frees the record at the base; once more, with a payload, it is ignored, and its payload delivered. */
static void hearing_reliably(void)
{
    const uint8_t longer[11] = {0x09, 0x51, 0x30, 2, 0x06, 0x40, 0x03, 0xE8, 7, 0xAB, 0xCD};
    const MantNode at_gate = MANT_NODE(1600), at_base = MANT_NODE(1000), between = MANT_NODE(2000);
    const uint16_t odd[9] = {1, 0, 0, 0, 0, 0, 0, 0, 5};
    MantRetained table[MANT_RECORDS] = {0};
    uint8_t output[12], untouched[12];
    memset(output, 77, sizeof output);
    memset(untouched, 77, sizeof untouched);
    CHECK(mant_retain(table, 16, 0, 5, command, 10).place == 0);
    MantHeardReliably h = mant_hear_reliably(at_gate, NO_LISTS, table, 16, 5, command, 10, sending, output, 8);
    CHECK(h.answer.delivery == 0 && h.answer.delivered_length == 1 && is_outcome(h.outcome, MANT_SENDING_TOO_LONG, 0, 5, 0, 0));
    h = mant_hear_reliably(at_gate, odd, 9, table, 16, 5, command, 10, sending, output, 12);
    CHECK(h.answer.delivery == MANT_LIST_ODD && is_outcome(h.outcome, 0, 0, 5, 0, 0));
    CHECK(memcmp(output, untouched, 12) == 0);
    h = mant_hear_reliably(at_gate, NO_LISTS, table, 16, 5, command, 10, sending, output, 12);
    CHECK(h.answer.delivery == 0 && h.answer.repeat == MANT_FOR_THIS_NODE && h.answer.delivered_place == 9 && h.answer.delivered_length == 1);
    CHECK(is_outcome(h.outcome, 0, MANT_DEED_ACKNOWLEDGED, 5, 0, 9) && memcmp(output, acknowledgement, 9) == 0 && output[9] == 77);
    h = mant_hear_reliably(between, NO_LISTS, table, 16, 5, command, 10, sending, output, 12);
    CHECK(h.answer.delivery == 39 && h.answer.repeat == 0 && h.answer.repeated_length == 10 && is_outcome(h.outcome, 0, 0, 5, 0, 0));
    CHECK(output[2] == 0x20 && memcmp(output + 3, command + 3, 7) == 0 && output[10] == 77 && is_retained(table, 5, 0));
    memset(output, 77, sizeof output);
    h = mant_hear_reliably(between, NO_LISTS, table, 15, 5, command, 10, sending, output, 12);
    CHECK(h.answer.repeat == 0 && h.answer.repeated_length == 10 && is_outcome(h.outcome, 74, 0, 5, 0, 0));
    CHECK(output[2] == 0x20 && memcmp(output + 3, command + 3, 7) == 0 && output[10] == 77 && is_retained(table, 5, 0));
    h = mant_hear_reliably(at_base, NO_LISTS, table, 16, 5, acknowledgement, 9, (MantSending){.hop_limit = 8}, NULL, 0);
    CHECK(h.answer.delivery == 0 && is_outcome(h.outcome, 0, MANT_DEED_FREED, 5, 0, 0) && memcmp(table, &zeros, sizeof zeros) == 0);
    h = mant_hear_reliably(at_base, NO_LISTS, table, 16, 5, longer, 11, sending, NULL, 0);
    CHECK(h.answer.delivery == 0 && h.answer.delivered_place == 9 && h.answer.delivered_length == 2 && is_outcome(h.outcome, 0, 0, 5, 0, 0));
}

/* A command at the gate is acknowledged; the acknowledgement at the base frees the record, the second of two. */
static void acknowledging(void)
{
    const MantNode at_gate = MANT_NODE(1600), at_base = MANT_NODE(1000);
    const MantSending with_path = {.hop_limit = 7, .port = 15, .time_stamp_request = true, .with_path = true};
    const uint8_t pathed[10] = {0x0F, 0xF1, 0x70, 0, 0x06, 0x40, 0x03, 0xE8, 7, 0};
    MantRetained table[MANT_RECORDS] = {0};
    uint8_t other[10], output[11], untouched[11];
    memcpy(other, command, 10);
    other[8] = 8;
    memset(output, 77, sizeof output);
    memset(untouched, 77, sizeof untouched);
    CHECK(mant_retain(table, 16, 0, 5, other, 10).place == 0 && mant_retain(table, 16, 5, 5, command, 10).place == 1);
    MantAnswer a = mant_hear(at_gate, NO_LISTS, command, 10, NULL, 0);
    CHECK(is_outcome(mant_acknowledge(table, 16, 5, 1600, command, 10, a, sending, output, 8), MANT_SENDING_TOO_LONG, 0, 5, 0, 0));
    CHECK(is_outcome(mant_acknowledge(table, 16, 5, 1600, command, 10, a, with_path, output, 9), 77, 0, 5, 0, 0) && memcmp(output, untouched, 11) == 0);
    CHECK(is_outcome(mant_acknowledge(table, 16, 5, 1600, command, 10, a, with_path, output, 10), 0, 5, 5, 0, 10) && memcmp(output, pathed, 10) == 0);
    CHECK(is_outcome(mant_acknowledge(table, 16, 5, 1600, command, 10, a, sending, output, 11), 0, MANT_DEED_ACKNOWLEDGED, 5, 0, 9));
    CHECK(memcmp(output, acknowledgement, 9) == 0 && output[10] == 77 && is_retained(table + 1, 5, 0));
    a = mant_hear(node, NO_LISTS, acknowledgement, 9, output, sizeof output);
    CHECK(a.delivery == 39 && is_outcome(mant_acknowledge(table, 16, 5, 1000, acknowledgement, 9, a, sending, output, 0), 0, 0, 5, 0, 0));
    a = mant_hear(at_base, NO_LISTS, acknowledgement, 9, NULL, 0);
    CHECK(a.delivery == 0 && is_retained(table + 1, 5, 0));
    CHECK(is_outcome(mant_acknowledge(table, 16, 5, 1000, acknowledgement, 9, a, (MantSending){.hop_limit = 8}, NULL, 0), 0, MANT_DEED_FREED, 5, 1, 0));
    CHECK(memcmp(table + 1, &zeros, sizeof zeros) == 0 && table[0].length == 10);
    CHECK(is_outcome(mant_acknowledge(table, 16, 5, 1000, acknowledgement, 9, a, sending, NULL, 0), 0, 0, 5, 0, 0) && table[0].length == 10);
}

void reliable_messages(void)
{
    no_records();
    retaining();
    retrying();
    a_clock_set_back();
    with_a_struct();
    records_that_are_not_there();
    what_a_box_looks_after();
    hearing_reliably();
    acknowledging();
}
