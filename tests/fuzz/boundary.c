/* What libFuzzer runs: the first byte of an input picks a group of mant.h, the others are its arguments. Each call is compared with plain C (bench/plain),
   which is written apart. Outputs lie between guard bytes, and a refused call must leave output and lent memory as they were. */
#include "mant.h"

#include <stdlib.h>

#include "../../bench/plain.c"

enum {
    ROOM = 8192,
    GUARD = 64,
    FILL = 0xA5
};

static const uint8_t *at;
static size_t left;

#define CHECK(fact) ((fact) ? (void)0 : abort())
#define SAME(field) CHECK(one.field == other.field)

static uint8_t byte(void)
{
    return left == 0 ? 0 : (left--, *at++);
}

static uint16_t two(void)
{
    uint8_t high = byte();
    return (uint16_t)(high << 8 | byte());
}

static bool flag(void)
{
    return byte() & 1;
}

/* Mostly a small number, sometimes one of 64 bits. */
static uint64_t number(void)
{
    uint64_t small = byte(), large = 0;
    if (small < 240) {
        return small;
    }
    for (int i = 0; i < 8; i++) {
        large = large << 8 | byte();
    }
    return large;
}

/* A part of the input, in memory of exactly its size. */
static uint8_t *part(size_t *length)
{
    size_t asked = two();
    *length = asked < left ? asked : left;
    uint8_t *copied = malloc(*length + 1);
    CHECK(copied != NULL);
    memcpy(copied, at, *length);
    at += *length;
    left -= *length;
    return copied;
}

/* An output with guard bytes around it; its room is what the input asks for. */
typedef struct {
    uint8_t bytes[GUARD + ROOM + GUARD];
} Output;

static Output library, plain;

static size_t begin(void)
{
    memset(&library, FILL, sizeof library);
    memset(&plain, FILL, sizeof plain);
    return two() % (ROOM + 1);
}

#define OF_LIBRARY (library.bytes + GUARD)
#define OF_PLAIN (plain.bytes + GUARD)

/* Both outputs are the same, guard bytes included, and hold nothing new from this length on. */
static void end(size_t written)
{
    CHECK(memcmp(&library, &plain, sizeof library) == 0);
    for (size_t i = 0; i < sizeof library.bytes; i++) {
        CHECK((i >= GUARD && i < GUARD + written) || library.bytes[i] == FILL);
    }
}

static void same_answers(MantAnswer one, Answer other)
{
    SAME(delivery), SAME(repeat), SAME(has_last_sender), SAME(last_sender), SAME(delivered_place), SAME(delivered_length);
    SAME(repeated_length), SAME(taken);
}

static void same_outcomes(MantOutcome one, Outcome other)
{
    SAME(number), SAME(deed), SAME(last), SAME(place), SAME(length);
    SAME(names.source), SAME(names.destination), SAME(names.pdu_id);
}

static void reading(void)
{
    uint64_t edition = number();
    size_t length, room = begin();
    uint8_t *bytes = part(&length);
    MantHeader one = mant_read(edition, bytes, length);
    Header other = plain_read(edition, bytes, length);

    SAME(number), SAME(protocol), SAME(time_stamp_request), SAME(path_bit), SAME(has_destination), SAME(port), SAME(has_encrypted), SAME(encrypted);
    SAME(reserved), SAME(ack), SAME(added_header), SAME(hop_limit), SAME(payload_length), SAME(source), SAME(destination), SAME(pdu_id), SAME(path_count);
    SAME(has_last_sender), SAME(last_sender), SAME(header_length), SAME(pdu_length);
    MantWritten again = mant_write_again(edition, bytes, length, OF_LIBRARY, room);
    CHECK(again.number == (one.number != 0 ? one.number : room < one.pdu_length ? 14 : 0));
    if (again.number == 0) {
        memcpy(OF_PLAIN, bytes, one.pdu_length);
    }
    end(again.length);
    free(bytes);
}

static void originating(void)
{
    MantFresh fresh = {.edition = number(),
                       .source = two(),
                       .has_destination = flag(),
                       .destination = two(),
                       .hop_limit = number(),
                       .port = number(),
                       .time_stamp_request = flag(),
                       .with_path = flag(),
                       .reliable = flag(),
                       .pdu_id = byte(),
                       .encrypted = flag()};
    Fresh same = {fresh.edition,   fresh.source,   fresh.has_destination, fresh.destination, fresh.hop_limit, fresh.port, fresh.time_stamp_request,
                  fresh.with_path, fresh.reliable, fresh.pdu_id,          fresh.encrypted};
    size_t length, room = begin();
    uint8_t *payload = part(&length);
    MantWritten one = mant_originate(fresh, payload, length, OF_LIBRARY, room);
    Written other = plain_originate(same, payload, length, OF_PLAIN, room);

    SAME(number), SAME(length);
    end(one.length);
    free(payload);
}

/* A block of lists of the first words of the input. */
static uint16_t *block_of(size_t *words)
{
    size_t length;
    uint8_t *bytes = part(&length);
    uint16_t *block = malloc(length + 2);
    CHECK(block != NULL);
    *words = length / 2;
    for (size_t i = 0; i < *words; i++) {
        block[i] = (uint16_t)(bytes[2 * i] << 8 | bytes[2 * i + 1]);
    }
    free(bytes);
    return block;
}

static MantNode node_of(void)
{
    return (MantNode){.edition = number(),
                      .own = two(),
                      .echo = flag(),
                      .repeating = flag(),
                      .source_pass = byte(),
                      .source_reject = byte(),
                      .destination_pass = byte(),
                      .destination_reject = byte()};
}

static Node as_plain(MantNode node)
{
    return (Node){node.edition, node.own, node.echo, node.repeating, node.source_pass, node.source_reject, node.destination_pass, node.destination_reject};
}

/* Each PDU of a batch is heard and counted, by both. */
static void hearing(void)
{
    static Table table;
    MantStations stations = {{0}};
    MantNode node = node_of();
    size_t words, length, room = two() % (ROOM + 1), place = 0;
    uint16_t *block = block_of(&words);
    uint8_t *batch = part(&length);
    MantCursor cursor = {0, false};

    memset(&table, 0, sizeof table);
    for (;;) {
        memset(&library, FILL, sizeof library);
        MantStep step = mant_step(node, block, words, batch, length, cursor, OF_LIBRARY, room);
        if (step.kind != MANT_ANSWERED) {
            break;
        }
        memset(&plain, FILL, sizeof plain);
        Listened other = plain_hear_and_count(as_plain(node), block, words, batch + place, length - place, OF_PLAIN, room, &table);
        same_answers(step.answer, other.answer);
        end(step.answer.repeated_length);
        memset(&library, FILL, sizeof library);
        MantListened one = mant_hear_and_count(node, block, words, batch + place, length - place, OF_LIBRARY, room, &stations);
        same_answers(one.answer, other.answer);
        SAME(table_number);
        end(step.answer.repeated_length);
        cursor = step.next;
        place += step.answer.taken;
    }
    CHECK(mant_stations_held(&stations) == table.held);
    for (size_t i = 0; i < table.held; i++) {
        MantStation one = mant_station_at(&stations, i).station;
        Station other = table.stations[i];
        SAME(address), SAME(reads), SAME(echoes), SAME(has_path), SAME(shortest_path);
    }
    free(block);
    free(batch);
}

static void exchanging(void)
{
    size_t length, room = begin();
    uint8_t *bytes = part(&length);
    MantExchange one = mant_read_exchange(bytes, length);
    Exchange other = plain_read_exchange(bytes, length);

    SAME(number), SAME(header_place), SAME(header_length), SAME(payload_place), SAME(payload_length);
    MantWritten written = mant_write_exchange(bytes, length, OF_LIBRARY, room);
    Written plainly = plain_write_exchange(bytes, length, OF_PLAIN, room);
    CHECK(written.number == plainly.number && written.length == plainly.length);
    end(written.length);
    free(bytes);
}

/* A history of one queue, from empty on. */
static void queueing(void)
{
    static Ring ring;
    MantQueue queue = {{0}};
    size_t length;

    memset(&ring, 0, sizeof ring);
    while (left > 0) {
        uint8_t what = byte() % 8;
        if (what < 5) {
            uint8_t *pdu = part(&length);
            CHECK(mant_queue_add(&queue, pdu, length) == plain_queue_add(&ring, pdu, length));
            free(pdu);
        } else if (what < 7) {
            size_t room = begin();
            MantBatch one = mant_queue_take(&queue, OF_LIBRARY, room);
            Batch other = plain_queue_take(&ring, OF_PLAIN, room);
            SAME(number), SAME(pdus), SAME(bytes);
            end(one.bytes);
        } else {
            mant_queue_clear(&queue);
            plain_queue_clear(&ring);
        }
        MantLevel one = mant_queue_level(&queue);
        Level other = plain_queue_level(&ring);
        SAME(pdus), SAME(bytes);
    }
}

/* A history of the retained PDUs, from empty on. */
static void retaining(void)
{
    static Retained table[MANT_RECORDS];
    MantReliable reliable = {0};
    uint64_t last = 0;
    size_t length;

    memset(table, 0, sizeof table);
    while (left > 0) {
        uint8_t what = byte() % 4;
        uint64_t time = reliable.last + number();
        size_t room = begin();
        if (what < 2) {
            uint8_t *pdu = part(&length);
            MantOutcome one = mant_reliable_retain(&reliable, time, pdu, length);
            Outcome other = plain_retain(table, MANT_RECORDS, last, time, pdu, length);
            same_outcomes(one, other);
            last = other.last;
            free(pdu);
        } else if (what < 3) {
            uint64_t delay = number(), tries = number();
            MantOutcome one = mant_reliable_retry(&reliable, time, delay, tries, OF_LIBRARY, room);
            Outcome other = plain_retry(table, MANT_RECORDS, last, time, delay, tries, OF_PLAIN, room);
            same_outcomes(one, other);
            last = other.last;
            end(one.length);
        } else {
            MantNode node = node_of();
            MantSending sending = {.hop_limit = number(), .port = number(), .time_stamp_request = flag(), .with_path = flag()};
            Sending same = {sending.hop_limit, sending.port, sending.time_stamp_request, sending.with_path};
            uint8_t *received = part(&length);
            MantAnswer answer = mant_hear(node, NULL, 0, received, length, NULL, 0);
            Answer plainly = plain_hear(as_plain(node), (const uint16_t[8]){0}, 0, received, length, NULL, 0);
            same_answers(answer, plainly);
            MantOutcome one = mant_reliable_acknowledge(&reliable, node.own, received, length, answer, sending, OF_LIBRARY, room);
            Outcome other = plain_acknowledge(table, MANT_RECORDS, last, node.own, received, length, plainly, same, OF_PLAIN, room);
            same_outcomes(one, other);
            end(one.length);
            free(received);
        }
    }
}

/* A PDU is sealed and what comes out is opened, and other bytes are opened under the same key. */
static void sealing(void)
{
    MantKey key = {{0}};
    Key same = {{0}};
    MantSources sources = {{0}};
    uint32_t record[129] = {0};
    uint64_t message = number();
    size_t length, room;

    for (size_t i = 0; i < sizeof key.bytes; i++) {
        key.bytes[i] = same.bytes[i] = byte();
    }
    room = begin();
    uint8_t *pdu = part(&length);
    MantWritten one = mant_seal(key, message, pdu, length, OF_LIBRARY, room);
    Written other = plain_seal(same, message, pdu, length, OF_PLAIN, room);
    SAME(number), SAME(length);
    end(one.length);
    free(pdu);
    length = one.length;
    uint8_t *sealed = length != 0 && flag() ? memcpy(malloc(length), OF_LIBRARY, length) : part(&length);
    for (int i = 0; i < 2; i++) {
        room = begin();
        one = mant_open(key, &sources, sealed, length, OF_LIBRARY, room);
        other = plain_open(same, record, 129, sealed, length, OF_PLAIN, room);
        SAME(number), SAME(length);
        CHECK(memcmp(&sources, record, sizeof record) == 0);
        end(one.length);
    }
    free(sealed);
}

/* Arbitrary memory in the place of what a box keeps: a result for every call, the same twice, and with a refusal nothing changes. */
static void arbitrary(void)
{
    union {
        MantStations stations;
        MantQueue queue;
        MantReliable reliable;
        MantSources sources;
        uint8_t bytes[sizeof(MantReliable)];
    } memory, before, again;
    uint8_t what = byte() % 4, first = 0, second = 0;
    size_t length, room = begin();
    uint8_t *bytes = part(&length);

    for (size_t i = 0; i < sizeof memory; i++) {
        memory.bytes[i] = left > 0 ? byte() : 0;
    }
    before = again = memory;
    if (what == 0) {
        MantHeader header = mant_read(MANT_EDITION_1_2, bytes, length);
        MantHeard heard = {header.source, flag(), header.path_bit, header.path_count};
        first = mant_count_heard(&memory.stations, heard);
        second = mant_count_heard(&again.stations, heard);
        CHECK(first == 0 || first == MANT_TABLE_FULL);
    } else if (what == 1) {
        first = mant_queue_add(&memory.queue, bytes, length);
        second = mant_queue_add(&again.queue, bytes, length);
    } else if (what == 2) {
        first = mant_queue_take(&memory.queue, OF_LIBRARY, room).number;
        second = mant_queue_take(&again.queue, OF_PLAIN, room).number;
        end(first == 0 ? room : 0);
    } else {
        first = mant_retry(memory.reliable.records, MANT_RECORDS, 0, room, length, 3, OF_LIBRARY, room).number;
        second = mant_retry(again.reliable.records, MANT_RECORDS, 0, room, length, 3, OF_PLAIN, room).number;
        end(first == 0 ? room : 0);
    }
    CHECK(first == second && memcmp(&memory, &again, sizeof memory) == 0);
    CHECK(first == 0 || memcmp(&memory, &before, sizeof memory) == 0);
    free(bytes);
}

int LLVMFuzzerTestOneInput(const uint8_t *data, size_t size)
{
    static void (*const groups[])(void) = {reading, originating, hearing, exchanging, queueing, retaining, sealing, arbitrary};

    at = data;
    left = size;
    groups[byte() % (sizeof groups / sizeof groups[0])]();
    return 0;
}
