/* How deep each call goes on the stack. Before a call the stack below it is painted, after it the lowest byte that has lost its paint is looked for; what
   lies between that and the caller's stack pointer is the call's, its return address and what the C library's functions take included. From the
   repository's root, after tools/build staticlib mant:

       gcc -std=c11 -O2 -Wall -Wextra -pedantic tests/stack.c -Iinclude target/staticlib/libmant.a -o /tmp/stack && LD_BIND_NOW=1 /tmp/stack

   prints the bytes of each function, the most of the calls tried, and its limit, and fails where they are more than that. mant_lay_eight is called through
   mant_lay_lists, and what that takes is counted too. tools/stack holds include/mant.h and docs/PERFORMANCE.md to what it prints. On another processor there
   is no limit; tools/firmware holds docs/firmware.md to what it prints there. */
#include <stdio.h>
#include <string.h>

#include "mant.h"

#define LIMIT 640
#define PAINTED 65536
#if defined(__x86_64__)
#define STACK_POINTER(kept) __asm__ volatile("mov %%rsp, %0" : "=m"(kept))
#elif defined(__riscv)
#define STACK_POINTER(kept) __asm__ volatile("mv %0, sp" : "=r"(kept))
#elif defined(__wasm__)
#define STACK_POINTER(kept) __asm__ volatile("global.get __stack_pointer\n local.set %0" : "=r"(kept))
#else
#define STACK_POINTER(kept) __asm__ volatile("mov %0, sp" : "=r"(kept))
#endif
#define EDITION MANT_EDITION_1_2
#define NO_LISTS NULL, 0
/* clang-format off */
#define TWO {{list, MANT_LIST_LIMIT}, {list, MANT_LIST_LIMIT}}
/* clang-format on */
#define LISTS lists.words, MANT_LIST_WORDS
#define LENT pdu, sizeof pdu, output, sizeof output
#define PDU_LENGTH 4613
#define PLAIN_LENGTH (MANT_PAYLOAD_LIMIT - MANT_SEAL_LENGTH)
#define TABLE records, MANT_RECORDS, 160
#define NETWORK(hop_limit) line, sizeof line, 0, hop_limit
#define COUNTED marks, MANT_NODE_LIMIT, counts, MANT_NODE_LIMIT, air, sizeof air

static const MantNode node = MANT_NODE(2000);
static const MantNode gate = MANT_NODE(1600);
static const MantNode listing = {EDITION, 2000, true, true, MANT_FIRST_LIST, MANT_NO_LIST, MANT_SECOND_LIST, MANT_NO_LIST};
static const MantFresh fresh = {
    .edition = EDITION, .source = 1000, .has_destination = true, .destination = 1600, .hop_limit = 1, .with_path = true, .reliable = true};
static const uint8_t shortest[6] = {0, 0, 0, 0, 0, 5};
static const uint8_t deep[12] = {20, 8, 10, 6, 11, 4, 20, 2, 0, 9, 0, 9};
static const uint8_t acknowledgement[9] = {0x09, 0x01, 0x30, 0, 0x06, 0x40, 0x03, 0xE8, 100};
static const uint8_t short_command[9] = {0x09, 0, 0x30, 0, 0x03, 0xE8, 0x06, 0x40, 99};
static const MantAnswer delivered = {.taken = 9};
static const MantSending sending = {.hop_limit = 7, .port = 15, .with_path = true};
static const MantHeard heard = {.source = 1000, .path_bit = true};
static const MantCursor start = {0, false};
static uint16_t list[MANT_LIST_LIMIT];
static MantStations table;
static const MantLists wanted = {TWO, TWO, TWO, TWO};
static MantListBlock lists;
static uint8_t pdu[MANT_PDU_LIMIT], output[MANT_PDU_LIMIT + 2], exchange[MANT_EXCHANGE_LIMIT];
static MantQueue queue, late = {{0, 2, 0, 12, 1, 254}}; /* two PDUs of zeros, the oldest at place 510: once it is taken, the other is moved to the front */
static uint8_t command[MANT_RETAINED_LIMIT] = {0x09, 0, 0x30, 0xF7, 0x03, 0xE8, 0x06, 0x40, 7};
static MantRetained records[MANT_RECORDS];
static MantAnswer answer;
static const MantKey key = {"keep me secret!"};
static uint8_t plain[6 + PLAIN_LENGTH] = {0, 0, 0x0F, 0xF8, 0x03, 0xE8}, sealed[6 + MANT_PAYLOAD_LIMIT];
static MantSources record;
static uint8_t line[2 * (MANT_NODE_LIMIT - 1)], marks[MANT_NODE_LIMIT], lengths[MANT_NODE_LIMIT], air[MANT_AIRTIME_TABLE];
static uint64_t counts[MANT_NODE_LIMIT];
static volatile uintptr_t top;
static bool meant = true;

/* A call that keeps the stack pointer from which it is made, and whether the answer is the one meant, so that the long way was gone. */
#define CALL(name, fact) \
    static void name(void) \
    { \
        STACK_POINTER(top); \
        meant = (fact) && meant; \
    }

CALL(read_call, mant_read(EDITION, pdu, sizeof pdu).path_count == 254)
CALL(path_address_call, mant_path_address(pdu, sizeof pdu, 253) == 1799)
CALL(path_has_call, !mant_path_has(pdu, sizeof pdu, 1))
CALL(write_again_call, mant_write_again(EDITION, LENT).length == PDU_LENGTH)
CALL(originate_call, mant_originate(fresh, pdu, MANT_PAYLOAD_LIMIT, output, sizeof output).length == 4105)
CALL(originate_short_call, mant_originate(fresh, pdu, 9, output, sizeof output).length == 19)
CALL(change_over_call, mant_change_over(node, MANT_SECOND_LIST).destination_reject == MANT_SECOND_LIST)
CALL(lay_call, mant_lay_lists(&lists, &wanted).list == MANT_LIST_VALUES)
CALL(lay_none_call, mant_lay_lists(&lists, NULL).number == 0)
CALL(list_fault_call, mant_list_fault(LISTS).number == 0)
CALL(list_holds_call, !mant_list_holds(list, MANT_LIST_LIMIT, 1))
CALL(hear_cut_call, mant_hear(node, NO_LISTS, pdu, 20, output, sizeof output).repeat == MANT_HEADER_CUT)
CALL(hear_call, mant_hear(node, NO_LISTS, LENT).repeated_length == MANT_PDU_LIMIT)
CALL(hear_listed_call, (answer = mant_hear(listing, LISTS, LENT)).repeated_length == MANT_PDU_LIMIT)
CALL(step_call, mant_step(node, NO_LISTS, pdu, sizeof pdu, start, output, sizeof output).answer.repeat == 0)
CALL(step_listed_call, mant_step(listing, LISTS, pdu, sizeof pdu, start, output, sizeof output).answer.repeat == 0)
CALL(chain_lengths_call, mant_chain_lengths(line, sizeof line, marks, MANT_NODE_LIMIT, 0, MANT_NO_NODE, lengths, MANT_NODE_LIMIT))
CALL(least_hop_limit_call, mant_least_hop_limit(lengths, MANT_NODE_LIMIT) == 7)
CALL(network_transmissions_call, mant_network_transmissions(NETWORK(7), 1000, COUNTED).value == MANT_NODE_LIMIT)
CALL(network_bytes_call, mant_network_bytes(NETWORK(7), 20, 1000000, COUNTED).value == 69870)
CALL(most_transmissions_call, mant_most_transmissions(8, 7).value == 109601)
CALL(most_bytes_call, mant_most_bytes(3, 1, 10).value == 46)
CALL(most_for_command_call, mant_most_for_command(3, 8, 3, 8, 3).value == 4 * 401 * 402)
CALL(limits_call, mant_limits().pdu == MANT_PDU_LIMIT)
CALL(held_call, mant_stations_held(&table) == 0)
CALL(count_heard_call, mant_count_heard(&table, heard) == 0)
CALL(count_answer_call, mant_count_answer(&table, pdu, sizeof pdu, answer) == 0)
CALL(hear_and_count_call, mant_hear_and_count(node, NO_LISTS, LENT, &table).answer.repeat == 0)
CALL(hear_and_count_listed_call, mant_hear_and_count(listing, LISTS, LENT, &table).answer.repeat == 0)
CALL(station_at_call, mant_station_at(&table, 0).station.reads == 4)
CALL(station_of_call, mant_station_of(&table, 1000).station.reads == 4)
CALL(remove_station_call, mant_remove_station(&table, 1000) == 0)
CALL(write_exchange_call, mant_write_exchange(pdu, sizeof pdu, exchange, sizeof exchange).length == MANT_EXCHANGE_LIMIT - 2)
CALL(read_exchange_call, mant_read_exchange(exchange, MANT_EXCHANGE_LIMIT - 2).payload_length == MANT_PAYLOAD_LIMIT)
CALL(element_at_call, mant_element_at(exchange, MANT_EXCHANGE_LIMIT - 2, 0).end == MANT_EXCHANGE_LIMIT - 2)
CALL(element_cut_call, mant_element_at(exchange, 1, 0).number == MANT_ELEMENT_CUT)
CALL(read_deep_exchange_call, mant_read_exchange(deep, sizeof deep).number == MANT_ELEMENT_TOO_DEEP)
CALL(retain_call, mant_retain(records, MANT_RECORDS, 0, 100, command, sizeof command).place == MANT_RECORDS - 1)
CALL(retain_full_call, mant_retain(records, MANT_RECORDS, 100, 100, short_command, sizeof short_command).number == MANT_RECORDS_IN_USE)
CALL(retry_idle_call, mant_retry(records, MANT_RECORDS, 100, 129, 30, 1, output, sizeof output).deed == MANT_DEED_NONE)
CALL(retry_call, mant_retry(records, MANT_RECORDS, 129, 130, 30, 1, output, sizeof output).deed == MANT_DEED_SENT_AGAIN)
CALL(retry_failed_call, mant_retry(records, MANT_RECORDS, 130, 160, 30, 0, output, sizeof output).deed == MANT_DEED_FAILED)
CALL(acknowledge_call, mant_acknowledge(TABLE, 1600, short_command, sizeof short_command, delivered, sending, output, 10).length == 10)
CALL(acknowledge_freed_call, mant_acknowledge(TABLE, 1000, acknowledgement, sizeof acknowledgement, delivered, sending, output, 0).deed == MANT_DEED_FREED)
CALL(hear_reliably_call, mant_hear_reliably(node, NO_LISTS, TABLE, pdu, sizeof pdu, sending, output, sizeof output).answer.repeat == 0)
CALL(hear_reliably_listed_call, mant_hear_reliably(listing, LISTS, TABLE, pdu, sizeof pdu, sending, output, sizeof output).answer.repeat == 0)
CALL(hear_reliably_answered_call, mant_hear_reliably(gate, NO_LISTS, TABLE, short_command, sizeof short_command, sending, output, 10).outcome.length == 10)
CALL(queue_full_call, mant_queue_add(&queue, pdu, PDU_LENGTH) == MANT_QUEUE_FULL)
CALL(queue_add_call, mant_queue_add(&queue, shortest, sizeof shortest) == 0)
CALL(queue_level_call, mant_queue_level(&queue).pdus == 2)
CALL(queue_too_long_call, mant_queue_take(&queue, output, 5).number == MANT_OLDEST_TOO_LONG)
CALL(queue_take_call, mant_queue_take(&queue, output, 6).pdus == 1)
CALL(queue_move_call, mant_queue_take(&late, output, 6).pdus == 1 && late.bytes[3] == 6 && late.bytes[4] == 0 && late.bytes[5] == 0)
CALL(queue_clear_call, (mant_queue_clear(&queue), queue.bytes[1] == 0))
CALL(seal_call, mant_seal(key, 850, plain, sizeof plain, sealed, sizeof sealed).length == sizeof sealed)
CALL(seal_short_call, mant_seal(key, 850, plain, sizeof plain, sealed, 99).number == MANT_NO_ROOM_FOR_PAYLOAD)
CALL(open_short_call, mant_open(key, &record, sealed, sizeof sealed, output, 99).number == MANT_NO_ROOM_FOR_PAYLOAD)
CALL(open_call, mant_open(key, &record, sealed, sizeof sealed, output, sizeof output).length == PLAIN_LENGTH)
CALL(open_again_call, mant_open(key, &record, sealed, sizeof sealed, output, sizeof output).number == MANT_NUMBER_NOT_GREATER)
CALL(message_number_call, mant_message_number(sealed, sizeof sealed).message == 850)
CALL(remove_source_call, mant_remove_source(&record, (uint16_t)record.words[1]))

/* Each function, and calls of it: the longest way, and others that may be deeper. */
static const struct {
    const char *name;
    void (*calls[3])(void);
} functions[] = {
    {"mant_read", {read_call}},
    {"mant_path_address", {path_address_call}},
    {"mant_path_has", {path_has_call}},
    {"mant_write_again", {write_again_call}},
    {"mant_originate", {originate_call, originate_short_call}},
    {"mant_change_over", {change_over_call}},
    {"mant_lay_eight", {lay_none_call, lay_call}},
    {"mant_list_fault", {list_fault_call}},
    {"mant_list_holds", {list_holds_call}},
    {"mant_hear", {hear_cut_call, hear_call, hear_listed_call}},
    {"mant_step", {step_call, step_listed_call}},
    {"mant_stations_held", {held_call}},
    {"mant_count_heard", {count_heard_call}},
    {"mant_count_answer", {count_answer_call}},
    {"mant_hear_and_count", {hear_and_count_call, hear_and_count_listed_call}},
    {"mant_station_at", {station_at_call}},
    {"mant_station_of", {station_of_call}},
    {"mant_remove_station", {remove_station_call}},
    {"mant_write_exchange", {write_exchange_call}},
    {"mant_read_exchange", {read_exchange_call, read_deep_exchange_call}},
    {"mant_element_at", {element_at_call, element_cut_call}},
    {"mant_retain", {retain_call, retain_full_call}},
    {"mant_retry", {retry_idle_call, retry_call, retry_failed_call}},
    {"mant_acknowledge", {acknowledge_call, acknowledge_freed_call}},
    {"mant_hear_reliably", {hear_reliably_call, hear_reliably_listed_call, hear_reliably_answered_call}},
    {"mant_queue_add", {queue_full_call, queue_add_call, queue_add_call}},
    {"mant_queue_level", {queue_level_call}},
    {"mant_queue_take", {queue_too_long_call, queue_take_call, queue_move_call}},
    {"mant_queue_clear", {queue_clear_call}},
    {"mant_seal", {seal_short_call, seal_call}},
    {"mant_open", {open_short_call, open_call, open_again_call}},
    {"mant_message_number", {message_number_call}},
    {"mant_remove_source", {remove_source_call}},
    {"mant_chain_lengths", {chain_lengths_call}},
    {"mant_least_hop_limit", {least_hop_limit_call}},
    {"mant_network_transmissions", {network_transmissions_call}},
    {"mant_network_bytes", {network_bytes_call}},
    {"mant_most_transmissions", {most_transmissions_call}},
    {"mant_most_bytes", {most_bytes_call}},
    {"mant_most_for_command", {most_for_command_call}},
    {"mant_limits", {limits_call}},
};

/* Limits of their own; those that retain, send again or free have a record on the stack, those that seal and open the round keys, and those that count on a
   network go down once for each node of a path. */
static const struct {
    const char *name;
    size_t bytes;
} limits[] = {
    {"mant_hear", 416},
    {"mant_retain", 768},
    {"mant_retry", 768},
    {"mant_hear_reliably", 768},
    {"mant_acknowledge", 768},
    {"mant_seal", 1536},
    {"mant_open", 1536},
    {"mant_network_transmissions", 49152},
    {"mant_network_bytes", 49152},
};

static size_t limit_of(const char *name)
{
#ifndef __x86_64__
    return (void)name, PAINTED;
#endif
    for (size_t i = 0; i < sizeof limits / sizeof limits[0]; i++) {
        if (strcmp(name, limits[i].name) == 0) {
            return limits[i].bytes;
        }
    }
    return LIMIT;
}

/* The bytes that a call takes below the stack pointer from which it is made, in whole words. */
static size_t depth_of(void (*call)(void))
{
    volatile uint8_t *own;
    STACK_POINTER(own);
    for (size_t i = 1; i <= PAINTED; i++) {
        own[-(ptrdiff_t)i] = 0xA5;
    }
    call();
    volatile uint8_t *low = own - PAINTED;
    while (*low == 0xA5) {
        low++;
    }
    return (uintptr_t)low < top ? (size_t)(top - (uintptr_t)low + 7) / 8 * 8 : 0; /* a leaf may keep all in registers */
}

/* A PDU of every part: reliable, for another node, a path of 254 addresses, the longest payload. It is delivered to none and repeated. */
static void fill(void)
{
    const uint8_t header[10] = {0x0B, 0, 0x1F, 0xFF, 0x03, 0xE8, 0x06, 0x40, 0, 254};
    memset(pdu, 7, sizeof pdu);
    memcpy(pdu, header, sizeof header);
    for (size_t i = 0; i < MANT_LIST_LIMIT; i++) {
        list[i] = i % 2 == 0 ? 1000 : 1600;
    }
}

/* A table of retained PDUs whose last record is free and whose others are not due. */
static void fill_records(void)
{
    for (size_t i = 0; i < MANT_RECORDS - 1; i++) {
        memcpy(records[i].pdu, command, sizeof command);
        records[i].length = sizeof command;
        records[i].sent_at = 1000;
        records[i].pdu[8] = (uint8_t)(100 + i);
    }
}

/* A network of as many nodes as there can be, in a line, so that a path has all of them. */
static void fill_line(void)
{
    for (size_t i = 0; i < MANT_NODE_LIMIT - 1; i++) {
        line[2 * i] = (uint8_t)i;
        line[2 * i + 1] = (uint8_t)(i + 1);
    }
}

int main(void)
{
    int status = 0;
    fill();
    fill_line();
    fill_records();
    for (size_t i = 0; i < sizeof functions / sizeof functions[0]; i++) {
        size_t most = 0;
        for (size_t k = 0; k < 3 && functions[i].calls[k] != NULL; k++) {
            size_t depth = depth_of(functions[i].calls[k]);
            most = depth > most ? depth : most;
        }
        size_t limit = limit_of(functions[i].name);
        status = most > limit ? 1 : status;
        printf("%s %u of %u%s\n", functions[i].name, (unsigned)most, (unsigned)limit, most > limit ? ", too many" : "");
    }
    if (!meant) {
        printf("a call did not go the long way\n");
        status = 1;
    }
    return status;
}
