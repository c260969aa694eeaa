#include "boundary.h"

static void bounds_and_limits(void)
{
    MantLimits l = mant_limits();
    MantBound b = mant_most_transmissions(3, 2);
    CHECK(b.number == 0 && !b.too_large && b.value == 10);
    CHECK(mant_most_transmissions(3, 7).value == 16 && mant_most_transmissions(0, 7).value == 1);
    CHECK(mant_most_transmissions(3, 8).number == MANT_HOP_LIMIT_ABOVE_7 && mant_most_bytes(3, 263, 1).number == 10);
    CHECK(mant_most_transmissions(UINT64_MAX, 2).too_large && mant_most_bytes(3, 1, 10).value == 46);
    CHECK(mant_most_for_command(0, 3, 3, 3, 3).value == 272 && mant_most_for_command(2, 1, 1, 0, 7).value == 12);
    CHECK(mant_most_for_command(0, 1, 8, 1, 7).number == MANT_HOP_LIMIT_ABOVE_7 && mant_most_for_command(0, 1, 7, 1, 8).number == 10);
    CHECK(mant_most_for_command(UINT64_MAX, 0, 0, 0, 0).too_large && mant_most_for_command(UINT64_MAX - 1, 0, 0, 0, 0).too_large);
    CHECK(l.fixed == MANT_FIXED_LENGTH && l.payload == MANT_PAYLOAD_LIMIT && l.path == MANT_PATH_LIMIT && l.header == MANT_HEADER_LIMIT);
    CHECK(l.pdu == MANT_PDU_LIMIT && l.list == MANT_LIST_LIMIT && l.batch == MANT_BATCH_LIMIT);
}

/* The gauge 0 is heard by 1 and 4; 4 by 3, and 1 by 2, which 3 hears too; 3 is heard by 5, a base station that does not repeat, and 5 by 6. */
static const uint8_t pairs[] = {0, 1, 0, 4, 1, 2, 2, 3, 4, 3, 3, 5, 5, 6};
static uint8_t table[MANT_AIRTIME_TABLE];

static void chains(void)
{
    const uint8_t marks[7] = {0, 0, 0, 0, 0, 1, 0}, all[7] = {0}, some[7] = {1, 0, 0, 0, 1, 0, 0};
    const uint8_t wanted[7] = {0, 1, 2, 2, 1, 3, 255}, repeating[7] = {0, 1, 2, 2, 1, 3, 4}, around[7] = {0, 1, 2, 3, 255, 4, 255};
    const uint8_t listed[7] = {0, 1, 2, 3, 1, 4, 5};
    uint8_t lengths[7], kept[7] = {9, 9, 9, 9, 9, 9, 9}, many[256] = {0};
    CHECK(mant_chain_lengths(pairs, sizeof pairs, marks, 7, 0, MANT_NO_NODE, lengths, 7) && memcmp(lengths, wanted, 7) == 0);
    CHECK(mant_least_hop_limit(lengths, 7) == MANT_NO_HOP_LIMIT && mant_least_hop_limit(lengths, 6) == 2 && mant_least_hop_limit(lengths, 0) == 0);
    CHECK(mant_chain_lengths(pairs, sizeof pairs, all, 7, 0, MANT_NO_NODE, lengths, 7) && memcmp(lengths, repeating, 7) == 0);
    CHECK(mant_least_hop_limit(lengths, 7) == 3);
    CHECK(mant_chain_lengths(pairs, sizeof pairs, marks, 7, 0, 4, lengths, 7) && memcmp(lengths, around, 7) == 0);
    CHECK(mant_chain_lengths(pairs, sizeof pairs, some, 7, 0, SIZE_MAX, lengths, 7) && memcmp(lengths, listed, 7) == 0);
    CHECK(mant_chain_lengths(pairs, sizeof pairs, all, 7, 0, 0, lengths, 7) && lengths[0] == 0 && lengths[1] == MANT_NO_CHAIN);
    CHECK(!mant_chain_lengths(pairs, sizeof pairs, all, 7, 7, 0, kept, 7) && !mant_chain_lengths(pairs, sizeof pairs, all, 7, 0, 0, kept, 6));
    CHECK(!mant_chain_lengths(pairs, sizeof pairs, NULL, 0, 0, 0, NULL, 0) && !mant_chain_lengths(NULL, 0, many, 256, 0, 0, many, 256) && kept[6] == 9);
    CHECK(mant_chain_lengths(NULL, 0, all, 1, 0, MANT_NO_NODE, lengths, 1) && lengths[0] == 0);
}

/* How often it goes out: by the paths none, 1, 12, 123, 4 and 43, and at hop limit 2 by those of at most two. */
static void counts_on_a_network(void)
{
    const uint64_t each[7] = {1, 1, 1, 2, 1, 0, 0}, size_each[7] = {20, 22, 24, 50, 22, 0, 0}, untouched[7] = {5, 5, 5, 5, 5, 5, 5}, none[7] = {0};
    const uint8_t as_before[7] = {0, 0, 0, 0, 0, 1, 0};
    uint8_t marks[7] = {0, 0, 0, 0, 0, 1, 0};
    uint64_t counts[7];
    memset(table, 7, sizeof table);
    MantAirtime air = mant_network_transmissions(pairs, sizeof pairs, 0, 7, 7, marks, 7, counts, 7, table, sizeof table);
    CHECK(air.number == 0 && air.served && !air.enough && air.value == 6 && memcmp(counts, each, sizeof each) == 0);
    CHECK(memcmp(marks, as_before, 7) == 0 && table[0] == 0 && table[sizeof table - 1] == 0);
    CHECK(mant_network_transmissions(pairs, sizeof pairs, 0, 2, 7, marks, 7, counts, 7, table, 7 * 256).value == 5 && counts[3] == 1);
    CHECK(mant_network_transmissions(pairs, sizeof pairs, 0, 0, 7, marks, 7, counts, 7, table, 7 * 256).value == 1 && counts[1] == 0);
    air = mant_network_bytes(pairs, sizeof pairs, 0, 7, 20, 1000, marks, 7, counts, 7, table, sizeof table);
    CHECK(air.served && !air.enough && air.value == 138 && memcmp(counts, size_each, sizeof size_each) == 0);
    air = mant_network_transmissions(pairs, sizeof pairs, 0, 7, 6, marks, 7, counts, 7, table, sizeof table);
    CHECK(air.number == 0 && air.served && air.enough && air.value == 0 && memcmp(counts, none, sizeof none) == 0);
    memcpy(counts, untouched, sizeof counts);
    air = mant_network_transmissions(pairs, sizeof pairs, 0, 8, 7, marks, 7, counts, 7, table, sizeof table);
    CHECK(air.number == MANT_HOP_LIMIT_ABOVE_7 && !air.served && !air.enough && air.value == 0);
    CHECK(!mant_network_bytes(pairs, sizeof pairs, 7, 7, 20, 7, marks, 7, counts, 7, table, sizeof table).served);
    CHECK(!mant_network_bytes(pairs, sizeof pairs, 0, 7, 20, 7, marks, 7, counts, 6, table, sizeof table).served);
    CHECK(!mant_network_transmissions(pairs, sizeof pairs, 0, 7, 7, marks, 7, counts, 7, table, 7 * 256 - 1).served);
    CHECK(mant_network_bytes(pairs, sizeof pairs, 0, 263, 20, 7, marks, 7, counts, 7, table, sizeof table).number == 10);
    CHECK(memcmp(counts, untouched, sizeof counts) == 0 && memcmp(marks, as_before, 7) == 0);
}

/* Sizes that do not fit 16 bits, also where the low 16 bits are a size that is served: not served, and nothing is written. The largest that is served. */
static void sizes_on_a_network(void)
{
    const uint64_t sizes[] = {65536, 65536 + 20, 4294967296 + 7, UINT64_MAX}, untouched[7] = {5, 5, 5, 5, 5, 5, 5};
    const uint8_t as_before[7] = {0, 0, 0, 0, 0, 1, 0};
    uint8_t marks[7] = {0, 0, 0, 0, 0, 1, 0};
    uint64_t counts[7];
    memcpy(counts, untouched, sizeof counts);
    memset(table, 7, sizeof table);
    for (size_t i = 0; i < sizeof sizes / sizeof *sizes; i++) {
        MantAirtime air = mant_network_bytes(pairs, sizeof pairs, 0, 7, sizes[i], 1000, marks, 7, counts, 7, table, sizeof table);
        CHECK(air.number == 0 && !air.served && !air.enough && air.value == 0);
        air = mant_network_bytes(pairs, sizeof pairs, 0, 8, sizes[i], 1000, marks, 7, counts, 7, table, sizeof table);
        CHECK(air.number == MANT_HOP_LIMIT_ABOVE_7 && !air.served && !air.enough && air.value == 0);
        CHECK(memcmp(counts, untouched, sizeof counts) == 0 && memcmp(marks, as_before, 7) == 0 && table[0] == 7 && table[sizeof table - 1] == 7);
    }
    MantAirtime air = mant_network_bytes(pairs, sizeof pairs, 0, 7, 65535, 1000000, marks, 7, counts, 7, table, sizeof table);
    CHECK(air.served && !air.enough && air.value == 6 * 65535 + 18 && counts[0] == 65535 && table[0] == 0);
}

/* Where every node hears every other, as often as at most among as many repeaters; and a line of 255 at hop limit 7 once from each. */
static void worst_and_longest(void)
{
    static uint8_t everyone[5 * 4 * 2], line[254 * 2], marks[MANT_NODE_LIMIT], lengths[MANT_NODE_LIMIT];
    uint64_t counts[MANT_NODE_LIMIT];
    size_t end = 0;
    for (uint8_t sender = 0; sender < 5; sender++) {
        for (uint8_t node = 0; node < 5; node++) {
            if (node != sender) {
                everyone[end++] = sender;
                everyone[end++] = node;
            }
        }
    }
    for (uint64_t hop = 0; hop <= 7; hop++) {
        MantAirtime air = mant_network_transmissions(everyone, end, 2, hop, 1000, marks, 5, counts, 5, table, sizeof table);
        CHECK(air.value == mant_most_transmissions(4, hop).value && counts[2] == 1);
        air = mant_network_bytes(everyone, end, 2, hop, 20, 10000, marks, 5, counts, 5, table, sizeof table);
        CHECK(air.value == mant_most_bytes(4, hop, 20).value);
    }
    for (size_t i = 0; i < 254; i++) {
        line[2 * i] = (uint8_t)i;
        line[2 * i + 1] = (uint8_t)(i + 1);
    }
    CHECK(mant_network_transmissions(line, sizeof line, 0, 7, 1000, marks, 255, counts, 255, table, sizeof table).value == 255 && counts[254] == 1);
    CHECK(mant_network_transmissions(line, sizeof line, 0, 6, 1000, marks, 255, counts, 255, table, sizeof table).value == 7 && counts[7] == 0);
    CHECK(mant_chain_lengths(line, sizeof line, marks, 255, 0, MANT_NO_NODE, lengths, 255) && lengths[254] == 254);
    CHECK(mant_least_hop_limit(lengths, 255) == 7);
}

void planning(void)
{
    bounds_and_limits();
    chains();
    counts_on_a_network();
    sizes_on_a_network();
    worst_and_longest();
}
