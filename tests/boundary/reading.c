#include "boundary.h"

static void null_bytes(void)
{
    CHECK(mant_read(EDITION, NULL, 0).number == MANT_TOO_SHORT);
    CHECK(mant_path_address(NULL, 0, 0) == 0);
    CHECK(!mant_path_has(NULL, 0, 0));
    CHECK(mant_write_again(EDITION, NULL, 0, NULL, 0).number == MANT_TOO_SHORT);
    CHECK(mant_write_again(EDITION, example, 20, NULL, 0).number == MANT_OUTPUT_TOO_SHORT);
}

static void reading_and_writing(void)
{
    const uint8_t every[15] = {0x0F, 0xBF, 0xF0, 0x01, 1, 2, 3, 4, 5, 2, 6, 7, 8, 9, 10};
    uint8_t output[16];
    MantHeader h = mant_read(EDITION, every, 15);
    CHECK(h.number == 0 && h.protocol == 1 && h.time_stamp_request && h.path_bit && h.has_destination && h.port == 11);
    CHECK(h.has_encrypted && h.encrypted && h.reserved == 3 && h.ack && h.added_header && h.hop_limit == 7 && h.payload_length == 1);
    CHECK(h.source == 258 && h.destination == 772 && h.pdu_id == 5 && h.path_count == 2 && h.header_length == 14 && h.pdu_length == 15);
    CHECK(h.has_last_sender && h.last_sender == 2057);
    CHECK(mant_path_address(every, 15, 1) == 2057 && mant_path_address(every, 15, 2) == 0);
    CHECK(mant_path_has(every, 15, 1543) && !mant_path_has(every, 15, 2570));
    memset(output, 77, 16);
    MantWritten w = mant_write_again(EDITION, every, 15, output, 16);
    CHECK(w.number == 0 && w.length == 15 && memcmp(output, every, 15) == 0 && output[15] == 77);
    h = mant_read(EDITION, every, 14);
    CHECK(h.number == MANT_PAYLOAD_CUT && h.protocol == 0 && !h.path_bit && !h.has_destination && h.port == 0);
    CHECK(h.source == 0 && h.destination == 0 && h.path_count == 0 && h.header_length == 0 && h.pdu_length == 0);
    CHECK(!h.has_last_sender && h.last_sender == 0);
}

/* The last sender: a path's last address, the source of an empty path, unknown without one; address 0 is known where it is the one. */
static void last_senders(void)
{
    const uint8_t fresh[7] = {0x02, 0, 0, 0, 0x03, 0xE8, 0};
    const uint8_t from_zero[7] = {0x02, 0, 0, 0, 0, 0, 0};
    const uint8_t by_zero[11] = {0x02, 0, 0, 0, 0x03, 0xE8, 2, 0x07, 0xD0, 0, 0};
    const uint8_t without[6] = {0, 0, 0, 0, 0x03, 0xE8};
    MantHeader h = mant_read(EDITION, fresh, 7);
    CHECK(h.has_last_sender && h.last_sender == 1000);
    h = mant_read(EDITION, from_zero, 7);
    CHECK(h.has_last_sender && h.last_sender == 0);
    h = mant_read(EDITION, by_zero, 11);
    CHECK(h.has_last_sender && h.last_sender == 0 && h.path_count == 2);
    h = mant_read(EDITION, without, 6);
    CHECK(h.number == 0 && !h.has_last_sender && h.last_sender == 0);
}

/* The three bits after the port, 101: under 1.1 one number, under 1.2 the flag and another. Written again and repeated they are the same under both. */
static void editions(void)
{
    const uint64_t both[2] = {MANT_EDITION_1_1, MANT_EDITION_1_2};
    const uint8_t pdu[6] = {0, 0xBA, 0x20, 0, 0, 5}, repeated[7] = {0, 0xBA, 0x10, 0, 0, 5, 77};
    uint8_t output[7];
    MantHeader h = mant_read(MANT_EDITION_1_1, pdu, 6);
    CHECK(h.number == 0 && h.port == 11 && !h.has_encrypted && !h.encrypted && h.reserved == 5 && !h.ack && h.hop_limit == 2 && h.source == 5);
    h = mant_read(MANT_EDITION_1_2, pdu, 6);
    CHECK(h.number == 0 && h.port == 11 && h.has_encrypted && h.encrypted && h.reserved == 1 && !h.ack && h.hop_limit == 2 && h.source == 5);
    for (size_t i = 0; i < 2; i++) {
        memset(output, 77, sizeof output);
        CHECK(mant_write_again(both[i], pdu, 6, output, 7).length == 6 && memcmp(output, pdu, 6) == 0 && output[6] == 77);
        MantNode under = MANT_NODE(2000);
        under.edition = both[i];
        CHECK(mant_hear(under, NO_LISTS, pdu, 6, output, 7).repeated_length == 6 && memcmp(output, repeated, 7) == 0);
    }
}

void reading(void)
{
    null_bytes();
    reading_and_writing();
    last_senders();
    editions();
}
