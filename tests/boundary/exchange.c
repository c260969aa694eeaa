#include "boundary.h"

/* The MANT PDU of document 003, appendix D: header and payload, a time stamp and its quality beside them. */
static const uint8_t exchange[38] = {0x14, 0x24, 0x84, 0x00, 0x06, 0x00, 0x00, 0x70, 0x0D, 0x11, 0x33, 0x84, 0x01, 0x0D, 0xA4, 0x08, 0x3F, 0x03, 0xA3,
                                     0x08, 0x3B, 0x03, 0xA5, 0x28, 0x0A, 0x04, 0x99, 0x84, 0x02, 0x04, 0x4D, 0x1C, 0x4A, 0x10, 0x84, 0x03, 0x01, 0x31};

static bool is_exchange(MantExchange found, size_t header_place, size_t header_length, size_t payload_place, size_t payload_length)
{
    return found.number == 0 && found.header_place == header_place && found.header_length == header_length && found.payload_place == payload_place &&
           found.payload_length == payload_length;
}

static bool is_refused(MantExchange found, uint8_t number)
{
    return found.number == number && found.header_place == 0 && found.header_length == 0 && found.payload_place == 0 && found.payload_length == 0;
}

static void reading_exchanges(void)
{
    const uint8_t turned[17] = {0x80, 20, 0x80, 13, 0x84, 1, 0x80, 0, 0x84, 0, 6, 0, 0, 0, 0, 0, 5};
    const uint8_t deep[12] = {20, 8, 10, 6, 11, 4, 20, 2, 0, 9, 0, 9};
    const uint8_t twice[11] = {20, 9, 0x84, 0, 0, 0x84, 1, 0, 0x84, 1, 0};
    const uint8_t empty[10] = {20, 6, 0x84, 0, 0, 0x84, 1, 0, 0, 0};
    const uint8_t split[14] = {20, 12, 0x84, 0, 0, 0x84, 1, 6, 0, 0, 0, 0, 0, 5};
    const uint8_t more[15] = {20, 13, 0x84, 0, 6, 0, 0, 0, 0, 0, 5, 0x84, 1, 1, 9};
    CHECK(is_exchange(mant_read_exchange(exchange, 38), 5, 6, 14, 13));
    CHECK(is_exchange(mant_read_exchange(turned, 17), 11, 6, 8, 0));
    CHECK(is_refused(mant_read_exchange(NULL, 0), 59));
    CHECK(is_refused(mant_read_exchange(exchange, 37), 57) && is_refused(mant_read_exchange(exchange, 1), 57));
    CHECK(is_refused(mant_read_exchange(deep, 10), 58) && is_refused(mant_read_exchange(deep, 12), 58) && is_refused(mant_read_exchange(deep, 9), 57));
    CHECK(is_refused(mant_read_exchange(deep + 2, 8), 57));
    CHECK(is_refused(mant_read_exchange(twice, 11), 59) && is_refused(mant_read_exchange(exchange + 2, 36), 59));
    CHECK(is_refused(mant_read_exchange(empty, 8), MANT_TOO_SHORT) && is_refused(mant_read_exchange(empty, 9), 57));
    CHECK(is_refused(mant_read_exchange(empty, 10), 59));
    CHECK(is_refused(mant_read_exchange(split, 14), 63) && is_refused(mant_read_exchange(more, 15), 63));
}

static bool is_element(MantElement found, uint16_t type_number, size_t value_place, size_t value_length, size_t end)
{
    return found.number == 0 && found.type_number == type_number && found.value_place == value_place && found.value_length == value_length && found.end == end;
}

static bool is_cut(MantElement found)
{
    return found.number == MANT_ELEMENT_CUT && found.type_number == 0 && found.value_place == 0 && found.value_length == 0 && found.end == 0;
}

/* Version, address and agency, which document 003 has before the exchange: elements of a run that is not an exchange. */
static void walking(void)
{
    static uint8_t run[14 + sizeof exchange] = {0x75, 1, 1, 0x18, 2, 0x1F, 0x40, 0x77, 5, 'S', 'A', 'C', 'C', 'O'};
    static uint8_t longest[4 + 32767] = {0xFF, 0xFF, 0xFF, 0xFF};
    const uint8_t forms[10] = {0x80, 20, 0, 5, 0x80, 1, 9, 0x84, 0, 0x80};
    memcpy(run + 14, exchange, sizeof exchange);
    CHECK(is_refused(mant_read_exchange(run, sizeof run), 59));
    CHECK(is_element(mant_element_at(run, sizeof run, 0), 117, 2, 1, 3) && is_element(mant_element_at(run, sizeof run, 3), 24, 5, 2, 7));
    CHECK(is_element(mant_element_at(run, sizeof run, 7), 119, 9, 5, 14));
    MantElement found = mant_element_at(run, sizeof run, 14);
    CHECK(is_element(found, MANT_EXCHANGE_TYPE, 16, 36, sizeof run));
    CHECK(is_exchange(mant_read_exchange(run + 14, found.end - 14), 5, 6, 14, 13));
    CHECK(is_element(mant_element_at(run + 16, 36, 0), 1024, 3, 6, 9) && is_element(mant_element_at(run + 16, 36, 9), 1025, 12, 13, 25));
    CHECK(is_cut(mant_element_at(run, 51, 14)) && is_cut(mant_element_at(run, 15, 14)) && is_cut(mant_element_at(run, sizeof run, sizeof run)));
    CHECK(is_cut(mant_element_at(run, sizeof run, SIZE_MAX)) && is_cut(mant_element_at(NULL, 0, 0)) && is_cut(mant_element_at(NULL, 0, SIZE_MAX)));
    CHECK(is_element(mant_element_at(forms, 10, 0), 20, 3, 0, 3) && is_element(mant_element_at(forms, 10, 3), 5, 6, 1, 7));
    CHECK(is_cut(mant_element_at(forms, 10, 7)) && is_cut(mant_element_at(forms, 9, 7)) && is_cut(mant_element_at(forms, 8, 7)));
    CHECK(is_element(mant_element_at(longest, sizeof longest, 0), 32767, 4, 32767, sizeof longest));
    CHECK(is_cut(mant_element_at(longest, sizeof longest - 1, 0)));
}

static void writing_exchanges(void)
{
    static uint8_t longest[MANT_PDU_LIMIT + 1] = {0x0B, 0, 0x0F, 0xFF, 0, 0, 0, 0, 0, 255};
    static uint8_t output[MANT_EXCHANGE_LIMIT + 1];
    uint8_t pdu[20], untouched[27];
    memcpy(pdu, exchange + 5, 6);
    memcpy(pdu + 6, exchange + 14, 13);
    pdu[19] = 1;
    memset(output, 77, sizeof output);
    memset(untouched, 77, sizeof untouched);
    MantWritten w = mant_write_exchange(pdu, 20, output, 26);
    CHECK(w.number == MANT_OUTPUT_TOO_SHORT && w.length == 0 && memcmp(output, untouched, 27) == 0);
    CHECK(mant_write_exchange(pdu, 18, output, 27).number == MANT_PAYLOAD_CUT && memcmp(output, untouched, 27) == 0);
    CHECK(mant_write_exchange(NULL, 0, NULL, 0).number == MANT_TOO_SHORT);
    CHECK(mant_write_exchange(pdu, 19, NULL, 0).number == MANT_OUTPUT_TOO_SHORT);
    w = mant_write_exchange(pdu, 20, output, 27);
    CHECK(w.number == 0 && w.length == 27 && output[0] == 20 && output[1] == 25 && memcmp(output + 2, exchange + 2, 25) == 0 && output[27] == 77);
    CHECK(is_exchange(mant_read_exchange(output, 27), 5, 6, 14, 13));
    CHECK(mant_write_exchange(longest, MANT_PDU_LIMIT, output, MANT_EXCHANGE_LIMIT - 1).number == MANT_OUTPUT_TOO_SHORT);
    w = mant_write_exchange(longest, sizeof longest, output, sizeof output);
    CHECK(w.number == 0 && w.length == MANT_EXCHANGE_LIMIT && output[MANT_EXCHANGE_LIMIT] == 77);
    CHECK(is_exchange(mant_read_exchange(output, MANT_EXCHANGE_LIMIT), 7, 520, 531, 4095));
}

void the_serial_exchange(void)
{
    reading_exchanges();
    walking();
    writing_exchanges();
}
