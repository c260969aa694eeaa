#include "boundary.h"

/* Document 002's key, and its example sealed under number 850. */
static const MantKey key = {{0x6B, 0x65, 0x65, 0x70, 0x20, 0x6D, 0x65, 0x20, 0x73, 0x65, 0x63, 0x72, 0x65, 0x74, 0x21, 0x21}};
static const uint8_t sealed[27] = {0x03, 0x08, 0x10, 0x12, 0x03, 0xE8, 0x06, 0x40, 0x00, 0x00, 0x03, 0x52, 0x11, 0x46,
                                   0xDF, 0x21, 0xA1, 0xE0, 0xFB, 0x1E, 0x42, 0x5C, 0x93, 0x1A, 0x7C, 0x62, 0x50};

static bool is_written(MantWritten w, uint8_t number, size_t length)
{
    return w.number == number && w.length == length;
}

static void sealing(void)
{
    static uint8_t longest[6 + 4089] = {0, 0, 0x0F, 0xF8, 0, 5}, output[6 + 4095 + 1];
    uint8_t stamped[20], untouched[28];
    memset(output, 77, sizeof output);
    memset(untouched, 77, sizeof untouched);
    CHECK(is_written(mant_seal(key, 850, NULL, 0, NULL, 0), MANT_TOO_SHORT, 0) && is_written(mant_seal(key, 850, example, 20, NULL, 0), 87, 0));
    CHECK(is_written(mant_seal(key, 850, example, 19, output, 99), MANT_PAYLOAD_CUT, 0) && is_written(mant_seal(key, 850, sealed, 27, output, 99), 88, 0));
    CHECK(is_written(mant_seal(key, 16777216, example, 20, output, 26), 86, 0) && is_written(mant_seal(key, UINT64_MAX, example, 20, output, 99), 86, 0));
    CHECK(is_written(mant_seal(key, 850, example, 20, output, 26), 87, 0) && memcmp(output, untouched, 28) == 0);
    CHECK(is_written(mant_seal(key, 850, example, 20, output, 27), 0, 27) && memcmp(output, sealed, 27) == 0 && output[27] == 77);
    memcpy(stamped, example, 20);
    stamped[0] |= 4;
    CHECK(is_written(mant_seal(key, 850, stamped, 20, output, 99), 0, 27) && memcmp(output, sealed, 27) == 0);
    CHECK(is_written(mant_seal(key, 0, longest, 6 + 4088, output, 6 + 4094), 87, 0));
    CHECK(is_written(mant_seal(key, MANT_NUMBER_LIMIT, longest, 6 + 4088, output, sizeof output), 0, 6 + 4095) && output[6 + 4095] == 77);
    longest[3] = 0xF9;
    CHECK(is_written(mant_seal(key, 16777216, longest, sizeof longest, output, 0), 85, 0));
    longest[1] = 8;
    CHECK(is_written(mant_seal(key, 16777216, longest, sizeof longest, output, 0), 88, 0));
}

static bool is_record(MantSources record, uint32_t held, uint32_t source, uint32_t number)
{
    return record.words[0] == held && record.words[1] == source && record.words[2] == number;
}

static void opening(void)
{
    MantSources record = {{0}};
    uint8_t output[12], untouched[12], repeated[29], changed[27];
    memset(output, 77, sizeof output);
    memset(untouched, 77, sizeof untouched);
    memcpy(changed, sealed, 27);
    changed[26] ^= 1;
    CHECK(is_written(mant_open(key, &record, NULL, 0, NULL, 0), MANT_TOO_SHORT, 0) && is_written(mant_open(key, &record, example, 20, NULL, 0), 80, 0));
    CHECK(is_written(mant_open(key, &record, changed, 27, NULL, 0), 83, 0) && is_written(mant_open(key, &record, sealed, 27, NULL, 0), 87, 0));
    CHECK(is_written(mant_open(key, &record, changed, 27, output, 12), MANT_HASH_DIFFERS, 0));
    CHECK(is_written(mant_open(key, &record, sealed, 27, output, 10), 87, 0) && is_record(record, 0, 0, 0));
    CHECK(memcmp(output, untouched, 12) == 0);
    CHECK(is_written(mant_open(key, &record, sealed, 27, output, 11), 0, 11) && is_record(record, 1, 1000, 850));
    CHECK(memcmp(output, example + 9, 11) == 0 && output[11] == 77);
    memset(output, 77, sizeof output);
    CHECK(is_written(mant_open(key, &record, sealed, 27, output, 12), 82, 0) && memcmp(output, untouched, 12) == 0);
    CHECK(is_written(mant_open(key, &record, changed, 27, output, 12), 82, 0));
    CHECK(mant_hear(node, NO_LISTS, sealed, 27, repeated, sizeof repeated).repeated_length == 29);
    record.words[2] = 849;
    CHECK(is_written(mant_open(key, &record, repeated, 29, output, 12), 0, 11) && memcmp(output, example + 9, 11) == 0);
}

/* Payloads of 6 and of 7 bytes, the second an empty one sealed; a full record, and malformed ones that hold too many and an address above 65,535. */
static void records(void)
{
    const uint8_t shorter[12] = {0, 8, 0, 6, 0x03, 0xE8}, empty[6] = {0, 0, 0, 0, 0x03, 0xE8};
    struct {
        MantSources record;
        uint32_t behind;
    } room = {.record = {{MANT_SOURCE_LIMIT}}, .behind = 77};
    MantSources small = {{1, 70000, 0, 1000, 3}};
    uint32_t *words = room.record.words;
    uint8_t output[13];
    bool kept = true;
    for (uint32_t i = 1; i < 129; i += 2) {
        words[i] = 2000 + i;
    }
    CHECK(is_written(mant_open(key, &room.record, shorter, 12, NULL, 0), 81, 0));
    CHECK(is_written(mant_seal(key, 5, empty, 6, output, 13), 0, 13));
    CHECK(is_written(mant_open(key, &room.record, output, 13, NULL, 0), 84, 0) && is_record(room.record, 64, 2001, 0));
    words[0] = 0xFFFFFFFF;
    CHECK(is_written(mant_open(key, &room.record, output, 13, NULL, 0), 84, 0) && is_record(room.record, 0xFFFFFFFF, 2001, 0));
    words[127] = 1000;
    CHECK(is_written(mant_open(key, &room.record, output, 13, NULL, 0), 0, 0) && words[127] == 1000 && words[128] == 5);
    for (uint32_t i = 1; i < 127; i += 2) {
        kept = kept && words[i] == 2000 + i && words[i + 1] == 0;
    }
    CHECK(kept && words[0] == 64 && room.behind == 77);
    words[0] = 63;
    words[127] = words[128] = 9;
    CHECK(is_written(mant_open(key, &room.record, output, 13, NULL, 0), 0, 0) && words[0] == 64 && words[127] == 1000 && words[128] == 5);
    CHECK(is_written(mant_open(key, &small, output, 13, NULL, 0), 0, 0) && is_record(small, 2, 70000, 0));
    CHECK(small.words[3] == 1000 && small.words[4] == 5 && room.behind == 77);
}

static bool is_numbered(const uint8_t *pdu, size_t length, uint8_t number, uint32_t message)
{
    MantNumbered numbered = mant_message_number(pdu, length);
    return numbered.number == number && numbered.message == message;
}

static void message_numbers(void)
{
    const uint8_t shorter[12] = {0, 8, 0, 6, 0x03, 0xE8}, plain[12] = {0, 0, 0, 6, 0x03, 0xE8};
    const uint8_t greatest[13] = {0, 8, 0, 7, 0x03, 0xE8, 0xFF, 0xFF, 0xFF};
    CHECK(is_numbered(NULL, 0, MANT_TOO_SHORT, 0) && is_numbered(sealed, 26, MANT_PAYLOAD_CUT, 0) && is_numbered(example, 20, 80, 0));
    CHECK(is_numbered(shorter, 12, 81, 0) && is_numbered(plain, 12, 80, 0));
    CHECK(is_numbered(sealed, 27, 0, 850) && is_numbered(greatest, 13, 0, MANT_NUMBER_LIMIT));
}

/* Sources removed: the first, the last, one that is not held, and one that stands twice in malformed words. */
static void removing(void)
{
    MantSources record = {{3, 1000, 5, 2000, 6, 3000, 7}}, twice = {{3, 1000, 5, 2000, 6, 1000, 7}}, untouched = record, none = {{0}};
    uint32_t *words = record.words;
    CHECK(!mant_remove_source(&none, 1000) && !mant_remove_source(&none, 0) && !mant_remove_source(&record, 4000));
    CHECK(memcmp(&record, &untouched, sizeof record) == 0);
    CHECK(mant_remove_source(&record, 1000) && is_record(record, 2, 2000, 6));
    CHECK(words[3] == 3000 && words[4] == 7 && words[5] == 3000 && words[6] == 7);
    CHECK(!mant_remove_source(&record, 1000) && mant_remove_source(&record, 3000) && is_record(record, 1, 2000, 6) && words[3] == 3000);
    CHECK(mant_remove_source(&record, 2000) && is_record(record, 0, 2000, 6));
    CHECK(mant_remove_source(&twice, 1000) && is_record(twice, 1, 2000, 6) && twice.words[3] == 2000 && twice.words[4] == 6 && twice.words[5] == 1000);
}

/* Forgeries that the protocol lets through (document 000, 3.5): made without the key by someone who knows the plain payload of document 002's example, and so
   15 bytes of the key stream of source 1000 and number 850. They open wherever that number was not accepted yet, as here where the last was 849. */
static void forgeries(void)
{
    static const struct {
        size_t length;
        uint8_t pdu[27];
        size_t plain_length;
        uint8_t plain[11];
    } forged[] = {
        /* the same payload for another destination, 1601 */
        {27,
         {0x03, 0x08, 0x70, 0x12, 0x03, 0xE8, 0x06, 0x41, 0x00, 0x00, 0x03, 0x52, 0x11, 0x46,
          0xDF, 0x21, 0xA1, 0xE0, 0xFB, 0x1E, 0x42, 0x5C, 0x93, 0xB7, 0xC7, 0x91, 0x74},
         11,
         {0x70, 0x01, 0x08, 0x12, 0x12, 0x03, 0x24, 0x13, 0x22, 0x02, 0x76}},
        /* another payload of the same length */
        {27,
         {0x03, 0x08, 0x70, 0x12, 0x03, 0xE8, 0x06, 0x40, 0x00, 0x00, 0x03, 0x52, 0x9E, 0xB8,
          0x28, 0xCC, 0x4C, 0x1C, 0x20, 0xF2, 0x9F, 0xA1, 0x1A, 0xA4, 0x40, 0xDE, 0xE4},
         11,
         {0xFF, 0xFF, 0xFF, 0xFF, 0xFF, 0xFF, 0xFF, 0xFF, 0xFF, 0xFF, 0xFF}},
        /* a payload of one byte, for 1601 */
        {17, {0x03, 0x08, 0x70, 0x08, 0x03, 0xE8, 0x06, 0x41, 0x00, 0x00, 0x03, 0x52, 0x60, 0xD4, 0x73, 0x8B, 0xB6}, 1, {0x01}},
    };
    for (size_t i = 0; i < sizeof forged / sizeof forged[0]; i++) {
        MantSources record = {{1, 1000, 849}};
        uint8_t output[11];
        MantWritten opened = mant_open(key, &record, forged[i].pdu, forged[i].length, output, sizeof output);
        CHECK(is_written(opened, 0, forged[i].plain_length) && memcmp(output, forged[i].plain, forged[i].plain_length) == 0 && is_record(record, 1, 1000, 850));
        CHECK(is_written(mant_open(key, &record, forged[i].pdu, forged[i].length, output, sizeof output), 82, 0));
    }
}

void sealing_and_opening(void)
{
    sealing();
    opening();
    records();
    message_numbers();
    removing();
    forgeries();
}
