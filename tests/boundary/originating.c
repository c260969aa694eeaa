#include "boundary.h"

static void null_payload(void)
{
    const MantFresh fresh = {.edition = EDITION, .source = 5};
    const uint8_t shortest[6] = {0, 0, 0, 0, 0, 5};
    uint8_t output[8] = {9, 9, 9, 9, 9, 9, 9, 9};
    CHECK(mant_originate(fresh, NULL, 0, NULL, 0).number == MANT_OUTPUT_TOO_SHORT);
    CHECK(mant_originate(fresh, NULL, 0, output, 8).length == 6 && memcmp(output, shortest, 6) == 0 && output[6] == 9 && output[7] == 9);
}

static void origination(void)
{
    uint8_t payload[MANT_PAYLOAD_LIMIT + 1] = {1}, output[MANT_PDU_LIMIT];
    const uint8_t expected[11] = {0x0F, 0xF0, 0x70, 0x01, 1, 2, 3, 4, 99, 0, 1};
    MantFresh f = {.edition = EDITION, .source = 258, .has_destination = true, .destination = 772, .hop_limit = 7, .port = 15};
    f.time_stamp_request = f.with_path = f.reliable = true;
    f.pdu_id = 99;
    CHECK(mant_originate(f, payload, 1, output, 11).length == 11 && memcmp(output, expected, 11) == 0);
    CHECK(mant_originate(f, payload, MANT_PAYLOAD_LIMIT, output, sizeof output).length == 4105);
    CHECK(mant_originate(f, payload, 1, output, 10).number == MANT_OUTPUT_TOO_SHORT);
    f.has_destination = false;
    CHECK(mant_originate(f, payload, 1, output, 11).number == MANT_RELIABLE_WITHOUT_DESTINATION);
    CHECK(mant_originate(f, payload, MANT_PAYLOAD_LIMIT + 1, output, sizeof output).number == MANT_PAYLOAD_TOO_LONG);
    f.port = 272;
    CHECK(mant_originate(f, payload, 1, output, 11).number == MANT_PORT_ABOVE_15);
    f.hop_limit = UINT64_C(0x100000001);
    CHECK(mant_originate(f, payload, 1, output, 11).number == MANT_HOP_LIMIT_ABOVE_7);
}

/* The encrypted flag: set under 1.2; under 1.1 refused after 13 and before 14. */
static void encrypted_payloads(void)
{
    const uint8_t expected[7] = {0, 0x38, 0x20, 1, 0, 5, 9}, payload[1] = {9};
    MantFresh f = {.edition = MANT_EDITION_1_1, .source = 5, .hop_limit = 2, .port = 3, .reliable = true, .encrypted = true};
    uint8_t output[7] = {0};
    CHECK(mant_originate(f, payload, 1, output, 0).number == MANT_RELIABLE_WITHOUT_DESTINATION);
    f.reliable = false;
    CHECK(mant_originate(f, payload, 1, output, 0).number == MANT_NO_ENCRYPTED_FLAG && mant_originate(f, payload, 1, output, 7).number == 16);
    f.encrypted = false;
    CHECK(mant_originate(f, payload, 1, output, 0).number == MANT_OUTPUT_TOO_SHORT && mant_originate(f, payload, 1, output, 7).length == 7);
    CHECK(output[1] == 0x30);
    f.edition = MANT_EDITION_1_2;
    f.encrypted = true;
    CHECK(mant_originate(f, payload, 1, output, 7).length == 7 && memcmp(output, expected, 7) == 0);
}

void originating(void)
{
    null_payload();
    origination();
    encrypted_payloads();
}
