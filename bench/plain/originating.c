/* A fresh PDU from settings and a payload. */

typedef struct {
    uint8_t number;
    size_t length;
} Written;

typedef struct {
    uint64_t edition;
    uint16_t source;
    bool has_destination;
    uint16_t destination;
    uint64_t hop_limit, port;
    bool time_stamp_request, with_path, reliable;
    uint8_t pdu_id;
    bool encrypted;
} Fresh;

static void put_word(uint8_t *at, uint16_t value)
{
    at[0] = (uint8_t)(value >> 8);
    at[1] = (uint8_t)value;
}

Written plain_originate(Fresh settings, const uint8_t *payload, size_t payload_length, uint8_t *output, size_t output_length)
{
    size_t header_length = 6 + (settings.has_destination ? 2 : 0) + (settings.reliable ? 1 : 0) + (settings.with_path ? 1 : 0);
    size_t at = 6;

    if (!is_edition(settings.edition)) {
        return (Written){17, 0};
    }
    if (settings.hop_limit > 7) {
        return (Written){10, 0};
    }
    if (settings.port > 15) {
        return (Written){11, 0};
    }
    if (payload_length > 4095) {
        return (Written){12, 0};
    }
    if (settings.reliable && !settings.has_destination) {
        return (Written){13, 0};
    }
    if (settings.encrypted && settings.edition == 11) {
        return (Written){16, 0};
    }
    if (output_length < header_length + payload_length) {
        return (Written){14, 0};
    }
    output[0] = (uint8_t)(settings.reliable << 3 | settings.time_stamp_request << 2 | settings.with_path << 1 | settings.has_destination);
    output[1] = (uint8_t)(settings.port << 4 | settings.encrypted << 3);
    output[2] = (uint8_t)(settings.hop_limit << 4 | payload_length >> 8);
    output[3] = (uint8_t)payload_length;
    put_word(output + 4, settings.source);
    if (settings.has_destination) {
        put_word(output + at, settings.destination);
        at += 2;
    }
    if (settings.reliable) {
        output[at++] = settings.pdu_id;
    }
    if (settings.with_path) {
        output[at++] = 0;
    }
    if (payload_length > 0) {
        memcpy(output + at, payload, payload_length);
    }
    return (Written){0, at + payload_length};
}
