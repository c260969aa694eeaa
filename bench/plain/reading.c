/* What the bytes of a PDU say. */

typedef struct {
    uint8_t number, protocol;
    bool time_stamp_request, path_bit, has_destination;
    uint8_t port;
    bool has_encrypted, encrypted;
    uint8_t reserved;
    bool ack, added_header;
    uint8_t hop_limit;
    uint16_t payload_length, source, destination;
    uint8_t pdu_id, path_count;
    bool has_last_sender;
    uint16_t last_sender;
    size_t header_length, pdu_length;
} Header;

static uint16_t word(const uint8_t *at)
{
    return (uint16_t)(at[0] << 8 | at[1]);
}

static bool is_edition(uint64_t edition)
{
    return edition == 11 || edition == 12;
}

Header plain_read(uint64_t edition, const uint8_t *bytes, size_t length)
{
    const Header none = {0};
    Header header = {0};
    size_t at = 6;

    if (!is_edition(edition)) {
        header.number = 17;
        return header;
    }
    if (length < 6) {
        header.number = 1;
        return header;
    }
    header.protocol = bytes[0] >> 3 & 7;
    header.has_destination = bytes[0] & 1;
    if (bytes[0] >> 6 != 0) {
        header = none;
        header.number = 2;
        return header;
    }
    if (header.protocol > 1) {
        header = none;
        header.number = 3;
        return header;
    }
    if (header.protocol == 1 && !header.has_destination) {
        header = none;
        header.number = 4;
        return header;
    }
    header.time_stamp_request = bytes[0] >> 2 & 1;
    header.path_bit = bytes[0] >> 1 & 1;
    header.port = bytes[1] >> 4;
    header.has_encrypted = edition == 12;
    header.encrypted = edition == 12 && (bytes[1] >> 3 & 1);
    header.reserved = bytes[1] >> 1 & (edition == 12 ? 3 : 7);
    header.ack = bytes[1] & 1;
    header.added_header = bytes[2] >> 7;
    header.hop_limit = bytes[2] >> 4 & 7;
    header.payload_length = (uint16_t)((bytes[2] & 15) << 8 | bytes[3]);
    header.source = word(bytes + 4);
    if (header.has_destination) {
        if (length - at < 2) {
            goto cut;
        }
        header.destination = word(bytes + at);
        at += 2;
    }
    if (header.protocol == 1) {
        if (length - at < 1) {
            goto cut;
        }
        header.pdu_id = bytes[at];
        at += 1;
    }
    if (header.path_bit) {
        if (length - at < 1) {
            goto cut;
        }
        header.path_count = bytes[at];
        at += 1;
        if (length - at < 2 * (size_t)header.path_count) {
            goto cut;
        }
        at += 2 * (size_t)header.path_count;
    }
    if (length - at < header.payload_length) {
        header = none;
        header.number = 6;
        return header;
    }
    if (header.path_bit) {
        header.has_last_sender = true;
        header.last_sender = header.path_count == 0 ? header.source : word(bytes + at - 2);
    }
    header.header_length = at;
    header.pdu_length = at + header.payload_length;
    return header;
cut:
    header = none;
    header.number = 5;
    return header;
}
