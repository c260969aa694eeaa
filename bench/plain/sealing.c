/* Payloads enciphered under a key, and opened once. */

/* A hash that has taken the header, hop limit 0 and no path, as it stands in these bytes. */
static Hashing hash_header(Header header, const uint8_t *bytes)
{
    Hashing hashing = {{0x67452301, 0xEFCDAB89, 0x98BADCFE, 0x10325476, 0xC3D2E1F0}, {0}, 0};
    uint8_t start[9];
    size_t length = 6 + (header.has_destination ? 2 : 0) + (header.protocol == 1 ? 1 : 0);

    memcpy(start, bytes, length);
    start[2] &= 0x8F;
    feed(&hashing, start, length);
    return hashing;
}

Written plain_seal(Key key, uint64_t number, const uint8_t *pdu, size_t length, uint8_t *output, size_t output_length)
{
    Header header = plain_read(12, pdu, length);
    size_t payload = header.payload_length;
    uint8_t nonce[5], *at;
    Expanded keys;
    Hashing hashing;

    if (header.number != 0) {
        return (Written){header.number, 0};
    }
    if (header.encrypted) {
        return (Written){88, 0};
    }
    if (payload + 7 > 4095) {
        return (Written){85, 0};
    }
    if (number > 16777215) {
        return (Written){86, 0};
    }
    if (output_length < header.pdu_length + 7) {
        return (Written){87, 0};
    }
    memcpy(output, pdu, header.header_length);
    output[0] &= 0xFB;
    output[1] |= 8;
    output[2] = (uint8_t)((output[2] & 0xF0) | (payload + 7) >> 8);
    output[3] = (uint8_t)(payload + 7);
    at = output + header.header_length;
    memcpy(nonce, pdu + 4, 2);
    at[0] = nonce[2] = (uint8_t)(number >> 16);
    at[1] = nonce[3] = (uint8_t)(number >> 8);
    at[2] = nonce[4] = (uint8_t)number;
    hashing = hash_header(header, output);
    feed(&hashing, at, 3);
    feed(&hashing, pdu + header.header_length, payload);
    memcpy(at + 3, pdu + header.header_length, payload);
    finish(&hashing, at + 3 + payload);
    keys = expand(&key);
    add_stream(&keys, nonce, 0, at + 3, at + 3, payload + 4);
    return (Written){0, header.pdu_length + 7};
}

/* Is the hash of a sealed PDU the one that came with it? */
static bool is_genuine(const Expanded *keys, const uint8_t nonce[5], Header header, const uint8_t *pdu)
{
    const uint8_t *at = pdu + header.header_length, *sealed = at + 3;
    size_t plain = header.payload_length - 7u;
    Hashing hashing = hash_header(header, pdu);
    uint8_t block[64], four[4], wanted[4];

    feed(&hashing, at, 3);
    for (size_t i = 0; i < plain; i += 64) {
        size_t part = plain - i < 64 ? plain - i : 64;
        add_stream(keys, nonce, i, sealed + i, block, part);
        feed(&hashing, block, part);
    }
    finish(&hashing, wanted);
    add_stream(keys, nonce, plain, sealed + plain, four, 4);
    return ((four[0] ^ wanted[0]) | (four[1] ^ wanted[1]) | (four[2] ^ wanted[2]) | (four[3] ^ wanted[3])) == 0;
}

/* The record: how many sources are held, then source and number of each. */
Written plain_open(Key key, uint32_t *record, size_t words, const uint8_t *pdu, size_t length, uint8_t *output, size_t output_length)
{
    Header header = plain_read(12, pdu, length);
    const uint8_t *at = pdu + header.header_length;
    size_t room = words == 0 ? 0 : (words - 1) / 2, held, place = 0;
    uint32_t number;
    uint8_t nonce[5];
    Expanded keys;

    if (header.number != 0) {
        return (Written){header.number, 0};
    }
    if (!header.encrypted) {
        return (Written){80, 0};
    }
    if (header.payload_length < 7) {
        return (Written){81, 0};
    }
    number = (uint32_t)at[0] << 16 | (uint32_t)at[1] << 8 | at[2];
    room = room < 64 ? room : 64;
    held = room != 0 && record[0] < room ? record[0] : room;
    while (place < held && record[1 + 2 * place] != header.source) {
        place++;
    }
    if (place < held && number <= record[2 + 2 * place]) {
        return (Written){82, 0};
    }
    memcpy(nonce, pdu + 4, 2);
    memcpy(nonce + 2, at, 3);
    keys = expand(&key);
    if (!is_genuine(&keys, nonce, header, pdu)) {
        return (Written){83, 0};
    }
    if (place == room) {
        return (Written){84, 0};
    }
    if (output_length < header.payload_length - 7u) {
        return (Written){87, 0};
    }
    add_stream(&keys, nonce, 0, at + 3, output, header.payload_length - 7u);
    record[0] = (uint32_t)(place < held ? held : held + 1);
    record[1 + 2 * place] = header.source;
    record[2 + 2 * place] = number;
    return (Written){0, header.payload_length - 7u};
}
