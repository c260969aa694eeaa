/* PDUs that are sent again until they are acknowledged. */

/* A record of a retained PDU; free where its length is 0. */
typedef struct {
    uint8_t pdu[256];
    size_t length;
    uint64_t sent_at, count;
} Retained;

typedef struct {
    uint16_t source, destination;
    uint8_t pdu_id;
} Names;

typedef struct {
    uint8_t number, deed;
    uint64_t last;
    size_t place;
    Names names;
    size_t length;
} Outcome;

typedef struct {
    uint64_t hop_limit, port;
    bool time_stamp_request, with_path;
} Sending;

enum {
    RECORDS = 16
};

static bool in_use(const Retained *record)
{
    return record->length != 0;
}

/* A reliable PDU has a destination and an ID. */
static Names names_of(const uint8_t *pdu)
{
    return (Names){word(pdu + 4), word(pdu + 6), pdu[8]};
}

/* The place of the record in use with these names, or RECORDS. */
static size_t find(const Retained *table, Names names)
{
    size_t place = 0;

    while (place < RECORDS) {
        const Retained *record = table + place;
        if (in_use(record)) {
            Names own = names_of(record->pdu);
            if (own.source == names.source && own.destination == names.destination && own.pdu_id == names.pdu_id) {
                break;
            }
        }
        place++;
    }
    return place;
}

static Outcome refused(uint8_t number, uint64_t last)
{
    return (Outcome){.number = number, .last = last};
}

Outcome plain_retain(Retained *table, size_t records, uint64_t last, uint64_t time, const uint8_t *pdu, size_t length)
{
    Header header;
    size_t place = 0;
    Names names;

    if (records != RECORDS) {
        return refused(74, last);
    }
    if (time < last) {
        return refused(73, last);
    }
    header = plain_read(12, pdu, length);
    if (header.number != 0 || header.pdu_length != length || header.protocol != 1 || header.ack || header.path_count != 0) {
        return refused(75, last);
    }
    if (length > sizeof table[0].pdu) {
        return refused(72, last);
    }
    names = names_of(pdu);
    if (find(table, names) != RECORDS) {
        return refused(71, last);
    }
    while (place < RECORDS && in_use(table + place)) {
        place++;
    }
    if (place == RECORDS) {
        return refused(70, last);
    }
    memset(table + place, 0, sizeof table[0]);
    memcpy(table[place].pdu, pdu, length);
    table[place].length = length;
    table[place].sent_at = time;
    return (Outcome){.deed = 1, .last = time, .place = place, .names = names};
}

Outcome plain_retry(Retained *table, size_t records, uint64_t last, uint64_t time, uint64_t delay, uint64_t tries, uint8_t *output, size_t output_length)
{
    Retained *record = table;
    Names names;

    if (records != RECORDS) {
        return refused(74, last);
    }
    if (time < last) {
        return refused(73, last);
    }
    while (record < table + RECORDS && !(in_use(record) && time >= record->sent_at && time - record->sent_at >= delay)) {
        record++;
    }
    if (record == table + RECORDS) {
        return (Outcome){.last = time};
    }
    names = names_of(record->pdu);
    if (record->count >= tries) {
        memset(record, 0, sizeof *record);
        return (Outcome){.deed = 3, .last = time, .place = (size_t)(record - table), .names = names};
    }
    if (output_length < record->length) {
        return refused(77, last);
    }
    memcpy(output, record->pdu, record->length);
    record->sent_at = time;
    record->count++;
    return (Outcome){.deed = 2, .last = time, .place = (size_t)(record - table), .names = names, .length = record->length};
}

/* The acknowledgement of the PDU with these names. */
static Outcome acknowledged(Names names, uint64_t last, Sending sending, uint8_t *output, size_t output_length)
{
    size_t length = sending.with_path ? 10 : 9;

    if (output_length < length) {
        return refused(77, last);
    }
    output[0] = (uint8_t)(9 | sending.time_stamp_request << 2 | sending.with_path << 1);
    output[1] = (uint8_t)(sending.port << 4 | 1);
    output[2] = (uint8_t)(sending.hop_limit << 4);
    output[3] = 0;
    put_word(output + 4, names.destination);
    put_word(output + 6, names.source);
    output[8] = names.pdu_id;
    if (sending.with_path) {
        output[9] = 0;
    }
    return (Outcome){.deed = 5, .last = last, .names = names, .length = length};
}

Outcome plain_acknowledge(Retained *table, size_t records, uint64_t last, uint16_t own, const uint8_t *received, size_t length, Answer answer, Sending sending,
                          uint8_t *output, size_t output_length)
{
    Header header = plain_read(12, received, length);
    bool counts = answer.delivery == 0 && header.number == 0 && header.protocol == 1 && header.destination == own && !header.added_header;
    Names names;
    size_t place;

    if (counts && !header.ack && sending.hop_limit > 7) {
        return refused(10, last);
    }
    if (counts && !header.ack && sending.port > 15) {
        return refused(11, last);
    }
    if (records != RECORDS) {
        return refused(74, last);
    }
    if (!counts) {
        return refused(0, last);
    }
    names = names_of(received);
    if (!header.ack) {
        return acknowledged(names, last, sending, output, output_length);
    }
    names = (Names){names.destination, names.source, names.pdu_id};
    place = find(table, names);
    if (place == RECORDS) {
        return refused(0, last);
    }
    memset(table + place, 0, sizeof table[0]);
    return (Outcome){.deed = 4, .last = last, .place = place, .names = names};
}
