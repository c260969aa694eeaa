/* The serial exchange. */

typedef struct {
    uint8_t number;
    size_t header_place, header_length, payload_place, payload_length;
} Exchange;

/* A run of elements, and where the next of them begins. */
typedef struct {
    const uint8_t *bytes;
    size_t at, end;
} Run;

typedef struct {
    unsigned type;
    size_t place, length;
} Element;

/* A type or a length; false where the run ends within it. */
static bool take_number(Run *run, unsigned *number)
{
    if (run->at == run->end) {
        return false;
    }
    *number = run->bytes[run->at++];
    if (*number < 128) {
        return true;
    }
    if (run->at == run->end) {
        return false;
    }
    *number = (*number & 127) << 8 | run->bytes[run->at++];
    return true;
}

/* The next element; false where it is cut. */
static bool take_element(Run *run, Element *element)
{
    unsigned length;

    if (!take_number(run, &element->type) || !take_number(run, &length) || length > run->end - run->at) {
        return false;
    }
    element->place = run->at;
    element->length = length;
    run->at += length;
    return true;
}

/* 57 or 58 for the first fault of a run, or 0. */
static uint8_t run_fault(Run run, int level)
{
    Element element;

    while (run.at < run.end) {
        if (level == 5) {
            return 58;
        }
        if (!take_element(&run, &element)) {
            return 57;
        }
        if (element.type == 10 || element.type == 11 || element.type == 20) {
            uint8_t fault = run_fault((Run){run.bytes, element.place, element.place + element.length}, level + 1);
            if (fault != 0) {
                return fault;
            }
        }
    }
    return 0;
}

/* Header and payload in the exchange, or 59. */
static Exchange parts(Run run)
{
    Exchange found = {0};
    Element element;
    int headers = 0, payloads = 0;

    if (run.at == run.end || !take_element(&run, &element) || element.type != 20 || run.at != run.end) {
        return (Exchange){.number = 59};
    }
    run.at = element.place;
    while (run.at < run.end && take_element(&run, &element)) {
        if (element.type == 1024) {
            headers++;
            found.header_place = element.place;
            found.header_length = element.length;
        } else if (element.type == 1025) {
            payloads++;
            found.payload_place = element.place;
            found.payload_length = element.length;
        }
    }
    return headers == 1 && payloads == 1 ? found : (Exchange){.number = 59};
}

/* The PDU of header and payload joined, of which plain_read looks at 10 bytes at most. */
static Header read_joined(const uint8_t *bytes, Exchange found)
{
    uint8_t start[10] = {0};
    size_t first = found.header_length < 10 ? found.header_length : 10;
    size_t second = found.payload_length < 10 - first ? found.payload_length : 10 - first;

    memcpy(start, bytes + found.header_place, first);
    memcpy(start + first, bytes + found.payload_place, second);
    return plain_read(12, start, found.header_length + found.payload_length);
}

Exchange plain_read_exchange(const uint8_t *bytes, size_t length)
{
    Run run = {bytes, 0, length};
    uint8_t fault = run_fault(run, 1);
    Exchange found;
    Header header;

    if (fault != 0) {
        return (Exchange){.number = fault};
    }
    found = parts(run);
    if (found.number != 0) {
        return found;
    }
    header = read_joined(bytes, found);
    if (header.number != 0) {
        return (Exchange){.number = header.number};
    }
    if (header.header_length != found.header_length || header.payload_length != found.payload_length) {
        return (Exchange){.number = 63};
    }
    return found;
}

static size_t number_length(size_t number)
{
    return number < 128 ? 1 : 2;
}

static uint8_t *put_number(uint8_t *at, size_t number)
{
    if (number < 128) {
        *at = (uint8_t)number;
        return at + 1;
    }
    put_word(at, (uint16_t)(0x8000 | number));
    return at + 2;
}

static uint8_t *put_element(uint8_t *at, unsigned type, const uint8_t *value, size_t length)
{
    at = put_number(put_number(at, type), length);
    memcpy(at, value, length);
    return at + length;
}

Written plain_write_exchange(const uint8_t *bytes, size_t length, uint8_t *output, size_t output_length)
{
    Header header = plain_read(12, bytes, length);
    size_t inner, whole;

    if (header.number != 0) {
        return (Written){header.number, 0};
    }
    inner = 4 + number_length(header.header_length) + number_length(header.payload_length) + header.pdu_length;
    whole = 1 + number_length(inner) + inner;
    if (output_length < whole) {
        return (Written){14, 0};
    }
    output = put_number(put_number(output, 20), inner);
    output = put_element(output, 1024, bytes, header.header_length);
    put_element(output, 1025, bytes + header.header_length, header.payload_length);
    return (Written){0, whole};
}
