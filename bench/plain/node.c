/* What is delivered and what is repeated, for one PDU or over a batch. */

typedef struct {
    uint64_t edition;
    uint16_t own;
    bool echo, repeating;
    uint8_t source_pass, source_reject, destination_pass, destination_reject;
} Node;

typedef struct {
    uint8_t delivery, repeat;
    bool has_last_sender;
    uint16_t last_sender;
    size_t delivered_place, delivered_length, repeated_length, taken;
} Answer;

typedef struct {
    const uint16_t *values;
    size_t length;
} List;

static uint8_t list_fault(List list)
{
    if (list.length > 128) {
        return 22;
    }
    if (list.length % 2 != 0) {
        return 21;
    }
    for (size_t i = 0; i < list.length; i += 2) {
        if (list.values[i] > list.values[i + 1]) {
            return 20;
        }
    }
    return 0;
}

static bool list_holds(List list, uint16_t address)
{
    for (size_t i = 0; i + 1 < list.length; i += 2) {
        if (list.values[i] <= address && address <= list.values[i + 1]) {
            return true;
        }
    }
    return false;
}

/* Finds the eight lists in a block, their lengths and then their values, each as far as the block goes; gives the number of the first that has a fault. */
static uint8_t find_lists(const uint16_t *block, size_t length, List lists[8])
{
    size_t start = 8;

    for (int i = 0; i < 8; i++) {
        size_t given = start < length ? block[i] : 0;
        size_t left = start < length ? length - start : 0;
        lists[i] = (List){block + start, given < left ? given : left};
        uint8_t fault = list_fault(lists[i]);
        if (fault != 0) {
            return fault;
        }
        start += given;
    }
    return 0;
}

/* The list of a kind that is chosen, 1 for the first and 2 for the second, or NULL. */
static const List *chosen(const List lists[8], int kind, uint8_t choice)
{
    return choice == 1 || choice == 2 ? &lists[2 * kind + choice - 1] : NULL;
}

static Answer twice(uint8_t number, Header header)
{
    return (Answer){number, number, header.has_last_sender, header.last_sender, 0, 0, 0, header.pdu_length};
}

Answer plain_hear(Node node, const uint16_t *block, size_t block_length, const uint8_t *received, size_t length, uint8_t *output, size_t output_length)
{
    List lists[8];

    if (!is_edition(node.edition)) {
        return twice(17, (Header){0});
    }
    uint8_t fault = find_lists(block, block_length, lists);
    if (fault != 0) {
        return twice(fault, (Header){0});
    }
    Header header = plain_read(node.edition, received, length);
    if (header.number != 0) {
        return twice(header.number, header);
    }
    size_t path_end = header.header_length;
    if (node.echo) {
        for (size_t at = path_end - 2 * (size_t)header.path_count; at < path_end; at += 2) {
            if (word(received + at) == node.own) {
                return twice(30, header);
            }
        }
        if (header.source == node.own) {
            return twice(42, header);
        }
    }
    const List *list = chosen(lists, 0, node.source_pass);
    if (list != NULL && !list_holds(*list, header.source)) {
        return twice(31, header);
    }
    list = chosen(lists, 1, node.source_reject);
    if (list != NULL && list_holds(*list, header.source)) {
        return twice(32, header);
    }
    if (header.has_destination) {
        list = chosen(lists, 2, node.destination_pass);
        if (list != NULL && !list_holds(*list, header.destination)) {
            return twice(33, header);
        }
        list = chosen(lists, 3, node.destination_reject);
        if (list != NULL && list_holds(*list, header.destination)) {
            return twice(34, header);
        }
    }
    Answer answer = twice(0, header);
    if (header.has_destination && header.destination != node.own) {
        answer.delivery = 39;
    } else if (header.added_header) {
        answer.delivery = 35;
    } else {
        answer.delivered_place = header.header_length;
        answer.delivered_length = header.payload_length;
    }
    if (header.has_destination && header.destination == node.own) {
        answer.repeat = 41;
    } else if (!node.repeating) {
        answer.repeat = 36;
    } else if (header.hop_limit == 0) {
        answer.repeat = 37;
    } else if (header.path_count == 255) {
        answer.repeat = 38;
    } else {
        size_t added = header.path_bit ? 2 : 0;
        if (output_length < header.pdu_length + added) {
            return twice(40, header);
        }
        memcpy(output, received, header.header_length);
        if (header.hop_limit < 7) {
            output[2] = (uint8_t)(output[2] - 16);
        }
        if (header.path_bit) {
            output[path_end - 2 * (size_t)header.path_count - 1]++;
            put_word(output + path_end, node.own);
        }
        memcpy(output + path_end + added, received + path_end, header.payload_length);
        answer.repeated_length = header.pdu_length + added;
    }
    return answer;
}

/* The whole walk: how many PDUs were answered for, and where it ended. */
size_t plain_walk(Node node, const uint16_t *block, size_t block_length, const uint8_t *batch, size_t length, uint8_t *output, size_t output_length,
                  size_t *end)
{
    size_t count = 0;
    size_t at = 0;

    *end = 0;
    if (length > 16384 && is_edition(node.edition)) {
        return 0;
    }
    while (at < length) {
        Answer answer = plain_hear(node, block, block_length, batch + at, length - at, output, output_length);
        count++;
        if (answer.taken == 0) {
            break;
        }
        at += answer.taken;
    }
    *end = at;
    return count;
}
