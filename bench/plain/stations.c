/* The stations heard. */

typedef struct {
    uint16_t address, reads, echoes;
    bool has_path;
    uint16_t shortest_path;
} Station;

typedef struct {
    uint16_t source;
    bool echo, path_bit;
    uint8_t path_count;
} Heard;

typedef struct {
    Answer answer;
    uint8_t table_number;
} Listened;

/* The stations heard, by rising address. */
typedef struct {
    size_t held;
    Station stations[128];
} Table;

/* The place of the first station whose address is not below this one. */
static size_t place_of(const Table *table, uint16_t address)
{
    size_t low = 0;
    size_t high = table->held;

    while (low < high) {
        size_t middle = (low + high) / 2;
        if (table->stations[middle].address < address) {
            low = middle + 1;
        } else {
            high = middle;
        }
    }
    return low;
}

uint8_t plain_count_heard(Table *table, Heard heard)
{
    size_t place = place_of(table, heard.source);
    Station *station = table->stations + place;

    if (place == table->held || station->address != heard.source) {
        if (table->held == 128) {
            return 55;
        }
        memmove(station + 1, station, (table->held - place) * sizeof *station);
        *station = (Station){.address = heard.source};
        table->held++;
    }
    if (station->reads < UINT16_MAX) {
        station->reads++;
    }
    if (heard.echo && station->echoes < UINT16_MAX) {
        station->echoes++;
    }
    if (heard.path_bit && (!station->has_path || heard.path_count < station->shortest_path)) {
        station->has_path = true;
        station->shortest_path = heard.path_count;
    }
    return 0;
}

Listened plain_hear_and_count(Node node, const uint16_t *block, size_t block_length, const uint8_t *received, size_t length, uint8_t *output,
                              size_t output_length, Table *table)
{
    Listened listened = {plain_hear(node, block, block_length, received, length, output, output_length), 0};

    if (listened.answer.taken != 0) {
        bool path_bit = received[0] >> 1 & 1;
        size_t path_place = 6 + 2 * (size_t)(received[0] & 1) + (received[0] >> 3 & 1);
        bool echo = listened.answer.delivery == 30 || listened.answer.delivery == 42;
        Heard heard = {word(received + 4), echo, path_bit, path_bit ? received[path_place] : 0};
        listened.table_number = plain_count_heard(table, heard);
    }
    return listened;
}
