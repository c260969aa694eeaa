/* The transmit queue as a ring: the bytes of the PDUs and their lengths, each from its first place on and then from the start again. */
typedef struct {
    size_t first_pdu, pdus, first_byte, bytes;
    uint16_t lengths[32];
    uint8_t ring[2048];
} Ring;

typedef struct {
    size_t pdus, bytes;
} Level;

typedef struct {
    uint8_t number;
    size_t pdus, bytes;
} Batch;

Level plain_queue_level(const Ring *ring)
{
    return (Level){ring->pdus, ring->bytes};
}

uint8_t plain_queue_add(Ring *ring, const uint8_t *pdu, size_t length)
{
    Header header = plain_read(12, pdu, length);
    size_t end, before_the_end;

    if (header.number != 0 || header.pdu_length != length) {
        return 61;
    }
    if (ring->pdus == 32 || length > 2048 - ring->bytes) {
        return 60;
    }
    end = (ring->first_byte + ring->bytes) % 2048;
    before_the_end = length < 2048 - end ? length : 2048 - end;
    memcpy(ring->ring + end, pdu, before_the_end);
    memcpy(ring->ring, pdu + before_the_end, length - before_the_end);
    ring->lengths[(ring->first_pdu + ring->pdus) % 32] = (uint16_t)length;
    ring->pdus++;
    ring->bytes += length;
    return 0;
}

Batch plain_queue_take(Ring *ring, uint8_t *output, size_t output_length)
{
    Batch batch = {0};
    size_t before_the_end;

    while (batch.pdus < ring->pdus) {
        size_t length = ring->lengths[(ring->first_pdu + batch.pdus) % 32];
        if (length > output_length - batch.bytes) {
            break;
        }
        batch.pdus++;
        batch.bytes += length;
    }
    if (batch.pdus == 0) {
        batch.number = ring->pdus == 0 ? 0 : 62;
        return batch;
    }
    before_the_end = batch.bytes < 2048 - ring->first_byte ? batch.bytes : 2048 - ring->first_byte;
    memcpy(output, ring->ring + ring->first_byte, before_the_end);
    memcpy(output + before_the_end, ring->ring, batch.bytes - before_the_end);
    ring->first_pdu = (ring->first_pdu + batch.pdus) % 32;
    ring->first_byte = (ring->first_byte + batch.bytes) % 2048;
    ring->pdus -= batch.pdus;
    ring->bytes -= batch.bytes;
    return batch;
}

void plain_queue_clear(Ring *ring)
{
    ring->pdus = 0;
    ring->bytes = 0;
}
