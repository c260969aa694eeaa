#include "boundary.h"

static bool is_level(MantLevel level, size_t pdus, size_t bytes)
{
    return level.pdus == pdus && level.bytes == bytes;
}

static bool is_batch(MantBatch batch, uint8_t number, size_t pdus, size_t bytes)
{
    return batch.number == number && batch.pdus == pdus && batch.bytes == bytes;
}

static bool has_numbers(const MantQueue *queue, unsigned pdus, unsigned bytes, unsigned place)
{
    const uint8_t numbers[6] = {pdus >> 8, pdus & 255, bytes >> 8, bytes & 255, place >> 8, place & 255};
    return memcmp(queue->bytes, numbers, 6) == 0;
}

static void null_slices(void)
{
    MantQueue queue = {{0}};
    CHECK(mant_queue_add(&queue, NULL, 0) == MANT_NOT_ONE_PDU && is_batch(mant_queue_take(&queue, NULL, 0), 0, 0, 0));
    CHECK(is_level(mant_queue_level(&queue), 0, 0));
}

/* The example, a PDU of 6 bytes, and the example once more. */
static void adding_and_taking(void)
{
    const uint8_t shortest[7] = {0, 0, 0, 0, 0, 5, 1};
    MantQueue queue = {{0}}, before;
    uint8_t output[48], untouched[48];
    memset(output, 77, sizeof output);
    memset(untouched, 77, sizeof untouched);
    CHECK(mant_queue_add(&queue, example, 20) == 0 && mant_queue_add(&queue, shortest, 6) == 0);
    CHECK(mant_queue_add(&queue, example, 20) == 0 && is_level(mant_queue_level(&queue), 3, 46) && has_numbers(&queue, 3, 46, 0));
    before = queue;
    CHECK(mant_queue_add(&queue, example, 19) == MANT_NOT_ONE_PDU && mant_queue_add(&queue, shortest, 7) == 61);
    CHECK(is_batch(mant_queue_take(&queue, output, 19), MANT_OLDEST_TOO_LONG, 0, 0) && memcmp(&queue, &before, sizeof queue) == 0);
    CHECK(is_batch(mant_queue_take(&queue, NULL, 0), 62, 0, 0) && memcmp(output, untouched, sizeof output) == 0);
    CHECK(is_batch(mant_queue_take(&queue, output, 45), 0, 2, 26) && memcmp(output, example, 20) == 0);
    CHECK(memcmp(output + 20, shortest, 6) == 0 && memcmp(output + 26, untouched, 22) == 0 && is_level(mant_queue_level(&queue), 1, 20));
    CHECK(has_numbers(&queue, 1, 20, 26) && memcmp(queue.bytes + 6, before.bytes + 6, sizeof queue - 6) == 0);
    CHECK(is_batch(mant_queue_take(&queue, output, 20), 0, 1, 20) && is_batch(mant_queue_take(&queue, output, 48), 0, 0, 0));
    CHECK(memcmp(output, example, 20) == 0 && memcmp(output + 20, shortest, 6) == 0 && is_level(mant_queue_level(&queue), 0, 0));
}

static void full_queues(void)
{
    struct {
        MantQueue queue;
        uint8_t behind;
    } lent = {{{0}}, 77}, before;
    uint8_t pdu[MANT_QUEUE_BYTES + 1] = {0, 0, 0, 58}, output[MANT_QUEUE_BYTES];
    bool added = true;
    for (int i = 0; i < 31; i++) {
        added = added && mant_queue_add(&lent.queue, pdu, 64) == 0;
    }
    pdu[3] = 59;
    CHECK(added && mant_queue_add(&lent.queue, pdu, 65) == MANT_QUEUE_FULL);
    pdu[3] = 58;
    CHECK(mant_queue_add(&lent.queue, pdu, 64) == 0 && is_level(mant_queue_level(&lent.queue), MANT_QUEUE_PDUS, MANT_QUEUE_BYTES));
    before = lent;
    CHECK(mant_queue_add(&lent.queue, pdu, 63) == MANT_NOT_ONE_PDU && memcmp(&lent, &before, sizeof lent) == 0);
    CHECK(is_batch(mant_queue_take(&lent.queue, output, sizeof output), 0, 32, 2048) && memcmp(output, before.queue.bytes + 6, 2048) == 0);
    pdu[3] = 0;
    for (int i = 0; i < MANT_QUEUE_PDUS; i++) {
        added = added && mant_queue_add(&lent.queue, pdu, 6) == 0;
    }
    CHECK(added && mant_queue_add(&lent.queue, pdu, 6) == 60 && is_level(mant_queue_level(&lent.queue), 32, 192));
    CHECK(is_batch(mant_queue_take(&lent.queue, output, sizeof output), 0, 32, 192));
    pdu[2] = 0x07;
    pdu[3] = 0xFB;
    CHECK(mant_queue_add(&lent.queue, pdu, 2049) == 60);
    pdu[3] = 0xFA;
    CHECK(mant_queue_add(&lent.queue, pdu, 2048) == 0 && is_level(mant_queue_level(&lent.queue), 1, 2048) && lent.behind == 77);
}

/* 32 PDUs of 64 bytes: the place is 512 after 8 of them were taken one by one, and after one more the rest is moved to the front. */
static void sliding(void)
{
    MantQueue queue = {{0}};
    uint8_t pdu[64] = {0, 0, 0, 58}, output[64];
    bool as_it_should = true;
    for (uint8_t i = 0; i < 32; i++) {
        pdu[5] = i;
        as_it_should = as_it_should && mant_queue_add(&queue, pdu, 64) == 0;
    }
    for (uint8_t i = 0; i < 100; i++) {
        as_it_should = as_it_should && is_batch(mant_queue_take(&queue, output, 64), 0, 1, 64) && output[5] == i;
        as_it_should = as_it_should && has_numbers(&queue, 31, 31 * 64, (i + 1) % 9 * 64);
        pdu[5] = i + 32;
        as_it_should = as_it_should && mant_queue_add(&queue, pdu, 64) == 0;
    }
    CHECK(as_it_should && is_level(mant_queue_level(&queue), 32, 2048));
}

/* Numbers above the limits count as the limits; where the bytes can't be read, none is held and 0 is answered. */
static void arbitrary_bytes(void)
{
    const uint8_t held[20] = {0, 0, 0, 1, 0, 5, 9, 0, 0, 0, 0, 0, 5, 0x40, 1, 2, 3, 4, 5, 6};
    MantQueue queue, before;
    uint8_t output[7] = {0};
    memset(&queue, 0xFF, sizeof queue);
    before = queue;
    CHECK(is_level(mant_queue_level(&queue), 32, 2048) && is_batch(mant_queue_take(&queue, output, 7), 0, 0, 0));
    CHECK(mant_queue_add(&queue, held, 7) == 60 && memcmp(&queue, &before, sizeof queue) == 0);
    memcpy(queue.bytes + 518, held, 20);
    before = queue;
    CHECK(is_batch(mant_queue_take(&queue, output, 6), 62, 0, 0) && memcmp(&queue, &before, sizeof queue) == 0);
    CHECK(is_batch(mant_queue_take(&queue, output, 7), 0, 1, 7) && memcmp(output, held, 7) == 0);
    CHECK(has_numbers(&queue, 31, 2041, 0) && memcmp(queue.bytes + 6, before.bytes + 525, 2041) == 0);
    queue.bytes[3] = 5;
    queue.bytes[2] = 0;
    CHECK(is_level(mant_queue_level(&queue), 31, 5) && is_batch(mant_queue_take(&queue, output, 7), 0, 0, 0) && has_numbers(&queue, 31, 5, 0));
}

/* A queue of two PDUs, of which one is taken, and one whose numbers are any; then one that goes on from empty. */
static void clearing(void)
{
    const uint8_t shortest[6] = {0, 0, 0, 0, 0, 5};
    MantQueue queue = {{0}}, before;
    uint8_t output[20];
    CHECK(mant_queue_add(&queue, shortest, 6) == 0 && mant_queue_add(&queue, example, 20) == 0);
    CHECK(is_batch(mant_queue_take(&queue, output, 20), 0, 1, 6) && is_level(mant_queue_level(&queue), 1, 20));
    before = queue;
    mant_queue_clear(&queue);
    CHECK(has_numbers(&queue, 0, 0, 0) && memcmp(queue.bytes + 6, before.bytes + 6, sizeof queue - 6) == 0 && is_level(mant_queue_level(&queue), 0, 0));
    CHECK(is_batch(mant_queue_take(&queue, output, 20), 0, 0, 0) && memcmp(output, shortest, 6) == 0);
    memset(&queue, 0xFF, 6);
    mant_queue_clear(&queue);
    CHECK(has_numbers(&queue, 0, 0, 0) && memcmp(queue.bytes + 6, before.bytes + 6, sizeof queue - 6) == 0);
    CHECK(mant_queue_add(&queue, example, 20) == 0 && is_level(mant_queue_level(&queue), 1, 20));
    CHECK(is_batch(mant_queue_take(&queue, output, 20), 0, 1, 20) && memcmp(output, example, 20) == 0);
}

void the_transmit_queue(void)
{
    null_slices();
    adding_and_taking();
    full_queues();
    sliding();
    arbitrary_bytes();
    clearing();
}
