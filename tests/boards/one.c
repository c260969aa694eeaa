/* Makes one call TIMES times, so that the instructions of one are the difference of two runs: CALL is mant_hear of document 002's example at a node without
   lists, or mant_open of the same PDU sealed. */
#include "mant.h"

static const uint8_t example[20] = {0x03, 0x00, 0x10, 0x0B, 0x03, 0xE8, 0x06, 0x40, 0x00, 0x70, 0x01, 0x08, 0x12, 0x12, 0x03, 0x24, 0x13, 0x22, 0x02, 0x76};
static uint8_t output[64], sealed[sizeof example + MANT_SEAL_LENGTH];
static MantSources record;
static const MantNode node = MANT_NODE(2000);
static const MantKey key = {{1, 2, 3}};

static inline uint8_t one_mant_hear(void)
{
    return mant_hear(node, NULL, 0, example, sizeof example, output, sizeof output).repeat;
}

static inline uint8_t one_mant_open(void)
{
    record.words[0] = 0;
    return mant_open(key, &record, sealed, sizeof sealed, output, sizeof output).number;
}

int main(void)
{
    uint8_t (*const calls[])(void) = {one_mant_hear, one_mant_open};
    volatile uint8_t wrong = mant_seal(key, 850, example, sizeof example, sealed, sizeof sealed).number;
    for (volatile int i = 0; i < TIMES; i++) {
        wrong |= CALL();
    }
    return wrong != 0 || calls[0] == calls[1];
}
