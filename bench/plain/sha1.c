/* SHA-1 of bytes that come part by part. */
typedef struct {
    uint32_t hash[5];
    uint8_t block[64];
    uint64_t total;
} Hashing;

static uint32_t rotated(uint32_t word, int by)
{
    return word << by | word >> (32 - by);
}

static void hash_block(Hashing *hashing)
{
    uint32_t words[80], a = hashing->hash[0], b = hashing->hash[1], c = hashing->hash[2], d = hashing->hash[3], e = hashing->hash[4];

    for (size_t i = 0; i < 16; i++) {
        const uint8_t *at = hashing->block + 4 * i;
        words[i] = (uint32_t)at[0] << 24 | (uint32_t)at[1] << 16 | (uint32_t)at[2] << 8 | at[3];
    }
    for (size_t i = 16; i < 80; i++) {
        words[i] = rotated(words[i - 3] ^ words[i - 8] ^ words[i - 14] ^ words[i - 16], 1);
    }
    for (size_t i = 0; i < 80; i++) {
        uint32_t mixed, constant;
        if (i < 20) {
            mixed = (b & c) | (~b & d), constant = 0x5A827999;
        } else if (i < 40) {
            mixed = b ^ c ^ d, constant = 0x6ED9EBA1;
        } else if (i < 60) {
            mixed = (b & c) | (b & d) | (c & d), constant = 0x8F1BBCDC;
        } else {
            mixed = b ^ c ^ d, constant = 0xCA62C1D6;
        }
        mixed += rotated(a, 5) + e + constant + words[i];
        e = d, d = c, c = rotated(b, 30), b = a, a = mixed;
    }
    hashing->hash[0] += a;
    hashing->hash[1] += b;
    hashing->hash[2] += c;
    hashing->hash[3] += d;
    hashing->hash[4] += e;
}

static void feed(Hashing *hashing, const uint8_t *bytes, size_t length)
{
    for (size_t i = 0; i < length; i++) {
        hashing->block[hashing->total++ % 64] = bytes[i];
        if (hashing->total % 64 == 0) {
            hash_block(hashing);
        }
    }
}

/* The first four bytes of the hash. */
static void finish(Hashing *hashing, uint8_t four[4])
{
    const uint8_t one = 0x80, none = 0;
    uint64_t bits = 8 * hashing->total;
    uint8_t length[8];

    for (size_t i = 0; i < 8; i++) {
        length[i] = (uint8_t)(bits >> (56 - 8 * i));
    }
    feed(hashing, &one, 1);
    while (hashing->total % 64 != 56) {
        feed(hashing, &none, 1);
    }
    feed(hashing, length, 8);
    for (size_t i = 0; i < 4; i++) {
        four[i] = (uint8_t)(hashing->hash[0] >> (24 - 8 * i));
    }
}
