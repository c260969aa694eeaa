/* Stands between a program and the library on x86-64, and writes each call to the file that MANT_CALLS names. */
#include "calls.h"

#define IN_A_ROW 4 /* calls of one function that are recorded; further ones are made alone, since many differ only in a number */

static FILE *file;

static void put_byte(uint8_t byte)
{
    if (putc(byte, file) == EOF) {
        fail("MANT_CALLS cannot be written");
    }
}

/* A number in groups of seven bits, the low ones first. */
static void put(uint64_t number)
{
    for (; number >= 128; number >>= 7) {
        put_byte((uint8_t)(number | 128));
    }
    put_byte((uint8_t)number);
}

/* Whether a call is recorded. */
static bool begin(unsigned function)
{
    static unsigned last = UINT32_MAX, times;
    if (file == NULL && (getenv("MANT_CALLS") == NULL || (file = fopen(getenv("MANT_CALLS"), "wb")) == NULL)) {
        fail("MANT_CALLS names no file that can be written");
    }
    times = function == last ? times + 1 : 0;
    last = function;
    if (times < IN_A_ROW) {
        put(function);
    }
    return times < IN_A_ROW;
}

/* Writes what differs from what lay there: how many bytes to pass over, how many follow, and these; with none to follow it ends. */
static void lend(unsigned parameter, const void *content, size_t bytes)
{
    const uint8_t *from = content;
    uint8_t *place = place_of(parameter, bytes);
    for (size_t i = 0, kept = 0; i < bytes; kept = i) {
        while (i < bytes && place[i] == from[i]) {
            i++;
        }
        size_t start = i, same = 0;
        while (i < bytes && same < 4) {
            same = place[i] == from[i] ? same + 1 : 0;
            i++;
        }
        i -= same;
        if (i > start) {
            put(start - kept), put(i - start);
            fwrite(from + start, 1, i - start, file);
            memcpy(place + start, from + start, i - start);
        }
    }
    put(0), put(0);
}

/* What the call left in memory that it may write. */
static void left(unsigned parameter, const void *content, size_t bytes)
{
    if (bytes > 0) {
        memcpy(place_of(parameter, bytes), content, bytes);
    }
    mix_lent(parameter, bytes);
}

static void end(void)
{
    put(sum_low), put(sum_high);
}
