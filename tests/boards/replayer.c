/* Makes the calls that the recorder wrote to the file `calls`, with the library of this processor, and compares what each returns and leaves in memory. */
#define _DEFAULT_SOURCE /* read */
#include <fcntl.h>
#include <unistd.h>

#include "calls.h"

static int file;
static unsigned long calls;

static uint8_t get_byte(void)
{
    static uint8_t buffer[262144]; /* each read is a stop of the emulator */
    static size_t at, there;
    if (at == there) {
        const long got = (long)read(file, buffer, sizeof buffer);
        if (got <= 0) {
            fail("the file ends within a call");
        }
        at = 0;
        there = (size_t)got;
    }
    return buffer[at++];
}

static uint64_t get(void)
{
    uint64_t number = 0;
    uint8_t byte = 128;
    for (unsigned shift = 0; byte >= 128; shift += 7) {
        byte = get_byte();
        number |= (uint64_t)(byte & 127) << shift;
    }
    return number;
}

static void *borrow(unsigned parameter, size_t bytes)
{
    uint8_t *place = place_of(parameter, bytes), *at = place;
    for (;;) {
        at += get();
        size_t changed = get();
        if (changed == 0) {
            return place;
        }
        while (changed-- > 0) {
            *at++ = get_byte();
        }
    }
}

static void compare(const char *name)
{
    uint32_t low = (uint32_t)get(), high = (uint32_t)get();
    calls++;
    if (low != sum_low || high != sum_high) {
        printf("calls: call %lu, %s, returns or writes something else\n", calls, name);
        exit(1);
    }
}
