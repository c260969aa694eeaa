/* What recorder and replayer share (tests/boards/calls.py): memory for the slices of a call, and a sum over what a call returns and writes. Parameters of one
   name have one place there. Both programs have the same bytes in it at all times, so only bytes that differ are recorded. Every processor here is
   little-endian. */
#include <stdint.h>
#include <stdio.h>
#include <stdlib.h>
#include <string.h>

#include "mant.h"

#define PLACE_BYTES 147456
#define BEHIND 8 /* bytes behind each slice, which no call may change */

static uint64_t lent[PLACES][PLACE_BYTES / 8];
static uint32_t sum_low, sum_high;

static void fail(const char *words)
{
    printf("calls: %s\n", words);
    exit(1);
}

/* Where the slice of a parameter lies. */
static uint8_t *place_of(unsigned parameter, size_t bytes)
{
    if (bytes > PLACE_BYTES - BEHIND) {
        fail("a call lends more memory than there is room for");
    }
    return (uint8_t *)lent[parameter];
}

static void mix(uint32_t word)
{
    sum_low = (sum_low ^ word) * 16777619u;
    sum_high = (sum_high << 5 | sum_high >> 27) + word;
}

static void mix_number(uint64_t number)
{
    mix((uint32_t)number);
    mix((uint32_t)(number >> 32));
}

/* Adds what the call left in memory that it may write, and behind it. */
static void mix_lent(unsigned parameter, size_t bytes)
{
    const uint32_t *words = (const uint32_t *)lent[parameter];
    for (size_t i = 0; i < (bytes + BEHIND) / 4; i++) {
        mix(words[i]);
    }
}
