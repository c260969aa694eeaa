/* What C sees at the boundary: empty slices with NULL, the fields of every struct, the limits; in boundary/ a file for each group of mant.h. From the
   repository's root, after tools/build staticlib mant:

       gcc -std=c11 -Wall -Wextra -pedantic tests/boundary.c tests/boundary/[a-z]*.c -Iinclude target/staticlib/libmant.a -o /tmp/boundary && /tmp/boundary

   prints how many checks passed, and each that failed. */
#include <stdio.h>

#include "boundary/boundary.h"

const uint8_t example[20] = {0x03, 0x00, 0x10, 0x0B, 0x03, 0xE8, 0x06, 0x40, 0x00, 0x70, 0x01, 0x08, 0x12, 0x12, 0x03, 0x24, 0x13, 0x22, 0x02, 0x76};
const MantNode node = MANT_NODE(2000);
static int passed, failed;

void check(bool holds, const char *fact, const char *file, int line)
{
    if (holds) {
        passed++;
    } else {
        failed++;
        printf("%s:%d fails: %s\n", file, line, fact);
    }
}

int main(void)
{
    reading();
    originating();
    a_node();
    address_lists();
    stations_heard();
    the_transmit_queue();
    the_serial_exchange();
    reliable_messages();
    sealing_and_opening();
    planning();
    printf("%d passed, %d failed\n", passed, failed);
    return failed != 0;
}
