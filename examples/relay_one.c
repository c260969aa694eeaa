/* Node 2000 relays a report from gauge 1000 to base 1600, and then gets a list for each season. From the repository's root:

       tools/build staticlib mant
       gcc -std=c11 -Wall -Wextra -pedantic examples/relay_one.c -Iinclude target/staticlib/libmant.a -o /tmp/relay_one && /tmp/relay_one

   prints examples/relay_one.expected. */
#include <stdio.h>

#include "mant.h"

static void print_hex(const char *name, const uint8_t *bytes, size_t length)
{
    printf("%s, %u bytes: ", name, (unsigned)length);
    for (size_t i = 0; i < length; i++) {
        printf("%02X", bytes[i]);
    }
    printf("\n");
}

static void print_number(const char *name, uint8_t number)
{
    printf("%s: %u, %s\n", name, number, mant_meaning(number));
}

/* The sender is unknown without the path bit. Address 0 is an address like any other. */
static void print_sender(const char *name, bool known, uint16_t address)
{
    if (known) {
        printf("%s from %u\n", name, address);
    } else {
        printf("%s from an unknown sender\n", name);
    }
}

/* The first lists are for the dry season, the second for the flood season. Gauge 1000 passes in the flood season alone, and every destination in both. */
static void print_seasons(MantNode node, const uint8_t *pdu, size_t length)
{
    const uint16_t dry[] = {1001, 1999}, flood[] = {1000, 1999, 3000, 3999}, all[] = {0, 65535};
    const MantLists wanted = {.source_pass = {.first = {dry, 2}, .second = {flood, 4}}, .destination_pass = {.first = {all, 2}, .second = {all, 2}}};
    static MantListBlock lists;
    uint8_t repeated[MANT_PDU_LIMIT];

    print_number("lists laid", mant_lay_lists(&lists, &wanted).number);
    node = mant_change_over(node, MANT_FIRST_LIST);
    print_number("in the dry season", mant_hear(node, lists.words, MANT_LIST_WORDS, pdu, length, repeated, sizeof repeated).repeat);
    node = mant_change_over(node, MANT_SECOND_LIST);
    print_number("in the flood season", mant_hear(node, lists.words, MANT_LIST_WORDS, pdu, length, repeated, sizeof repeated).repeat);
}

int main(void)
{
    const uint8_t payload[] = {0x70, 0x01, 0x08, 0x12, 0x12, 0x03, 0x24, 0x13, 0x22, 0x02, 0x76};
    uint8_t fresh[MANT_PDU_LIMIT];
    uint8_t repeated[MANT_PDU_LIMIT];

    MantFresh settings = {.edition = MANT_EDITION_1_2, .source = 1000, .has_destination = true, .destination = 1600, .hop_limit = 263, .with_path = true};
    MantWritten written = mant_originate(settings, payload, sizeof payload, fresh, sizeof fresh);
    print_number("hop limit 263", written.number);

    settings.hop_limit = 1;
    written = mant_originate(settings, payload, sizeof payload, fresh, sizeof fresh);
    print_number("hop limit 1", written.number);
    print_hex("originated", fresh, written.length);

    const MantNode node = MANT_NODE(2000);
    MantAnswer answer = mant_hear(node, NULL, 0, fresh, written.length, repeated, sizeof repeated);
    print_number("delivery at node 2000", answer.delivery);
    print_number("repeat at node 2000", answer.repeat);
    print_sender("node 2000 heard it", answer.has_last_sender, answer.last_sender);
    print_hex("repeated", repeated, answer.repeated_length);

    MantHeader header = mant_read(MANT_EDITION_1_2, repeated, answer.repeated_length);
    printf("its hop limit is %u, its path has %u address: %u\n", header.hop_limit, header.path_count, mant_path_address(repeated, answer.repeated_length, 0));
    print_sender("the repeat is heard", header.has_last_sender, header.last_sender);

    /* The node hears its own repeat. */
    answer = mant_hear(node, NULL, 0, repeated, answer.repeated_length, fresh, sizeof fresh);
    print_number("repeat of the repeat", answer.repeat);

    print_seasons(node, fresh, written.length);
    return 0;
}
