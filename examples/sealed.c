/* A gate command from 1000 to 1600. It is sealed, repeated at node 2000 and opened at the gate. A changed copy and a second copy are refused. From the
   repository's root:

       tools/build staticlib mant
       gcc -std=c11 -Wall -Wextra -pedantic examples/sealed.c -Iinclude target/staticlib/libmant.a -o /tmp/sealed && /tmp/sealed

   prints examples/sealed.expected. */
#include <stdio.h>

#include "mant.h"

/* Only these two sites have the key. The two variables stand for memory that survives a restart: the sender's next number, and the receiver's record. */
static const MantKey key = {{'k', 'e', 'e', 'p', ' ', 'm', 'e', ' ', 's', 'e', 'c', 'r', 'e', 't', '!', '!'}};
static uint64_t next_number = 850;
static MantSources record;

/* Overwrites the stack that mant_seal or mant_open used: round keys are left there. Call it directly after, from the same function. */
__attribute__((noinline)) static void clear_stack(void)
{
    volatile uint8_t used[2304];
    for (size_t i = 0; i < sizeof used; i++) {
        used[i] = 0;
    }
}

static void print_hex(const char *name, const uint8_t *bytes, size_t length)
{
    printf("%s, %u bytes: ", name, (unsigned)length);
    for (size_t i = 0; i < length; i++) {
        printf("%02X", bytes[i]);
    }
    printf("\n");
}

/* Saves the next number before the sealed PDU can go out, so that no restart uses a number twice. */
static MantWritten seal_next(const uint8_t *pdu, size_t length, uint8_t *sealed, size_t room)
{
    uint64_t number = next_number;
    next_number = number + 1;
    MantWritten written = mant_seal(key, number, pdu, length, sealed, room);
    clear_stack();
    return written;
}

static void open_at_gate(const char *name, const uint8_t *pdu, size_t length)
{
    uint8_t plain[MANT_PAYLOAD_LIMIT];
    MantWritten opened = mant_open(key, &record, pdu, length, plain, sizeof plain);
    clear_stack();

    printf("%s: %u, %s\n", name, opened.number, mant_meaning(opened.number));
    if (opened.number == MANT_DONE) {
        print_hex("plain payload", plain, opened.length);
    }
}

int main(void)
{
    const uint8_t command[] = {0x70, 0x01, 0x08, 0x12, 0x12, 0x03, 0x24, 0x13, 0x22, 0x02, 0x76};
    const MantFresh settings = {.edition = MANT_EDITION_1_2, .source = 1000, .has_destination = true, .destination = 1600, .hop_limit = 1, .with_path = true};
    const MantNode node = MANT_NODE(2000);
    uint8_t fresh[MANT_PDU_LIMIT], sealed[MANT_PDU_LIMIT], repeated[MANT_PDU_LIMIT];

    MantWritten written = mant_originate(settings, command, sizeof command, fresh, sizeof fresh);
    print_hex("originated", fresh, written.length);
    written = seal_next(fresh, written.length, sealed, sizeof sealed);
    print_hex("sealed", sealed, written.length);
    printf("its message number: %u\n", (unsigned)mant_message_number(sealed, written.length).message);

    /* Node 2000 needs no key. */
    MantAnswer answer = mant_hear(node, NULL, 0, sealed, written.length, repeated, sizeof repeated);
    print_hex("repeated", repeated, answer.repeated_length);

    repeated[answer.repeated_length - 1] ^= 1;
    open_at_gate("changed on its way", repeated, answer.repeated_length);
    repeated[answer.repeated_length - 1] ^= 1;
    open_at_gate("as it was sent", repeated, answer.repeated_length);
    open_at_gate("the same again", sealed, written.length);
    printf("%u source is held: the last number accepted from %u is %u\n", (unsigned)record.words[0], (unsigned)record.words[1], (unsigned)record.words[2]);

    /* When both sites change the key, the gate removes the source, and its numbers may begin again. */
    printf("removed: %s\n", mant_remove_source(&record, settings.source) ? "yes" : "no");
    printf("sources held: %u\n", (unsigned)record.words[0]);
    return 0;
}
