/* Base 1000 sends gate 1600 a command, which is lost, sent again and acknowledged, and then one that nobody acknowledges. From the repository's root:

       tools/build staticlib mant
       gcc -std=c11 -Wall -Wextra -pedantic examples/gate.c -Iinclude target/staticlib/libmant.a -o /tmp/gate && /tmp/gate

   prints examples/gate.expected. */
#include <stdio.h>

#include "mant.h"

#define DELAY 30 /* seconds until a command is sent again */
#define TRIES 2  /* how often it is sent again */

/* A site: its settings, and the PDUs that it retains. */
typedef struct {
    MantNode node;
    MantReliable reliable;
} Site;

static Site base = {.node = MANT_NODE(1000)}, gate = {.node = MANT_NODE(1600)};
static const MantSending sending = {.hop_limit = 1, .with_path = true};

static void print_outcome(const char *name, MantOutcome outcome)
{
    static const char *const deeds[] = {"nothing", "retained", "sent again", "reported failed", "freed by its acknowledgement", "acknowledged"};

    printf("%s: %u, %s\n", name, outcome.number, mant_meaning(outcome.number));
    if (outcome.deed != MANT_DEED_NONE) {
        printf("    PDU %u from %u to %u is %s\n", outcome.names.pdu_id, outcome.names.source, outcome.names.destination, deeds[outcome.deed]);
    }
}

/* Originates and retains a command, and returns its length. It is then to be sent. */
static size_t give(uint8_t pdu_id, uint64_t time, uint8_t *output)
{
    const MantFresh settings = {
        .edition = MANT_EDITION_1_2, .source = 1000, .has_destination = true, .destination = 1600, .hop_limit = 1, .reliable = true, .pdu_id = pdu_id};
    const uint8_t open_gate[] = {0x01};
    MantWritten written = mant_originate(settings, open_gate, sizeof open_gate, output, MANT_RETAINED_LIMIT);

    print_outcome("command given", mant_reliable_retain(&base.reliable, time, output, written.length));
    return written.length;
}

/* One step at the base. Returns how many bytes are to be sent. */
static size_t step(uint64_t time, uint8_t *output)
{
    MantOutcome outcome = mant_reliable_retry(&base.reliable, time, DELAY, TRIES, output, MANT_RETAINED_LIMIT);

    printf("at %u s ", (unsigned)time);
    print_outcome("a step", outcome);
    return outcome.length;
}

/* A site hears a PDU. Returns the length of the acknowledgement to be sent. A real gate would act on the payload. */
static size_t hear(const char *name, Site *site, const uint8_t *pdu, size_t length, uint8_t *output)
{
    MantHeardReliably heard = mant_reliable_hear(site->node, NULL, 0, &site->reliable, pdu, length, sending, output, MANT_RETAINED_LIMIT);

    printf("%s, payload bytes delivered: %u\n", name, (unsigned)heard.answer.delivered_length);
    print_outcome("its table", heard.outcome);
    return heard.outcome.length;
}

int main(void)
{
    uint8_t command[MANT_RETAINED_LIMIT], acknowledgement[MANT_RETAINED_LIMIT], none[MANT_RETAINED_LIMIT];

    base.node.repeating = gate.node.repeating = false;
    give(7, 100, command); /* sent, and lost on its way */
    step(129, command);
    size_t length = step(130, command);
    length = hear("the gate hears it", &gate, command, length, acknowledgement);
    hear("the base hears the acknowledgement", &base, acknowledgement, length, none);
    step(160, command);

    give(8, 200, command); /* nobody acknowledges it */
    for (uint64_t time = 230; time <= 290; time += DELAY) {
        step(time, command);
    }
    step(289, command);
    return 0;
}
