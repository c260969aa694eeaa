/* A whole repeater. It counts, delivers and repeats what the modem hears. It opens, carries out and acknowledges sealed commands. PDUs to be sent wait for the
   next slot. An alarm of its own is sent again in later slots until it is acknowledged. Stored frames stand for the modem, and the program prints what a box
   would send and do (examples/box.expected). From the repository's root:

       tools/build staticlib mant
       gcc -std=c11 -Wall -Wextra -pedantic examples/box.c -Iinclude target/staticlib/libmant.a -o /tmp/box && /tmp/box */
#include <stdio.h>
#include "mant.h"

/* Settings of the box. */
#define BASE 1600     /* whom it alarms */
#define HOP_LIMIT 3   /* of what it sends itself */
#define SLOT 10       /* seconds from one slot to the next */
#define SLOT_BYTES 32 /* what the modem sends in a slot */
#define DELAY 20      /* seconds after which an alarm without acknowledgement is sent again */
#define TRIES 2       /* how often it is sent again */

static const uint16_t left_to_others[] = {1300, 1399};
static const MantLists wanted = {.source_reject = {.first = {left_to_others, 2}}};
static MantListBlock lists;             /* laid in main */
static MantNode node = MANT_NODE(2000); /* address 2000, edition 1.2, echo and repeating on */
static const MantSending sending = {.hop_limit = HOP_LIMIT, .with_path = true};
static const MantKey key = {{'k', 'e', 'e', 'p', ' ', 'm', 'e', ' ', 's', 'e', 'c', 'r', 'e', 't', '!', '!'}};

/* What the box remembers. All of it begins empty. The record and alarm_id survive a restart (save). */
static MantStations stations;
static MantQueue queue;
static MantReliable alarms; /* its times are seconds since the start, so that none is earlier than the last */
static MantSources record;
static uint64_t last_opened = UINT64_MAX;                                           /* source, PDU ID and message number opened last, in one */
static uint8_t raised = 4, alarm_id = 1;                                            /* alarms that wait for a slot, a bit each; their next PDU ID */
static uint8_t output[MANT_PDU_LIMIT], plain[MANT_PAYLOAD_LIMIT], slot[SLOT_BYTES]; /* room for what a call writes */

/* What the modem hears, and at which second. */
#define COMMAND(last) 0x0B, 8, 0x30, 11, 0x06, 0x40, 0x07, 0xD0, 9, 0, 0, 0x03, 0x52, 0x5C, 0x1B, 0xA0, 0x3B, 0x2D, 0x59, 0x77, last
static const struct {
    uint64_t time;
    const char *what;
    size_t length;
    uint8_t bytes[40];
} frames[] = {
    {3, "reports of gauges 1000 and 1300", 17, {2, 0, 0x20, 2, 0x03, 0xE8, 0, 0x12, 0x34, 2, 0, 0x20, 1, 0x05, 0x14, 0, 0x55}},
    {6, "a long report of gauge 1001", 37, {2, 0, 0x20, 30, 0x03, 0xE9, 0, 0x56}},
    {12, "the first again, by way of this box and of 2001", 13, {2, 0, 0, 2, 0x03, 0xE8, 2, 0x07, 0xD0, 0x07, 0xD1, 0x12, 0x34}},
    {13, "a sealed command of the base, changed on its way", 21, {COMMAND(0xB4)}},
    {14, "the same as it was sent", 21, {COMMAND(0xB5)}},
    {24, "the same again, since its acknowledgement was lost", 21, {COMMAND(0xB5)}},
    {33, "the base acknowledges the alarm", 10, {0x0B, 1, 0x30, 0, 0x06, 0x40, 0x07, 0xD0, 1, 0}},
    {36, "a report cut on its way", 8, {2, 0, 0x20, 5, 0x03, 0xE8, 0, 0x12}},
};

/* Returns whether a call succeeded; if not, prints why. */
static bool done(const char *name, uint8_t number)
{
    if (number != MANT_DONE) {
        printf("    %s: %u, %s\n", name, number, mant_meaning(number));
    }
    return number == MANT_DONE;
}

static void print_hex(const char *name, const uint8_t *bytes, size_t length)
{
    printf("    %s, %u bytes%s", name, (unsigned)length, length > 0 ? ": " : "");
    for (size_t i = 0; i < length; i++) {
        printf("%02X", bytes[i]);
    }
    printf("\n");
}

/* Adds a PDU to the queue, unless it is too long for any slot: it would hold up all behind it. */
static void enqueue(const char *name, const uint8_t *pdu, size_t length)
{
    if (length > SLOT_BYTES) {
        printf("    %s dropped: its %u bytes are more than a slot has room for\n", name, (unsigned)length);
    } else if (done("queue", mant_queue_add(&queue, pdu, length))) {
        print_hex(name, pdu, length);
    }
}

/* To be filled in: write record and alarm_id, all or nothing, to memory that survives a restart. Otherwise old commands would open again, and the base would
   take a new alarm for a copy of an old one. */
static void save(void) {}

/* Opens a sealed payload, and returns whether to acknowledge it: only if it was carried out. With 82 that is known of the very last message alone; any other
   came too late or is forged. Only what the base sends to this box is a command. The record is saved before a command is carried out, so that no restart
   carries it out twice. */
static bool open_sealed(const uint8_t *pdu, MantHeader header)
{
    MantWritten opened = mant_open(key, &record, pdu, header.pdu_length, plain, sizeof plain);
    if (!done("opening", opened.number) && opened.number != MANT_NUMBER_NOT_GREATER) {
        return false;
    }
    uint64_t message = (uint64_t)header.source << 32 | (uint64_t)header.pdu_id << 24 | mant_message_number(pdu, header.pdu_length).message;
    if (opened.number == MANT_DONE) {
        save();
        print_hex(header.source == BASE && header.has_destination ? "command" : "sealed report", plain, opened.length);
        last_opened = message;
    }
    return message == last_opened;
}

/* Handles a delivered PDU, and returns whether to acknowledge it. One that is not sealed is a report: anyone can send it, and it may arrive twice. */
static bool deliver(const uint8_t *pdu, MantAnswer answer)
{
    MantHeader header = mant_read(node.edition, pdu, answer.taken);
    if (header.encrypted) {
        return open_sealed(pdu, header);
    }
    print_hex("payload", pdu + answer.delivered_place, answer.delivered_length);
    return true;
}

/* Prints the outcome of a call with the alarms, and returns whether it succeeded. */
static bool note(MantOutcome outcome)
{
    static const char *const deeds[] = {"", "retained", "sent again", "given up", "known to have arrived", "acknowledged"};
    if (outcome.deed != MANT_DEED_NONE) {
        printf("    PDU %u from %u to %u is %s\n", outcome.names.pdu_id, outcome.names.source, outcome.names.destination, deeds[outcome.deed]);
    }
    return done("alarms", outcome.number);
}

/* Hears the PDU at the start of the bytes, and returns its length, or 0 if it cannot be read. */
static size_t hear(const uint8_t *pdu, size_t length)
{
    MantListened heard = mant_hear_and_count(node, lists.words, MANT_LIST_WORDS, pdu, length, output, sizeof output, &stations);
    MantAnswer answer = heard.answer;
    done("table of stations", heard.table_number);
    if (done("repeat", answer.repeat)) {
        enqueue("repeat", output, answer.repeated_length);
    }
    if (done("delivery", answer.delivery) && deliver(pdu, answer)) {
        MantOutcome outcome = mant_reliable_acknowledge(&alarms, node.own, pdu, answer.taken, answer, sending, output, sizeof output);
        if (note(outcome) && outcome.deed == MANT_DEED_ACKNOWLEDGED) {
            enqueue("acknowledgement", output, outcome.length);
        }
    }
    return answer.taken;
}

/* Hears a frame: PDUs back to back. Bytes behind one that cannot be read are lost. */
static void hear_frame(const uint8_t *bytes, size_t length)
{
    for (size_t place = 0, taken = 1; place < length && taken != 0; place += taken) {
        taken = hear(bytes + place, length - place);
    }
}

/* Begins the slot with the alarms raised, and returns their length. An alarm that cannot be retained is not sent, and waits for the next slot. */
static size_t begin_with_alarms(uint64_t now)
{
    const MantFresh fresh = {.edition = node.edition,
                             .source = node.own,
                             .has_destination = true,
                             .destination = BASE,
                             .hop_limit = HOP_LIMIT,
                             .with_path = true,
                             .reliable = true,
                             .pdu_id = alarm_id};
    MantWritten written = mant_originate(fresh, &raised, 1, slot, sizeof slot);
    if (!done("alarm", written.number) || !note(mant_reliable_retain(&alarms, now, slot, written.length))) {
        return 0;
    }
    raised = 0;
    alarm_id++;
    save();
    return written.length;
}

/* Sends the slot: new alarms, alarms that are late, then what fits from the queue. What has no room (77, 62) goes out later. */
static void send_slot(uint64_t now)
{
    printf("%u s: a slot\n", (unsigned)now);
    size_t used = raised != 0 ? begin_with_alarms(now) : 0;
    MantOutcome outcome;
    do {
        outcome = mant_reliable_retry(&alarms, now, DELAY, TRIES, slot + used, sizeof slot - used);
        note(outcome);
        used += outcome.length;
    } while (outcome.deed != MANT_DEED_NONE);
    MantBatch batch = mant_queue_take(&queue, slot + used, sizeof slot - used);
    done("queue", batch.number);
    used += batch.bytes;
    if (used > 0) {
        print_hex("sent", slot, used);
    }
}

int main(void)
{
    node.source_reject = MANT_FIRST_LIST;
    if (!done("lists", mant_lay_lists(&lists, &wanted).number)) {
        return 1;
    }
    for (uint64_t now = 1, next = 0; now <= 40; now++) { /* a real box goes on */
        for (; next < sizeof frames / sizeof frames[0] && frames[next].time == now; next++) {
            printf("%u s: %s\n", (unsigned)now, frames[next].what);
            hear_frame(frames[next].bytes, frames[next].length);
        }
        if (now % SLOT == 0) {
            send_slot(now);
        }
    }
    for (size_t i = 0; i < mant_stations_held(&stations); i++) {
        MantStation station = mant_station_at(&stations, i).station;
        printf("station %u: %u read, %u of them echoes\n", station.address, station.reads, station.echoes);
    }
    return 0;
}
