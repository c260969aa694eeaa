/*
 * mant.h: the MANT layer of ALERT2 for C. Link libmant.a (tools/build staticlib mant; for boards docs/firmware.md).
 *
 *     Reading              the fields of a PDU
 *     Originating          a fresh PDU from settings and a payload
 *     A node               what is delivered and what is repeated
 *     Stations heard       who was heard, how often, over how short a path
 *     The transmit queue   PDUs that wait for the modem's next slot
 *     The serial exchange  a PDU between a decoder and an encoder
 *     Reliable messages    PDUs that are sent again until acknowledged
 *     Sealing and opening  payloads encrypted under a key
 *     Planning             whom a report reaches, and how often it goes out
 *
 * Each group ends with an example, the body of a main, which the tests run. examples/box.c is a whole repeater. C++11 can include this header. Designated
 * initializers (.name =) need C++20; before that begin with = {} and set the fields.
 *
 * Every call:
 * - is defined for every input and for arbitrary memory contents. Check nothing first.
 * - returns a number for bad input: the first that applies, in the order of its comment. enum MantNumber has the words.
 * - changes no output and no lent memory if that number is not 0, and sets the fields beside `number` to 0, unless its comment says otherwise.
 * - writes output from its first byte on, and keeps the bytes behind. MANT_PDU_LIMIT bytes are room for every PDU.
 * - takes the PDU at the start of the bytes and ignores what follows, unless its comment says otherwise. 1 to 6: there is no PDU.
 * - keeps nothing between calls, allocates nothing, does no input or output, and needs only memcpy and memset. Calls may run at once unless they share memory
 *   that one of them changes.
 * - is proved against the specs/ folders of crates/. Not proved: the six functions defined here and, off x86-64, a shim in C (docs/AUDIT.md).
 *
 * The caller:
 * - passes pointers to as many elements as the length says, aligned, and changed by nothing else during the call. With length 0 NULL will do.
 * - lets output and lent memory overlap no other argument, and passes NULL for no struct but a MantLists.
 * - sets a bool to 0 or 1, by memcpy too. C cuts numbers to their fields: address 66,536 arrives as 1000.
 * - owns what a box remembers: MantStations, MantQueue, MantReliable, MantSources. Each is empty if it is all zeros.
 * - keeps over a restart the MantSources, the last message number and the last PDU ID.
 *
 * Edition. MANT_EDITION_1_1 or MANT_EDITION_1_2; any other number gets 17. In 1.2 the first of the three reserved bits after the port is the encrypted flag
 * (W-209). A node does the same under both. Sealing is of 1.2 alone.
 *
 * Stack. Bytes on x86-64 with gcc -O2; other processors: docs/firmware.md. A caller compiled by another -O takes up to 64 bytes more, and one without -O up to
 * 256 bytes more. If the loader binds memcpy at its first call, as by default, that call takes up to 4,096 bytes more: link with -Wl,-z,now or -static to avoid
 * it.
 *
 * docs/requests has W-201 to W-212. Documents 000 to 003, 01 and 02 are not in this repository.
 */
#ifndef MANT_H
#define MANT_H

/* The version of library and header. */
#define MANT_VERSION "1.0.0"

/* Tested processors; docs/firmware.md says how to link on each. */
#if defined(__BYTE_ORDER__) && __BYTE_ORDER__ != __ORDER_LITTLE_ENDIAN__
#error "libmant is tested on little-endian processors only"
#elif defined(__linux__) && ((defined(__x86_64__) && defined(__LP64__)) || (defined(__aarch64__) && defined(__LP64__)) || \
                             (defined(__ARM_EABI__) && __ARM_ARCH >= 7) || (defined(__riscv) && __riscv_xlen == 64))
#elif !defined(__linux__) && \
    (defined(__ARM_ARCH_6M__) || defined(__ARM_ARCH_7M__) || defined(__ARM_ARCH_7EM__) || (defined(__riscv) && __riscv_xlen == 32) || defined(__wasm32__))
#else
#error "libmant is tested on Linux (x86-64, AArch64, Armv7-A, RV64), bare Cortex-M0+, M3 and M4, bare RV32, and WebAssembly only"
#endif

#include <stdbool.h>
#include <stddef.h>
#include <stdint.h>

#ifdef __cplusplus
extern "C" {
#endif

/* The JOB numbers come from the program relay only. */
enum MantNumber {
    MANT_DONE = 0,                          /* done */
    MANT_TOO_SHORT = 1,                     /* too short: every PDU has 6 bytes or more */
    MANT_WRONG_VERSION = 2,                 /* its version is not 0 */
    MANT_UNKNOWN_PROTOCOL = 3,              /* its protocol is neither 0 nor 1 */
    MANT_NO_DESTINATION = 4,                /* it is reliable and has no destination */
    MANT_HEADER_CUT = 5,                    /* the bytes end within its header */
    MANT_PAYLOAD_CUT = 6,                   /* the bytes end within its payload */
    MANT_HOP_LIMIT_ABOVE_7 = 10,            /* the hop limit asked for is above 7 */
    MANT_PORT_ABOVE_15 = 11,                /* the port asked for is above 15 */
    MANT_PAYLOAD_TOO_LONG = 12,             /* the payload has more than 4,095 bytes */
    MANT_RELIABLE_WITHOUT_DESTINATION = 13, /* reliable service needs a destination */
    MANT_OUTPUT_TOO_SHORT = 14,             /* the output has no room for the PDU, or for its exchange */
    MANT_NO_ENCRYPTED_FLAG = 16,            /* encryption is asked for, and edition 1.1 has no encrypted flag */
    MANT_UNKNOWN_EDITION = 17,              /* the edition is neither 11, which is 1.1, nor 12, which is 1.2 */
    MANT_LOW_ABOVE_HIGH = 20,               /* a list has a range whose low is above its high */
    MANT_LIST_ODD = 21,                     /* the last value of a list has no partner */
    MANT_LIST_TOO_LONG = 22,                /* a list has more than 128 values */
    MANT_ECHO = 30,                         /* echo: this node is in the path */
    MANT_SOURCE_NOT_PASSED = 31,            /* the source pass list does not hold the source */
    MANT_SOURCE_REJECTED = 32,              /* the source reject list holds the source */
    MANT_DESTINATION_NOT_PASSED = 33,       /* the destination pass list does not hold the destination */
    MANT_DESTINATION_REJECTED = 34,         /* the destination reject list holds the destination */
    MANT_ADDED_HEADER = 35,                 /* not delivered: it has an added header */
    MANT_REPEATING_OFF = 36,                /* not repeated: this node has repeating off */
    MANT_HOP_LIMIT_0 = 37,                  /* not repeated: its hop limit is 0 */
    MANT_PATH_FULL = 38,                    /* not repeated: its path is full, with 255 addresses */
    MANT_FOR_ANOTHER = 39,                  /* not delivered: it is for another node */
    MANT_REPEAT_OUTPUT_TOO_SHORT = 40,      /* the output has no room for the repeated PDU */
    MANT_FOR_THIS_NODE = 41,                /* not repeated: it is for this node */
    MANT_OWN_REPORT = 42,                   /* echo: this node is the source */
    MANT_JOB_CUT = 50,                      /* the job ends too early */
    MANT_JOB_FLAGS = 51,                    /* bit 6 or 7 of the job's flags is set */
    MANT_JOB_LIST_COUNT = 52,               /* a list of the job has more than 64 ranges */
    MANT_JOB_LEFT_OVER = 53,                /* the job goes on after its batch */
    MANT_BATCH_TOO_LONG = 54,               /* the batch has more than 16,384 bytes */
    MANT_TABLE_FULL = 55,                   /* a new station, and the table holds 128 */
    MANT_NOT_HELD = 56,                     /* no such station is held */
    MANT_ELEMENT_CUT = 57,                  /* an element does not end within the run that it stands in */
    MANT_ELEMENT_TOO_DEEP = 58,             /* an element stands at level 5 */
    MANT_NOT_AN_EXCHANGE = 59,              /* not one element of type 20 that holds one header and one payload */
    MANT_QUEUE_FULL = 60,                   /* the queue holds 32 PDUs, or has no room for so many bytes more */
    MANT_NOT_ONE_PDU = 61,                  /* not one whole PDU with nothing after it */
    MANT_OLDEST_TOO_LONG = 62,              /* the output has no room for the oldest PDU of the queue */
    MANT_NOT_SPLIT_AT_HEADER = 63,          /* bytes follow the PDU, or its two parts do not meet at the header's end */
    MANT_RECORDS_IN_USE = 70,               /* all 16 records are in use */
    MANT_ALREADY_RETAINED = 71,             /* a PDU of this source, destination and ID is already retained */
    MANT_ABOVE_256_BYTES = 72,              /* the PDU to retain has more than 256 bytes */
    MANT_EARLIER_TIME = 73,                 /* the time is earlier than the last accepted one */
    MANT_NOT_16_RECORDS = 74,               /* the lent memory is not 16 records */
    MANT_NOT_RETAINABLE = 75,               /* not exactly one PDU of protocol 1 with ACK clear and no path address */
    MANT_SENDING_TOO_LONG = 77,             /* the output has no room for what is to be sent */
    MANT_NOT_ENCRYPTED = 80,                /* its encrypted bit is clear */
    MANT_TOO_SHORT_TO_OPEN = 81,            /* its payload is too short for a message number and a hash */
    MANT_NUMBER_NOT_GREATER = 82,           /* its message number is not greater than the last accepted from its source */
    MANT_HASH_DIFFERS = 83,                 /* its hash differs: another key, or it was changed on its way */
    MANT_RECORD_FULL = 84,                  /* a new source, and the record holds 64 */
    MANT_SEALED_TOO_LONG = 85,              /* the sealed payload would have more than 4,095 bytes */
    MANT_NUMBER_TOO_LARGE = 86,             /* the message number is above 16,777,215 */
    MANT_NO_ROOM_FOR_PAYLOAD = 87,          /* the output has no room for the sealed PDU, or for the plain payload */
    MANT_ALREADY_ENCRYPTED = 88             /* its encrypted bit is already set */
};

/* Both numbers of a step without an answer. */
#define MANT_NO_NUMBER 255

#define MANT_EDITION_1_1 11
#define MANT_EDITION_1_2 12

/* Checks each struct's size against the library. Where size_t has 4 bytes, a struct that holds one is smaller. */
#ifdef __cplusplus
#define MANT_SIZE(type, size) static_assert(sizeof(size_t) != 8 || sizeof(type) == (size), #type " is laid out otherwise in the library")
#else
#define MANT_SIZE(type, size) _Static_assert(sizeof(size_t) != 8 || sizeof(type) == (size), #type " is laid out otherwise in the library")
#endif

/* What was written: 0 and the length in bytes, or a number. */
typedef struct MantWritten {
    uint8_t number;
    size_t length;
} MantWritten;
MANT_SIZE(MantWritten, 16);

/* ---- Reading ----
 *
 * Memory: none.
 * Numbers: 17, 1 to 6; in writing again also 14.
 * Stack: mant_read 208, mant_path_address 112, mant_path_has 112, mant_write_again 240.
 */

/* In bytes; the path in addresses. */
#define MANT_FIXED_LENGTH 6
#define MANT_PAYLOAD_LIMIT 4095
#define MANT_PATH_LIMIT 255
#define MANT_HEADER_LIMIT 520
#define MANT_PDU_LIMIT 4615

/* A header. A destination, PDU ID or path count that the PDU lacks is 0. */
typedef struct MantHeader {
    uint8_t number;
    uint8_t protocol; /* 0 best efforts, 1 reliable */
    bool time_stamp_request;
    bool path_bit;
    bool has_destination; /* false: for everyone */
    uint8_t port;
    bool has_encrypted; /* false under edition 1.1; `encrypted` is false then */
    bool encrypted;
    uint8_t reserved; /* 0 to 3; under edition 1.1 all three bits, 0 to 7 */
    bool ack;
    bool added_header;
    uint8_t hop_limit;
    uint16_t payload_length;
    uint16_t source;
    uint16_t destination;
    uint8_t pdu_id;
    uint8_t path_count;
    bool has_last_sender; /* false: no path bit, so the last sender is unknown */
    uint16_t last_sender; /* the last path address, or the source if the path is empty; 0 if unknown */
    size_t header_length; /* where the payload begins */
    size_t pdu_length;    /* where the next PDU of a batch begins */
} MantHeader;
MANT_SIZE(MantHeader, 40);

/* Reads the header of a PDU under an edition. Refusals: 17, then 1 to 6. */
MantHeader mant_read(uint64_t edition, const uint8_t *bytes, size_t bytes_length);

/* The path address at a place, the first at 0; 0 past the last and without a PDU. An address can be 0 too: mant_read gives path_count. */
uint16_t mant_path_address(const uint8_t *bytes, size_t bytes_length, size_t place);

/* Whether the path holds an address; false without a path or a PDU. */
bool mant_path_has(const uint8_t *bytes, size_t bytes_length, uint16_t address);

/* Writes a PDU again from its fields: the same bytes. Refusals: 17, 1 to 6, 14. */
MantWritten mant_write_again(uint64_t edition, const uint8_t *bytes, size_t bytes_length, uint8_t *output, size_t output_length);

/* Example: a report of gauge 1000, heard from repeater 2000.

       const uint8_t heard[] = {0x02, 0x00, 0x10, 0x01, 0x03, 0xE8, 0x01, 0x07, 0xD0, 0x2A};
       MantHeader header = mant_read(MANT_EDITION_1_2, heard, sizeof heard);
       assert(header.number == MANT_DONE && header.source == 1000 && header.hop_limit == 1);
       assert(header.has_last_sender && header.last_sender == 2000);
       assert(header.path_count == 1 && mant_path_address(heard, sizeof heard, 0) == 2000);
       const uint8_t *payload = heard + header.header_length;
       assert(header.payload_length == 1 && payload[0] == 0x2A);
       assert(mant_read(MANT_EDITION_1_2, heard, sizeof heard - 1).number == MANT_PAYLOAD_CUT); */

/* ---- Originating ----
 *
 * Memory: none.
 * Numbers: 17, 10 to 13, 16, 14.
 * Stack: mant_originate 96.
 */

/* Settings of a fresh PDU. Edition, hop limit and port are wide, so that 263 arrives as 263 and is refused. An edition not set is 0, and gets 17. */
typedef struct MantFresh {
    uint64_t edition; /* MANT_EDITION_1_1 or MANT_EDITION_1_2 */
    uint16_t source;
    bool has_destination; /* false: for everyone, and `destination` is ignored */
    uint16_t destination;
    uint64_t hop_limit; /* 0 to 7; 7 is never lowered */
    uint64_t port;      /* 0 to 15 */
    bool time_stamp_request;
    bool with_path; /* each node that repeats it adds its address */
    bool reliable;  /* protocol 1; needs a destination */
    uint8_t pdu_id; /* written if reliable */
    bool encrypted; /* the payload is encrypted already; ask for no time stamp then */
} MantFresh;
MANT_SIZE(MantFresh, 40);

/* Writes a fresh PDU with this payload. Refusals: 17, 10 to 13, 16, 14. */
MantWritten mant_originate(MantFresh settings, const uint8_t *payload, size_t payload_length, uint8_t *output, size_t output_length);

/* Example: a report for everyone, which may be repeated three times in a row.

       MantFresh settings = {.edition = MANT_EDITION_1_2, .source = 1000, .hop_limit = 3, .with_path = true};
       const uint8_t payload[] = {0x2A};
       uint8_t report[MANT_PDU_LIMIT];
       MantWritten written = mant_originate(settings, payload, sizeof payload, report, sizeof report);
       assert(written.number == MANT_DONE && written.length == 8);
       settings.hop_limit = 15;
       written = mant_originate(settings, payload, sizeof payload, report, sizeof report);
       assert(written.number == MANT_HOP_LIMIT_ABOVE_7 && written.length == 0); */

/* ---- A node ----
 *
 * No call remembers a PDU: one that arrives by two ways is delivered and repeated twice, unless its path shows that this node had it.
 * Memory: a block of address lists, or none. A node has eight lists, two of each kind (W-211). A block is a slice of uint16_t: eight lengths in the order of
 *     enum MantListPlace, then the values of the lists back to back. Pass NULL and 0 for empty lists, or lay a MantLists once with mant_lay_lists. C can also
 *     write a constant, but a wrong length there shifts every later list, often without a fault:
 *         static const uint16_t lists[] = {[MANT_SOURCE_PASS_FIRST] = 2, [MANT_LIST_VALUES] = 1001, 1999};
 *     Every slice is a block: a length past its end is 0, and no list goes past it. The calls that hear check all eight lists each time.
 * Numbers: both 17, 20 to 22, 1 to 6, 30, 42, 31 to 34, 40; delivery 35, 39; repeat 36 to 38, 41; a batch 54.
 * Stack: mant_change_over 8, mant_list_holds 8, mant_list_fault 24, mant_lay_lists 200, mant_hear 392, mant_step 456.
 */

/* Values in a list, words in a MantListBlock, bytes in a batch. */
#define MANT_LIST_LIMIT 128
#define MANT_LIST_WORDS 1040
#define MANT_BATCH_LIMIT 16384

/* Which of a kind's two lists a node uses. Any other number chooses none. The fields of MantNode have 8 bits: 257 arrives as 1. */
enum MantChoice {
    MANT_NO_LIST = 0,
    MANT_FIRST_LIST = 1,
    MANT_SECOND_LIST = 2
};

/* Settings of a node. Begin with MANT_NODE; an edition not set gets 17. If no list of a kind is chosen, that kind stops nothing. A pass list that is chosen and
   empty passes nothing. */
typedef struct MantNode {
    uint64_t edition;
    uint16_t own;
    bool echo; /* drop a PDU whose path holds the own address (30) or whose source it is (42) */
    bool repeating;
    uint8_t source_pass; /* a MantChoice, as in the next three */
    uint8_t source_reject;
    uint8_t destination_pass;
    uint8_t destination_reject;
} MantNode;
MANT_SIZE(MantNode, 16);

/* A node with echo and repeating on and no list chosen. In C++ the address is a constant or a uint16_t. */
/* clang-format off */
#define MANT_NODE(own) {MANT_EDITION_1_2, (own), true, true, MANT_NO_LIST, MANT_NO_LIST, MANT_NO_LIST, MANT_NO_LIST}
/* clang-format on */

/* Sets all four kinds to one choice, also a kind that was off. Any number but 1 and 2, also 257, chooses none. Give a pass list that is to stop nothing the
   range 0 to 65,535. */
MantNode mant_change_over(MantNode node, uint64_t choice);

/* The eight lists, in the order in which they are checked and lie in a block. */
enum MantListPlace {
    MANT_SOURCE_PASS_FIRST = 0,
    MANT_SOURCE_PASS_SECOND = 1,
    MANT_SOURCE_REJECT_FIRST = 2,
    MANT_SOURCE_REJECT_SECOND = 3,
    MANT_DESTINATION_PASS_FIRST = 4,
    MANT_DESTINATION_PASS_SECOND = 5,
    MANT_DESTINATION_REJECT_FIRST = 6,
    MANT_DESTINATION_REJECT_SECOND = 7,
    MANT_LIST_VALUES = 8 /* where values begin in a block; in a MantListFault: no list */
};

/* Low, high, low, high and so on, both ends included, in any order, overlaps allowed. The length counts values. */
typedef struct MantList {
    const uint16_t *values;
    size_t length;
} MantList;
MANT_SIZE(MantList, 16);

typedef struct MantTwoLists {
    MantList first;
    MantList second;
} MantTwoLists;
MANT_SIZE(MantTwoLists, 32);

/* The lists of a node. Those not set are empty. */
typedef struct MantLists {
    MantTwoLists source_pass;
    MantTwoLists source_reject;
    MantTwoLists destination_pass;
    MantTwoLists destination_reject;
} MantLists;
MANT_SIZE(MantLists, 128);

/* Room for eight laid lists. The calls that hear take `words` and MANT_LIST_WORDS. */
typedef struct MantListBlock {
    uint16_t words[MANT_LIST_WORDS];
} MantListBlock;
MANT_SIZE(MantListBlock, 2080);

/* The first fault of a block's lists. */
typedef struct MantListFault {
    uint8_t number; /* 22, 21 or 20 of the first list with a fault; else 0 */
    uint8_t list;   /* which list, a MantListPlace; MANT_LIST_VALUES if none */
} MantListFault;
MANT_SIZE(MantListFault, 2);

/* A node's decision on one PDU. Places count from the PDU's first byte. */
typedef struct MantAnswer {
    uint8_t delivery;        /* 0: delivered; else why not */
    uint8_t repeat;          /* 0: repeated; else why not */
    bool has_last_sender;    /* false: no path bit, or no PDU was read */
    uint16_t last_sender;    /* who sent it last, as in MantHeader */
    size_t delivered_place;  /* of the payload; 0 if not delivered */
    size_t delivered_length; /* 0 if not delivered */
    size_t repeated_length;  /* bytes written to the output; 0 if not repeated */
    size_t taken;            /* where the next PDU begins; 0 if none was read: with 17, 20 to 22, 1 to 6 */
} MantAnswer;
MANT_SIZE(MantAnswer, 40);

/* A place in a batch. A walk begins with {0, false}. */
typedef struct MantCursor {
    size_t place;
    bool ended;
} MantCursor;
MANT_SIZE(MantCursor, 16);

enum MantKind {
    MANT_ANSWERED = 0, /* the answer for the PDU at the cursor, and the next cursor */
    MANT_ENDED = 1,    /* no PDU left; both numbers are MANT_NO_NUMBER */
    MANT_REFUSED = 2   /* the batch is too long; both numbers are 54 */
};

/* One step of a walk. With kinds 1 and 2 `next` is the given cursor, ended, and the rest of the answer is 0. */
typedef struct MantStep {
    uint8_t kind;
    MantAnswer answer;
    MantCursor next;
} MantStep;
MANT_SIZE(MantStep, 64);

/* Whether a range of one list holds an address. `list` is its values, not a block. A last value without a partner is no range. */
bool mant_list_holds(const uint16_t *list, size_t list_length, uint16_t address);

/* Checks the lists of a block. */
MantListFault mant_list_fault(const uint16_t *lists, size_t lists_length);

/* Used by mant_lay_lists. Call that instead. */
MantListFault mant_lay_eight(uint16_t block[MANT_LIST_WORDS], const uint16_t *source_pass_first, size_t source_pass_first_length,
                             const uint16_t *source_pass_second, size_t source_pass_second_length, const uint16_t *source_reject_first,
                             size_t source_reject_first_length, const uint16_t *source_reject_second, size_t source_reject_second_length,
                             const uint16_t *destination_pass_first, size_t destination_pass_first_length, const uint16_t *destination_pass_second,
                             size_t destination_pass_second_length, const uint16_t *destination_reject_first, size_t destination_reject_first_length,
                             const uint16_t *destination_reject_second, size_t destination_reject_second_length);

/* Lays lists of any length into a block, and returns what mant_list_fault returns for it. NULL stands for eight empty lists. With number 0 the block holds
   exactly these lists, and the originals are no longer needed. With another number it is written too. Of a list above MANT_LIST_LIMIT one value more is laid,
   so that it keeps fault 22. Words behind the values stay. */
static inline MantListFault mant_lay_lists(MantListBlock *block, const MantLists *lists)
{
    static const MantLists empty = {{{NULL, 0}, {NULL, 0}}, {{NULL, 0}, {NULL, 0}}, {{NULL, 0}, {NULL, 0}}, {{NULL, 0}, {NULL, 0}}};
    const MantLists *l = lists != NULL ? lists : &empty;
    return mant_lay_eight(block->words, l->source_pass.first.values, l->source_pass.first.length, l->source_pass.second.values, l->source_pass.second.length,
                          l->source_reject.first.values, l->source_reject.first.length, l->source_reject.second.values, l->source_reject.second.length,
                          l->destination_pass.first.values, l->destination_pass.first.length, l->destination_pass.second.values,
                          l->destination_pass.second.length, l->destination_reject.first.values, l->destination_reject.first.length,
                          l->destination_reject.second.values, l->destination_reject.second.length);
}

/* Decides what a node does with a PDU: a number for delivery and one for repeating.
   - Both are the first of these that applies: 17, 20 to 22, 1 to 6, 30, 42, 31 to 34, 40. With echo off there is no 30 and no 42 (W-203). The lists chosen give
     31 to 34, and 33 and 34 only to a PDU with a destination. 40: the PDU would be repeated.
   - Else delivery is 39, 35 or 0, and repeat is 41, 36, 37, 38 or 0. A PDU without a destination can be both delivered and repeated.
   The output is written only if repeat is 0. It gets the PDU with the hop limit one lower, but 7 stays 7, and with the path bit the own address at the end of
   the path. Room for received_length + 2 bytes is enough. The last sender is given for every PDU that was read, also if it is dropped (W-205). */
MantAnswer mant_hear(MantNode node, const uint16_t *lists, size_t lists_length, const uint8_t *received, size_t received_length, uint8_t *output,
                     size_t output_length);

/* One step over PDUs back to back: mant_hear for the PDU at batch[cursor.place], and the next cursor. Go on while the kind is MANT_ANSWERED. After 17, a list
   fault or 1 to 6 the next cursor has ended, at the same place. A cursor that has ended or has no byte left gets MANT_ENDED. A batch above MANT_BATCH_LIMIT
   gets MANT_REFUSED at every cursor, but with an unknown edition 17.
   The PDU of a step s began at s.next.place - s.answer.taken, and the places in its answer count from there. */
MantStep mant_step(MantNode node, const uint16_t *lists, size_t lists_length, const uint8_t *batch, size_t batch_length, MantCursor cursor, uint8_t *output,
                   size_t output_length);

/* Example: gauges 1000 and 3000 report to node 2000. Its lists stop gauge 1000 in the dry season, and pass it alone in the flood season.

       const uint16_t dry[] = {1001, 1999}, flood[] = {1000, 1999}, all[] = {0, 65535};
       const MantLists wanted = {.source_pass = {{dry, 2}, {flood, 2}}, .destination_pass = {{all, 2}, {all, 2}}};
       static MantListBlock lists;
       MantListFault fault = mant_lay_lists(&lists, &wanted);
       assert(fault.number == MANT_DONE && fault.list == MANT_LIST_VALUES);
       MantNode node = MANT_NODE(2000);
       const uint8_t batch[] = {0x02, 0x00, 0x10, 0x01, 0x03, 0xE8, 0x00, 0x2A, 0x02, 0x00, 0x10, 0x01, 0x0B, 0xB8, 0x00, 0x2B};
       uint8_t repeated[MANT_PDU_LIMIT];
       node = mant_change_over(node, MANT_FIRST_LIST);
       MantAnswer answer = mant_hear(node, lists.words, MANT_LIST_WORDS, batch, 8, repeated, sizeof repeated);
       assert(answer.delivery == MANT_SOURCE_NOT_PASSED && answer.repeat == MANT_SOURCE_NOT_PASSED && answer.last_sender == 1000);
       node = mant_change_over(node, MANT_SECOND_LIST);
       unsigned repeats = 0;
       MantCursor cursor = {0, false};
       for (;;) {
           MantStep step = mant_step(node, lists.words, MANT_LIST_WORDS, batch, sizeof batch, cursor, repeated, sizeof repeated);
           if (step.kind != MANT_ANSWERED) {
               break;
           }
           if (step.answer.repeat == MANT_DONE) {
               repeats++; // the first step.answer.repeated_length bytes of repeated are to be sent
           }
           cursor = step.next;
       }
       assert(repeats == 1 && cursor.place == sizeof batch); */

/* ---- Stations heard ----
 *
 * Memory: a MantStations (W-201). Its first word is how many stations are held, at most 128. Four words for each follow, by rising address: the address, PDUs
 *     read, those that echo dropped, and one more than the shortest path count, or 0. Words behind them stay. In malformed memory where addresses do not rise,
 *     one may not be found.
 * Numbers: 55, 56.
 * Stack: mant_stations_held 8, mant_station_at 8, mant_station_of 24, mant_remove_station 24, mant_count_heard 88, mant_count_answer 88,
 *     mant_hear_and_count 424.
 */

#define MANT_STATION_LIMIT 128

typedef struct MantStations {
    uint16_t words[513];
} MantStations;
MANT_SIZE(MantStations, 1026);

/* A station. Each count stops at 65,535 by itself. */
typedef struct MantStation {
    uint16_t address;
    uint16_t reads;         /* PDUs read from it */
    uint16_t echoes;        /* those of them that echo dropped */
    bool has_path;          /* false: none of them had the path bit */
    uint16_t shortest_path; /* the least path count of those that had it */
} MantStation;
MANT_SIZE(MantStation, 10);

/* A station, or 56. */
typedef struct MantFound {
    uint8_t number;
    MantStation station;
} MantFound;
MANT_SIZE(MantFound, 12);

/* What is counted of a PDU. */
typedef struct MantHeard {
    uint16_t source;
    bool echo;     /* the node returned 30 or 42 for it */
    bool path_bit; /* false: `path_count` is ignored */
    uint8_t path_count;
} MantHeard;
MANT_SIZE(MantHeard, 6);

/* The node's answer, whatever the table holds, and the table's number, 0 or 55. */
typedef struct MantListened {
    MantAnswer answer;
    uint8_t table_number;
} MantListened;
MANT_SIZE(MantListened, 48);

/* How many stations are held. */
size_t mant_stations_held(const MantStations *table);

/* The station at a place by rising address, the first at 0; 56 from mant_stations_held on. */
MantFound mant_station_at(const MantStations *table, size_t place);

/* The station with this address; 56 if it is not held. */
MantFound mant_station_of(const MantStations *table, uint16_t address);

/* Removes a station. Returns 0, or 56 if it is not held. Heard again, it starts anew. */
uint8_t mant_remove_station(MantStations *table, uint16_t address);

/* Counts a PDU that was read, and takes in a new source. Returns 0, or 55 if the table is full. The shortest path count goes on after the others have
   stopped. */
uint8_t mant_count_heard(MantStations *table, MantHeard heard);

/* Counts a PDU by the node's answer for it. If none was read (`taken` is 0), it returns 0 and counts nothing. After a step s of kind 0 pass the bytes from
   batch + (s.next.place - s.answer.taken) to the batch's end. Pass only the answer for these bytes: that is not checked. */
uint8_t mant_count_answer(MantStations *table, const uint8_t *received, size_t received_length, MantAnswer answer);

/* mant_hear, then mant_count_answer. Every PDU that was read counts, also a dropped one. With 55 the PDU is delivered and repeated all the same. */
MantListened mant_hear_and_count(MantNode node, const uint16_t *lists, size_t lists_length, const uint8_t *received, size_t received_length, uint8_t *output,
                                 size_t output_length, MantStations *table);

/* Example: node 2000 hears gauge 1000 twice, the second time as an echo of its own repeat.

       static MantStations table;
       const MantNode node = MANT_NODE(2000);
       const uint8_t report[] = {0x02, 0x00, 0x10, 0x01, 0x03, 0xE8, 0x00, 0x2A};
       uint8_t repeated[10], output[MANT_PDU_LIMIT];
       MantListened heard = mant_hear_and_count(node, NULL, 0, report, 8, repeated, 10, &table);
       assert(heard.answer.repeat == MANT_DONE && heard.table_number == MANT_DONE);
       heard = mant_hear_and_count(node, NULL, 0, repeated, 10, output, sizeof output, &table);
       assert(heard.answer.delivery == MANT_ECHO);
       for (size_t i = 0; i < mant_stations_held(&table); i++) {
           MantStation station = mant_station_at(&table, i).station;
           assert(station.address == 1000 && station.reads == 2 && station.echoes == 1 && station.shortest_path == 0);
       }
       assert(mant_station_of(&table, 1001).number == MANT_NOT_HELD); */

/* ---- The transmit queue ----
 *
 * PDUs come out whole and in order (W-206, W-207).
 * Memory: a MantQueue, for MANT_QUEUE_PDUS PDUs of MANT_QUEUE_BYTES bytes together. It begins with three numbers of two bytes, most significant first: PDUs
 *     held, their bytes, and where behind byte 6 they lie, back to back. It is empty if the first two are 0. In malformed memory PDUs are held as far as they
 *     can be read, but mant_queue_level and mant_queue_add go by the numbers alone. So clear a MantQueue that was not zeroed.
 * Numbers: 60 to 62.
 * Stack: mant_queue_add 48, mant_queue_level 8, mant_queue_take 104, mant_queue_clear 8.
 */

#define MANT_QUEUE_PDUS 32
#define MANT_QUEUE_BYTES 2048

typedef struct MantQueue {
    uint8_t bytes[2566];
} MantQueue;
MANT_SIZE(MantQueue, 2566);

typedef struct MantLevel {
    size_t pdus;
    size_t bytes;
} MantLevel;
MANT_SIZE(MantLevel, 16);

/* What was taken. An empty queue gives 0 PDUs and number 0. */
typedef struct MantBatch {
    uint8_t number;
    size_t pdus;
    size_t bytes;
} MantBatch;
MANT_SIZE(MantBatch, 24);

/* How many PDUs a queue holds, and their bytes. */
MantLevel mant_queue_level(const MantQueue *queue);

/* Adds one PDU; nothing may follow it in the bytes. Returns 61, 60 or 0. A PDU above MANT_QUEUE_BYTES, which a node may repeat, always gets 60. */
uint8_t mant_queue_add(MantQueue *queue, const uint8_t *pdu, size_t pdu_length);

/* Moves the oldest PDUs to the output as one batch, up to the first that does not fit. 62: the oldest does not fit. A PDU that no slot has room for holds up
   all behind it, so do not add one (examples/box.c). */
MantBatch mant_queue_take(MantQueue *queue, uint8_t *output, size_t output_length);

/* Drops all PDUs. Bytes behind the numbers stay. */
void mant_queue_clear(MantQueue *queue);

/* Example: two PDUs wait, and the slot has room for one.

       static MantQueue queue;
       const uint8_t first[] = {0x02, 0x00, 0x10, 0x01, 0x03, 0xE8, 0x00, 0x2A}, second[] = {0x00, 0x00, 0x00, 0x01, 0x03, 0xE9, 0x2B};
       uint8_t slot[12];
       assert(mant_queue_add(&queue, first, sizeof first) == MANT_DONE);
       assert(mant_queue_add(&queue, second, sizeof second) == MANT_DONE);
       MantBatch batch = mant_queue_take(&queue, slot, sizeof slot);
       assert(batch.number == MANT_DONE && batch.pdus == 1 && batch.bytes == sizeof first); // the first batch.bytes bytes of slot are to be sent
       MantLevel level = mant_queue_level(&queue);
       assert(level.pdus == 1 && level.bytes == sizeof second); */

/* ---- The serial exchange ----
 *
 * An exchange (W-202; document 003, section 3) is one element of type 20. It holds one of type 1024, a PDU's header, and one of type 1025, its payload, in
 * either order. Others may stand beside them. Types 10, 11 and 20 hold elements, at most four levels with the exchange.
 * The driver removes prefix, total length, and the elements that a decoder sends before type 20 (003, section 10.1). With these in front mant_read_exchange
 * returns 59. Find type 20 with mant_element_at and read it alone, as the example does.
 * Memory: none.
 * Numbers: in reading 57 to 59, 1 to 6, 63; in writing 1 to 6, 14; in mant_element_at 57.
 * Stack: mant_element_at 8, mant_read_exchange 384, mant_write_exchange 128.
 */

/* The most bytes that mant_write_exchange writes. An exchange that is read may have up to 32,771, with other elements in it. */
#define MANT_EXCHANGE_LIMIT 4626

/* The type of an exchange. */
#define MANT_EXCHANGE_TYPE 20

/* An element. Places count from the run's first byte. */
typedef struct MantElement {
    uint8_t number;
    uint16_t type_number;
    size_t value_place; /* at length 0 it may be the end of the run */
    size_t value_length;
    size_t end; /* where the next element begins, or the run ends */
} MantElement;
MANT_SIZE(MantElement, 32);

/* The element that begins at a place of a run. 57: it does not end within the run, or none begins there. Otherwise end is at least place + 2, so a walk from
   end to end stops. The value is not checked. */
MantElement mant_element_at(const uint8_t *bytes, size_t bytes_length, size_t place);

/* Where a PDU lies in an exchange. */
typedef struct MantExchange {
    uint8_t number;
    size_t header_place;
    size_t header_length;
    size_t payload_place; /* at length 0 it may be the end of the bytes */
    size_t payload_length;
} MantExchange;
MANT_SIZE(MantExchange, 40);

/* Finds header and payload in an exchange, which is all of the bytes. Refusals: 58 or 57 of the first element with a fault, 58 before 57; 59; 1 to 6 of the two
   joined; 63. To write it again, join the two, header first. */
MantExchange mant_read_exchange(const uint8_t *bytes, size_t bytes_length);

/* Writes a PDU as an exchange: header first, nothing beside the two, the shorter form of types and lengths. Refusals: 1 to 6, 14. */
MantWritten mant_write_exchange(const uint8_t *bytes, size_t bytes_length, uint8_t *output, size_t output_length);

/* Example: what a decoder sends behind prefix and total length (003, section 10.1). The driver finds the exchange, joins its PDU and writes it again.

       const uint8_t run[] = {0x75, 0x01, 0x01, 0x18, 0x02, 0x1F, 0x40, 0x77, 0x05, 0x53, 0x41, 0x43, 0x43, 0x4F, 0x14, 0x24, 0x84, 0x00,
                              0x06, 0x00, 0x00, 0x70, 0x0D, 0x11, 0x33, 0x84, 0x01, 0x0D, 0xA4, 0x08, 0x3F, 0x03, 0xA3, 0x08, 0x3B, 0x03,
                              0xA5, 0x28, 0x0A, 0x04, 0x99, 0x84, 0x02, 0x04, 0x4D, 0x1C, 0x4A, 0x10, 0x84, 0x03, 0x01, 0x31};
       assert(mant_read_exchange(run, sizeof run).number == MANT_NOT_AN_EXCHANGE);
       size_t place = 0;
       MantElement found = mant_element_at(run, sizeof run, place);
       while (found.number == MANT_DONE && found.type_number != MANT_EXCHANGE_TYPE) {
           place = found.end;
           found = mant_element_at(run, sizeof run, place);
       }
       assert(found.number == MANT_DONE && place == 14); // 57 instead where the run has none, or an element before it is cut
       const uint8_t *exchange = run + place;
       MantExchange parts = mant_read_exchange(exchange, found.end - place);
       assert(parts.number == MANT_DONE);
       uint8_t joined[MANT_PDU_LIMIT], line[MANT_EXCHANGE_LIMIT];
       memcpy(joined, exchange + parts.header_place, parts.header_length);
       memcpy(joined + parts.header_length, exchange + parts.payload_place, parts.payload_length);
       MantWritten written = mant_write_exchange(joined, parts.header_length + parts.payload_length, line, sizeof line);
       assert(written.number == MANT_DONE && written.length == 27); */

/* ---- Reliable messages ----
 *
 * A PDU of protocol 1 is retained when it is sent, and sent again if its acknowledgement is late (W-210; document 000, section 3.3). Its destination
 * acknowledges and delivers every copy. If a command must not be carried out twice, know it by source and ID, or seal it. Give each command the next ID: a used
 * one looks like a copy.
 * Memory: a MantReliable: MANT_RECORDS records, and the last accepted time, 0 at first. The mant_reliable_ calls take it. The others take records and time
 *     apart, and return the time for the next call. Times are seconds of a clock that does not go back. If it was set back (73), set `last` to 0 and each
 *     sent_at to now. A record is in use if its length is at most MANT_RETAINED_LIMIT and its PDU could be retained. Every other is free. A call changes one
 *     record at most; "first" means at the lowest place.
 * Numbers: 10, 11, 70 to 75, 77.
 * Stack: mant_retain 720, mant_retry 440, mant_hear_reliably 680, mant_acknowledge 480.
 */

/* Records in a table, and bytes of the longest PDU retained. */
#define MANT_RECORDS 16
#define MANT_RETAINED_LIMIT 256

/* A retained PDU: the first `length` bytes of `pdu`. mant_retain puts zeros behind it. Other bytes there stay, and are not sent. A freed record is all
   zeros. */
typedef struct MantRetained {
    uint8_t pdu[MANT_RETAINED_LIMIT];
    uint64_t length;  /* not a size_t: records are laid out alike on every processor */
    uint64_t sent_at; /* when last sent, or retained */
    uint64_t count;   /* times sent again */
} MantRetained;
MANT_SIZE(MantRetained, 280);

typedef struct MantReliable {
    MantRetained records[MANT_RECORDS];
    uint64_t last;
} MantReliable;
MANT_SIZE(MantReliable, 4488);

/* What a retained PDU is known by. */
typedef struct MantNames {
    uint16_t source;
    uint16_t destination;
    uint8_t pdu_id;
} MantNames;
MANT_SIZE(MantNames, 6);

enum MantDeed {
    MANT_DEED_NONE = 0,
    MANT_DEED_RETAINED = 1,    /* in the record at `place` */
    MANT_DEED_SENT_AGAIN = 2,  /* the PDU of that record is in the output */
    MANT_DEED_FAILED = 3,      /* that record was dropped: no acknowledgement came */
    MANT_DEED_FREED = 4,       /* that record was freed: its acknowledgement came */
    MANT_DEED_ACKNOWLEDGED = 5 /* the acknowledgement of the received PDU is in the output */
};

/* What was done. What a deed does not name is 0. */
typedef struct MantOutcome {
    uint8_t number;
    uint8_t deed;
    uint64_t last;   /* for the next call; with a number the one given */
    size_t place;    /* deeds 1 to 4: the record's */
    MantNames names; /* deeds 1 to 4: the retained PDU's; 5: the received PDU's */
    size_t length;   /* deeds 2 and 5: bytes written to the output */
} MantOutcome;
MANT_SIZE(MantOutcome, 40);

/* How an acknowledgement is sent, as in MantFresh. */
typedef struct MantSending {
    uint64_t hop_limit; /* 0 to 7 */
    uint64_t port;      /* 0 to 15 */
    bool time_stamp_request;
    bool with_path;
} MantSending;
MANT_SIZE(MantSending, 24);

/* Retains a PDU sent at this time, in the first free record; nothing may follow it in the bytes. Refusals: 74, 73, 75, 72, 71, 70. */
MantOutcome mant_retain(MantRetained *table, size_t records, uint64_t last, uint64_t time, const uint8_t *pdu, size_t pdu_length);

/* One step over the first record that is due: in use, and sent `delay` or more before this time. If its count is `tries` or more, it is dropped as failed.
   Otherwise its PDU is written to the output, its time set and its count one higher. Refusals: 74, 73, 77, the last also if a later PDU would fit. If none is
   due, the time is accepted. Step while the deed is not 0, which ends after at most MANT_RECORDS * (tries + 1) steps. */
MantOutcome mant_retry(MantRetained *table, size_t records, uint64_t last, uint64_t time, uint64_t delay, uint64_t tries, uint8_t *output,
                       size_t output_length);

typedef struct MantHeardReliably {
    MantAnswer answer;
    MantOutcome outcome;
} MantHeardReliably;
MANT_SIZE(MantHeardReliably, 80);

/* mant_hear, and what the PDU does to the table. The answer is that of mant_hear in every case. A PDU of protocol 1 that the node delivers does more. With ACK
   set it frees the first record with its ID and its addresses exchanged. With ACK clear its acknowledgement, 9 bytes or with a path 10, is written to the
   output. Such a PDU is not repeated, so the output has one PDU at most. Refusals in the outcome: 10 and 11 if an acknowledgement is due, 74, 77. A repeated
   PDU is written all the same, and `last` comes back as it was. For a batch pass the bytes from each PDU to the end: the next begins answer.taken bytes on, and
   0 ends the walk. */
MantHeardReliably mant_hear_reliably(MantNode node, const uint16_t *lists, size_t lists_length, MantRetained *table, size_t records, uint64_t last,
                                     const uint8_t *received, size_t received_length, MantSending sending, uint8_t *output, size_t output_length);

/* The second half of mant_hear_reliably, for a PDU that another call heard at node `own` with this answer. A PDU for another address or with an added header
   does nothing, whatever the answer, so no acknowledgement goes out in another node's name. Pass only the answer for these bytes: they do not show what lists
   and echo said. */
MantOutcome mant_acknowledge(MantRetained *table, size_t records, uint64_t last, uint16_t own, const uint8_t *received, size_t received_length,
                             MantAnswer answer, MantSending sending, uint8_t *output, size_t output_length);

/* The four calls above with a MantReliable. They never return 74. */
static inline MantOutcome mant_reliable_retain(MantReliable *reliable, uint64_t time, const uint8_t *pdu, size_t pdu_length)
{
    MantOutcome outcome = mant_retain(reliable->records, MANT_RECORDS, reliable->last, time, pdu, pdu_length);
    reliable->last = outcome.last;
    return outcome;
}

static inline MantOutcome mant_reliable_retry(MantReliable *reliable, uint64_t time, uint64_t delay, uint64_t tries, uint8_t *output, size_t output_length)
{
    MantOutcome outcome = mant_retry(reliable->records, MANT_RECORDS, reliable->last, time, delay, tries, output, output_length);
    reliable->last = outcome.last;
    return outcome;
}

static inline MantHeardReliably mant_reliable_hear(MantNode node, const uint16_t *lists, size_t lists_length, MantReliable *reliable, const uint8_t *received,
                                                   size_t received_length, MantSending sending, uint8_t *output, size_t output_length)
{
    return mant_hear_reliably(node, lists, lists_length, reliable->records, MANT_RECORDS, reliable->last, received, received_length, sending, output,
                              output_length);
}

static inline MantOutcome mant_reliable_acknowledge(MantReliable *reliable, uint16_t own, const uint8_t *received, size_t received_length, MantAnswer answer,
                                                    MantSending sending, uint8_t *output, size_t output_length)
{
    return mant_acknowledge(reliable->records, MANT_RECORDS, reliable->last, own, received, received_length, answer, sending, output, output_length);
}

/* Example: base 1000 commands gate 1600, hears nothing for 30 seconds, sends again, and hears the acknowledgement.

       static MantReliable at_base, at_gate;
       const MantFresh command = {.edition = MANT_EDITION_1_2, .source = 1000, .has_destination = true, .destination = 1600, .reliable = true, .pdu_id = 7};
       MantNode base = MANT_NODE(1000), gate = MANT_NODE(1600);
       base.repeating = gate.repeating = false;
       const MantSending sending = {.hop_limit = 1};
       uint8_t sent[MANT_RETAINED_LIMIT], reply[MANT_RETAINED_LIMIT];
       size_t length = mant_originate(command, NULL, 0, sent, sizeof sent).length;
       MantOutcome outcome = mant_reliable_retain(&at_base, 100, sent, length);
       assert(outcome.deed == MANT_DEED_RETAINED && at_base.last == 100);
       outcome = mant_reliable_retry(&at_base, 130, 30, 2, sent, sizeof sent);
       assert(outcome.deed == MANT_DEED_SENT_AGAIN && outcome.length == length && at_base.last == 130);
       MantHeardReliably heard = mant_reliable_hear(gate, NULL, 0, &at_gate, sent, length, sending, reply, sizeof reply);
       assert(heard.answer.delivery == MANT_DONE && heard.outcome.deed == MANT_DEED_ACKNOWLEDGED);
       heard = mant_reliable_hear(base, NULL, 0, &at_base, reply, heard.outcome.length, sending, sent, sizeof sent);
       assert(heard.outcome.deed == MANT_DEED_FREED && heard.outcome.names.pdu_id == 7); */

/* ---- Sealing and opening ----
 *
 * mant_seal encrypts a payload and a hash of it, the header and the message number (W-212; document 000, section 3.5). mant_open returns the payload once: a
 * number not greater than the last accepted from the source gets 82, a wrong hash 83. After a later number an earlier one never opens, so have one sealed
 * message under way to a box, or seal a lost one anew. 82 comes before the hash and proves nothing about the sender. Acknowledge then only the very message
 * that was carried out last (examples/box.c).
 * What sealing does not protect (docs/SEALING.md):
 * - Who knows the payload of a sealed PDU can forge others of its source and number, for any destination. They open where neither that number nor a later one
 *   was accepted. Seal nothing that can be guessed, or use a key for each gate.
 * - Who holds the key can seal for every source. Anyone can make acknowledgements, change hop limit and path, and read the header.
 * - A PDU held back opens later, unless a later number was accepted. A source that the record does not hold opens with any number.
 * - The hash has 32 bits. On a processor with a cache the time of a call depends on the key.
 * - Both calls leave the key on the stack. If others can read it, overwrite 2,304 bytes of stack after each call (clear_stack in examples/sealed.c).
 * Memory: to open, a MantSources. Its first word is how many sources are held, at most 64. Two words for each follow: its address and the last number accepted.
 *     Opening writes the first word and the source's two. In malformed memory the first entry of a source counts. To seal, none: the caller counts message
 *     numbers.
 * Numbers: in sealing 1 to 6, 88, 85, 86, 87; in opening 1 to 6, 80 to 84, 87; in mant_message_number 1 to 6, 80, 81.
 * Stack: mant_seal 1,512, mant_open 1,480, mant_message_number 144, mant_remove_source 8.
 */

#define MANT_SOURCE_LIMIT 64

typedef struct MantSources {
    uint32_t words[129];
} MantSources;
MANT_SIZE(MantSources, 516);

/* Bytes that sealing adds, and the greatest message number. */
#define MANT_SEAL_LENGTH 7
#define MANT_NUMBER_LIMIT 16777215

/* A key of AES-128. */
typedef struct MantKey {
    uint8_t bytes[16];
} MantKey;
MANT_SIZE(MantKey, 16);

/* A message number, or why there is none. */
typedef struct MantNumbered {
    uint8_t number;
    uint32_t message;
} MantNumbered;
MANT_SIZE(MantNumbered, 8);

/* Seals a PDU: writes it with its payload encrypted and MANT_SEAL_LENGTH bytes longer, the encrypted bit set and the time stamp request clear. Refusals: 1 to
   6, 88, 85, 86, 87. Under one key no source may use a number twice, or a listener learns how the payloads differ. Keep the next number, over a restart too,
   before the PDU goes out. */
MantWritten mant_seal(MantKey key, uint64_t number, const uint8_t *pdu, size_t pdu_length, uint8_t *output, size_t output_length);

/* Opens a sealed PDU, repeated or not: writes the plain payload, and its number to the record. Refusals: 1 to 6, 80 to 84, 87. From a source that the record
   does not hold any number opens, so keep the record before a command is carried out. */
MantWritten mant_open(MantKey key, MantSources *record, const uint8_t *pdu, size_t pdu_length, uint8_t *output, size_t output_length);

/* The message number of a sealed PDU. Refusals: 1 to 6, 80, 81. Neither key nor hash is used: anyone can send any number. */
MantNumbered mant_message_number(const uint8_t *pdu, size_t pdu_length);

/* Removes a source, and returns whether it was held. Later entries move up. Its next number may be any, also a used one, so remove a source only when its key
   changes or it is gone for good. */
bool mant_remove_source(MantSources *record, uint16_t source);

/* Example: a command under message number 850 opens once.

       static MantSources record;
       const MantKey key = {{1, 2, 3, 4, 5, 6, 7, 8, 9, 10, 11, 12, 13, 14, 15, 16}};
       const uint8_t pdu[] = {0x02, 0x00, 0x10, 0x01, 0x03, 0xE8, 0x00, 0x2A};
       uint8_t sealed[MANT_PDU_LIMIT], plain[MANT_PAYLOAD_LIMIT];
       MantWritten written = mant_seal(key, 850, pdu, sizeof pdu, sealed, sizeof sealed);
       assert(written.number == MANT_DONE && written.length == sizeof pdu + MANT_SEAL_LENGTH);
       assert(mant_message_number(sealed, written.length).message == 850);
       MantWritten opened = mant_open(key, &record, sealed, written.length, plain, sizeof plain);
       assert(opened.number == MANT_DONE && opened.length == 1 && plain[0] == 0x2A);
       opened = mant_open(key, &record, sealed, written.length, plain, sizeof plain);
       assert(opened.number == MANT_NUMBER_NOT_GREATER);
       assert(mant_remove_source(&record, 1000) && record.words[0] == 0); */

/* ---- Planning ----
 *
 * For a planner's computer. `marks` has a byte for each node, and a node is its place there. A byte other than 0 says that the node does not repeat the report:
 * repeating is off, its lists stop it, or the report is for it. The originator's byte is ignored. `pairs` says who hears whom: a sender's place, then that of a
 * node that hears it, and so on. Duplicates, unknown places, a node that hears itself and an odd last byte are ignored. If a hearing is uncertain, include it
 * to bound transmissions, and leave it out to see who is reached for certain.
 * Memory: for the two counts of a network a table of 256 bytes a node, with any contents. If the network is served, it is all zeros afterwards.
 * Numbers: 10.
 * Stack: mant_chain_lengths 120, mant_least_hop_limit 8, mant_network_transmissions 20,648, mant_network_bytes 20,672, mant_most_transmissions 8,
 *     mant_most_bytes 16, mant_most_for_command 16, mant_limits 8. The two counts of a network take 80 bytes for each node of a path: at hop limits 0 to 6 at
 *     most 832 bytes.
 */

/* The most nodes of a network, and a table for every network. */
#define MANT_NODE_LIMIT 255
#define MANT_AIRTIME_TABLE 65280

/* No chain leads to the node; the place of no node; no hop limit reaches all. */
#define MANT_NO_CHAIN 255
#define MANT_NO_NODE 255
#define MANT_NO_HOP_LIMIT 8

/* A count on a network. `served` is false with more than MANT_NODE_LIMIT nodes, an originator that is none of them, not one count for each node, too short a
   table, or a size above 65,535. `enough`: the count reached the parameter `enough`. The value is 0 unless it is served and not enough. */
typedef struct MantAirtime {
    uint8_t number;
    bool served;
    bool enough;
    uint64_t value;
} MantAirtime;
MANT_SIZE(MantAirtime, 16);

/* A bound. `too_large`: 64 bits do not hold the value, which is 0 then. */
typedef struct MantBound {
    uint8_t number;
    bool too_large;
    uint64_t value;
} MantBound;
MANT_SIZE(MantBound, 16);

/* MANT_FIXED_LENGTH, MANT_PAYLOAD_LIMIT and so on. */
typedef struct MantLimits {
    size_t fixed;
    size_t payload;
    size_t path;
    size_t header;
    size_t pdu;
    size_t list;
    size_t batch;
} MantLimits;
MANT_SIZE(MantLimits, 56);

/* Writes for each node how many hearings its shortest chain from the node at `from` has: 0 for that node, MANT_NO_CHAIN if there is none. A chain goes through
   nodes that repeat and avoids the node at `failed` (MANT_NO_NODE: none). At hop limit h a node is delivered the report if its length k is 1 to h + 1, or at 7
   if it has a chain. Its smallest path count is then k - 1. A node whose lists stop the report is not delivered it, and a report with a destination goes to
   that node alone. Returns false, and writes nothing, with more than MANT_NODE_LIMIT nodes, none at `from`, or not one length for each node. */
bool mant_chain_lengths(const uint8_t *pairs, size_t pairs_length, const uint8_t *marks, size_t marks_length, size_t from, size_t failed, uint8_t *lengths,
                        size_t lengths_length);

/* The least hop limit, 0 to 7, that reaches every node but the originator, by their lengths; MANT_NO_HOP_LIMIT if one has no chain. Set the length of a failed
   node to 0 first. */
uint8_t mant_least_hop_limit(const uint8_t *lengths, size_t lengths_length);

/* How often one report with a path goes out on the network, its first sending included. `counts` gets how often each node sends it. Each node takes what it
   hears by `pairs` once, and nothing else; echo is on; no two nodes have the same address. If transmissions are lost, it goes out no more often. The count
   stops at `enough`, which bounds the time (docs/PERFORMANCE.md), and `counts` is all 0 then. `marks` is as before after the call, but changes during it. */
MantAirtime mant_network_transmissions(const uint8_t *pairs, size_t pairs_length, size_t from, uint64_t hop_limit, uint64_t enough, uint8_t *marks,
                                       size_t marks_length, uint64_t *counts, size_t counts_length, uint8_t *table, size_t table_length);

/* The bytes of these transmissions, and each node's own in `counts`. `size` is that of the fresh report, and each path address adds 2. */
MantAirtime mant_network_bytes(const uint8_t *pairs, size_t pairs_length, size_t from, uint64_t hop_limit, uint64_t size, uint64_t enough, uint8_t *marks,
                               size_t marks_length, uint64_t *counts, size_t counts_length, uint8_t *table, size_t table_length);

/* The most transmissions that one fresh PDU with a path can cause, its first sending included. `nodes` counts the nodes that repeat, without the originator
   (42) and the destination (41). A gauge that repeats counts for the reports of others. Echo is on at every node, the originator too, no two have the same
   address, and none takes a transmission twice. A decoder that hands a frame over twice breaks that: with one repeater and hop limit 1, three can go out
   instead of two. */
MantBound mant_most_transmissions(uint64_t nodes, uint64_t hop_limit);

/* The most bytes of those transmissions, if the fresh PDU has this size, also one that no PDU has. */
MantBound mant_most_bytes(uint64_t nodes, uint64_t hop_limit, uint64_t size);

/* The most transmissions of one command, sent again at most `tries` times, and of its acknowledgements: the destination acknowledges every copy. If B and A
   bound one command and one acknowledgement, it is (tries + 1) * B * (1 + A). `answer_nodes` and `answer_hop_limit` are the acknowledgement's. What
   mant_most_transmissions asks holds for both, and neither originator nor destination is counted. */
MantBound mant_most_for_command(uint64_t tries, uint64_t nodes, uint64_t hop_limit, uint64_t answer_nodes, uint64_t answer_hop_limit);

MantLimits mant_limits(void);

/* Example: repeaters 1 and 2 hear gauge 0 and each other; base station 3 hears both and does not repeat. Then the worst network of two and of five repeaters.

       static uint8_t table[MANT_AIRTIME_TABLE];
       const uint8_t pairs[] = {0, 1, 0, 2, 1, 2, 2, 1, 1, 3, 2, 3};
       uint8_t marks[] = {0, 0, 0, 1}, lengths[4];
       uint64_t counts[4];
       assert(mant_chain_lengths(pairs, sizeof pairs, marks, 4, 0, MANT_NO_NODE, lengths, 4) && lengths[3] == 2);
       assert(mant_least_hop_limit(lengths, 4) == 1);
       assert(mant_chain_lengths(pairs, sizeof pairs, marks, 4, 0, 1, lengths, 4) && lengths[1] == MANT_NO_CHAIN && lengths[3] == 2);
       MantAirtime times = mant_network_transmissions(pairs, sizeof pairs, 0, 3, 1000, marks, 4, counts, 4, table, sizeof table);
       assert(times.served && times.value == 5 && counts[0] == 1 && counts[1] == 2 && counts[3] == 0);
       MantAirtime octets = mant_network_bytes(pairs, sizeof pairs, 0, 3, 20, 10000, marks, 4, counts, 4, table, sizeof table);
       assert(octets.value == 112 && counts[2] == 46);
       assert(mant_most_transmissions(2, 3).value == 5);
       assert(mant_most_transmissions(5, 3).value == 86);
       assert(mant_most_bytes(5, 3, 20).value == 2170);
       assert(mant_most_for_command(0, 5, 3, 5, 3).value == 7482);
       MantBound bound = mant_most_transmissions(5, 8);
       assert(bound.number == MANT_HOP_LIMIT_ABOVE_7 && bound.value == 0);
       assert(mant_limits().pdu == MANT_PDU_LIMIT); */

/* The words of a number; "no such number" for any other. */
static inline const char *mant_meaning(uint8_t number)
{
    switch (number) {
    case MANT_DONE: return "done";
    case MANT_TOO_SHORT: return "too short: every PDU has 6 bytes or more";
    case MANT_WRONG_VERSION: return "its version is not 0";
    case MANT_UNKNOWN_PROTOCOL: return "its protocol is neither 0 nor 1";
    case MANT_NO_DESTINATION: return "it is reliable and has no destination";
    case MANT_HEADER_CUT: return "the bytes end within its header";
    case MANT_PAYLOAD_CUT: return "the bytes end within its payload";
    case MANT_HOP_LIMIT_ABOVE_7: return "the hop limit asked for is above 7";
    case MANT_PORT_ABOVE_15: return "the port asked for is above 15";
    case MANT_PAYLOAD_TOO_LONG: return "the payload has more than 4,095 bytes";
    case MANT_RELIABLE_WITHOUT_DESTINATION: return "reliable service needs a destination";
    case MANT_OUTPUT_TOO_SHORT: return "the output has no room for the PDU, or for its exchange";
    case MANT_NO_ENCRYPTED_FLAG: return "encryption is asked for, and edition 1.1 has no encrypted flag";
    case MANT_UNKNOWN_EDITION: return "the edition is neither 11, which is 1.1, nor 12, which is 1.2";
    case MANT_LOW_ABOVE_HIGH: return "a list has a range whose low is above its high";
    case MANT_LIST_ODD: return "the last value of a list has no partner";
    case MANT_LIST_TOO_LONG: return "a list has more than 128 values";
    case MANT_ECHO: return "echo: this node is in the path";
    case MANT_SOURCE_NOT_PASSED: return "the source pass list does not hold the source";
    case MANT_SOURCE_REJECTED: return "the source reject list holds the source";
    case MANT_DESTINATION_NOT_PASSED: return "the destination pass list does not hold the destination";
    case MANT_DESTINATION_REJECTED: return "the destination reject list holds the destination";
    case MANT_ADDED_HEADER: return "not delivered: it has an added header";
    case MANT_REPEATING_OFF: return "not repeated: this node has repeating off";
    case MANT_HOP_LIMIT_0: return "not repeated: its hop limit is 0";
    case MANT_PATH_FULL: return "not repeated: its path is full, with 255 addresses";
    case MANT_FOR_ANOTHER: return "not delivered: it is for another node";
    case MANT_REPEAT_OUTPUT_TOO_SHORT: return "the output has no room for the repeated PDU";
    case MANT_FOR_THIS_NODE: return "not repeated: it is for this node";
    case MANT_OWN_REPORT: return "echo: this node is the source";
    case MANT_JOB_CUT: return "the job ends too early";
    case MANT_JOB_FLAGS: return "bit 6 or 7 of the job's flags is set";
    case MANT_JOB_LIST_COUNT: return "a list of the job has more than 64 ranges";
    case MANT_JOB_LEFT_OVER: return "the job goes on after its batch";
    case MANT_BATCH_TOO_LONG: return "the batch has more than 16,384 bytes";
    case MANT_TABLE_FULL: return "a new station, and the table holds 128";
    case MANT_NOT_HELD: return "no such station is held";
    case MANT_ELEMENT_CUT: return "an element does not end within the run that it stands in";
    case MANT_ELEMENT_TOO_DEEP: return "an element stands at level 5";
    case MANT_NOT_AN_EXCHANGE: return "not one element of type 20 that holds one header and one payload";
    case MANT_QUEUE_FULL: return "the queue holds 32 PDUs, or has no room for so many bytes more";
    case MANT_NOT_ONE_PDU: return "not one whole PDU with nothing after it";
    case MANT_OLDEST_TOO_LONG: return "the output has no room for the oldest PDU of the queue";
    case MANT_NOT_SPLIT_AT_HEADER: return "bytes follow the PDU, or its two parts do not meet at the header's end";
    case MANT_RECORDS_IN_USE: return "all 16 records are in use";
    case MANT_ALREADY_RETAINED: return "a PDU of this source, destination and ID is already retained";
    case MANT_ABOVE_256_BYTES: return "the PDU to retain has more than 256 bytes";
    case MANT_EARLIER_TIME: return "the time is earlier than the last accepted one";
    case MANT_NOT_16_RECORDS: return "the lent memory is not 16 records";
    case MANT_NOT_RETAINABLE: return "not exactly one PDU of protocol 1 with ACK clear and no path address";
    case MANT_SENDING_TOO_LONG: return "the output has no room for what is to be sent";
    case MANT_NOT_ENCRYPTED: return "its encrypted bit is clear";
    case MANT_TOO_SHORT_TO_OPEN: return "its payload is too short for a message number and a hash";
    case MANT_NUMBER_NOT_GREATER: return "its message number is not greater than the last accepted from its source";
    case MANT_HASH_DIFFERS: return "its hash differs: another key, or it was changed on its way";
    case MANT_RECORD_FULL: return "a new source, and the record holds 64";
    case MANT_SEALED_TOO_LONG: return "the sealed payload would have more than 4,095 bytes";
    case MANT_NUMBER_TOO_LARGE: return "the message number is above 16,777,215";
    case MANT_NO_ROOM_FOR_PAYLOAD: return "the output has no room for the sealed PDU, or for the plain payload";
    case MANT_ALREADY_ENCRYPTED: return "its encrypted bit is already set";
    default: return "no such number";
    }
}

#undef MANT_SIZE

#ifdef __cplusplus
}
#endif

#endif
