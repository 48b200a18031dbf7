/*
 * Elderflute: a collector for FlowRadar flowsets. This header declares every call of libelderflute.a, which `tests/archive` builds for
 * x86-64 Linux. docs/MANUAL.md says what each call is for; document 01 (docs/SPECIFICATION.md) decides.
 *
 * Every call answers a number of enum elderflute_number, ELDERFLUTE_DONE where it did what is said. It allocates nothing, keeps nothing between
 * calls and reads and writes only what is lent, so calls on other memory may run at the same time.
 *
 * A buffer is lent as a pointer and a length in elements (not bytes), one after the other. Its length must be the very one that is said below:
 * a longer buffer is refused too, with ELDERFLUTE_ROOM. Any bytes may stand in it, and any numbers may be passed: each call answers for all of them.
 * What C must hold to: no pointer is null, also where the length is 0; a pointer is aligned for its elements; buffers that a call writes
 * overlap with no other one; `numbers` points to ELDERFLUTE_NUMBERS, `key` to ELDERFLUTE_KEY_BYTES, `figures` to ELDERFLUTE_FIGURES and
 * `told` to ELDERFLUTE_TOLD elements.
 *
 * On every refusal but ELDERFLUTE_DAMAGE all that is lent stays as it was, except for *block.
 */
#ifndef ELDERFLUTE_H
#define ELDERFLUTE_H

#include <stddef.h>
#include <stdint.h>

#ifdef __cplusplus
extern "C" {
#endif

/* 01's numbers. No call answers 13, and the number is not used again. */
enum elderflute_number {
    ELDERFLUTE_DONE = 0,
    ELDERFLUTE_LENGTH = 1,        /* image: its length */
    ELDERFLUTE_CHECK = 2,         /* image: a block's check */
    ELDERFLUTE_FORM = 3,          /* image: a block's form; start, packet, seal: a size out of range; seal: a cell's zero byte is not zero */
    ELDERFLUTE_MIXED = 4,         /* image: a later block's salt or slot */
    ELDERFLUTE_STALE = 5,         /* image: not of the wanted slot */
    ELDERFLUTE_NO_KEY = 6,        /* packet: no IPv4 header, or no ports where they must be */
    ELDERFLUTE_COUNTER_FULL = 7,  /* packet: a counter is full */
    ELDERFLUTE_NOT_SESSION = 8,   /* numbers and room are no session */
    ELDERFLUTE_NOT_IN_FILTER = 9, /* hand-over: the received filter does not pass the key */
    ELDERFLUTE_LISTED = 10,       /* hand-over: the key is listed already */
    ELDERFLUTE_EMPTY_CELL = 11,   /* hand-over: one of the key's cells has FlowCount 0 */
    ELDERFLUTE_TOO_MANY = 12,     /* hand-over: N flows were handed over already */
    ELDERFLUTE_DAMAGE = 14,       /* settle, exchange: the cells contradict each other */
    ELDERFLUTE_SLOTS_DIFFER = 15, /* exchange of two different slots */
    ELDERFLUTE_ROOM = 16          /* lent room of the wrong length */
};

/* What a number says, in words; the reason that a program gives its user. A number that this header does not know has words too. */
static inline const char *elderflute_words(uint32_t number) {
    static const char *const words[] = {
        "done",
        "length: the image is empty, no multiple of 512 bytes, over 40,960, or not what its sizes ask for",
        "check: the bytes of a block do not fit its check",
        "form: a field out of its range, a wrong kind or number, or a zero byte that is not zero",
        "mixed: a block is of another salt or slot than block 0",
        "stale: the image is not of the wanted slot",
        "packet: it has no IPv4 header, or no ports where they must be",
        "counter full: a cell of the flow can count no further",
        "not a session: numbers and room are not what the calls left",
        "hand-over: the received filter does not pass the key",
        "hand-over: the key is listed already",
        "hand-over: a cell of the key has no flow left",
        "hand-over: as many flows as there are cells were handed over already",
        NULL, /* 13 */
        "damage: the cells contradict each other",
        "exchange: the two sessions are of different slots",
        "room: lent memory of the wrong length",
    };
    return number < sizeof words / sizeof *words && words[number] ? words[number] : "a number that this version does not know";
}

/*
 * The version of this header, that of the file VERSION, in words and as one number: 1,000,000 times its first number, 1,000 times its second, and its
 * third. elderflute_version is the number of the library that was linked: where it differs, header and library are not of one version.
 */
#define ELDERFLUTE_VERSION "0.1.0"
#define ELDERFLUTE_VERSION_NUMBER 1000
uint32_t elderflute_version(void);

/* States of a report. */
enum elderflute_state {
    ELDERFLUTE_WHOLE = 0, /* every listed flow has its count, and the cells are all zero: no other flows and counts give the cells of the image */
    ELDERFLUTE_SHORT = 1, /* no cell has a flow left, a count is unknown */
    ELDERFLUTE_STUCK = 2, /* some cells still hold flows */
    ELDERFLUTE_STRAY = 3  /* no cell has a flow left, every listed flow has a count, but a cell is not zero: none of the counts is to be trusted */
};

/* Places in the numbers of a session. Only elderflute_read and elderflute_open write them. */
enum { ELDERFLUTE_KF, ELDERFLUTE_F, ELDERFLUTE_K, ELDERFLUTE_Q, ELDERFLUTE_SALT, ELDERFLUTE_SLOT, ELDERFLUTE_NUMBERS };

/* Places in the figures of a report. */
enum { ELDERFLUTE_LISTED_FLOWS, ELDERFLUTE_COUNTED_FLOWS, ELDERFLUTE_OPEN_CELLS, ELDERFLUTE_STATE, ELDERFLUTE_FIGURES };

/* Places in what an exchange tells: hand-overs answered with 12; the switch that a DAMAGE is of (1 A, 2 B, else 0); its cell. */
enum { ELDERFLUTE_TWELVES, ELDERFLUTE_SWITCH, ELDERFLUTE_CELL, ELDERFLUTE_TOLD };

/* Bits of a listed flow's flags. */
enum { ELDERFLUTE_KNOWN = 1, ELDERFLUTE_HANDED = 2 };

/* Lengths. kf is from 1 to 8, F from 1 to 16, k from 2 to 4, q from 1 to 16; n stands for ELDERFLUTE_CELLS(k, q), which is 01's N. */
#define ELDERFLUTE_KEY_BYTES 13
#define ELDERFLUTE_CELLS(k, q) (24 * (size_t)(k) * (size_t)(q))
#define ELDERFLUTE_MOST_CELLS 1536
#define ELDERFLUTE_IMAGE_BYTES(f, k, q) (512 * ((size_t)(f) + (size_t)(k) * (size_t)(q)))
#define ELDERFLUTE_MOST_IMAGE_BYTES 40960
#define ELDERFLUTE_FILTER_BYTES(f) (480 * (size_t)(f))
#define ELDERFLUTE_CELL_BYTES(n) (20 * (size_t)(n)) /* `cells` of working memory */
#define ELDERFLUTE_XORS(n) (13 * (size_t)(n))
#define ELDERFLUTE_MARKS(n) (((size_t)(n) + 63) / 64)
#define ELDERFLUTE_RECORDS(n) (2 * (size_t)(n)) /* `counts` and `flags` */
#define ELDERFLUTE_KEYS(n) (26 * (size_t)(n))
#define ELDERFLUTE_LINES 181309

/*
 * The most stack that a call takes, in bytes, beside what its caller holds (tests/calls/stack.c measures it): the calls of a flowset and of an image up to
 * elderflute_open; hand-over, settle, report and lines; the exchange; print. A thread that makes a call needs more than this.
 */
#define ELDERFLUTE_STACK_FLOWSET 2048
#define ELDERFLUTE_STACK_SESSION 32768
#define ELDERFLUTE_STACK_EXCHANGE 55296
#define ELDERFLUTE_STACK_PRINT 131072

/*
 * The key of a packet that starts at its IPv4 header, of any length: source address 4, destination 4, source port 2, destination port 2,
 * protocol 1, high bytes first.
 * DONE: the key stands in key. NO_KEY.
 */
uint32_t elderflute_key(const uint8_t *packet, size_t packet_length, uint8_t *key);

/*
 * Starts a flowset: clears working memory. filter has ELDERFLUTE_FILTER_BYTES(f), cells ELDERFLUTE_CELL_BYTES(n).
 * DONE, FORM for a size out of range, ROOM; tested in this order.
 */
uint32_t elderflute_start(uint32_t kf, uint32_t f, uint32_t k, uint32_t q, uint8_t *filter, size_t filter_length, uint8_t *cells,
                          size_t cells_length);

/*
 * Takes a packet, from its IPv4 header on, into working memory.
 * DONE, FORM for a size out of range, ROOM, NO_KEY, COUNTER_FULL; tested in this order. A refused packet is not taken.
 */
uint32_t elderflute_packet(uint32_t kf, uint32_t f, uint32_t k, uint32_t q, uint32_t salt, uint8_t *filter, size_t filter_length,
                           uint8_t *cells, size_t cells_length, const uint8_t *packet, size_t packet_length);

/*
 * Writes the image of working memory. image has ELDERFLUTE_IMAGE_BYTES(f, k, q).
 * DONE, FORM for a size out of range, ROOM, FORM for a cell's zero byte that is not zero; tested in this order.
 */
uint32_t elderflute_seal(uint32_t kf, uint32_t f, uint32_t k, uint32_t q, uint32_t salt, uint32_t slot, const uint8_t *filter,
                         size_t filter_length, const uint8_t *cells, size_t cells_length, uint8_t *image, size_t image_length);

/*
 * Reads an image, of any length, that is wanted of a slot: whether every block has its check, its form, one salt and that slot.
 * DONE: its six numbers stand in numbers, and *block is 0. LENGTH, CHECK, FORM, MIXED, STALE: *block is the block (0 for LENGTH and STALE),
 * numbers stay.
 */
uint32_t elderflute_read(const uint8_t *image, size_t image_length, uint32_t slot, uint32_t *numbers, size_t *block);

/*
 * Opens an image that is wanted of a slot, into room of the lengths that its sizes give: filter ELDERFLUTE_FILTER_BYTES(f), xors
 * ELDERFLUTE_XORS(n), flows, packets, unknowns and positions n each, marks ELDERFLUTE_MARKS(n), keys ELDERFLUTE_KEYS(n), counts and flags
 * ELDERFLUTE_RECORDS(n). elderflute_read tells the sizes beforehand.
 * DONE: a session is numbers, *listed (0) and the room; *block is 0. As elderflute_read, then ROOM (with *block 0).
 * From then on only the calls below may write to numbers, *listed and the room. Flow i of the list, from 0 to *listed, has its key at
 * keys + 13 * i, its packets in counts[i] where flags[i] has ELDERFLUTE_KNOWN, and ELDERFLUTE_HANDED where it was handed over.
 */
uint32_t elderflute_open(const uint8_t *image, size_t image_length, uint32_t slot, uint32_t *numbers, size_t *listed, size_t *block,
                         uint8_t *filter, size_t filter_length, uint8_t *xors, size_t xors_length, uint16_t *flows, size_t flows_length,
                         uint32_t *packets, size_t packets_length, uint16_t *unknowns, size_t unknowns_length, uint16_t *positions,
                         size_t positions_length, uint64_t *marks, size_t marks_length, uint8_t *keys, size_t keys_length, uint32_t *counts,
                         size_t counts_length, uint8_t *flags, size_t flags_length);

/*
 * Hands a key over to a session: a flow that a neighbour found, and that may have been counted here.
 * DONE: it is taken out of its cells and listed, *listed is one more. NOT_SESSION for a size, ROOM, NOT_SESSION for the rest, NOT_IN_FILTER,
 * LISTED, EMPTY_CELL, TOO_MANY; tested in this order.
 */
uint32_t elderflute_hand_over(const uint32_t *numbers, size_t *listed, const uint8_t *key, const uint8_t *filter, size_t filter_length,
                              uint8_t *xors, size_t xors_length, uint16_t *flows, size_t flows_length, const uint32_t *packets,
                              size_t packets_length, uint16_t *unknowns, size_t unknowns_length, uint16_t *positions,
                              size_t positions_length, uint64_t *marks, size_t marks_length, uint8_t *keys, size_t keys_length,
                              uint32_t *counts, size_t counts_length, uint8_t *flags, size_t flags_length);

/*
 * Settles a session: finds flows and their counts as far as they can be told.
 * DONE: *listed flows are then listed. DAMAGE: *cell is the cell where the step would have started, the steps before it stand, and
 * *listed flows are then listed. NOT_SESSION for a size, ROOM, NOT_SESSION for the rest; tested in this order, before any step.
 * *cell is written with DAMAGE only.
 */
uint32_t elderflute_settle(const uint32_t *numbers, size_t *listed, size_t *cell, const uint8_t *filter, size_t filter_length, uint8_t *xors,
                           size_t xors_length, uint16_t *flows, size_t flows_length, uint32_t *packets, size_t packets_length,
                           uint16_t *unknowns, size_t unknowns_length, uint16_t *positions, size_t positions_length, uint64_t *marks,
                           size_t marks_length, uint8_t *keys, size_t keys_length, uint32_t *counts, size_t counts_length, uint8_t *flags,
                           size_t flags_length);

/*
 * Exchanges the lists of two sessions A and B of one slot: both are settled, each list is handed over to the other session, both are settled again,
 * until a round in which neither list grew. Each buffer holds A's part and right behind it B's: its length is the sum of the two lengths of its kind
 * (marks: ELDERFLUTE_MARKS of A and of B).
 * DONE: *listed_a and *listed_b flows are listed, told has the hand-overs that were answered with 12. NOT_SESSION for a size of either, ROOM, NOT_SESSION
 * for the rest of either, SLOTS_DIFFER; tested in this order. DAMAGE: told names the switch and the cell, the steps before it stand.
 */
uint32_t elderflute_exchange(const uint32_t *numbers_a, size_t *listed_a, const uint32_t *numbers_b, size_t *listed_b, size_t *told, const
                             uint8_t *filter, size_t filter_length, uint8_t *xors, size_t xors_length, uint16_t *flows, size_t flows_length,
                             uint32_t *packets, size_t packets_length, uint16_t *unknowns, size_t unknowns_length, uint16_t *positions,
                             size_t positions_length, uint64_t *marks, size_t marks_length, uint8_t *keys, size_t keys_length, uint32_t
                             *counts, size_t counts_length, uint8_t *flags, size_t flags_length);

/*
 * Reports on a session, worked out anew from list and cells.
 * DONE: figures has the listed flows, those with a count, the cells with flows left, and a state. NOT_SESSION for a size, ROOM, NOT_SESSION for
 * the rest; tested in this order.
 */
uint32_t elderflute_report(const uint32_t *numbers, size_t listed, size_t *figures, const uint8_t *filter, size_t filter_length,
                           const uint8_t *xors, size_t xors_length, const uint16_t *flows, size_t flows_length, const uint32_t *packets,
                           size_t packets_length, const uint16_t *unknowns, size_t unknowns_length, const uint16_t *positions,
                           size_t positions_length, const uint64_t *marks, size_t marks_length, const uint8_t *keys, size_t keys_length,
                           const uint32_t *counts, size_t counts_length, const uint8_t *flags, size_t flags_length);

/*
 * All that the printing program writes for its standard input (a slot, 4 bytes, high byte first, and an image), of any length. lines has
 * ELDERFLUTE_LINES bytes.
 * DONE: the first *written bytes of lines are the program's, also where they say `refused`; the others stay. ROOM.
 */
uint32_t elderflute_print(const uint8_t *input, size_t input_length, uint8_t *lines, size_t lines_length, size_t *written);

/*
 * The lines of a session as it stands: what the printing program writes of one that it has settled, so also `?` for an unknown count. lines has
 * ELDERFLUTE_LINES bytes.
 * DONE: the first *written bytes of lines are the session's; the others stay. NOT_SESSION for a size, ROOM for lines or for the session's, NOT_SESSION
 * for the rest; tested in this order.
 */
uint32_t elderflute_lines(const uint32_t *numbers, size_t listed, uint8_t *lines, size_t lines_length, size_t *written, const uint8_t *filter,
                          size_t filter_length, const uint8_t *xors, size_t xors_length, const uint16_t *flows, size_t flows_length,
                          const uint32_t *packets, size_t packets_length, const uint16_t *unknowns, size_t unknowns_length,
                          const uint16_t *positions, size_t positions_length, const uint64_t *marks, size_t marks_length,
                          const uint8_t *keys, size_t keys_length, const uint32_t *counts, size_t counts_length, const uint8_t *flags,
                          size_t flags_length);

#ifdef __cplusplus
}
#endif

#endif
