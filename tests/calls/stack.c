/*
 * How much stack each call takes: the call runs on a thread whose stack is painted before, and the lowest byte that it changed says how deep it went.
 * A line for each call; the program fails where one takes more than include/elderflute.h says. The last line is 'N passed, M failed'.
 */
#define _GNU_SOURCE
#include <pthread.h>
#include <stdio.h>
#include <stdlib.h>
#include <string.h>

#include "elderflute.h"

enum { STACK = 1 << 20, PAINT = 0xa5, LEFT_OUT = 256, FLOWS_OF_ONE = 1000 };
enum { KF = 6, F = 16, K = 4, Q = 16 };
#define N ELDERFLUTE_CELLS(K, Q)
#define SIZES KF, F, K, Q

static uint8_t stack[STACK] __attribute__((aligned(4096)));

/* Working memory and images of two switches, and the room of two sessions, joined. */
static uint8_t work_filter[ELDERFLUTE_FILTER_BYTES(F)], work_cells[ELDERFLUTE_CELL_BYTES(N)];
static uint8_t input[4 + ELDERFLUTE_IMAGE_BYTES(F, K, Q)], other[ELDERFLUTE_IMAGE_BYTES(F, K, Q)];
static uint8_t *const image = input + 4;
static uint8_t filter[2 * ELDERFLUTE_FILTER_BYTES(F)], xors[2 * ELDERFLUTE_XORS(N)], keys[2 * ELDERFLUTE_KEYS(N)], flags[2 * ELDERFLUTE_RECORDS(N)];
static uint16_t flows[2 * N], unknowns[2 * N], positions[2 * N];
static uint32_t packets[2 * N], counts[2 * ELDERFLUTE_RECORDS(N)];
static uint64_t marks[2 * ELDERFLUTE_MARKS(N)];
static uint32_t numbers[2][ELDERFLUTE_NUMBERS];
static size_t listed[2];
static uint8_t packet[28], key[ELDERFLUTE_KEY_BYTES], lines[ELDERFLUTE_LINES];
static uint32_t answer;

/* The ten slices of session i, or of both. */
#define PART(i)                                                                                                                     \
    filter + (i)*ELDERFLUTE_FILTER_BYTES(F), ELDERFLUTE_FILTER_BYTES(F), xors + (i)*ELDERFLUTE_XORS(N), ELDERFLUTE_XORS(N), flows + (i)*N, \
        N, packets + (i)*N, N, unknowns + (i)*N, N, positions + (i)*N, N, marks + (i)*ELDERFLUTE_MARKS(N), ELDERFLUTE_MARKS(N),      \
        keys + (i)*ELDERFLUTE_KEYS(N), ELDERFLUTE_KEYS(N), counts + (i)*ELDERFLUTE_RECORDS(N), ELDERFLUTE_RECORDS(N),               \
        flags + (i)*ELDERFLUTE_RECORDS(N), ELDERFLUTE_RECORDS(N)
#define BOTH                                                                                                                        \
    filter, 2 * ELDERFLUTE_FILTER_BYTES(F), xors, 2 * ELDERFLUTE_XORS(N), flows, 2 * N, packets, 2 * N, unknowns, 2 * N, positions, \
        2 * N, marks, 2 * ELDERFLUTE_MARKS(N), keys, 2 * ELDERFLUTE_KEYS(N), counts, 2 * ELDERFLUTE_RECORDS(N), flags,              \
        2 * ELDERFLUTE_RECORDS(N)

static void make_packet(unsigned flow) {
    static const uint8_t header[20] = {0x45, 0, 0, 28, 0, 0, 0, 0, 64, 17, 0, 0, 10, 0, 0, 0, 10, 1, 2, 3};
    memcpy(packet, header, sizeof header);
    packet[14] = (uint8_t)(flow * 7 >> 8), packet[15] = (uint8_t)(flow * 7);
    packet[20] = (uint8_t)(flow >> 8), packet[21] = (uint8_t)flow;
}

/* The image of so many flows, the first of which has a number, under a salt. */
static void make_image(uint8_t *to, uint32_t salt, unsigned from, unsigned flow_count) {
    elderflute_start(SIZES, work_filter, sizeof work_filter, work_cells, sizeof work_cells);
    for (unsigned flow = from; flow < from + flow_count; flow++) {
        make_packet(flow);
        elderflute_packet(SIZES, salt, work_filter, sizeof work_filter, work_cells, sizeof work_cells, packet, sizeof packet);
    }
    elderflute_seal(SIZES, salt, 7, work_filter, sizeof work_filter, work_cells, sizeof work_cells, to, ELDERFLUTE_IMAGE_BYTES(F, K, Q));
}

static void reopen(void) {
    size_t block;
    elderflute_open(image, ELDERFLUTE_IMAGE_BYTES(F, K, Q), 7, numbers[0], &listed[0], &block, PART(0));
    elderflute_open(other, ELDERFLUTE_IMAGE_BYTES(F, K, Q), 7, numbers[1], &listed[1], &block, PART(1));
}

static void settled(void) {
    size_t cell;
    reopen();
    elderflute_settle(numbers[0], &listed[0], &cell, PART(0));
}

/* ---- the calls, each with what stands before it */

static void nothing(void) {}
static void call_version(void) { answer = elderflute_version() == ELDERFLUTE_VERSION_NUMBER ? 0 : 1; }
static void call_key(void) { answer = elderflute_key(packet, sizeof packet, key); }
static void call_start(void) { answer = elderflute_start(SIZES, work_filter, sizeof work_filter, work_cells, sizeof work_cells); }
static void call_packet(void) {
    answer = elderflute_packet(SIZES, 9, work_filter, sizeof work_filter, work_cells, sizeof work_cells, packet, sizeof packet);
}
static void call_seal(void) {
    answer = elderflute_seal(SIZES, 9, 7, work_filter, sizeof work_filter, work_cells, sizeof work_cells, other, sizeof other);
}
static void call_read(void) {
    uint32_t read_numbers[ELDERFLUTE_NUMBERS];
    size_t block;
    answer = elderflute_read(image, ELDERFLUTE_IMAGE_BYTES(F, K, Q), 7, read_numbers, &block);
}
static void call_open(void) {
    size_t block;
    answer = elderflute_open(image, ELDERFLUTE_IMAGE_BYTES(F, K, Q), 7, numbers[0], &listed[0], &block, PART(0));
}
static void call_hand_over(void) { answer = elderflute_hand_over(numbers[0], &listed[0], key, PART(0)); }
static void call_settle(void) {
    size_t cell;
    answer = elderflute_settle(numbers[0], &listed[0], &cell, PART(0));
}
static void call_report(void) {
    size_t figures[ELDERFLUTE_FIGURES];
    answer = elderflute_report(numbers[0], listed[0], figures, PART(0));
}
static void call_lines(void) {
    size_t written;
    answer = elderflute_lines(numbers[0], listed[0], lines, sizeof lines, &written, PART(0));
}
static void call_exchange(void) {
    size_t told[ELDERFLUTE_TOLD];
    answer = elderflute_exchange(numbers[0], &listed[0], numbers[1], &listed[1], told, BOTH);
}
static void call_print(void) {
    size_t written;
    answer = elderflute_print(input, sizeof input, lines, sizeof lines, &written);
    answer |= lines[0] != '7'; /* the lines of slot 7, and no refusal */
}

static const struct call {
    const char *name;
    void (*before)(void), (*call)(void);
    size_t said;
} calls[] = {
    {"version", nothing, call_version, ELDERFLUTE_STACK_FLOWSET},
    {"key", nothing, call_key, ELDERFLUTE_STACK_FLOWSET},
    {"start", nothing, call_start, ELDERFLUTE_STACK_FLOWSET},
    {"packet", nothing, call_packet, ELDERFLUTE_STACK_FLOWSET},
    {"seal", nothing, call_seal, ELDERFLUTE_STACK_FLOWSET},
    {"read", nothing, call_read, ELDERFLUTE_STACK_FLOWSET},
    {"open", nothing, call_open, ELDERFLUTE_STACK_FLOWSET},
    {"hand_over", reopen, call_hand_over, ELDERFLUTE_STACK_SESSION},
    {"settle", reopen, call_settle, ELDERFLUTE_STACK_SESSION},
    {"report", settled, call_report, ELDERFLUTE_STACK_SESSION},
    {"lines", settled, call_lines, ELDERFLUTE_STACK_SESSION},
    {"exchange", reopen, call_exchange, ELDERFLUTE_STACK_EXCHANGE},
    {"print", nothing, call_print, ELDERFLUTE_STACK_PRINT},
};

/* ---- measuring */

static size_t depth; /* from where the stack stood when the call was made to the lowest byte that was changed */

static void *run(void *call) {
    volatile uint8_t here = 0;
    /* painted here, since starting the thread took some of it; painting itself needs the last bytes */
    memset(stack, PAINT, (size_t)((uint8_t *)&here - stack) - LEFT_OUT);
    ((const struct call *)call)->call();
    size_t lowest = 0;
    while (stack[lowest] == PAINT)
        lowest++;
    depth = (size_t)((uint8_t *)&here - stack) - lowest;
    return NULL;
}

/* Bytes of stack that the call takes, on a thread of its own. */
static size_t taken(const struct call *call) {
    pthread_t thread;
    pthread_attr_t attributes;
    pthread_attr_init(&attributes);
    if (pthread_attr_setstack(&attributes, stack, sizeof stack) != 0 || pthread_create(&thread, &attributes, run, (void *)call) != 0) {
        fprintf(stderr, "stack: no thread\n");
        exit(2);
    }
    pthread_join(thread, NULL);
    pthread_attr_destroy(&attributes);
    return depth;
}

int main(void) {
    int passed = 0, failed = 0;
    make_image(image, 9, 0, FLOWS_OF_ONE);
    input[3] = 7;
    make_image(other, 10, FLOWS_OF_ONE / 2, FLOWS_OF_ONE);
    make_packet(0);
    elderflute_key(packet, sizeof packet, key);
    for (size_t i = 0; i < sizeof calls / sizeof *calls; i++) {
        calls[i].before();
        size_t bytes = taken(&calls[i]);
        int good = bytes <= calls[i].said && answer == ELDERFLUTE_DONE;
        printf("stack: elderflute_%s takes %zu bytes, the header says at most %zu%s%s\n", calls[i].name, bytes, calls[i].said,
               answer == ELDERFLUTE_DONE ? "" : "; it was refused", good ? "" : ": FAILED");
        *(good ? &passed : &failed) += 1;
    }
    printf("%d passed, %d failed\n", passed, failed);
    return failed > 0;
}
