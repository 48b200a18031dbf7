/*
 * Prints the flows of an image file, in the printing program's format: flows SLOT FILE
 * It opens the image, settles the session and prints its report and its list.
 * Exit status: 0 printed; 1 refused, with the reason in words on standard error; 2 used wrongly, or the file could not be read or the lines written.
 */
#include <errno.h>
#include <stdio.h>
#include <stdlib.h>

#include "elderflute.h"

/* Room for an image of any sizes; each call is lent as much of it as the image's sizes give. */
struct room {
    uint8_t filter[ELDERFLUTE_FILTER_BYTES(16)];
    uint8_t xors[ELDERFLUTE_XORS(ELDERFLUTE_MOST_CELLS)];
    uint16_t flows[ELDERFLUTE_MOST_CELLS];
    uint32_t packets[ELDERFLUTE_MOST_CELLS];
    uint16_t unknowns[ELDERFLUTE_MOST_CELLS];
    uint16_t positions[ELDERFLUTE_MOST_CELLS];
    uint64_t marks[ELDERFLUTE_MARKS(ELDERFLUTE_MOST_CELLS)];
    uint8_t keys[ELDERFLUTE_KEYS(ELDERFLUTE_MOST_CELLS)];
    uint32_t counts[ELDERFLUTE_RECORDS(ELDERFLUTE_MOST_CELLS)];
    uint8_t flags[ELDERFLUTE_RECORDS(ELDERFLUTE_MOST_CELLS)];
};

/* The ten slices that a session of f filter blocks and n cells is lent. */
#define ROOM(r, f, n)                                                                                                              \
    (r).filter, ELDERFLUTE_FILTER_BYTES(f), (r).xors, ELDERFLUTE_XORS(n), (r).flows, (n), (r).packets, (n), (r).unknowns, (n),      \
        (r).positions, (n), (r).marks, ELDERFLUTE_MARKS(n), (r).keys, ELDERFLUTE_KEYS(n), (r).counts, ELDERFLUTE_RECORDS(n),        \
        (r).flags, ELDERFLUTE_RECORDS(n)

static struct room room;
static uint8_t image[ELDERFLUTE_MOST_IMAGE_BYTES + 1];

enum { PRINTED, REFUSED, FAILED };

static int refused(uint32_t number) {
    printf("refused %u\n", (unsigned)number);
    fprintf(stderr, "flows: refused %u: %s\n", (unsigned)number, elderflute_words(number));
    return REFUSED;
}

static void print_address(const uint8_t *a) { printf("%u.%u.%u.%u", a[0], a[1], a[2], a[3]); }

static void print_flow(const uint8_t *key, int known, uint32_t count) {
    print_address(key);
    printf(" %u ", key[8] * 256u + key[9]);
    print_address(key + 4);
    printf(" %u %u ", key[10] * 256u + key[11], key[12]);
    if (known)
        printf("%u\n", (unsigned)count);
    else
        printf("?\n");
}

static int print_flows(uint32_t slot, size_t length) {
    static const char *const states[] = {"whole", "short", "stuck", "stray"};
    uint32_t numbers[ELDERFLUTE_NUMBERS];
    size_t listed, block, cell, figures[ELDERFLUTE_FIGURES];

    uint32_t number = elderflute_read(image, length, slot, numbers, &block);
    if (number != ELDERFLUTE_DONE)
        return refused(number);
    size_t f = numbers[ELDERFLUTE_F], n = ELDERFLUTE_CELLS(numbers[ELDERFLUTE_K], numbers[ELDERFLUTE_Q]);
    number = elderflute_open(image, length, slot, numbers, &listed, &block, ROOM(room, f, n));
    if (number != ELDERFLUTE_DONE)
        return refused(number);
    number = elderflute_settle(numbers, &listed, &cell, ROOM(room, f, n));
    if (number != ELDERFLUTE_DONE)
        return refused(number);
    number = elderflute_report(numbers, listed, figures, ROOM(room, f, n));
    if (number != ELDERFLUTE_DONE)
        return refused(number);

    printf("%u %u %zu %zu %zu %s\n", (unsigned)numbers[ELDERFLUTE_SLOT], (unsigned)numbers[ELDERFLUTE_SALT],
           figures[ELDERFLUTE_LISTED_FLOWS], figures[ELDERFLUTE_COUNTED_FLOWS], figures[ELDERFLUTE_OPEN_CELLS],
           states[figures[ELDERFLUTE_STATE]]);
    for (size_t i = 0; i < listed; i++)
        print_flow(room.keys + ELDERFLUTE_KEY_BYTES * i, room.flags[i] & ELDERFLUTE_KNOWN, room.counts[i]);
    return PRINTED;
}

/* The slot in decimal digits; 0 where the text is none from 0 to 4,294,967,295. */
static int slot_of(const char *text, uint32_t *slot) {
    char *end;
    if (*text < '0' || *text > '9')
        return 0;
    errno = 0;
    unsigned long long number = strtoull(text, &end, 10);
    *slot = (uint32_t)number;
    return *end == '\0' && errno == 0 && number <= UINT32_MAX;
}

int main(int argc, char **argv) {
    uint32_t slot;
    if (argc != 3 || !slot_of(argv[1], &slot)) {
        fprintf(stderr, "usage: flows SLOT FILE, the slot from 0 to 4294967295\n");
        return FAILED;
    }
    FILE *file = fopen(argv[2], "rb");
    if (!file) {
        perror(argv[2]);
        return FAILED;
    }
    /* one byte more than the longest image, so that a longer file is seen as such */
    size_t length = fread(image, 1, sizeof image, file);
    if (ferror(file)) {
        perror(argv[2]);
        return FAILED;
    }
    fclose(file);
    int status = print_flows(slot, length);
    if (fflush(stdout) != 0 || ferror(stdout)) {
        perror("standard output");
        return FAILED;
    }
    return status;
}
