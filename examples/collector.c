/*
 * A collector's loop: takes one image after another, each of the slot after the last one's, settles it and prints its lines.
 *
 *   collector SLOT DIRECTORY    the images DIRECTORY/SLOT.image, then those of SLOT + 1, SLOT + 2 .. until there is none
 *   collector SLOT -            images one after the other on standard input
 *
 * On a site the loop is the same, and each image is what a switch sent for the 10 ms that ended. A refused image is told on standard error and its slot
 * left out; the loop goes on. Exit status: 0 every image was printed, 1 one was refused, 2 used wrongly, or nothing could be read or written.
 */
#include <stdio.h>
#include <stdlib.h>
#include <string.h>

#include "elderflute.h"

/* Room for an image of any sizes, made once: no call allocates, and each is lent as much as the image's sizes ask for. */
static uint8_t image[ELDERFLUTE_MOST_IMAGE_BYTES + 1];
static uint8_t filter[ELDERFLUTE_FILTER_BYTES(16)];
static uint8_t xors[ELDERFLUTE_XORS(ELDERFLUTE_MOST_CELLS)];
static uint16_t flows[ELDERFLUTE_MOST_CELLS];
static uint32_t packets[ELDERFLUTE_MOST_CELLS];
static uint16_t unknowns[ELDERFLUTE_MOST_CELLS];
static uint16_t positions[ELDERFLUTE_MOST_CELLS];
static uint64_t marks[ELDERFLUTE_MARKS(ELDERFLUTE_MOST_CELLS)];
static uint8_t keys[ELDERFLUTE_KEYS(ELDERFLUTE_MOST_CELLS)];
static uint32_t counts[ELDERFLUTE_RECORDS(ELDERFLUTE_MOST_CELLS)];
static uint8_t flags[ELDERFLUTE_RECORDS(ELDERFLUTE_MOST_CELLS)];
static uint8_t lines[ELDERFLUTE_LINES];

#define ROOM(f, n)                                                                                                                   \
    filter, ELDERFLUTE_FILTER_BYTES(f), xors, ELDERFLUTE_XORS(n), flows, (n), packets, (n), unknowns, (n), positions, (n), marks,    \
        ELDERFLUTE_MARKS(n), keys, ELDERFLUTE_KEYS(n), counts, ELDERFLUTE_RECORDS(n), flags, ELDERFLUTE_RECORDS(n)

/* What the loop does with one image: read, open, settle, and use what stands there; here it is printed. Answers the number of what was refused. */
static uint32_t take(uint32_t slot, size_t length) {
    uint32_t numbers[ELDERFLUTE_NUMBERS];
    size_t listed, block, cell, written;

    uint32_t number = elderflute_read(image, length, slot, numbers, &block);
    if (number != ELDERFLUTE_DONE)
        return number;
    size_t f = numbers[ELDERFLUTE_F], n = ELDERFLUTE_CELLS(numbers[ELDERFLUTE_K], numbers[ELDERFLUTE_Q]);
    number = elderflute_open(image, length, slot, numbers, &listed, &block, ROOM(f, n));
    if (number == ELDERFLUTE_DONE)
        number = elderflute_settle(numbers, &listed, &cell, ROOM(f, n));
    if (number == ELDERFLUTE_DONE)
        number = elderflute_lines(numbers, listed, lines, sizeof lines, &written, ROOM(f, n));
    if (number == ELDERFLUTE_DONE)
        fwrite(lines, 1, written, stdout);
    return number;
}

/* The bytes of the next image on standard input: block 0 says how many blocks there are (F, k and q are its bytes 2 to 4). Where those bytes are damaged, the
 * stream is lost from there on: on a site, send the length too. */
static size_t next_image(void) {
    size_t length = fread(image, 1, 512, stdin);
    if (length < 512)
        return length;
    size_t bytes = ELDERFLUTE_IMAGE_BYTES(image[2], image[3], image[4]);
    if (bytes > ELDERFLUTE_MOST_IMAGE_BYTES)
        bytes = 512;
    return bytes <= length ? length : length + fread(image + length, 1, bytes - length, stdin);
}

/* The bytes of a slot's image in a directory; 0 where there is none. */
static size_t slot_image(const char *directory, uint32_t slot) {
    char name[4096];
    if (snprintf(name, sizeof name, "%s/%u.image", directory, (unsigned)slot) >= (int)sizeof name)
        return 0;
    FILE *file = fopen(name, "rb");
    if (!file)
        return 0;
    size_t length = fread(image, 1, sizeof image, file);
    fclose(file);
    return length;
}

int main(int argc, char **argv) {
    char *end;
    unsigned long long slot = argc == 3 ? strtoull(argv[1], &end, 10) : 0;
    if (argc != 3 || argv[1][0] < '0' || argv[1][0] > '9' || *end != '\0' || slot > UINT32_MAX) {
        fprintf(stderr, "usage: collector SLOT DIRECTORY | collector SLOT -\n");
        return 2;
    }
    if (elderflute_version() != ELDERFLUTE_VERSION_NUMBER) {
        fprintf(stderr, "collector: the library is not of version %s\n", ELDERFLUTE_VERSION);
        return 2;
    }
    int status = 0, taken = 0;
    for (;; slot++, taken++) {
        size_t length = strcmp(argv[2], "-") == 0 ? next_image() : slot_image(argv[2], (uint32_t)slot);
        if (length == 0)
            break;
        uint32_t number = take((uint32_t)slot, length);
        if (number != ELDERFLUTE_DONE) {
            fprintf(stderr, "collector: slot %llu: %s (%u)\n", slot, elderflute_words(number), (unsigned)number);
            status = 1;
        }
    }
    if (taken == 0)
        fprintf(stderr, "collector: there is no image of slot %llu in '%s'\n", slot, argv[2]);
    return taken == 0 || fflush(stdout) != 0 || ferror(stdout) ? 2 : status;
}
