/*
 * The commands `info` and `exchange` of bin/elderflute:
 *
 *   images info FILE              what an image says of itself: slot, salt, sizes, cells, bytes
 *   images exchange SLOT A B      the reports of two images of a slot after an exchange: A's lines, then B's
 *
 * This program only reads files and writes bytes. Whether an image is one, what is exchanged and every line that tells of a flow come from the
 * library's calls, which are proved. Exit status: 0 printed, 1 refused (the reason in words on standard error), 2 used wrongly, or a file cannot be
 * read or written.
 */
#include <stdio.h>
#include <stdlib.h>
#include <string.h>

#include "elderflute.h"

enum { PRINTED = 0, REFUSED = 1, FAILED = 2 };

struct image {
    const char *name;
    uint8_t bytes[ELDERFLUTE_MOST_IMAGE_BYTES + 1]; /* one more, so that a longer file is seen to be longer */
    size_t length;
};

static struct image first, second;
static uint8_t lines[ELDERFLUTE_LINES];

/* Room for two sessions of any sizes: of each kind A's part, then B's. */
static uint8_t filter[2 * ELDERFLUTE_FILTER_BYTES(16)];
static uint8_t xors[2 * ELDERFLUTE_XORS(ELDERFLUTE_MOST_CELLS)];
static uint16_t flows[2 * ELDERFLUTE_MOST_CELLS];
static uint32_t packets[2 * ELDERFLUTE_MOST_CELLS];
static uint16_t unknowns[2 * ELDERFLUTE_MOST_CELLS];
static uint16_t positions[2 * ELDERFLUTE_MOST_CELLS];
static uint64_t marks[2 * ELDERFLUTE_MARKS(ELDERFLUTE_MOST_CELLS)];
static uint8_t keys[2 * ELDERFLUTE_KEYS(ELDERFLUTE_MOST_CELLS)];
static uint32_t counts[2 * ELDERFLUTE_RECORDS(ELDERFLUTE_MOST_CELLS)];
static uint8_t flags[2 * ELDERFLUTE_RECORDS(ELDERFLUTE_MOST_CELLS)];

/* A session's numbers, and where its part of the room begins: filter blocks and cells before it, and mark words. */
struct session {
    uint32_t numbers[ELDERFLUTE_NUMBERS];
    size_t listed, f, n, f_before, n_before, words_before;
};

/* The ten slices of one session. */
#define PART(s)                                                                                                                     \
    filter + ELDERFLUTE_FILTER_BYTES((s)->f_before), ELDERFLUTE_FILTER_BYTES((s)->f), xors + ELDERFLUTE_XORS((s)->n_before),         \
        ELDERFLUTE_XORS((s)->n), flows + (s)->n_before, (s)->n, packets + (s)->n_before, (s)->n, unknowns + (s)->n_before, (s)->n,   \
        positions + (s)->n_before, (s)->n, marks + (s)->words_before, ELDERFLUTE_MARKS((s)->n), keys + ELDERFLUTE_KEYS((s)->n_before), \
        ELDERFLUTE_KEYS((s)->n), counts + ELDERFLUTE_RECORDS((s)->n_before), ELDERFLUTE_RECORDS((s)->n),                            \
        flags + ELDERFLUTE_RECORDS((s)->n_before), ELDERFLUTE_RECORDS((s)->n)

/* The ten slices of both sessions, joined. */
#define BOTH(a, b)                                                                                                                  \
    filter, ELDERFLUTE_FILTER_BYTES((a)->f + (b)->f), xors, ELDERFLUTE_XORS((a)->n + (b)->n), flows, (a)->n + (b)->n, packets,       \
        (a)->n + (b)->n, unknowns, (a)->n + (b)->n, positions, (a)->n + (b)->n, marks,                                              \
        ELDERFLUTE_MARKS((a)->n) + ELDERFLUTE_MARKS((b)->n), keys, ELDERFLUTE_KEYS((a)->n + (b)->n), counts,                        \
        ELDERFLUTE_RECORDS((a)->n + (b)->n), flags, ELDERFLUTE_RECORDS((a)->n + (b)->n)

static int fail(const char *name, const char *what) {
    fprintf(stderr, "elderflute: '%s' %s\n", name, what);
    return FAILED;
}

/* What all commands end with: what was written must have reached its file. */
static int ended(int status) {
    if (fflush(stdout) != 0 || ferror(stdout)) {
        fprintf(stderr, "elderflute: standard output cannot be written\n");
        return FAILED;
    }
    return status;
}

static int read_file(struct image *image, const char *name) {
    FILE *file = strcmp(name, "-") == 0 ? stdin : fopen(name, "rb");
    image->name = name;
    if (!file)
        return fail(name, "cannot be read");
    image->length = fread(image->bytes, 1, sizeof image->bytes, file);
    int bad = ferror(file);
    if (file != stdin)
        fclose(file);
    return bad ? fail(name, "cannot be read") : PRINTED;
}

/* A refusal: the printing program's line, and on standard error where and why. */
static int refused(const char *name, const char *place, size_t which, uint32_t number) {
    printf("refused %u\n", (unsigned)number);
    fprintf(stderr, "elderflute: '%s'", name);
    if (place)
        fprintf(stderr, ", %s %zu", place, which);
    fprintf(stderr, ": %s (%u)\n", elderflute_words(number), (unsigned)number);
    return REFUSED;
}

static int has_block(uint32_t number) { return number == ELDERFLUTE_CHECK || number == ELDERFLUTE_FORM || number == ELDERFLUTE_MIXED; }

static int not_read(const struct image *image, size_t block, uint32_t number) {
    return refused(image->name, has_block(number) ? "block" : NULL, block, number);
}

/* The slot that block 0 says, which reading is then asked for. */
static uint32_t said_slot(const struct image *image) {
    const uint8_t *b = image->bytes + 12;
    return image->length < 16 ? 0 : (uint32_t)b[0] << 24 | (uint32_t)b[1] << 16 | (uint32_t)b[2] << 8 | b[3];
}

static int info(const char *name) {
    uint32_t numbers[ELDERFLUTE_NUMBERS];
    size_t block;
    int status = read_file(&first, name);
    if (status != PRINTED)
        return status;
    uint32_t number = elderflute_read(first.bytes, first.length, said_slot(&first), numbers, &block);
    if (number != ELDERFLUTE_DONE)
        return not_read(&first, block, number);
    printf("slot %u\nsalt %u\n", (unsigned)numbers[ELDERFLUTE_SLOT], (unsigned)numbers[ELDERFLUTE_SALT]);
    printf("kf %u\nF %u\n", (unsigned)numbers[ELDERFLUTE_KF], (unsigned)numbers[ELDERFLUTE_F]);
    printf("k %u\nq %u\n", (unsigned)numbers[ELDERFLUTE_K], (unsigned)numbers[ELDERFLUTE_Q]);
    printf("cells %zu\nbytes %zu\n", ELDERFLUTE_CELLS(numbers[ELDERFLUTE_K], numbers[ELDERFLUTE_Q]), first.length);
    return PRINTED;
}

/* Opens an image behind the part of another session, or at the start of the room. */
static int open_part(const struct image *image, uint32_t slot, const struct session *before, struct session *s) {
    size_t block;
    uint32_t number = elderflute_read(image->bytes, image->length, slot, s->numbers, &block);
    if (number != ELDERFLUTE_DONE)
        return not_read(image, block, number);
    s->f = s->numbers[ELDERFLUTE_F];
    s->n = ELDERFLUTE_CELLS(s->numbers[ELDERFLUTE_K], s->numbers[ELDERFLUTE_Q]);
    s->f_before = before ? before->f : 0;
    s->n_before = before ? before->n : 0;
    s->words_before = before ? ELDERFLUTE_MARKS(before->n) : 0;
    number = elderflute_open(image->bytes, image->length, slot, s->numbers, &s->listed, &block, PART(s));
    return number == ELDERFLUTE_DONE ? PRINTED : not_read(image, block, number);
}

static int put_lines(const struct image *image, const struct session *s) {
    size_t written;
    uint32_t number = elderflute_lines(s->numbers, s->listed, lines, sizeof lines, &written, PART(s));
    if (number != ELDERFLUTE_DONE)
        return refused(image->name, NULL, 0, number);
    fwrite(lines, 1, written, stdout);
    return PRINTED;
}

static int exchange(uint32_t slot, const char *name_a, const char *name_b) {
    struct session a, b;
    size_t told[ELDERFLUTE_TOLD] = {0};
    int status = read_file(&first, name_a);
    if (status == PRINTED)
        status = read_file(&second, name_b);
    if (status == PRINTED)
        status = open_part(&first, slot, NULL, &a);
    if (status == PRINTED)
        status = open_part(&second, slot, &a, &b);
    if (status != PRINTED)
        return status;
    uint32_t number = elderflute_exchange(a.numbers, &a.listed, b.numbers, &b.listed, told, BOTH(&a, &b));
    if (number != ELDERFLUTE_DONE)
        return refused(told[ELDERFLUTE_SWITCH] == 2 ? name_b : name_a, told[ELDERFLUTE_SWITCH] ? "cell" : NULL, told[ELDERFLUTE_CELL], number);
    if (told[ELDERFLUTE_TWELVES] > 0)
        fprintf(stderr, "elderflute: %zu hand-overs were refused: %s (12)\n", told[ELDERFLUTE_TWELVES], elderflute_words(ELDERFLUTE_TOO_MANY));
    status = put_lines(&first, &a);
    return status == PRINTED ? put_lines(&second, &b) : status;
}

static int usage(void) {
    fprintf(stderr, "usage: images info FILE | images exchange SLOT A B\n");
    return FAILED;
}

int main(int argc, char **argv) {
    if (argc == 3 && strcmp(argv[1], "info") == 0)
        return ended(info(argv[2]));
    if (argc != 5 || strcmp(argv[1], "exchange") != 0)
        return usage();
    char *end;
    unsigned long long slot = strtoull(argv[2], &end, 10);
    if (argv[2][0] < '0' || argv[2][0] > '9' || *end != '\0' || slot > UINT32_MAX)
        return usage();
    return ended(exchange((uint32_t)slot, argv[3], argv[4]));
}
