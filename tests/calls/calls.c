/*
 * Answers the requests of tests/PROTOCOL.md through include/elderflute.h: 2 and 4 to 12. All that is lent, the single numbers too, lies between
 * guard bytes; a line ends with ` guard` where a call changed one, and with ` kept` where it changed what a refusal keeps. Beside each report the
 * session's lines are asked for; a line ends with ` lines` where they are not what the report and the list say.
 */
#include <stdio.h>
#include <stdlib.h>
#include <string.h>

#include "elderflute.h"

enum { GUARD = 64, PATTERN = 0xa5 };

static int broken, changed, other_lines;

/* ---- lent buffers */

struct lent {
    uint8_t *all;
    size_t bytes;
};

static struct lent lend(size_t bytes) {
    struct lent l = {malloc(bytes + 2 * GUARD), bytes};
    if (!l.all)
        exit(1);
    memset(l.all, PATTERN, bytes + 2 * GUARD);
    return l;
}

static void *in(struct lent l) { return l.all + GUARD; }

static int is_pattern(const uint8_t *from, size_t bytes) {
    for (size_t i = 0; i < bytes; i++)
        if (from[i] != PATTERN)
            return 0;
    return 1;
}

static void take_back(struct lent l) {
    if (!is_pattern(l.all, GUARD) || !is_pattern(l.all + GUARD + l.bytes, GUARD))
        broken = 1;
    free(l.all);
}

/* What a refused call must have left as it was lent. */
static void must_be_kept(struct lent l) {
    if (!is_pattern(in(l), l.bytes))
        changed = 1;
}

/* ---- a payload, taken from the front */

struct bytes {
    const uint8_t *at;
    size_t left;
    int good;
};

static const uint8_t *take(struct bytes *b, size_t n) {
    static const uint8_t none[16];
    if (b->left < n) {
        b->good = 0;
        return none;
    }
    b->at += n;
    b->left -= n;
    return b->at - n;
}

static uint64_t number_in(const uint8_t *at, size_t width) {
    uint64_t n = 0;
    for (size_t i = 0; i < width; i++)
        n = n << 8 | at[i];
    return n;
}

static uint64_t take_number(struct bytes *b, size_t width) { return number_in(take(b, width), width); }

static void print_bytes(const uint8_t *at, size_t n) {
    putchar(' ');
    if (n == 0)
        putchar('.');
    for (size_t i = 0; i < n; i++)
        printf("%02x", at[i]);
}

static uint32_t noise_state;

static uint8_t noise(void) {
    noise_state = noise_state * 1664525u + 1013904223u;
    return noise_state >> 24;
}

/* ---- a session's memory */

enum { FILTER, XORS, FLOWS, PACKETS, UNKNOWNS, POSITIONS, MARKS, KEYS, COUNTS, FLAGS, SLICES };

static const size_t width_of[SLICES] = {1, 1, 2, 4, 2, 2, 8, 1, 4, 1};
static const size_t room_for[SLICES] = {8192, 20480, 2048, 2048, 2048, 2048, 40, 40960, 4096, 4096};

struct memory {
    size_t length[SLICES];
    struct lent slice[SLICES];
};

static uint64_t element(const struct memory *m, int s, size_t i) {
    const uint8_t *at = (const uint8_t *)in(m->slice[s]) + i * width_of[s];
    switch (width_of[s]) {
    case 1: return *at;
    case 2: return *(const uint16_t *)at;
    case 4: return *(const uint32_t *)at;
    default: return *(const uint64_t *)at;
    }
}

static void put_element(struct memory *m, int s, size_t i, uint64_t n) {
    uint8_t *at = (uint8_t *)in(m->slice[s]) + i * width_of[s];
    switch (width_of[s]) {
    case 1: *at = n; break;
    case 2: *(uint16_t *)at = n; break;
    case 4: *(uint32_t *)at = n; break;
    default: *(uint64_t *)at = n;
    }
}

static void take_lengths(struct bytes *b, struct memory *m) {
    for (int s = 0; s < SLICES; s++) {
        m->length[s] = take_number(b, 3);
        if (m->length[s] > room_for[s])
            b->good = 0;
    }
}

/* The elements stand in the payload, or where there is none the generator gives them. */
static void lend_memory(struct bytes *elements, struct memory *m) {
    for (int s = 0; s < SLICES; s++) {
        m->slice[s] = lend(m->length[s] * width_of[s]);
        for (size_t i = 0; i < m->length[s]; i++) {
            uint64_t n = 0;
            if (elements)
                n = take_number(elements, width_of[s]);
            else
                for (size_t k = 0; k < width_of[s]; k++)
                    n = n << 8 | noise();
            put_element(m, s, i, n);
        }
    }
}

static void print_memory(const struct memory *m) {
    for (int s = 0; s < SLICES; s++) {
        printf(m->length[s] ? " " : " .");
        for (size_t i = 0; i < m->length[s]; i++)
            printf("%0*llx", (int)(2 * width_of[s]), (unsigned long long)element(m, s, i));
    }
}

static void take_back_memory(struct memory *m) {
    for (int s = 0; s < SLICES; s++)
        take_back(m->slice[s]);
}

#define SLICE(m, s) in((m)->slice[s]), (m)->length[s]
#define MEMORY(m)                                                                                                                  \
    SLICE(m, FILTER), SLICE(m, XORS), SLICE(m, FLOWS), SLICE(m, PACKETS), SLICE(m, UNKNOWNS), SLICE(m, POSITIONS),                   \
        SLICE(m, MARKS), SLICE(m, KEYS), SLICE(m, COUNTS), SLICE(m, FLAGS)

/* ---- a session: six numbers, how many flows are listed, memory */

struct session {
    struct lent numbers, listed;
    struct memory memory;
};

static size_t *listed_in(const struct session *s) { return in(s->listed); }

static void take_session(struct bytes *b, struct session *s) {
    s->numbers = lend(ELDERFLUTE_NUMBERS * sizeof(uint32_t));
    s->listed = lend(sizeof(size_t));
    uint32_t *numbers = in(s->numbers);
    for (int i = 0; i < ELDERFLUTE_NUMBERS; i++)
        numbers[i] = take_number(b, i < ELDERFLUTE_SALT ? 1 : 4);
    *listed_in(s) = take_number(b, 4);
    take_lengths(b, &s->memory);
    if (!b->good)
        memset(s->memory.length, 0, sizeof s->memory.length);
    lend_memory(b, &s->memory);
}

static void take_back_session(struct session *s) {
    take_back(s->numbers);
    take_back(s->listed);
    take_back_memory(&s->memory);
}

/* ---- the calls on a session; each prints its answer, with `between` before a second word */

static void settle(struct session *s, char between, int with_listed) {
    struct lent cell = lend(sizeof(size_t));
    size_t before = *listed_in(s);
    uint32_t number = elderflute_settle(in(s->numbers), in(s->listed), in(cell), MEMORY(&s->memory));
    printf("%u", (unsigned)number);
    if (number == 8 || number == 16) {
        changed |= *listed_in(s) != before;
        must_be_kept(cell);
    } else {
        if (with_listed)
            printf("%c%zu", between, *listed_in(s));
        if (number)
            printf("%c%zu", between, *(size_t *)in(cell));
        else
            must_be_kept(cell);
    }
    take_back(cell);
}

static void hand_over(struct session *s, const uint8_t *key, int with_listed) {
    struct lent lent_key = lend(ELDERFLUTE_KEY_BYTES);
    memcpy(in(lent_key), key, ELDERFLUTE_KEY_BYTES);
    size_t before = *listed_in(s);
    uint32_t number = elderflute_hand_over(in(s->numbers), in(s->listed), in(lent_key), MEMORY(&s->memory));
    printf("%u", (unsigned)number);
    changed |= *listed_in(s) != before + (number == 0);
    if (number == 0 && with_listed)
        printf(" %zu", *listed_in(s));
    take_back(lent_key);
}

static const char *const states[] = {"whole", "short", "stuck", "stray"};

/* The lines of a session, by its figures and its list. */
static size_t expected_lines(const struct session *s, const size_t *figures, char *to) {
    const uint32_t *numbers = in(s->numbers);
    char *at = to;
    at += sprintf(at, "%u %u %zu %zu %zu %s\n", (unsigned)numbers[ELDERFLUTE_SLOT], (unsigned)numbers[ELDERFLUTE_SALT], figures[0], figures[1], figures[2],
                  states[figures[3]]);
    for (size_t i = 0; i < *listed_in(s); i++) {
        const uint8_t *k = (const uint8_t *)in(s->memory.slice[KEYS]) + ELDERFLUTE_KEY_BYTES * i;
        at += sprintf(at, "%u.%u.%u.%u %u %u.%u.%u.%u %u %u ", k[0], k[1], k[2], k[3], k[8] * 256u + k[9], k[4], k[5], k[6], k[7], k[10] * 256u + k[11],
                      k[12]);
        if (element(&s->memory, FLAGS, i) & ELDERFLUTE_KNOWN)
            at += sprintf(at, "%u\n", (unsigned)element(&s->memory, COUNTS, i));
        else
            at += sprintf(at, "?\n");
    }
    return at - to;
}

static int sizes_are_good(const uint32_t *z) {
    return z[0] >= 1 && z[0] <= 8 && z[1] >= 1 && z[1] <= 16 && z[2] >= 2 && z[2] <= 4 && z[3] >= 1 && z[3] <= 16;
}

/* Asks for the lines of a session whose report was answered with a number and figures; in room of the right length, and in too little. */
static void check_lines(const struct session *s, uint32_t number, const size_t *figures) {
    static char expected[ELDERFLUTE_LINES + 1];
    struct lent lines = lend(ELDERFLUTE_LINES), less = lend(ELDERFLUTE_LINES - 1), written = lend(sizeof(size_t));
    uint32_t short_of = sizes_are_good(in(s->numbers)) ? 16 : 8;
    other_lines |= elderflute_lines(in(s->numbers), *listed_in(s), in(less), less.bytes, in(written), MEMORY(&s->memory)) != short_of;
    must_be_kept(less);
    must_be_kept(written);
    other_lines |= elderflute_lines(in(s->numbers), *listed_in(s), in(lines), lines.bytes, in(written), MEMORY(&s->memory)) != number;
    size_t n = number ? 0 : expected_lines(s, figures, expected);
    if (number)
        must_be_kept(written);
    else
        other_lines |= *(size_t *)in(written) != n || memcmp(in(lines), expected, n) != 0;
    changed |= !is_pattern((uint8_t *)in(lines) + n, lines.bytes - n);
    take_back(lines);
    take_back(less);
    take_back(written);
}

static void report(struct session *s, char between) {
    struct lent lent_figures = lend(ELDERFLUTE_FIGURES * sizeof(size_t));
    size_t *figures = in(lent_figures);
    uint32_t number = elderflute_report(in(s->numbers), *listed_in(s), figures, MEMORY(&s->memory));
    printf("%u", (unsigned)number);
    if (number == 0)
        printf("%c%zu%c%zu%c%zu%c%s", between, figures[0], between, figures[1], between, figures[2], between, states[figures[3]]);
    else
        must_be_kept(lent_figures);
    check_lines(s, number, figures);
    take_back(lent_figures);
}

/* Steps until the payload ends: 0 settle, 1 and a key hand over, 2 report. */
static void steps(struct session *s, struct bytes b) {
    for (int first = 1; b.left; first = 0) {
        if (!first)
            putchar(' ');
        switch (*take(&b, 1)) {
        case 0: settle(s, ':', 0); break;
        case 1: hand_over(s, take(&b, ELDERFLUTE_KEY_BYTES), 0); break;
        default: report(s, ':');
        }
    }
    printf(" %zu", *listed_in(s));
}

static int steps_fit(struct bytes b) {
    if (!b.left)
        return 0;
    while (b.left && b.good) {
        uint8_t step = *take(&b, 1);
        if (step == 1)
            take(&b, ELDERFLUTE_KEY_BYTES);
        if (step > 2)
            return 0;
    }
    return b.good;
}

static void on_session(int op, struct bytes b) {
    struct session s;
    take_session(&b, &s);
    size_t rest = op == 9 ? ELDERFLUTE_KEY_BYTES : 0;
    if (!b.good || (op == 11 ? !steps_fit(b) : b.left != rest))
        printf("length");
    else {
        switch (op) {
        case 7: report(&s, ' '); break;
        case 8: settle(&s, ' ', 1); break;
        case 9: hand_over(&s, b.at, 1); break;
        default: steps(&s, b);
        }
        print_memory(&s.memory);
    }
    take_back_session(&s);
}

/* ---- two sessions */

/* One buffer of each kind, A's elements first. */
static void join(const struct memory *a, const struct memory *b, struct memory *both) {
    for (int s = 0; s < SLICES; s++) {
        size_t first = a->length[s] * width_of[s], second = b->length[s] * width_of[s];
        both->length[s] = a->length[s] + b->length[s];
        both->slice[s] = lend(first + second);
        memcpy(in(both->slice[s]), in(a->slice[s]), first);
        memcpy((uint8_t *)in(both->slice[s]) + first, in(b->slice[s]), second);
    }
}

static void part(const struct memory *both, struct memory *a, struct memory *b) {
    for (int s = 0; s < SLICES; s++) {
        size_t first = a->length[s] * width_of[s], second = b->length[s] * width_of[s];
        memcpy(in(a->slice[s]), in(both->slice[s]), first);
        memcpy(in(b->slice[s]), (uint8_t *)in(both->slice[s]) + first, second);
    }
}

static void exchange(struct session *a, struct session *b) {
    struct lent lent_told = lend(ELDERFLUTE_TOLD * sizeof(size_t));
    size_t *told = in(lent_told), before_a = *listed_in(a), before_b = *listed_in(b);
    struct memory both;
    join(&a->memory, &b->memory, &both);
    uint32_t number =
        elderflute_exchange(in(a->numbers), in(a->listed), in(b->numbers), in(b->listed), told, MEMORY(&both));
    part(&both, &a->memory, &b->memory);
    printf("%u", (unsigned)number);
    if (number == 0 || number == 14) {
        if (number)
            printf(" %c %zu", told[ELDERFLUTE_SWITCH] == 1 ? 'A' : 'B', told[ELDERFLUTE_CELL]);
        printf(" %zu %zu %zu", told[ELDERFLUTE_TWELVES], *listed_in(a), *listed_in(b));
    } else {
        changed |= *listed_in(a) != before_a || *listed_in(b) != before_b;
        must_be_kept(lent_told);
    }
    take_back_memory(&both);
    take_back(lent_told);
}

static void on_two(struct bytes b) {
    struct session first, second;
    take_session(&b, &first);
    take_session(&b, &second);
    if (!b.good || b.left)
        printf("length");
    else {
        exchange(&first, &second);
        print_memory(&first.memory);
        print_memory(&second.memory);
    }
    take_back_session(&first);
    take_back_session(&second);
}

/* ---- images */

/* A copy of what is left, so that a read past its end meets a guard. */
static struct lent lend_rest(struct bytes b) {
    struct lent l = lend(b.left);
    memcpy(in(l), b.at, b.left);
    return l;
}

static void open_image(struct bytes b) {
    struct session s = {lend(ELDERFLUTE_NUMBERS * sizeof(uint32_t)), lend(sizeof(size_t)), {{0}, {{0, 0}}}};
    struct lent block = lend(sizeof(size_t));
    uint32_t slot = take_number(&b, 4);
    take_lengths(&b, &s.memory);
    noise_state = take_number(&b, 4);
    if (!b.good)
        memset(s.memory.length, 0, sizeof s.memory.length);
    struct lent image = lend_rest(b);
    lend_memory(NULL, &s.memory);
    if (!b.good)
        printf("length");
    else {
        uint32_t number =
            elderflute_open(in(image), image.bytes, slot, in(s.numbers), in(s.listed), in(block), MEMORY(&s.memory));
        printf("%u %zu", (unsigned)number, *(size_t *)in(block));
        if (number == 0) {
            for (int i = 0; i < ELDERFLUTE_NUMBERS; i++)
                printf(" %u", (unsigned)((uint32_t *)in(s.numbers))[i]);
            printf(" %zu", *listed_in(&s));
        } else {
            must_be_kept(s.numbers);
            must_be_kept(s.listed);
        }
        print_memory(&s.memory);
    }
    take_back(block);
    take_back(image);
    take_back_session(&s);
}

static void read_image(struct bytes b) {
    if (b.left < 4 || b.left > 4 + 41984) {
        printf("length");
        return;
    }
    struct lent numbers = lend(ELDERFLUTE_NUMBERS * sizeof(uint32_t)), block = lend(sizeof(size_t));
    uint32_t slot = take_number(&b, 4), *n = in(numbers);
    struct lent image = lend_rest(b);
    uint32_t number = elderflute_read(in(image), image.bytes, slot, n, in(block));
    if (number == 0) {
        printf("0 %u %u %u %u %u", (unsigned)n[0], (unsigned)n[1], (unsigned)n[2], (unsigned)n[3], (unsigned)n[4]);
        changed |= n[ELDERFLUTE_SLOT] != slot || *(size_t *)in(block) != 0;
    } else {
        printf("%u %zu", (unsigned)number, *(size_t *)in(block));
        must_be_kept(numbers);
    }
    take_back(numbers);
    take_back(block);
    take_back(image);
}

/* ---- packets */

static void key_of(struct bytes b) {
    struct lent packet = lend_rest(b), lent_key = lend(ELDERFLUTE_KEY_BYTES);
    const uint8_t *key = in(lent_key);
    uint32_t number = elderflute_key(in(packet), packet.bytes, in(lent_key));
    printf("%u", (unsigned)number);
    if (number == 0) {
        print_bytes(key, ELDERFLUTE_KEY_BYTES);
        for (size_t i = 0; i < 5; i++)
            printf(" %llu", (unsigned long long)number_in(key + (size_t[]){0, 4, 8, 10, 12}[i], (size_t[]){4, 4, 2, 2, 1}[i]));
    } else
        must_be_kept(lent_key);
    take_back(packet);
    take_back(lent_key);
}

static void fill(struct lent l, int mode) {
    uint8_t *at = in(l);
    for (size_t i = 0; i < l.bytes; i++)
        at[i] = mode == 2 ? 0 : mode == 3 ? 255 : noise();
}

static int packets_fit(struct bytes b) {
    while (b.left && b.good)
        take(&b, take_number(&b, 2));
    return b.good;
}

static void encode(struct bytes b) {
    uint32_t z[4], salt, slot;
    for (int i = 0; i < 4; i++)
        z[i] = take_number(&b, 1);
    salt = take_number(&b, 4);
    slot = take_number(&b, 4);
    size_t lengths[3];
    for (int i = 0; i < 3; i++)
        lengths[i] = take_number(&b, 2);
    int mode = *take(&b, 1);
    noise_state = take_number(&b, 4);
    if (!b.good || lengths[0] > 8192 || lengths[1] > 32768 || lengths[2] > 41984 || !packets_fit(b)) {
        printf("length");
        return;
    }
    if (mode > 4) {
        printf("mode");
        return;
    }
    struct lent filter = lend(lengths[0]), cells = lend(lengths[1]), image = lend(lengths[2]);
    fill(filter, mode);
    fill(cells, mode);
    fill(image, 0);
    for (size_t i = 13; mode == 4 && i < cells.bytes; i += 20)
        if (i / 20 != slot)
            ((uint8_t *)in(cells))[i] = 0;
    if (mode == 0)
        printf("%u", (unsigned)elderflute_start(z[0], z[1], z[2], z[3], in(filter), filter.bytes, in(cells), cells.bytes));
    else
        putchar('-');
    while (b.left) {
        size_t length = take_number(&b, 2);
        struct lent packet = lend_rest((struct bytes){take(&b, length), length, 1});
        printf(" %u", (unsigned)elderflute_packet(z[0], z[1], z[2], z[3], salt, in(filter), filter.bytes, in(cells), cells.bytes,
                                                  in(packet), packet.bytes));
        take_back(packet);
    }
    printf(" %u", (unsigned)elderflute_seal(z[0], z[1], z[2], z[3], salt, slot, in(filter), filter.bytes, in(cells), cells.bytes,
                                            in(image), image.bytes));
    print_bytes(in(filter), filter.bytes);
    print_bytes(in(cells), cells.bytes);
    print_bytes(in(image), image.bytes);
    take_back(filter);
    take_back(cells);
    take_back(image);
}

/* ---- printing */

static void print_input(struct bytes b) {
    size_t length = take_number(&b, 3);
    if (!b.good || length > 262144) {
        printf("length");
        return;
    }
    struct lent input = lend_rest(b), lines = lend(length), written = lend(sizeof(size_t));
    uint32_t number = elderflute_print(in(input), input.bytes, in(lines), lines.bytes, in(written));
    size_t n = number ? 0 : *(size_t *)in(written);
    printf("%u", (unsigned)number);
    if (number)
        must_be_kept(written);
    else
        print_bytes(in(lines), n);
    changed |= !is_pattern((uint8_t *)in(lines) + n, lines.bytes - n);
    take_back(input);
    take_back(lines);
    take_back(written);
}

/* ---- the stream */

static void answer(int op, struct bytes b) {
    broken = changed = other_lines = 0;
    switch (op) {
    case 2: key_of(b); break;
    case 4: encode(b); break;
    case 5: read_image(b); break;
    case 6: open_image(b); break;
    case 7:
    case 8:
    case 9:
    case 11: on_session(op, b); break;
    case 10: on_two(b); break;
    case 12: print_input(b); break;
    default: printf("op");
    }
    printf("%s%s%s\n", broken ? " guard" : "", changed ? " kept" : "", other_lines ? " lines" : "");
}

#ifndef FUZZING
int main(void) {
    static uint8_t payload[1 << 24];
    uint8_t head[4];
    while (fread(head, 1, 4, stdin) == 4) {
        size_t length = number_in(head + 1, 3);
        if (fread(payload, 1, length, stdin) != length)
            return 1;
        answer(head[0], (struct bytes){payload, length, 1});
    }
    return 0;
}
#endif
