/*
 * libFuzzer's entry points over calls.c: an input is a request's number and its payload. A changed guard or kept byte stops the run. What the lines
 * say is compared afterwards, by `independent compare-files` on the inputs that were found.
 */
#define FUZZING
#include "calls.c"

size_t LLVMFuzzerMutate(uint8_t *data, size_t size, size_t most);

int LLVMFuzzerInitialize(int *argc, char ***argv) {
    (void)argc;
    (void)argv;
    return freopen("/dev/null", "w", stdout) ? 0 : 1;
}

int LLVMFuzzerTestOneInput(const uint8_t *data, size_t size) {
    if (size == 0)
        return 0;
    answer(data[0], (struct bytes){data + 1, size - 1, 1});
    if (broken || changed)
        abort();
    return 0;
}

/* Where the image begins in a request that has one. */
static size_t image_at(uint8_t op) { return op == 5 ? 5 : op == 6 ? 39 : op == 12 ? 8 : 0; }

static void mend_checks(uint8_t *image, size_t bytes) {
    for (; bytes >= 512; image += 512, bytes -= 512) {
        uint32_t check = 2166136261u;
        for (size_t i = 0; i < 508; i++)
            check = (check ^ image[i]) * 16777619u;
        for (size_t i = 0; i < 4; i++)
            image[508 + i] = check >> (24 - 8 * i);
    }
}

/* A random change breaks a block's check, and nothing behind it would be reached: seven times in eight the checks are mended. */
size_t LLVMFuzzerCustomMutator(uint8_t *data, size_t size, size_t most, unsigned seed) {
    size = LLVMFuzzerMutate(data, size, most);
    size_t at = size ? image_at(data[0]) : 0;
    if (at && at < size && seed % 8)
        mend_checks(data + at, size - at);
    return size;
}
