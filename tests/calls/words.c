/*
 * Prints the words of every number up to the last, of 13 too, which is none, and of one that no version knows, and the version: what rust/src/lib.rs
 * must say too.
 */
#include <stdio.h>

#include "elderflute.h"

int main(void) {
    for (unsigned number = 1; number <= ELDERFLUTE_ROOM; number++)
        printf("%u %s\n", number, elderflute_words(number));
    printf("%s\n%s %u\n", elderflute_words(UINT32_MAX), ELDERFLUTE_VERSION, (unsigned)elderflute_version());
    return elderflute_version() != ELDERFLUTE_VERSION_NUMBER;
}
