/* The smallest whole program: an entry is opened with 01's F, and G is offered at bound 1. Prints `kind 0, edition 1`: taken. */
#include <edition.h>
#include <stdio.h>

static const uint8_t f[] = "AH\4\2\0AF\3AT\0\0\2AT\0\1\1AT\1\0\3AT\1\1\1AT\2\0\2AT\2\1\3AT\3\0\3AT\3\1\3AE";
static const uint8_t g[] = "AH\3\2\0AF\1AF\2AT\0\0\0AT\0\0\2AT\0\1\0AT\0\1\1AT\1\0\1AT\1\0\2AT\2\1\1AT\2\1\2AE";
static uint8_t entry[EDITION_ENTRY_BYTES], work[EDITION_MAX_WORK], word[EDITION_MAX_WORD]; /* zeros: a fresh entry */

int main(void) {
    entry_open(entry, sizeof entry, f, sizeof f - 1);
    uint64_t answer = entry_offer(entry, sizeof entry, g, sizeof g - 1, 1, work, sizeof work, word, sizeof word);
    printf("kind %u, edition %u\n", edition_kind(answer), (unsigned)edition_number(entry));
    return edition_kind(answer) != EDITION_TAKEN;
}
