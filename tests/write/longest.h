/* The longest file: 32 states, 16 letters, every state accepting and every transition there. */
#ifndef TESTS_WRITE_LONGEST_H
#define TESTS_WRITE_LONGEST_H

#include <edition.h>
#include <string.h>

enum { LONGEST_RECORDS = 32 + 32 * 16 * 32 };

/* A record of the longest file, by its place in the fixed form; its length. */
static inline size_t longest_record(uint8_t *to, unsigned place) {
    const unsigned t = place - 32;
    const uint8_t accepts[] = {0x41, 0x46, (uint8_t)place};
    const uint8_t steps[] = {0x41, 0x54, (uint8_t)(t >> 9), (uint8_t)(t >> 5 & 15), (uint8_t)(t & 31)};
    const size_t len = place < 32 ? sizeof accepts : sizeof steps;
    memcpy(to, place < 32 ? accepts : steps, len);
    return len;
}

/* Makes the longest file, of EDITION_MAX_FILE bytes: from one record to the next it is `stride` places of the fixed form, round and round. So 1 gives
   the fixed form; another stride must have no factor in common with LONGEST_RECORDS. */
static inline void make_longest(uint8_t *file, unsigned stride) {
    const uint8_t front[] = {0x41, 0x48, 32, 16, 31}, back[] = {0x41, 0x45};
    memcpy(file, front, sizeof front);
    size_t len = sizeof front;
    for (unsigned i = 0; i < LONGEST_RECORDS; i++) len += longest_record(file + len, i * stride % LONGEST_RECORDS);
    memcpy(file + len, back, sizeof back);
}

#endif
