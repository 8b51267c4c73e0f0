/* Files that the tests on entries offer. */
#ifndef TESTS_ENTRY_FILES_H
#define TESTS_ENTRY_FILES_H

#include "../check.h"

enum { ENTRY = EDITION_ENTRY_BYTES, SLOT = EDITION_SLOT_BYTES };

static inline struct file file_f(void) { return example("examples/f.ba"); }
static inline struct file file_g(void) { return example("examples/g.ba"); }

/* One accepting state that loops on letter 0 of two. */
static inline struct file zeros(void) { return example("examples/absence.ba"); }

/* A file with a refusal of 1 to 6; the automaton with a dead state has two letters. */
static inline struct file faulty(unsigned refusal) {
    static const uint8_t bytes[6][11] = {
        {0}, {0x41, 0x46, 0}, {0x41, 0x48, 0, 1, 0}, {0x41, 0x48, 1, 1, 0, 0x41, 0x46, 1},
        {0x41, 0x48, 1, 1, 0, 0x41, 0x46, 0, 0x41, 0x46, 0}, {0x41, 0x48, 1, 2, 0, 0x41, 0x45}};
    static const size_t len[6] = {0, 3, 5, 8, 11, 7};
    struct file f = {{0}, 0};
    put(&f, bytes[refusal - 1], len[refusal - 1]);
    return f;
}

#endif
