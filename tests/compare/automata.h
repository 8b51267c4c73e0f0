/* Automata as they are drawn and changed, and their files, whole and spoilt. */
#ifndef TESTS_COMPARE_AUTOMATA_H
#define TESTS_COMPARE_AUTOMATA_H

#include "random.h"
#include <edition.h>
#include <string.h>

enum { STATES = EDITION_MAX_STATES, LETTERS = EDITION_MAX_LETTERS };
enum { LONGEST_FILE = 5 + 3 * STATES + 5 * STATES * STATES * LETTERS + 2, ROOM = LONGEST_FILE + 64 };

struct automaton {
    unsigned states, letters, initial;
    uint32_t accepting, targets[STATES][LETTERS]; /* sets of states */
};

struct bytes {
    uint8_t at[ROOM];
    size_t len;
};

static inline int has(uint32_t set, unsigned q) { return set >> q & 1; }

static inline uint32_t all_below(unsigned n) { return UINT32_MAX >> (32 - n); }

/* Without accepting states and transitions. */
static inline struct automaton bare(unsigned states, unsigned letters, unsigned initial) {
    struct automaton a;
    memset(&a, 0, sizeof a);
    a.states = states, a.letters = letters, a.initial = initial;
    return a;
}

static inline uint32_t drawn_targets(unsigned density, unsigned states) {
    uint32_t set = (uint32_t)bits();
    switch (density) {
    case 0: set &= (uint32_t)bits() & (uint32_t)bits() & (uint32_t)bits(); break;
    case 1: set &= (uint32_t)bits(); break;
    case 2: set |= (uint32_t)bits(); break;
    default: set = 1u << below(states);
    }
    return set & all_below(states);
}

static inline struct automaton drawn(unsigned states, unsigned letters) {
    struct automaton a = bare(states, letters, chance(3, 4) ? 0 : below(states));
    unsigned density = below(4);
    a.accepting = drawn_targets(below(4), states);
    for (unsigned i = 0; i < states * letters; i++) a.targets[i / letters][i % letters] = drawn_targets(density, states);
    return a;
}

static inline unsigned draw_states(void) {
    const unsigned most[] = {3, 5, 5, 8, 8, 8, 16, 32};
    return between(1, PICK(most));
}

static inline unsigned draw_letters(void) {
    const unsigned most[] = {1, 2, 2, 2, 3, 4, 8, 16};
    return between(1, PICK(most));
}

/* For each state the states that one or more steps from it lead to. */
static inline void close_steps(const struct automaton *a, uint32_t after[STATES]) {
    for (unsigned q = 0; q < a->states; q++) {
        after[q] = 0;
        for (unsigned letter = 0; letter < a->letters; letter++) after[q] |= a->targets[q][letter];
    }
    for (unsigned k = 0; k < a->states; k++)
        for (unsigned q = 0; q < a->states; q++)
            if (has(after[q], k)) after[q] |= after[k];
}

static inline uint32_t dead_states(const struct automaton *a) {
    uint32_t after[STATES], recurring = 0, dead = 0;
    close_steps(a, after);
    for (unsigned q = 0; q < a->states; q++)
        if (has(a->accepting, q) && has(after[q], q)) recurring |= 1u << q;
    for (unsigned q = 0; q < a->states; q++)
        if (((after[q] | 1u << q) & recurring) == 0) dead |= 1u << q;
    return dead & (after[a->initial] | 1u << a->initial);
}

/* The states of the list alone, numbered by their places in it; the initial state is one of them. */
static inline struct automaton restricted(const struct automaton *a, const unsigned *kept, unsigned n) {
    struct automaton b = bare(n, a->letters, 0);
    for (unsigned to = 0; to < n; to++) {
        if (kept[to] == a->initial) b.initial = to;
        if (has(a->accepting, kept[to])) b.accepting |= 1u << to;
        for (unsigned from = 0; from < n; from++)
            for (unsigned letter = 0; letter < a->letters; letter++)
                if (has(a->targets[kept[from]][letter], kept[to])) b.targets[from][letter] |= 1u << to;
    }
    return b;
}

/* Without its dead states. An initial state that is dead is first made accepting, with a loop. */
static inline struct automaton trimmed(const struct automaton *a) {
    struct automaton b = *a;
    unsigned kept[STATES], n = 0;
    if (has(dead_states(&b), b.initial)) b.accepting |= 1u << b.initial, b.targets[b.initial][0] |= 1u << b.initial;
    uint32_t dead = dead_states(&b);
    for (unsigned q = 0; q < b.states; q++)
        if (!has(dead, q)) kept[n++] = q;
    return dead ? restricted(&b, kept, n) : b;
}

/* The states in another order. */
static inline struct automaton renumbered(const struct automaton *a) {
    unsigned order[STATES];
    for (unsigned q = 0; q < a->states; q++) {
        unsigned place = below(q + 1);
        order[q] = q;
        order[q] = order[place], order[place] = q;
    }
    return restricted(a, order, a->states);
}

/* With a state more, if there is room: a copy of one, which every step to that one leads to as well. */
static inline struct automaton grown(const struct automaton *a) {
    struct automaton b = *a;
    if (a->states == STATES) return b;
    unsigned copied = below(a->states), copy = b.states++;
    if (has(b.accepting, copied)) b.accepting |= 1u << copy;
    memcpy(b.targets[copy], b.targets[copied], sizeof b.targets[copy]);
    for (unsigned i = 0; i < b.states * b.letters; i++) {
        uint32_t *set = &b.targets[i / b.letters][i % b.letters];
        if (has(*set, copied)) *set |= 1u << copy;
    }
    return b;
}

/* With states that nothing leads to. */
static inline struct automaton padded(const struct automaton *a, unsigned states) {
    struct automaton b = *a;
    b.states = states;
    return b;
}

/* With one transition less, if a few tries find one. */
static inline struct automaton thinned(const struct automaton *a) {
    struct automaton b = *a;
    for (unsigned tries = 0; tries < 8; tries++) {
        uint32_t *set = &b.targets[below(b.states)][below(b.letters)], less = *set & (*set - 1);
        if (*set) {
            *set = chance(1, 2) ? less : *set & ~(1u << below(b.states));
            break;
        }
    }
    return b;
}

/* With an accepting state or a transition more or less. */
static inline struct automaton nearly(const struct automaton *a) {
    struct automaton b = *a;
    uint32_t change = 1u << below(b.states);
    if (chance(1, 3)) b.accepting ^= change;
    else b.targets[below(b.states)][below(b.letters)] ^= change;
    return b;
}

/* One state that accepts and loops on every letter. */
static inline struct automaton everything(unsigned letters) {
    struct automaton a = bare(1, letters, 0);
    a.accepting = 1;
    for (unsigned letter = 0; letter < letters; letter++) a.targets[0][letter] = 1;
    return a;
}

/* A ring on every letter, in which one state accepts. */
static inline struct automaton ring(unsigned states, unsigned letters) {
    struct automaton a = bare(states, letters, 0);
    a.accepting = 1u << below(states);
    for (unsigned i = 0; i < states * letters; i++) a.targets[i / letters][i % letters] = 1u << (i / letters + 1) % states;
    return a;
}

/* Accepts everything, and remembers in its runs which of the last n letters were 1: 2^n sets of states. */
static inline struct automaton window(unsigned n) {
    struct automaton a = bare(n + 1, 2, 0);
    a.accepting = all_below(n + 1);
    for (unsigned q = 1; q <= n; q++) a.targets[q][0] = a.targets[q][1] = q == n ? 1 : 1u << (q + 1);
    a.targets[0][0] = 1, a.targets[0][1] = 3;
    return a;
}

static inline void append(struct bytes *file, const void *bytes, size_t len) { memcpy(file->at + file->len, bytes, len), file->len += len; }

struct record {
    uint8_t len, bytes[5];
};

/* The records between header and end, and how many they are. */
static inline size_t list_records(const struct automaton *a, struct record *records) {
    size_t n = 0;
    for (unsigned q = 0; q < a->states; q++)
        if (has(a->accepting, q)) records[n++] = (struct record){3, {0x41, 0x46, (uint8_t)q}};
    for (unsigned q = 0; q < a->states; q++)
        for (unsigned letter = 0; letter < a->letters; letter++)
            for (uint32_t set = a->targets[q][letter], to = 0; set; set >>= 1, to++)
                if (set & 1) records[n++] = (struct record){5, {0x41, 0x54, (uint8_t)q, (uint8_t)letter, (uint8_t)to}};
    return n;
}

/* The automaton's file, its records in order or in a drawn one. */
static inline void write_file(const struct automaton *a, struct bytes *file) {
    static struct record records[STATES + STATES * STATES * LETTERS];
    size_t n = list_records(a, records);
    for (size_t i = chance(1, 2) ? n : 0; i > 1; i--) {
        size_t place = below((unsigned)i);
        struct record last = records[i - 1];
        records[i - 1] = records[place], records[place] = last;
    }
    const uint8_t header[] = {0x41, 0x48, (uint8_t)a->states, (uint8_t)a->letters, (uint8_t)a->initial}, end[] = {0x41, 0x45};
    file->len = 0;
    append(file, header, sizeof header);
    for (size_t i = 0; i < n; i++) append(file, records[i].bytes, records[i].len);
    append(file, end, sizeof end);
}

/* Changes a file in one way; most of them make it one that cannot be read. */
static inline void spoil(struct bytes *file) {
    const uint8_t marks[] = {0x45, 0x46, 0x48, 0x54}, values[] = {0, 1, 15, 16, 17, 31, 32, 33, 0x41, 255};
    size_t place = file->len ? below((unsigned)file->len) : 0;
    switch (below(10)) {
    case 0: file->at[place] = (uint8_t)bits(); break;
    case 1: file->at[place] = PICK(values); break;
    case 2: file->at[place] ^= (uint8_t)(1u << below(8)); break;
    case 3: file->at[between(2, 4)] = PICK(values); break;
    case 4: file->at[1] = PICK(marks); break;
    case 5: file->len = place; break;
    case 6: file->len -= file->len >= 2 ? between(1, 2) : 0; break;
    case 7: /* a record again, or a header, in front of the end */
        if (file->len < 12) break;
        file->len -= 2;
        append(file, file->at + (chance(3, 4) ? 5 : 0), 5), append(file, "AE", 2);
        break;
    case 8: /* bytes behind the end */
        for (unsigned n = between(1, 8); n > 0; n--) file->at[file->len++] = (uint8_t)bits();
        break;
    default:
        file->len = below(200);
        for (size_t i = 0; i < file->len; i++) file->at[i] = chance(1, 2) ? 0x41 : chance(1, 2) ? PICK(marks) : (uint8_t)bits();
    }
}

#endif
