/* The functions of two archives, and calls of both on equal buffers: every number and every byte afterwards has to be the same. */
#ifndef TESTS_COMPARE_SIDES_H
#define TESTS_COMPARE_SIDES_H

#include "random.h"
#include <dlfcn.h>
#include <edition.h>
#include <stdio.h>
#include <stdlib.h>
#include <string.h>

enum function { CONTAIN, OPEN, OFFER, VERDICT, WRITE, HANOI, FUNCTIONS };
static const char *const function_names[FUNCTIONS] = {"contain", "entry_open", "entry_offer", "entry_verdict", "file_write", "hanoi_write"};

/* One of the two archives. */
struct side {
    const char *name;
    uint64_t (*contain)(const uint8_t *, size_t, const uint8_t *, size_t, uint64_t, uint8_t *, size_t, uint8_t *, size_t);
    uint64_t (*open)(uint8_t *, size_t, const uint8_t *, size_t);
    uint64_t (*offer)(uint8_t *, size_t, const uint8_t *, size_t, uint64_t, uint8_t *, size_t, uint8_t *, size_t);
    uint64_t (*verdict)(const uint8_t *, size_t, const uint8_t *, size_t, const uint8_t *, size_t);
    /* NULL in builds before they came. */
    uint64_t (*write)(const uint8_t *, size_t, uint8_t *, size_t);
    uint64_t (*hanoi)(const uint8_t *, size_t, uint8_t *, size_t);
};

static struct side sides[2];

/* Whether both builds have the function: only the one before may lack some. */
static inline int is_compared(enum function function) {
    return (function != WRITE || sides[0].write) && (function != HANOI || sides[0].hanoi);
}

/* Sets a pointer to the function of this name. Ends the program where there is none, unless it may be lacking. */
static inline void find(void *library, const char *name, int may_lack, void *pointer) {
    void *found = dlsym(library, name);
    if (!found && !may_lack) {
        printf("compare: %s\n", dlerror());
        exit(3);
    }
    memcpy(pointer, &found, sizeof found);
}

static inline void load(struct side *side, const char *name, const char *path) {
    void *library = dlopen(path, RTLD_NOW | RTLD_LOCAL);
    if (!library) {
        printf("compare: %s\n", dlerror());
        exit(3);
    }
    side->name = name;
    find(library, "contain", 0, &side->contain);
    find(library, "entry_open", 0, &side->open);
    find(library, "entry_offer", 0, &side->offer);
    find(library, "entry_verdict", 0, &side->verdict);
    find(library, "file_write", side == &sides[0], &side->write);
    find(library, "hanoi_write", side == &sides[0], &side->hanoi);
}

/* A buffer of a call, with a copy for each side. Before and behind the bytes lent stand others, which are compared too. */
enum { GUARD = 64, SKEW = 16, MOST_LENT = 220 * 1024, SPACE = GUARD + SKEW + MOST_LENT + GUARD };

struct buffer {
    const char *name;
    size_t len, skew;
    int is_null;
    const uint8_t *held; /* what it holds before the call; NULL for drawn bytes */
    uint8_t space[2][SPACE];
};

static struct buffer buffers[4];

enum { POOL = 1 << 20 };
static uint8_t pool[POOL + SPACE]; /* drawn bytes, from which buffers are filled */

static inline void fill_pool(void) {
    for (size_t i = 0; i < sizeof pool; i += 8) {
        uint64_t eight = bits();
        memcpy(pool + i, &eight, sizeof pool - i < 8 ? sizeof pool - i : 8);
    }
}

static inline size_t space_of(const struct buffer *b) { return GUARD + b->skew + b->len + GUARD; }

static inline uint8_t *lent(struct buffer *b, int side) { return b->is_null ? NULL : b->space[side] + GUARD + b->skew; }

/* Lends bytes, or so many drawn ones, as the buffer of a call. Some buffers of no bytes are NULL. */
static inline void lend(struct buffer *b, const char *name, const uint8_t *held, size_t len) {
    if (len > MOST_LENT) exit(3);
    b->name = name, b->len = len, b->skew = below(SKEW), b->held = held;
    b->is_null = len == 0 && chance(1, 4);
    memcpy(b->space[0], pool + below(POOL), space_of(b));
    if (held) memcpy(b->space[0] + GUARD + b->skew, held, len);
    memcpy(b->space[1], b->space[0], space_of(b));
}

/* Calls one side's function on its copies of the buffers. */
static inline uint64_t call_side(enum function function, int side, uint64_t bound) {
    uint8_t *at[4];
    size_t len[4];
    for (int i = 0; i < 4; i++) at[i] = lent(&buffers[i], side), len[i] = buffers[i].len;
    const struct side *s = &sides[side];
    switch (function) {
    case CONTAIN: return s->contain(at[0], len[0], at[1], len[1], bound, at[2], len[2], at[3], len[3]);
    case OPEN: return s->open(at[0], len[0], at[1], len[1]);
    case OFFER: return s->offer(at[0], len[0], at[1], len[1], bound, at[2], len[2], at[3], len[3]);
    case VERDICT: return s->verdict(at[0], len[0], at[1], len[1], at[2], len[2]);
    case WRITE: return s->write(at[0], len[0], at[1], len[1]);
    default: return s->hanoi(at[0], len[0], at[1], len[1]);
    }
}

static inline void print_bytes(const uint8_t *bytes, size_t len) {
    for (size_t i = 0; i < len; i++) printf("%02x", bytes[i]);
    printf("\n");
}

/* The first place at which the copies of a buffer differ, counted from the bytes lent; SPACE if there is none. */
static inline long difference(const struct buffer *b) {
    size_t n = space_of(b);
    if (memcmp(b->space[0], b->space[1], n) == 0) return SPACE;
    size_t i = 0;
    while (b->space[0][i] == b->space[1][i]) i++;
    return (long)i - (long)(GUARD + b->skew);
}

/* The call that is being made: what is told of it if it is the first difference. */
struct call {
    enum function function;
    int used; /* buffers */
    uint64_t bound, place; /* its place among all calls, from 1 */
};

static struct call call;
static volatile int side_at_work;

/* Prints the inputs of the call and ends the program. */
static inline void print_inputs(void) {
    if (call.function == CONTAIN || call.function == OFFER) printf("  bound %llu\n", (unsigned long long)call.bound);
    for (int i = 0; i < call.used; i++) {
        const struct buffer *b = &buffers[i];
        printf("  %s, %zu bytes%s", b->name, b->len, b->held ? ": " : " of drawn contents\n");
        if (b->held) print_bytes(b->held, b->len);
    }
    fflush(stdout);
    _Exit(1);
}

/* Tells in what the sides differ. */
static inline void print_difference(const uint64_t *numbers) {
    printf("compare: DIFFERENCE in %s, call %llu\n", function_names[call.function], (unsigned long long)call.place);
    for (int side = 0; side < 2; side++) printf("  %s answers %llu\n", sides[side].name, (unsigned long long)numbers[side]);
    for (int i = 0; i < call.used; i++) {
        const struct buffer *b = &buffers[i];
        long place = difference(b);
        if (place == SPACE) continue;
        const size_t at = (size_t)(place + (long)(GUARD + b->skew));
        printf("  %s differs at byte %ld of %zu: %s has %02x, %s has %02x\n", b->name, place, b->len, sides[0].name, b->space[0][at], sides[1].name,
               b->space[1][at]);
    }
    print_inputs();
}

/* A call that a signal ends is a difference too. */
static inline void print_signal(int signal) {
    printf("compare: DIFFERENCE in %s, call %llu: %s ends by signal %d\n", function_names[call.function], (unsigned long long)call.place,
           sides[side_at_work].name, signal);
    print_inputs();
}

/* Calls both sides on the first so many buffers and compares. The number is that of both. */
static inline uint64_t call_both(enum function function, int used, uint64_t bound) {
    uint64_t numbers[2];
    call.function = function, call.used = used, call.bound = bound, call.place++;
    for (side_at_work = 0; side_at_work < 2; side_at_work++) numbers[side_at_work] = call_side(function, side_at_work, bound);
    int same = numbers[0] == numbers[1];
    for (int i = 0; i < used; i++) same = same && difference(&buffers[i]) == SPACE;
    if (!same) print_difference(numbers);
    return numbers[0];
}

#endif
