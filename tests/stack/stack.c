/* Measures the stack that the functions use: for calls that read no word back, and for each letter of a word that is read back. */
#define _POSIX_C_SOURCE 200809L
#include "../contain/rings.h"
#include "../write/longest.h"
#include <pthread.h>

enum { STACK = 4 << 20, MOST = 64 * 1024, MOST_LETTER = 128, WORK = EDITION_MAX_WORK, WORD = EDITION_MAX_WORD };

/* The limit of file_write. It keeps one automaton of some 2 KiB and no walk, so under the limit of the others a second copy of the automaton, or
   a buffer for the file, would pass unnoticed. */
enum { MOST_WRITE = 4 * 1024 };

/* The limit of hanoi_write, which keeps an automaton too, and calls itself for each of the 64 negations and parentheses that a label may have around
   a place. What a label has inside those, and how many operands, is to make no difference. */
enum { MOST_HANOI = 32 * 1024, LEVELS = 64, MILLION = 1000000 };

static uint8_t work[WORK], word[WORD], entry[EDITION_ENTRY_BYTES];
static const uint8_t zeros[EDITION_MAX_LASSO];
static uint8_t longest[EDITION_MAX_FILE], out[EDITION_MAX_FILE];
static size_t room; /* bytes of `out` that are lent */
static char text[3 * MILLION];
static size_t text_len;

/* A call on two files: the second is offered to an entry that holds the first, where there is an entry. */
struct call {
    const char *what;
    struct file first, second;
    uint64_t bound;
    size_t work_len, word_len;
    uint64_t expected;
    size_t letters; /* that are read back */
};

static struct call made;
static uint64_t answer;

static void *contained(void *arg) {
    (void)arg;
    answer = contain(made.first.bytes, made.first.len, made.second.bytes, made.second.len, made.bound, work, made.work_len, word, made.word_len);
    return NULL;
}

static void *offered(void *arg) {
    (void)arg;
    answer = entry_offer(entry, sizeof entry, made.second.bytes, made.second.len, made.bound, work, made.work_len, word, made.word_len);
    return NULL;
}

static void *opened(void *arg) {
    (void)arg;
    answer = entry_open(entry, sizeof entry, made.first.bytes, made.first.len);
    return NULL;
}

static void *verdict(void *arg) {
    (void)arg;
    answer = entry_verdict(entry, sizeof entry, zeros, sizeof zeros, zeros, sizeof zeros);
    return NULL;
}

static void *written(void *arg) {
    (void)arg;
    answer = file_write(longest, sizeof longest, out, room);
    return NULL;
}

static void *hanoi(void *arg) {
    (void)arg;
    answer = hanoi_write((const uint8_t *)text, text_len, out, sizeof out);
    return NULL;
}

static void *nothing(void *arg) { return arg; }

/* The bytes of a fresh stack that a thread touches. */
static long used(void *(*run)(void *)) {
    void *stack = NULL;
    if (posix_memalign(&stack, 4096, STACK)) exit(2);
    memset(stack, 0xee, STACK);
    pthread_attr_t attr;
    pthread_t thread;
    pthread_attr_init(&attr);
    if (pthread_attr_setstack(&attr, stack, STACK) || pthread_create(&thread, &attr, run, NULL)) exit(2);
    pthread_join(thread, NULL);
    const uint8_t *b = stack;
    long i = 0;
    while (i < STACK && b[i] == 0xee) i++;
    free(stack);
    return STACK - i;
}

static long base;

/* The stack of a call over that of an empty thread, printed. A wrong answer or a stack above the limit is a failure; letters come on top of it. */
static long measured(const char *name, void *(*run)(void *), const struct call *call, long most) {
    made = *call;
    memset(entry, 0, sizeof entry);
    if (run != opened) opened(NULL);
    long bytes = used(run) - base;
    int ok = answer == call->expected && bytes <= most + MOST_LETTER * (long)call->letters;
    printf("stack of %s, %s: %ld bytes%s\n", name, call->what, bytes, ok ? "" : ": FAILED");
    if (answer != call->expected) printf("  answered %llx, not %llx\n", (unsigned long long)answer, (unsigned long long)call->expected);
    failures += !ok;
    return bytes;
}

/* The calls of a table, the first of which gives back the empty word and the last the longest; then the bytes for each letter of that. */
static void measure(const char *name, void *(*run)(void *), const struct call *calls, size_t n) {
    long least = 0, bytes = 0;
    for (size_t i = 0; i < n; i++) {
        bytes = measured(name, run, &calls[i], MOST);
        if (i == 0) least = bytes;
    }
    double each = (double)(bytes - least) / (double)calls[n - 1].letters;
    failures += each > MOST_LETTER;
    printf("stack of %s: %.1f bytes for each of %zu letters%s\n", name, each, calls[n - 1].letters, each > MOST_LETTER ? ": FAILED" : "");
}

static uint64_t packed(uint64_t kind, uint64_t count, uint64_t letters) { return kind + (count << 8) + (letters << 24); }

static uint64_t packed_offer(uint64_t kind, uint64_t forward, uint64_t back, uint64_t letters, uint64_t walk) {
    return kind + (forward << 8) + (back << 24) + (letters << 40) + (walk << 56);
}

#define SIZE(calls) (sizeof(calls) / sizeof *(calls))

/* The automata of the longest walks and words; of a held one the states that are not reached make it the larger of the two. */
static struct file left[2], right[2], held[2], contains;

static void automata(void) {
    for (int kind = APART; kind <= AGAIN; kind++) {
        left[kind] = held[kind] = left_rings(kind), right[kind] = right_rings(kind, 1);
        held[kind].bytes[2] = EDITION_MAX_STATES;
    }
    contains = right_rings(AGAIN, 0);
}

static void contain_calls(void) {
    struct file h = example("examples/h.ba"), j = example("examples/j.ba");
    const struct call calls[] = {
        {"a word of no letters", h, j, 0, WORK, WORD, packed(EDITION_DIFFERS, 0, 0), 0},
        {"refused after reading", left[APART], right[APART], 15, WORK, WORD, packed(100 + EDITION_REFUSED_BOUND, 0, 0), 0},
        {"contained, 4,096 vertices", left[AGAIN], contains, 0, WORK, WORD, packed(EDITION_CONTAINED, 4096, 0), 0},
        {"one byte of work short", left[APART], right[APART], 0, WORK - 1, WORD, packed(100 + EDITION_REFUSED_SLOTS, 4095, 0), 0},
        {"one byte of word short", left[APART], right[APART], 0, WORK, 4094, packed(100 + EDITION_REFUSED_WORD, 0, 4095), 0},
        {"a word of 4,095 letters", left[APART], right[APART], 0, WORK, 4095, packed(EDITION_DIFFERS, 4096, 4095), 4095},
        {"a word of 4,096 letters", left[AGAIN], right[AGAIN], 0, WORK, 4096, packed(EDITION_DIFFERS, 4096, 4096), 4096},
    };
    measure("contain", contained, calls, SIZE(calls));
}

/* A ring of so many states on all letters, each of them accepting; the header may name more states, which are not reached. */
static struct file ring(uint8_t n, uint8_t states) {
    struct file f = header(states, EDITION_MAX_LETTERS, 0);
    for (uint8_t q = 0; q < n; q++) accepting(&f, q);
    for (uint8_t q = 0; q < n; q++)
        for (uint8_t a = 0; a < EDITION_MAX_LETTERS; a++) transition(&f, q, a, (uint8_t)((q + 1) % n));
    end(&f);
    return f;
}

static void offer_calls(void) {
    const uint8_t n = EDITION_MAX_STATES - 1;
    struct file f = example("examples/f.ba"), g = example("examples/g.ba"), h3 = chain(1, 1, 1), j = example("examples/j.ba");
    h3.bytes[2] = 3;
    const struct call calls[] = {
        {"a forward word of no letters", h3, j, 0, WORK, WORD, packed_offer(EDITION_FORWARD, 0, 0, 0, 0), 0},
        {"refused after reading", held[APART], right[APART], 15, WORK, WORD, packed_offer(100 + EDITION_REFUSED_BOUND, 0, 0, 0, 0), 0},
        {"taken, 5 and 8 vertices", f, g, 1, WORK, WORD, packed_offer(EDITION_TAKEN, 5, 8, 0, 0), 0},
        {"taken, 31 states, 16 letters", ring(n, n + 1), ring(n, n), 0, WORK, WORD, packed_offer(EDITION_TAKEN, n, n, 0, 0), 0},
        {"a back word of 1 letter", f, g, 0, WORK, WORD, packed_offer(EDITION_BACK, 4, 2, 1, 0), 1},
        {"one byte of work short", held[APART], right[APART], 0, WORK - 1, WORD, packed_offer(100 + EDITION_REFUSED_SLOTS, 4095, 0, 0, 1), 0},
        {"one byte of word short", held[APART], right[APART], 0, WORK, 4094, packed_offer(100 + EDITION_REFUSED_WORD, 0, 0, 4095, 1), 0},
        {"a forward word of 4,095 letters", held[APART], right[APART], 0, WORK, 4095, packed_offer(EDITION_FORWARD, 4096, 0, 4095, 0), 4095},
        {"a forward word of 4,096 letters", held[AGAIN], right[AGAIN], 0, WORK, 4096, packed_offer(EDITION_FORWARD, 4096, 0, 4096, 0), 4096},
    };
    measure("entry_offer", offered, calls, SIZE(calls));
}

static void plain_calls(void) {
    const struct file largest = chain(EDITION_MAX_STATES, 1, 1);
    const struct call opens = {"32 states", largest, largest, 0, 0, 0, EDITION_OPENED, 0};
    const struct call asks = {"32 states, a stem and a loop of 4,096 letters", largest, largest, 0, 0, 0, EDITION_YES, 0};
    measured("entry_open", opened, &opens, MOST);
    measured("entry_verdict", verdict, &asks, MOST);
}

static void write_calls(void) {
    const uint64_t length = EDITION_MAX_FILE;
    const struct file none = {{0}, 0};
    const struct call wrote = {"the longest file, all records but the first backwards", none, none, 0, 0, 0, EDITION_WROTE + (length << 8), 0};
    const struct call no_room = {"one byte of room short", none, none, 0, 0, 0, 100 + EDITION_REFUSED_ROOM + (length << 8), 0};
    make_longest(longest, LONGEST_RECORDS - 1);
    room = sizeof out, measured("file_write", written, &wrote, MOST_WRITE);
    room = sizeof out - 1, measured("file_write", written, &no_room, MOST_WRITE);
}

static void say(const char *bytes) {
    size_t len = strlen(bytes);
    memcpy(text + text_len, bytes, len), text_len += len;
}

/* A text with one label: so many times what opens, an operand, and so many times what closes. */
static void label(const char *open, const char *inner, const char *close, size_t times) {
    text_len = 0;
    say("HOA: v1 States: 1 Start: 0 AP: 1 \"a\" Acceptance: 1 Inf(0) --BODY-- State: 0 [");
    for (size_t i = 0; i < times; i++) say(open);
    say(inner);
    for (size_t i = 0; i < times; i++) say(close);
    say("] 0 --END--");
}

/* Labels, each with the row whose stack it may not exceed; a row that names itself has the limit. */
static const struct { const char *what, *open, *inner, *close; size_t times, like; uint64_t expected; } labels[] = {
    {"the label 0", "", "0", "", 0, 0, EDITION_WROTE + (12 << 8)},
    {"64 negations", "!", "0", "", LEVELS, 1, EDITION_WROTE + (12 << 8)},
    {"64 pairs of parentheses", "(", "0", ")", LEVELS, 2, EDITION_WROTE + (12 << 8)},
    {"64 pairs of parentheses, each behind & and |", "(f|t&", "0", ")", LEVELS, 3, EDITION_WROTE + (12 << 8)},
    {"a million negations", "!", "0", "", MILLION, 1, 100 + EDITION_REFUSED_TEXT},
    {"a million parentheses", "(", "0", "", MILLION, 2, 100 + EDITION_REFUSED_TEXT},
    {"a million operands with & between them", "0&", "0", "", MILLION, 0, EDITION_WROTE + (12 << 8)},
    {"a million operands with | between them", "0|", "0", "", MILLION, 0, EDITION_WROTE + (12 << 8)},
};

static void hanoi_calls(void) {
    const struct file none = {{0}, 0};
    long bytes[SIZE(labels)];
    for (size_t i = 0; i < SIZE(labels); i++) {
        const struct call call = {labels[i].what, none, none, 0, 0, 0, labels[i].expected, 0};
        label(labels[i].open, labels[i].inner, labels[i].close, labels[i].times);
        bytes[i] = measured("hanoi_write", hanoi, &call, labels[i].like < i ? bytes[labels[i].like] : MOST_HANOI);
    }
}

int main(void) {
    automata();
    made.first = left[AGAIN], made.second = right[AGAIN], made.work_len = WORK, made.word_len = WORD;
    contained(NULL); /* so that no symbol is left to be bound on a measured stack */
    used(nothing);
    base = used(nothing);
    contain_calls();
    offer_calls();
    plain_calls();
    write_calls();
    hanoi_calls();
    return failures != 0;
}
