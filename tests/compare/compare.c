/* compare BEFORE.so AFTER.so COUNT SEED: calls the functions of two builds of the archive on the same drawn inputs and compares the number and
   every byte of every buffer after each call. Prints the seed, how many calls there were of each function and how many had each kind of answer.
   A function that BEFORE lacks is not called, and that is printed too.
   Ends with status 1 and the inputs of the first difference, if there is one. tools/compare builds and runs it. */
#define _POSIX_C_SOURCE 200809L
#include "../contain/rings.h"
#include "tally.h"
#include "texts.h"
#include <errno.h>
#include <signal.h>
#include <time.h>

enum { SLOT = EDITION_SLOT_BYTES, WORK = EDITION_MAX_WORK, WORD = EDITION_MAX_WORD, LASSO = EDITION_MAX_LASSO, ENTRY = EDITION_ENTRY_BYTES };
enum { LAST_EDITION = 183071, AMPLE_WORK = 400 * SLOT, AMPLE_WORD = 512 };

static struct bytes first, second, entry, stem, cycle;

/* A compared and counted call on the buffers that are lent. */
static uint64_t made_call(enum function function, int used, uint64_t bound) {
    uint64_t number = call_both(function, used, bound);
    count(function, number);
    return number;
}

static uint64_t ask_contain(uint64_t bound, size_t work, size_t word) {
    lend(&buffers[0], "first file", first.at, first.len), lend(&buffers[1], "second file", second.at, second.len);
    lend(&buffers[2], "work", NULL, work), lend(&buffers[3], "word", NULL, word);
    return made_call(CONTAIN, 4, bound);
}

/* Keeps the entry that a call has left. */
static uint64_t kept_entry(uint64_t number) {
    if (entry.len) memcpy(entry.at, buffers[0].space[0] + GUARD + buffers[0].skew, entry.len);
    return number;
}

static uint64_t ask_open(void) {
    lend(&buffers[0], "entry", entry.at, entry.len), lend(&buffers[1], "file", first.at, first.len);
    return kept_entry(made_call(OPEN, 2, 0));
}

static uint64_t ask_offer(uint64_t bound, size_t work, size_t word) {
    lend(&buffers[0], "entry", entry.at, entry.len), lend(&buffers[1], "file", first.at, first.len);
    lend(&buffers[2], "work", NULL, work), lend(&buffers[3], "word", NULL, word);
    return kept_entry(made_call(OFFER, 4, bound));
}

static uint64_t ask_verdict(void) {
    lend(&buffers[0], "entry", entry.at, entry.len);
    lend(&buffers[1], "stem", stem.at, stem.len), lend(&buffers[2], "loop", cycle.at, cycle.len);
    return made_call(VERDICT, 3, 0);
}

static uint64_t ask_write(size_t room) {
    lend(&buffers[0], "file", first.at, first.len), lend(&buffers[1], "output", NULL, room);
    return made_call(WRITE, 2, 0);
}

static uint64_t ask_hanoi(size_t room) {
    lend(&buffers[0], "text", first.at, first.len), lend(&buffers[1], "output", NULL, room);
    return made_call(HANOI, 2, 0);
}

static uint64_t draw_bound(void) {
    const uint64_t large[] = {15, 16, 17, 255, 256, 270, 1 << 16, (uint64_t)1 << 32, (uint64_t)1 << 63, UINT64_MAX};
    if (chance(1, 16)) return PICK(large);
    return chance(2, 3) ? below(4) : below(16);
}

/* A length of the work buffer, where a walk of so many vertices is to fit or not. */
static size_t draw_work(size_t vertices) {
    switch (below(16)) {
    case 0: return 0;
    case 1: return below(2 * SLOT);
    case 2: return WORK + below(3) - 1;
    case 3: return WORK + below(1 << 14);
    case 4: return below(WORK);
    case 5: case 6: case 7: return vertices * SLOT;
    case 8: case 9: case 10: return vertices ? vertices * SLOT - between(1, SLOT) : 0;
    case 11: return vertices * SLOT + below(2 * SLOT);
    default: return AMPLE_WORK + below(SLOT);
    }
}

/* A length of the word buffer, where a word of so many letters is to fit or not. */
static size_t draw_word_length(size_t letters) {
    const size_t lengths[] = {0, 1, 2, 16, AMPLE_WORD, WORD, WORD + 1, 5000};
    switch (below(8)) {
    case 0: case 1: return letters;
    case 2: case 3: return letters ? letters - 1 : 0;
    case 4: return letters + 1;
    default: return PICK(lengths);
    }
}

/* Two automata that have something in common. */
static void draw_pair(struct automaton *a, struct automaton *b) {
    unsigned letters = draw_letters();
    *a = drawn(draw_states(), letters);
    if (chance(7, 8)) *a = trimmed(a);
    *b = *a;
    switch (below(9)) {
    case 0: *b = drawn(draw_states(), letters); break;
    case 1: *b = nearly(a); break;
    case 2: *b = thinned(a); break;
    case 3: *b = grown(a), *b = grown(b), *b = renumbered(b); break;
    case 4: *a = grown(b), *a = nearly(a); break;
    case 5: *a = nearly(b), *b = thinned(b); break;
    case 6: *a = everything(letters), *b = ring(between(1, 18), letters); break;
    case 7: *a = ring(between(1, 6), letters), *b = ring(between(1, 12), letters), *b = nearly(b); break;
    default: *a = drawn(draw_states(), 2), *b = window(between(2, 5));
    }
    if (chance(7, 8)) *a = trimmed(a), *b = trimmed(b);
    if (chance(1, 40)) *b = drawn(draw_states(), draw_letters());
}

/* The automaton's file, spoilt so many times of a hundred. */
static void draw_file(const struct automaton *a, struct bytes *file, unsigned spoilt) {
    write_file(a, file);
    if (chance(spoilt, 100)) spoil(file);
}

/* Contain on two drawn files, then with lengths near those that were needed. */
static void contain_calls(void) {
    struct automaton a, b;
    draw_pair(&a, &b);
    draw_file(&a, &first, 9), draw_file(&b, &second, 9);
    uint64_t bound = draw_bound(), number = ask_contain(bound, draw_work(below(64)), AMPLE_WORD);
    if (edition_refusal(number) && edition_refusal(number) != EDITION_REFUSED_SLOTS) return;
    for (unsigned n = between(1, 2); n > 0; n--) {
        size_t vertices = edition_contain_count(number), letters = edition_contain_word(number);
        ask_contain(bound, draw_work(vertices), draw_word_length(letters));
    }
}

/* A length of the output buffer, where a file of so many bytes is to fit or not. */
static size_t draw_room(size_t needed) {
    const size_t lengths[] = {0, 1, 7, 100, LONGEST_FILE - 1, LONGEST_FILE, LONGEST_FILE + 1, LONGEST_FILE + 5000};
    switch (below(8)) {
    case 0: case 1: return needed;
    case 2: case 3: return needed ? needed - 1 : 0;
    case 4: return needed + 1;
    case 5: return needed + below(300);
    default: return PICK(lengths);
    }
}

/* Writes of an automaton's file, of one with its records in another order perhaps, and of what was written. */
static void write_calls(const struct automaton *a, unsigned spoilt) {
    if (!is_compared(WRITE)) return;
    draw_file(a, &first, spoilt), ask_write(draw_room(first.len));
    write_file(a, &first);
    if (edition_refusal(ask_write(first.len))) return;
    memcpy(first.at, buffers[1].space[0] + GUARD + buffers[1].skew, first.len);
    ask_write(draw_room(first.len));
}

/* Writes of any automaton: most have dead states, some no record. */
static void drawn_write_calls(void) {
    struct automaton a = drawn(draw_states(), draw_letters());
    if (chance(1, 4)) a = trimmed(&a);
    if (chance(1, 16)) a = bare(a.states, a.letters, a.initial);
    write_calls(&a, 30);
}

/* The calls on the text that is drawn: without a buffer, and with one about as long as the file that is needed. */
static void ask_about_text(void) {
    size_t needed = edition_written_length(ask_hanoi(0));
    for (unsigned n = between(1, 2); n > 0; n--) ask_hanoi(draw_room(needed));
}

/* Texts, as they are drawn and spoilt. */
static void hanoi_calls(void) {
    if (!is_compared(HANOI)) return;
    draw_text(&first);
    if (chance(1, 2)) ask_about_text();
    for (unsigned n = between(1, 3); n > 0; n--) spoil_text(&first);
    ask_hanoi(draw_room(below(200)));
}

/* Texts of long files, and with long labels. */
static void large_hanoi_calls(void) {
    if (!is_compared(HANOI)) return;
    draw_large_text(&first, chance(1, 2) ? STATES : between(1, STATES), chance(1, 2) ? PROPOSITIONS : below(PROPOSITIONS + 1));
    ask_about_text();
    spoil_text(&first), ask_hanoi(LONGEST_FILE);
}

static void draw_letters_of(struct bytes *word, unsigned letters, size_t len) {
    word->len = len;
    for (size_t i = 0; i < len; i++) word->at[i] = (uint8_t)below(letters);
    if (len && chance(1, 30)) word->at[below((unsigned)len)] = (uint8_t)(chance(1, 2) ? letters : bits());
}

/* A verdict on a drawn lasso word over so many letters. */
static void draw_verdict(unsigned letters) {
    const size_t lengths[] = {0, 1, 17, LASSO - 1, LASSO, LASSO + 1, 5000};
    size_t before = below(7), repeated = between(1, 6);
    if (chance(1, 40)) before = PICK(lengths), repeated = PICK(lengths);
    if (chance(1, 30)) repeated = 0;
    draw_letters_of(&stem, letters, before), draw_letters_of(&cycle, letters, repeated);
    ask_verdict();
}

/* An empty entry: all zeros, or with leftovers. */
static void draw_fresh(void) {
    entry.len = ENTRY;
    memset(entry.at, 0, ENTRY);
    for (size_t i = chance(1, 2) ? 1 : ENTRY; i < ENTRY; i += between(1, 9)) entry.at[i] = (uint8_t)bits();
}

static void put_u32(uint8_t *at, uint32_t number) {
    for (int i = 0; i < 4; i++) at[i] = (uint8_t)(number >> 8 * i);
}

static uint32_t get_u32(const uint8_t *at) { return (uint32_t)at[0] | (uint32_t)at[1] << 8 | (uint32_t)at[2] << 16 | (uint32_t)at[3] << 24; }

/* The automaton that an open entry holds. */
static struct automaton held(void) {
    struct automaton a = bare(entry.at[1], entry.at[2], entry.at[3]);
    a.accepting = get_u32(entry.at + 9);
    for (unsigned i = 0; i < STATES * LETTERS; i++) a.targets[i / LETTERS][i % LETTERS] = get_u32(entry.at + 13 + 4 * i);
    return a;
}

/* The bytes of an entry that holds the automaton. */
static void hold(const struct automaton *a, unsigned first_states, uint32_t edition) {
    entry.len = ENTRY;
    memset(entry.at, 0, ENTRY);
    entry.at[0] = 1, entry.at[1] = (uint8_t)a->states, entry.at[2] = (uint8_t)a->letters, entry.at[3] = (uint8_t)a->initial;
    entry.at[4] = (uint8_t)first_states;
    put_u32(entry.at + 5, edition), put_u32(entry.at + 9, a->accepting);
    for (unsigned i = 0; i < STATES * LETTERS; i++) put_u32(entry.at + 13 + 4 * i, a->targets[i / LETTERS][i % LETTERS]);
}

/* What is offered to an entry that holds h, where `smaller` is an automaton with the same runs. */
static struct automaton draw_offer(const struct automaton *h, const struct automaton *smaller) {
    struct automaton a = *smaller;
    switch (below(10)) {
    case 0: a = thinned(h); break;
    case 1: a = *h; break;
    case 2: a = nearly(smaller); break;
    case 3: a = everything(h->letters); break;
    case 4: a = drawn(draw_states(), chance(1, 2) ? h->letters : draw_letters()); break;
    case 5: a = thinned(smaller); break;
    default: a = renumbered(smaller);
    }
    return chance(9, 10) ? trimmed(&a) : a;
}

/* An offer with ample buffers; where it is not taken, again with lengths near those that were needed. */
static void draw_offer_calls(void) {
    uint64_t bound = draw_bound();
    if (chance(1, 3)) ask_offer(bound, draw_work(below(64)), draw_word_length(below(8)));
    uint64_t number = ask_offer(bound, AMPLE_WORK + below(SLOT), AMPLE_WORD);
    if (edition_refusal(number) || edition_kind(number) == EDITION_TAKEN) return;
    size_t vertices = chance(1, 2) ? edition_offer_forward(number) : edition_offer_back(number);
    ask_offer(bound, draw_work(vertices), draw_word_length(edition_offer_word(number)));
}

/* Changes an entry's bytes or their number in one way. */
static void forge(void) {
    const uint8_t values[] = {0, 1, 2, 15, 16, 17, 31, 32, 33, 255};
    const uint32_t editions[] = {1, 65536, LAST_EDITION - 1, LAST_EDITION, LAST_EDITION + 1, UINT32_MAX};
    const size_t lengths[] = {0, 1, 12, 13, ENTRY - 1, ENTRY + 1, 2 * ENTRY};
    switch (below(9)) {
    case 0: entry.at[below(5)] = PICK(values); break;
    case 1: entry.at[below(13)] = (uint8_t)bits(); break;
    case 2: entry.at[below(ENTRY)] ^= (uint8_t)(1u << below(8)); break;
    case 3: put_u32(entry.at + 5, PICK(editions)); break;
    case 4: entry.at[4] = (uint8_t)(entry.at[1] + below(3) - 1); break;
    case 5: entry.len = PICK(lengths); break;
    case 6: put_u32(entry.at + 9, (uint32_t)bits() & (uint32_t)bits()); break;
    case 7: /* any bytes */
        for (size_t i = 1; i < ENTRY; i++) entry.at[i] = (uint8_t)bits();
        break;
    default: entry.at[0] = PICK(values);
    }
}

/* Opens and offers on one entry, with verdicts between them; at the end some on the entry with a change. */
static void history_calls(void) {
    struct automaton ladder[6], a;
    unsigned letters = draw_letters(), top = between(1, 5);
    ladder[0] = drawn(draw_states(), letters), ladder[0] = trimmed(&ladder[0]);
    for (unsigned i = 1; i <= top; i++) ladder[i] = grown(&ladder[i - 1]);
    draw_fresh();
    if (chance(1, 6)) draw_verdict(letters);
    if (chance(1, 6)) draw_file(&ladder[0], &first, 0), ask_offer(1, AMPLE_WORK, AMPLE_WORD);
    a = chance(1, 4) ? drawn(draw_states(), letters) : ladder[top];
    draw_file(&a, &first, 12), ask_open();
    if (entry.at[0] == 0) draw_file(&ladder[top], &first, 0), ask_open();
    for (unsigned n = between(3, 8); n > 0; n--) {
        struct automaton h = held();
        a = draw_offer(&h, &ladder[top ? --top : 0]);
        draw_file(&a, &first, 8), draw_offer_calls();
        draw_verdict(h.letters);
        if (chance(1, 8)) draw_file(&a, &first, 8), ask_open();
    }
    if (chance(1, 2)) forge(), draw_verdict(letters), draw_offer_calls(), ask_open();
}

/* Every call on forged entries. */
static void forged_calls(void) {
    struct automaton smaller = drawn(draw_states(), draw_letters()), a;
    if (chance(5, 6)) smaller = trimmed(&smaller);
    a = grown(&smaller);
    hold(&a, between(a.states, STATES), below(1000));
    for (unsigned n = below(3); n > 0; n--) forge();
    for (unsigned n = between(1, 2); n > 0; n--) draw_verdict(smaller.letters);
    draw_file(&smaller, &first, 5), draw_offer_calls();
    draw_verdict(smaller.letters), ask_open();
}

/* Drawn bytes as files, and as an entry of any length. */
static void bytes_calls(void) {
    first.len = below(300), second.len = below(40), entry.len = chance(1, 2) ? ENTRY : below(3000);
    for (size_t i = 0; i < first.len; i++) first.at[i] = (uint8_t)bits();
    for (size_t i = 0; i < second.len; i++) second.at[i] = (uint8_t)bits();
    for (size_t i = 0; i < entry.len; i++) entry.at[i] = (uint8_t)bits();
    ask_contain(draw_bound(), draw_work(0), draw_word_length(0));
    ask_open(), draw_verdict(draw_letters()), ask_offer(draw_bound(), draw_work(0), draw_word_length(0));
    if (is_compared(WRITE)) ask_write(draw_room(first.len));
    if (is_compared(HANOI)) ask_hanoi(draw_room(first.len));
}

/* About as many work bytes as are used at the most. */
static size_t draw_full_work(void) {
    const size_t lengths[] = {WORK - 1, WORK, WORK, WORK + 1, WORK + SLOT, WORK + 1000};
    return PICK(lengths);
}

/* The length, or one less. */
static size_t draw_at_most(size_t length) { return length && chance(1, 3) ? length - 1 : length; }

static void copy_file(struct bytes *to, const struct file *from) { memcpy(to->at, from->bytes, to->len = from->len); }

/* The longest walks and words. */
static void ring_calls(void) {
    enum rings kind = chance(1, 2) ? APART : AGAIN;
    struct file left = left_rings(kind), right = right_rings(kind, chance(3, 4));
    copy_file(&first, &left), copy_file(&second, &right);
    uint64_t number = ask_contain(0, WORK, WORD);
    size_t letters = edition_contain_word(number);
    ask_contain(0, draw_full_work(), draw_at_most(letters));
    left.bytes[2] = STATES;
    copy_file(&first, &left), entry.len = ENTRY, memset(entry.at, 0, ENTRY), ask_open();
    copy_file(&first, &right), ask_offer(0, draw_full_work(), draw_at_most(letters));
}

/* Walks up to and beyond all slots, in both directions. */
static void wide_calls(void) {
    struct automaton sets = window(between(6, 13)), other = everything(2);
    if (chance(1, 2)) other = drawn(between(2, 6), 2), other = trimmed(&other);
    if (chance(1, 2)) sets.accepting &= (uint32_t)bits(), sets = trimmed(&sets);
    write_file(&other, &first), write_file(&sets, &second);
    uint64_t bound = below(15), number = ask_contain(bound, WORK, WORD);
    ask_contain(bound, draw_work(edition_contain_count(number)), draw_word_length(edition_contain_word(number)));
    other = padded(&other, STATES);
    hold(&other, STATES, 0), write_file(&sets, &first), ask_offer(bound, WORK, WORD);
}

/* Dense automata of all sizes, up to the longest file. */
static void dense_calls(void) {
    struct automaton a = bare(chance(1, 2) ? STATES : between(1, STATES), chance(1, 2) ? LETTERS : between(1, LETTERS), 0), b;
    a.accepting = all_below(a.states) & (chance(1, 2) ? UINT32_MAX : (uint32_t)bits());
    for (unsigned i = 0; i < a.states * a.letters; i++) {
        uint32_t less = chance(1, 2) ? UINT32_MAX : (uint32_t)bits() | (uint32_t)bits();
        a.targets[i / a.letters][i % a.letters] = all_below(a.states) & less;
    }
    if (chance(1, 3)) a.accepting = all_below(a.states), memset(a.targets, 0xff, sizeof a.targets);
    for (unsigned i = 0; i < STATES * LETTERS; i++)
        a.targets[i / LETTERS][i % LETTERS] &= i / LETTERS < a.states && i % LETTERS < a.letters ? all_below(a.states) : 0;
    b = thinned(&a);
    draw_file(&a, &first, 20), draw_file(&b, &second, 20);
    ask_contain(below(3), draw_work(2), draw_word_length(1));
    draw_fresh(), ask_open(), draw_verdict(a.letters);
    write_calls(&a, 20);
    draw_file(&b, &first, 20), ask_offer(below(3), draw_work(2), draw_word_length(1));
}

/* Some calls that have something to do with each other. */
static void some_calls(void) {
    unsigned which = below(1000);
    if (which < 660) contain_calls();
    else if (which < 730) drawn_write_calls();
    else if (which < 800) hanoi_calls();
    else if (which < 804) large_hanoi_calls();
    else if (which < 880) history_calls();
    else if (which < 955) forged_calls();
    else if (which < 975) bytes_calls();
    else if (which < 988) dense_calls();
    else if (which < 996) wide_calls();
    else ring_calls();
}

/* The number, or the end of the program. */
static uint64_t number_of(const char *text) {
    char *end;
    errno = 0;
    uint64_t number = strtoull(text, &end, 0);
    if (errno || *end || end == text || *text == '-') {
        printf("compare: %s is no number\n", text);
        exit(3);
    }
    return number;
}

int main(int argc, char **argv) {
    if (argc != 5) {
        printf("usage: compare BEFORE.so AFTER.so COUNT SEED\n");
        return 3;
    }
    uint64_t wanted = number_of(argv[3]), seed = random_state = number_of(argv[4]);
    load(&sides[0], "before", argv[1]), load(&sides[1], "after", argv[2]);
    printf("compare: seed %llu\n", (unsigned long long)seed);
    fflush(stdout);
    fill_pool();
    const int signals[] = {SIGSEGV, SIGBUS, SIGILL, SIGFPE, SIGABRT, SIGTRAP};
    for (size_t i = 0; i < sizeof signals / sizeof *signals; i++) signal(signals[i], print_signal);
    time_t start = time(NULL);
    while (call.place < wanted) some_calls();
    print_counts();
    printf("compare: %llu calls, no difference, %ld s\n", (unsigned long long)call.place, (long)(time(NULL) - start));
    return 0;
}
