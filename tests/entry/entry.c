/* Calls entry_open, entry_offer and entry_verdict, linked from the kernel's archive, on entries held as bytes. */
#include "files.h"

/* The accepting initial state does not come back on the loop 0. */
static struct file once(void) {
    struct file f = header(3, 2, 0);
    accepting(&f, 0), accepting(&f, 2);
    transition(&f, 0, 0, 1), transition(&f, 1, 0, 1), transition(&f, 1, 1, 2), transition(&f, 2, 1, 2);
    end(&f);
    return f;
}

enum { MOST = 65520, WORDS = 64 };
static uint8_t entry[ENTRY], before[ENTRY], work[MOST + 64], word[WORDS + 64];

static uint64_t number(uint64_t kind, uint64_t forward, uint64_t back, uint64_t len, uint64_t walk) {
    return kind + (forward << 8) + (back << 24) + (len << 40) + (walk << 56);
}

static uint64_t refused(unsigned refusal, uint64_t forward, uint64_t back, uint64_t len, uint64_t walk) {
    return number(100 + refusal, forward, back, len, walk);
}

/* Whether the header's functions give the number's parts. */
static int parts(uint64_t r) {
    unsigned kind = edition_kind(r), refusal = edition_refusal(r);
    return number(kind, edition_offer_forward(r), edition_offer_back(r), edition_offer_word(r), edition_offer_walk(r)) == r
           && refusal == (kind < 100 ? 0 : kind - 100);
}

static int summary(uint8_t states, uint8_t first, uint32_t edition) {
    return edition_is_open(entry) && edition_states(entry) == states && edition_first_states(entry) == first
           && edition_number(entry) == edition;
}

static void fresh(void) { memset(entry, 0, sizeof entry); }

static void opened(const struct file *f) {
    fresh();
    check("open on a fresh entry", entry_open(entry, ENTRY, f->bytes, f->len) == 0 && summary(f->bytes[2], f->bytes[2], 0));
}

/* An offer: the number, the slots written, the word in front and all else kept; the entry changes only where it is taken. */
static void offer(const char *name, const struct file *f, uint64_t bound, size_t slots, size_t room, uint64_t expected, size_t used,
                  const char *letters, size_t n) {
    memset(work, FILL, sizeof work), memset(word, FILL, sizeof word), memcpy(before, entry, ENTRY);
    uint64_t r = entry_offer(entry, ENTRY, f->bytes, f->len, bound, work, SLOT * slots, word, room);
    if (r != expected) printf("  got %llx, not %llx\n", (unsigned long long)r, (unsigned long long)expected);
    int ok = r == expected && parts(r) && kept(work + SLOT * used, sizeof work - SLOT * used) && kept(word + n, sizeof word - n);
    ok = ok && memcmp(word, letters, n) == 0;
    ok = ok && (edition_kind(r) == EDITION_TAKEN || memcmp(entry, before, ENTRY) == 0);
    check(name, ok);
}

static void verdict(const char *name, const char *stem, size_t u, const char *loop, size_t v, uint64_t expected) {
    memcpy(before, entry, ENTRY);
    uint64_t r = entry_verdict(entry, ENTRY, (const uint8_t *)stem, u, (const uint8_t *)loop, v);
    check(name, r == expected && memcmp(entry, before, ENTRY) == 0);
}

static void verdicts(void) {
    struct file f = file_f(), o = once();
    opened(&f);
    verdict("K8: F on loop 0 1 says yes", "", 0, "\0\1", 2, 1);
    verdict("K9: F on loop 0 says no", "", 0, "\0", 1, 0);
    verdict("K10: F on stem 1, loop 0 says yes", "\1", 1, "\0", 1, 1);
    static char long_word[4097];
    verdict("K11: a stem of 4,096 letters passes", long_word, 4096, "\0\1", 2, 1);
    verdict("K11: a stem of 4,097 does not", long_word, 4097, "\0\1", 2, 100 + EDITION_REFUSED_LASSO);
    verdict("a loop of 4,096 letters passes", "", 0, long_word, 4096, 0);
    verdict("a loop of 4,097 does not", "", 0, long_word, 4097, 100 + EDITION_REFUSED_LASSO);
    verdict("row 15: empty loop", "", 0, "", 0, 100 + EDITION_REFUSED_LASSO);
    verdict("row 15: letter outside in the stem", "\2", 1, "\0", 1, 100 + EDITION_REFUSED_LASSO);
    verdict("row 15: letter outside in the loop", "", 0, "\0\2", 2, 100 + EDITION_REFUSED_LASSO);
    opened(&o);
    verdict("an accepting state that does not come back on the loop is not enough", "", 0, "\0", 1, 0);
    verdict("but one on the loop is", "\0", 1, "\1", 1, 1);
    fresh();
    verdict("row 13: verdict on an empty entry", "", 0, "\0", 1, 100 + EDITION_REFUSED_EMPTY);
    memset(entry + 1, 0xff, ENTRY - 1);
    verdict("leftovers in an empty entry are not examined", "", 0, "\0", 1, 100 + EDITION_REFUSED_EMPTY);
}

static void offers(void) {
    struct file f = file_f(), g = file_g(), z = zeros();
    fresh();
    offer("row 13: offer to a fresh entry", &g, 1, 64, 8, refused(EDITION_REFUSED_EMPTY, 0, 0, 0, 0), 0, "", 0);
    opened(&f);
    memcpy(before, entry, ENTRY);
    check("row 12: open twice", entry_open(entry, ENTRY, g.bytes, g.len) == 100 + EDITION_REFUSED_ALREADY_OPEN && memcmp(entry, before, ENTRY) == 0);
    offer("G at 0 is turned down by the back walk, with word 0", &g, 0, 64, 8, number(EDITION_BACK, 4, 2, 1, 0), 4, "\0", 1);
    offer("11 in the back walk", &g, 0, 64, 0, refused(EDITION_REFUSED_WORD, 0, 0, 1, 2), 4, "", 0);
    offer("a smaller automaton that lacks a word: forward, with word 1", &z, 1, 64, 8, number(EDITION_FORWARD, 2, 0, 1, 0), 2, "\1", 1);
    offer("11 in the forward walk", &z, 1, 64, 0, refused(EDITION_REFUSED_WORD, 0, 0, 1, 1), 2, "", 0);
    offer("10 in the forward walk", &g, 1, 4, 8, refused(EDITION_REFUSED_SLOTS, 4, 0, 0, 1), 4, "", 0);
    offer("10 in the back walk", &g, 1, 7, 8, refused(EDITION_REFUSED_SLOTS, 0, 7, 0, 2), 7, "", 0);
    offer("row 8: bound 15", &g, 15, 64, 8, refused(EDITION_REFUSED_BOUND, 0, 0, 0, 0), 0, "", 0);
    offer("row 8: bound 2^32", &g, (uint64_t)1 << 32, 64, 8, refused(EDITION_REFUSED_BOUND, 0, 0, 0, 0), 0, "", 0);
    offer("row 14: F offered to F", &f, 1, 64, 8, refused(EDITION_REFUSED_NOT_SMALLER, 0, 0, 0, 0), 0, "", 0);
    offer("F, then G at 1: taken, 5 and 8", &g, 1, 64, 8, number(EDITION_TAKEN, 5, 8, 0, 0), 8, "", 0);
    check("the entry holds the offer: 3 states of 4, edition 1", summary(3, 4, 1));
    offer("row 14: G offered to G", &g, 1, 64, 8, refused(EDITION_REFUSED_NOT_SMALLER, 0, 0, 0, 0), 0, "", 0);
    verdict("the verdicts are those of F: yes", "", 0, "\0\1", 2, 1);
    verdict("the verdicts are those of F: no", "", 0, "\0", 1, 0);
}

static void bad_files(void) {
    struct file f = file_f(), h = chain(1, 1, 1);
    opened(&f);
    for (unsigned i = 1; i <= 6; i++) {
        struct file b = faulty(i);
        char name[64];
        snprintf(name, sizeof name, "row %u from offer", i);
        offer(name, &b, 1, 64, 8, refused(i, 0, 0, 0, 0), 0, "", 0);
        fresh();
        snprintf(name, sizeof name, "row %u from open", i);
        check(name, entry_open(entry, ENTRY, b.bytes, b.len) == 100 + i && entry[0] == 0);
        opened(&f);
    }
    offer("row 7 from offer: letter counts differ", &h, 1, 64, 8, refused(EDITION_REFUSED_LETTERS, 0, 0, 0, 0), 0, "", 0);
}

/* Three editions, with refused and turned-down calls between them. */
static void editions(void) {
    struct file a3 = chain(3, 2, 1), a2 = chain(2, 2, 1), a1 = chain(1, 2, 1), h = chain(1, 1, 1), z = zeros();
    opened(&a3);
    offer("letters differ: refused", &h, 0, 64, 8, refused(EDITION_REFUSED_LETTERS, 0, 0, 0, 0), 0, "", 0);
    offer("turned down: forward, with word 1", &z, 0, 64, 8, number(EDITION_FORWARD, 2, 0, 1, 0), 2, "\1", 1);
    offer("second edition", &a2, 0, 64, 8, number(EDITION_TAKEN, 3, 3, 0, 0), 3, "", 0);
    offer("a larger one is refused", &a3, 0, 64, 8, refused(EDITION_REFUSED_NOT_SMALLER, 0, 0, 0, 0), 0, "", 0);
    offer("turned down again, by the second edition", &z, 0, 64, 8, number(EDITION_FORWARD, 2, 0, 1, 0), 2, "\1", 1);
    offer("too few slots: refused", &a1, 0, 1, 8, refused(EDITION_REFUSED_SLOTS, 1, 0, 0, 1), 1, "", 0);
    offer("third edition", &a1, 0, 64, 8, number(EDITION_TAKEN, 2, 2, 0, 0), 2, "", 0);
    check("edition 2, one state of three", summary(1, 3, 2));
    verdict("the verdict of the first edition", "", 0, "\0\1", 2, 1);
}

static void forged(void) {
    struct file f = file_f(), g = file_g();
    opened(&f);
    uint8_t good[ENTRY];
    memcpy(good, entry, ENTRY);
    struct { const char *name; size_t at; uint8_t value; } wrong[] = {
        {"row 9: another first byte", 0, 2}, {"row 9: no states", 1, 0}, {"row 9: 33 states", 1, 33},
        {"row 9: 17 letters", 2, 17}, {"row 9: initial state outside", 3, 4}, {"row 9: first states fewer than held", 4, 3},
        {"row 9: 33 first states", 4, 33}, {"row 9: an accepting state outside", 9, 0x18},
        {"row 9: a transition outside", 13 + (31 * 16 + 15) * 4 + 3, 0x80}, {"row 9: a dead state", 9, 0}};
    for (size_t i = 0; i < sizeof wrong / sizeof *wrong; i++) {
        memcpy(entry, good, ENTRY), entry[wrong[i].at] = wrong[i].value, memcpy(before, entry, ENTRY);
        int ok = entry_open(entry, ENTRY, g.bytes, g.len) == 100 + EDITION_REFUSED_MALFORMED && memcmp(entry, before, ENTRY) == 0;
        ok = ok && entry_offer(entry, ENTRY, g.bytes, g.len, 1, work, MOST, word, WORDS) == 100 + EDITION_REFUSED_MALFORMED && memcmp(entry, before, ENTRY) == 0;
        ok = ok && entry_verdict(entry, ENTRY, NULL, 0, (const uint8_t *)"\0", 1) == 100 + EDITION_REFUSED_MALFORMED;
        check(wrong[i].name, ok);
    }
    memcpy(entry, good, ENTRY), entry[5] = 0x20, entry[6] = 0xcb, entry[7] = 2; /* 183,072 */
    verdict("row 9: edition 183,072", "", 0, "\0\1", 2, 100 + EDITION_REFUSED_MALFORMED);
    entry[5] = 0x1f; /* 183,071 */
    verdict("edition 183,071 is well formed", "", 0, "\0\1", 2, 1);
    offer("row 14: edition already 183,071", &g, 1, 64, 8, refused(EDITION_REFUSED_NOT_SMALLER, 0, 0, 0, 0), 0, "", 0);
    memcpy(entry, good, ENTRY);
    check("row 9: another length", entry_verdict(entry, ENTRY - 1, NULL, 0, (const uint8_t *)"\0", 1) == 100 + EDITION_REFUSED_MALFORMED
          && entry_open(NULL, 0, g.bytes, g.len) == 100 + EDITION_REFUSED_MALFORMED);
}

int main(void) {
    verdicts();
    offers();
    bad_files();
    editions();
    forged();
    return conclude("entries from C");
}
