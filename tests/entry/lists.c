/* Makes lists of open and offer calls on entries held as bytes, linked from the kernel's archive, and compares each entry with the plain account of
   its list: the editions that the calls add, spelled as bytes by the layout alone. */
#include "files.h"

enum { SLOTS = 64, ROOM = 8, PARTS = 13, LASSOS = PARTS * PARTS };

static uint8_t entry[ENTRY], before[ENTRY], work[SLOTS * SLOT], word[ROOM];

/* A call of a list: an open, or an offer with its bound, slots and word bytes; and the kind of its answer. */
struct call {
    const char *name;
    struct file file;
    int opens;
    uint64_t bound;
    size_t slots, room;
    unsigned kind;
};

/* The list so far: the last edition's entry by the account (its bytes, at first those of the empty one; the edition number; the states at the
   open), the verdicts of the entry as it was opened, and whether what is claimed held after every call. */
static struct {
    uint8_t last[ENTRY];
    uint32_t edition;
    uint8_t first_states;
    uint64_t verdicts[LASSOS];
    unsigned calls;
    int answers, bytes, verdicts_kept, changes;
} list;

/* The bytes of the entry that holds the file's automaton as this edition. */
static void spell(uint8_t *bytes, const struct file *f, uint32_t edition, uint8_t first_states) {
    memset(bytes, 0, ENTRY);
    bytes[0] = 1, memcpy(bytes + 1, f->bytes + 2, 3), bytes[4] = first_states;
    for (unsigned i = 0; i < 4; i++) bytes[5 + i] = (uint8_t)(edition >> 8 * i);
    for (const uint8_t *record = f->bytes + 5; record[1] != 0x45;) {
        int accepts = record[1] == 0x46;
        uint8_t state = record[accepts ? 2 : 4];
        size_t set = accepts ? 9 : 13 + (record[2] * 16u + record[3]) * 4;
        bytes[set + state / 8] |= (uint8_t)(1 << state % 8);
        record += accepts ? 3 : 5;
    }
}

/* One of the words of up to two letters over 0, 1 and 2; letter 2 is not the automata's. */
static size_t part(unsigned k, uint8_t *letters) {
    letters[0] = (uint8_t)(k < 4 ? k - 1 : (k - 4) / 3), letters[1] = (uint8_t)((k - 4) % 3);
    return k == 0 ? 0 : k < 4 ? 1 : 2;
}

/* The verdict on one of the lasso words with such a stem and loop. */
static uint64_t verdict(unsigned lasso) {
    uint8_t stem[2], loop[2];
    size_t u = part(lasso / PARTS, stem), v = part(lasso % PARTS, loop);
    return entry_verdict(entry, ENTRY, stem, u, loop, v);
}

/* The number of lasso words on which the entry's verdict is the one that it gave when it was opened. */
static unsigned same_verdicts(void) {
    unsigned n = 0;
    for (unsigned i = 0; i < LASSOS; i++) n += verdict(i) == list.verdicts[i];
    return n;
}

/* Whether the entry gave this verdict on some lasso word when it was opened. */
static int was_given(uint64_t number) {
    unsigned i = 0;
    while (i < LASSOS && list.verdicts[i] != number) i++;
    return i < LASSOS;
}

/* Begins a list on an empty entry whose other bytes have this value. */
static void begin(uint8_t leftovers) {
    memset(&list, 0, sizeof list), memset(entry, leftovers, ENTRY), entry[0] = 0;
    memcpy(list.last, entry, ENTRY);
    for (unsigned i = 0; i < LASSOS; i++) list.verdicts[i] = 100 + EDITION_REFUSED_EMPTY;
    list.answers = list.bytes = list.verdicts_kept = list.changes = 1;
}

/* Adds the file's automaton to the account. */
static void add(const struct call *c) {
    list.edition = c->opens ? 0 : list.edition + 1;
    if (c->opens) list.first_states = c->file.bytes[2];
    spell(list.last, &c->file, list.edition, list.first_states);
    for (unsigned i = 0; c->opens && i < LASSOS; i++) list.verdicts[i] = verdict(i);
}

static uint64_t answered(const struct call *c) {
    const struct file *f = &c->file;
    if (c->opens) return entry_open(entry, ENTRY, f->bytes, f->len);
    return entry_offer(entry, ENTRY, f->bytes, f->len, c->bound, work, SLOT * c->slots, word, c->room);
}

/* Makes the next call of the list, and notes what holds after it. */
static void make(struct call c) {
    memcpy(before, entry, ENTRY);
    unsigned kind = edition_kind(answered(&c));
    if (c.kind == 0) add(&c);
    int answers = kind == c.kind, bytes = memcmp(entry, list.last, ENTRY) == 0, verdicts_kept = same_verdicts() == LASSOS;
    int changes = (kind == 0) == (memcmp(entry, before, ENTRY) != 0);
    if (!(answers && bytes && verdicts_kept && changes)) printf("  call %u of the list, %s: kind %u\n", list.calls, c.name, kind);
    list.calls++;
    list.answers &= answers, list.bytes &= bytes, list.verdicts_kept &= verdicts_kept, list.changes &= changes;
}

static void open_with(const char *name, struct file f, unsigned kind) {
    struct call c = {name, f, 1, 0, 0, 0, kind};
    make(c);
}

static void offer(const char *name, struct file f, uint64_t bound, size_t slots, size_t room, unsigned kind) {
    struct call c = {name, f, 0, bound, slots, room, kind};
    make(c);
}

/* F with states behind it that no run reaches. */
static struct file padded_f(uint8_t states) {
    struct file f = file_f();
    f.bytes[2] = states;
    return f;
}

/* Offers, and an open, that are refused or turned down while the entry holds F, whatever its number of states. */
static void unwelcome(void) {
    open_with("open once more", file_g(), 100 + EDITION_REFUSED_ALREADY_OPEN);
    for (unsigned i = 1; i <= 6; i++) offer("a faulty file", faulty(i), 1, SLOTS, ROOM, 100 + i);
    offer("bound 15", file_g(), 15, SLOTS, ROOM, 100 + EDITION_REFUSED_BOUND);
    offer("another letter count", chain(1, 1, 1), 1, SLOTS, ROOM, 100 + EDITION_REFUSED_LETTERS);
    offer("32 states", padded_f(32), 1, SLOTS, ROOM, 100 + EDITION_REFUSED_NOT_SMALLER);
    offer("only zeros", zeros(), 1, SLOTS, ROOM, EDITION_FORWARD);
    offer("only zeros, no room for the word", zeros(), 1, SLOTS, 0, 100 + EDITION_REFUSED_WORD);
    offer("G at 0", file_g(), 0, SLOTS, ROOM, EDITION_BACK);
    offer("G at 0, no room for the word", file_g(), 0, SLOTS, 0, 100 + EDITION_REFUSED_WORD);
    offer("G at 1, 4 slots", file_g(), 1, 4, ROOM, 100 + EDITION_REFUSED_SLOTS);
    offer("G at 1, 7 slots", file_g(), 1, 7, ROOM, 100 + EDITION_REFUSED_SLOTS);
}

/* A list in which 29 offers are taken: F with fewer and fewer states behind it, then G. */
static void shrinking(const char *start, uint8_t leftovers) {
    begin(leftovers);
    offer("an offer before the open", file_g(), 1, SLOTS, ROOM, 100 + EDITION_REFUSED_EMPTY);
    for (unsigned i = 1; i <= 6; i++) open_with("open with a faulty file", faulty(i), 100 + i);
    open_with("open", padded_f(32), EDITION_OPENED);
    for (uint8_t states = 31; states >= 4; states--) {
        unwelcome();
        offer("fewer states", padded_f(states), states % 15, SLOTS, 0, EDITION_TAKEN);
    }
    unwelcome();
    offer("G at 1", file_g(), 1, 8, 0, EDITION_TAKEN);
    offer("G once more", file_g(), 1, 8, 0, 100 + EDITION_REFUSED_NOT_SMALLER);
    char name[96];
    snprintf(name, sizeof name, "%u calls on %s: 29 offers are taken, and no other", list.calls, start);
    check(name, list.answers && list.edition == 29 && edition_number(entry) == 29);
    check("after every call the bytes are those of the last edition's entry", list.bytes);
    check("after every call the verdicts are those of the entry as it was opened", list.verdicts_kept);
    check("they are yes, no and 15", was_given(EDITION_YES) && was_given(EDITION_NO) && was_given(100 + EDITION_REFUSED_LASSO));
    check("an answer has kind 0 exactly when the bytes changed", list.changes);
}

int main(void) {
    shrinking("a fresh entry", 0);
    shrinking("an empty entry with leftovers", 0xff);
    return conclude("lists of calls from C");
}
