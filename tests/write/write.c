/* Calls file_write, linked from the kernel's archive, on the examples, on files with their records in other orders, on the longest file, on faulty
   files, and with buffers about the length that is needed. */
#include "../entry/files.h"
#include "longest.h"

enum { GUARD = 64, MOST = EDITION_MAX_FILE + 1000 };

static uint8_t space[GUARD + MOST + GUARD], before[EDITION_MAX_FILE];
static uint8_t *const out = space + GUARD;

/* Bytes of any length. */
struct bytes {
    const uint8_t *at;
    size_t len;
};

static const struct bytes nothing = {space, 0};

static struct bytes of(const struct file *f) { return (struct bytes){f->bytes, f->len}; }

static uint64_t packed(uint64_t kind, uint64_t length) { return kind + 256 * length; }

static uint64_t refused(unsigned refusal, uint64_t length) { return packed(100 + refusal, length); }

/* Whether the header's functions give the number's parts. */
static int parts(uint64_t r) {
    unsigned kind = edition_kind(r), refusal = edition_refusal(r);
    return packed(kind, edition_written_length(r)) == r && refusal == (kind < 100 ? 0 : kind - 100);
}

/* Calls file_write on a filled buffer; the number must be the one expected, the written file in front, and all other bytes kept, the file's too. */
static void call(const char *name, struct bytes file, size_t room, uint64_t number, struct bytes written) {
    memset(space, FILL, sizeof space);
    memcpy(before, file.at, file.len);
    uint64_t r = file_write(file.at, file.len, out, room);
    if (r != number) printf("  got %llu, not %llu\n", (unsigned long long)r, (unsigned long long)number);
    int ok = r == number && parts(r) && memcmp(file.at, before, file.len) == 0;
    ok = ok && kept(space, GUARD) && memcmp(out, written.at, written.len) == 0;
    ok = ok && kept(out + written.len, GUARD + MOST - written.len);
    check(name, ok);
}

/* The file is written so into a buffer of just the length, of a byte more and of many more; one of a byte less or of none is refused with 16. */
static void writes(const char *name, struct bytes file, struct bytes written) {
    const struct { const char *what; size_t room; } rooms[] = {
        {"no bytes", 0}, {"one byte short", written.len - 1}, {"its length", written.len}, {"one byte more", written.len + 1}, {"many more", MOST}};
    for (size_t i = 0; i < sizeof rooms / sizeof *rooms; i++) {
        char text[160];
        snprintf(text, sizeof text, "%s: %s", name, rooms[i].what);
        if (rooms[i].room < written.len)
            call(text, file, rooms[i].room, refused(EDITION_REFUSED_ROOM, written.len), nothing);
        else
            call(text, file, rooms[i].room, packed(EDITION_WROTE, written.len), written);
    }
}

/* The length of the record that begins there: of an accepting one or of a transition. */
static size_t record(const uint8_t *at) { return at[1] == 0x46 ? 3 : 5; }

/* The file with its records from the last to the first. */
static struct file backwards(const struct file *f) {
    struct file r = *f;
    size_t to = f->len - 2;
    for (size_t from = 5; from < f->len - 2; from += record(f->bytes + from)) {
        to -= record(f->bytes + from);
        memcpy(r.bytes + to, f->bytes + from, record(f->bytes + from));
    }
    return r;
}

/* The file with the first half of its records, by number, moved behind the others. */
static struct file halved(const struct file *f) {
    size_t records = 0, middle = 5;
    for (size_t at = 5; at < f->len - 2; at += record(f->bytes + at)) records++;
    for (size_t i = 0; i < records / 2; i++) middle += record(f->bytes + middle);
    struct file r = {{0}, 0};
    put(&r, f->bytes, 5), put(&r, f->bytes + middle, f->len - 2 - middle), put(&r, f->bytes + 5, middle - 5), end(&r);
    return r;
}

static void examples(void) {
    static const char *const names[] = {"f", "g", "h", "j", "response-4", "absence-between"};
    for (size_t i = 0; i < sizeof names / sizeof *names; i++) {
        char path[64], name[96];
        snprintf(path, sizeof path, "examples/%s.ba", names[i]);
        struct file f = example(path), b = backwards(&f), h = halved(&f);
        snprintf(name, sizeof name, "%s, in the fixed form", names[i]), writes(name, of(&f), of(&f));
        snprintf(name, sizeof name, "%s, records backwards", names[i]), writes(name, of(&b), of(&f));
        snprintf(name, sizeof name, "%s, halves exchanged", names[i]), writes(name, of(&h), of(&f));
    }
}

/* Transitions that stand in another order if another field comes first, or if numbers are compared as text or by their low bits. */
static void orders(void) {
    static const uint8_t t[][3] = {{0, 0, 31}, {0, 1, 2},  {0, 15, 0}, {1, 0, 9},   {1, 0, 10},
                                   {1, 2, 0},  {8, 0, 0}, {16, 0, 0}, {31, 10, 8}, {31, 15, 31}};
    const size_t n = sizeof t / sizeof *t;
    struct file fixed = header(32, 16, 7), mixed = header(32, 16, 7);
    for (unsigned i = 0; i < 4; i++) accepting(&fixed, (uint8_t)(10 * i + 1));
    for (size_t i = 0; i < n; i++) transition(&fixed, t[i][0], t[i][1], t[i][2]);
    for (size_t i = 0; i < n; i++) {
        const uint8_t *m = t[i * 7 % n];
        transition(&mixed, m[0], m[1], m[2]);
        if (i % 3 == 0) accepting(&mixed, (uint8_t)(31 - 10 * i / 3));
    }
    end(&fixed), end(&mixed);
    writes("from before letter before to", of(&mixed), of(&fixed));
}

/* Automata that are no editions are written too. */
static void odd(void) {
    struct file bare = header(3, 2, 1), dead = header(2, 1, 0);
    end(&bare);
    accepting(&dead, 0), transition(&dead, 0, 0, 0), transition(&dead, 0, 0, 1), end(&dead);
    writes("the shortest file: no record between header and end", of(&bare), of(&bare));
    writes("an automaton with a dead state", of(&dead), of(&dead));
    struct file only = faulty(EDITION_REFUSED_DEAD);
    writes("an automaton whose only state is dead", of(&only), of(&only));
}

static void longest(void) {
    static uint8_t fixed[EDITION_MAX_FILE], mixed[EDITION_MAX_FILE];
    const struct bytes f = {fixed, sizeof fixed}, m = {mixed, sizeof mixed};
    make_longest(fixed, 1);
    writes("the longest file, in the fixed form", f, f);
    make_longest(mixed, LONGEST_RECORDS - 1);
    writes("the longest file, all records but the first backwards", m, f);
    make_longest(mixed, 7919);
    writes("the longest file, records scattered", m, f);
}

/* Each of refusals 1 to 5, into a buffer with room and into none: a fault of the file comes before 16. */
static void refusals(void) {
    for (unsigned i = 1; i <= 5; i++) {
        struct file b = faulty(i);
        char name[64];
        snprintf(name, sizeof name, "row %u", i);
        call(name, of(&b), MOST, refused(i, 0), nothing);
        snprintf(name, sizeof name, "row %u comes before 16", i);
        call(name, of(&b), 0, refused(i, 0), nothing);
    }
    struct file g = example("examples/g.ba"), h = example("examples/h.ba");
    for (size_t len = 0; len < g.len; len++) {
        char name[64];
        snprintf(name, sizeof name, "row 1: the first %zu bytes of G", len);
        call(name, (struct bytes){g.bytes, len}, MOST, refused(EDITION_REFUSED_FILE_ENDS, 0), nothing);
    }
    struct file more = g, twice = g;
    put(&more, g.bytes, 1);
    call("row 2: G with a byte after its end", of(&more), MOST, refused(EDITION_REFUSED_MARK, 0), nothing);
    twice.len -= 2, transition(&twice, 2, 1, 2), end(&twice);
    call("row 5: G with its last transition twice", of(&twice), MOST, refused(EDITION_REFUSED_REPEATED, 0), nothing);
    call("row 16: H with 14 bytes", of(&h), 14, 100 + 16 + 256 * 15, nothing);
    call("H with 15 bytes", of(&h), 15, 256 * 15, of(&h));
    check("NULL with length 0, twice", file_write(NULL, 0, NULL, 0) == refused(EDITION_REFUSED_FILE_ENDS, 0));
    check("NULL with length 0 as the output buffer", file_write(h.bytes, h.len, NULL, 0) == refused(EDITION_REFUSED_ROOM, h.len));
}

int main(void) {
    examples();
    orders();
    odd();
    longest();
    refusals();
    return conclude("files written from C");
}
