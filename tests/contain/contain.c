/* Calls contain, linked from the kernel's archive, on the scope document's examples, on the longest walks and words, and on odd buffers. */
#include "rings.h"

static struct file file_f(void) { return example("examples/f.ba"); }
static struct file file_g(void) { return example("examples/g.ba"); }
static struct file file_h(void) { return example("examples/h.ba"); }
static struct file file_j(void) { return example("examples/j.ba"); }

/* Accepts everything, but on the word 0 1 only after three positions. */
static struct file late(void) {
    static const uint8_t t[][3] = {{0, 0, 1}, {0, 1, 3}, {1, 0, 3}, {1, 1, 2}, {2, 0, 3}, {2, 1, 3}, {3, 0, 3}, {3, 1, 3}};
    struct file f = header(4, 2, 0);
    accepting(&f, 3);
    for (size_t i = 0; i < 8; i++) transition(&f, t[i][0], t[i][1], t[i][2]);
    end(&f);
    return f;
}

static struct file raw(const uint8_t *bytes, size_t len) {
    struct file f = {{0}, 0};
    put(&f, bytes, len);
    return f;
}

enum { GUARD = 64, MOST = 200 * 1024, SLOT = EDITION_SLOT_BYTES, WORDS = EDITION_MAX_WORD };

static uint8_t work_space[GUARD + MOST + GUARD], word_space[GUARD + WORDS + GUARD];
static uint8_t *const work = work_space + GUARD;
static uint8_t *const word = word_space + GUARD;

static void fill(void) {
    memset(work_space, FILL, sizeof work_space);
    memset(word_space, FILL, sizeof word_space);
}

static uint64_t packed(uint64_t kind, uint64_t count, uint64_t len) { return kind + 256 * count + 16777216 * len; }

static uint64_t refused(unsigned refusal, uint64_t count, uint64_t len) { return packed(100 + refusal, count, len); }

/* Whether the header's functions give the number's parts. */
static int parts(uint64_t r) {
    unsigned kind = edition_kind(r), refusal = edition_refusal(r);
    return packed(kind, edition_contain_count(r), edition_contain_word(r)) == r && refusal == (kind < 100 ? 0 : kind - 100);
}

/* Calls contain on filled buffers; the number must be the one expected, the word in front and all other bytes kept. */
static void call(const char *name, const struct file *f, const struct file *g, uint64_t bound, size_t work_len, size_t word_len,
                 uint64_t number, size_t slots, const char *letters, size_t letters_len) {
    fill();
    uint64_t r = contain(f->bytes, f->len, g->bytes, g->len, bound, work, work_len, word, word_len);
    if (r != number) printf("  got %llu, not %llu\n", (unsigned long long)r, (unsigned long long)number);
    int ok = r == number && parts(r);
    ok = ok && kept(work_space, GUARD) && kept(work + SLOT * slots, GUARD + MOST - SLOT * slots);
    ok = ok && kept(word_space, GUARD) && kept(word + letters_len, GUARD + WORDS - letters_len);
    ok = ok && memcmp(word, letters, letters_len) == 0;
    check(name, ok);
}

static void worked_cases(void) {
    struct file f = file_f(), g = file_g(), h = file_h(), j = file_j();
    call("K1: F in G at 1 is contained, 5", &f, &g, 1, 65520, 2048, packed(EDITION_CONTAINED, 5, 0), 5, "", 0);
    call("K2: F in G at 0 is contained, 4", &f, &g, 0, 65520, 2048, packed(EDITION_CONTAINED, 4, 0), 4, "", 0);
    call("K3: G in F at 0 differs at place 2 with word 0", &g, &f, 0, 65520, 2048, packed(EDITION_DIFFERS, 2, 1), 2, "\0", 1);
    call("K3 with 1 slot: refusal 10", &g, &f, 0, 40, 2048, refused(EDITION_REFUSED_SLOTS, 1, 0), 1, "", 0);
    call("K4: G in F at 1 is contained, 8", &g, &f, 1, 65520, 2048, packed(EDITION_CONTAINED, 8, 0), 8, "", 0);
    call("K4 with exactly 8 slots", &g, &f, 1, 320, 2048, packed(EDITION_CONTAINED, 8, 0), 8, "", 0);
    call("K5: K4 with 7 slots: refusal 10", &g, &f, 1, 280, 2048, refused(EDITION_REFUSED_SLOTS, 7, 0), 7, "", 0);
    call("K6: H in J at 0 differs at once, with the empty word", &h, &j, 0, 65520, 2048, packed(EDITION_DIFFERS, 0, 0), 0, "", 0);
    call("K7: H in J at 1 is contained, 2", &h, &j, 1, 65520, 2048, packed(EDITION_CONTAINED, 2, 0), 2, "", 0);
    struct file most = chain(32, 1, 0), over = chain(33, 1, 0);
    call("K11: bound 14 and 32 states pass", &most, &most, 14, 65520, 2048, packed(EDITION_CONTAINED, 32, 0), 32, "", 0);
    call("K11: bound 15 does not", &most, &most, 15, 65520, 2048, refused(EDITION_REFUSED_BOUND, 0, 0), 0, "", 0);
    call("K11: 33 states do not", &over, &most, 14, 65520, 2048, refused(EDITION_REFUSED_HEADER, 1, 0), 0, "", 0);
    call("both initial states accept: the counter starts at b + 1", &h, &h, 0, 65520, 2048, packed(EDITION_CONTAINED, 1, 0), 1, "", 0);
}

static void words(void) {
    struct file f = example("examples/anything.ba"), g = late();
    uint64_t differs = packed(EDITION_DIFFERS, 3, 2), short_by_one = refused(EDITION_REFUSED_WORD, 0, 2);
    call("a word of two letters, first letter first", &f, &g, 2, 65520, 2048, differs, 3, "\0\1", 2);
    call("a word buffer of exactly the word's length", &f, &g, 2, 65520, 2, differs, 3, "\0\1", 2);
    call("a word buffer one too short: refusal 11, the length needed", &f, &g, 2, 65520, 1, short_by_one, 3, "", 0);
    call("no word buffer: refusal 11", &f, &g, 2, 65520, 0, short_by_one, 3, "", 0);
    struct file h = file_h(), j = file_j();
    call("an empty word needs no word buffer", &h, &j, 0, 65520, 0, packed(EDITION_DIFFERS, 0, 0), 0, "", 0);
}

static void slots(void) {
    struct file f = file_f(), g = file_g(), h = file_h(), j = file_j();
    call("a final vertex at place S exactly differs", &g, &f, 0, 80, 2048, packed(EDITION_DIFFERS, 2, 1), 2, "\0", 1);
    call("no slots, a final initial vertex: differs at 0", &h, &j, 0, 0, 2048, packed(EDITION_DIFFERS, 0, 0), 0, "", 0);
    call("no slots: refusal 10 with count 0", &f, &g, 1, 0, 2048, refused(EDITION_REFUSED_SLOTS, 0, 0), 0, "", 0);
    call("39 bytes are no slot", &f, &g, 1, 39, 2048, refused(EDITION_REFUSED_SLOTS, 0, 0), 0, "", 0);
    call("40 bytes are one slot", &f, &g, 1, 40, 2048, refused(EDITION_REFUSED_SLOTS, 1, 0), 1, "", 0);
    call("41 bytes are one slot, the last byte kept", &f, &g, 1, 41, 2048, refused(EDITION_REFUSED_SLOTS, 1, 0), 1, "", 0);
    call("more than 4,096 slots' bytes", &f, &g, 1, 5000 * 40, 2048, packed(EDITION_CONTAINED, 5, 0), 5, "", 0);
    fill();
    uint64_t r = contain(g.bytes, g.len, f.bytes, f.len, 0, work, 80, word, 8);
    uint8_t slot0[40] = {0, 1}, slot1[40] = {0};
    slot0[33] = 0xff, slot0[34] = 0xff, slot0[35] = 0xff;
    slot1[1 + 2] = 1, slot1[33] = 0, slot1[34] = 0, slot1[35] = 0;
    check("the slots of K3: initial vertex with FF, then the vertex found by letter 0",
          r == packed(EDITION_DIFFERS, 2, 1) && memcmp(work, slot0, 40) == 0 && memcmp(work + 40, slot1, 40) == 0);
}

/* The walks that need all 4,096 slots, with exactly the bytes that they need and with one byte less. */
static void longest(void) {
    struct file contained = left_rings(AGAIN), contains = right_rings(AGAIN, 0);
    const size_t bytes = EDITION_MAX_WORK;
    call("4,096 vertices, contained", &contained, &contains, 0, bytes, 0, packed(EDITION_CONTAINED, 4096, 0), 4096, "", 0);
    call("4,096 vertices, 4,095 slots", &contained, &contains, 0, bytes - 1, 0, refused(EDITION_REFUSED_SLOTS, 4095, 0), 4095, "", 0);
    call("4,096 vertices, more bytes than are used", &contained, &contains, 0, MOST, 0, packed(EDITION_CONTAINED, 4096, 0), 4096, "", 0);
    for (int kind = APART; kind <= AGAIN; kind++) {
        struct file f = left_rings(kind), g = right_rings(kind, 1);
        size_t n = kind == APART ? 4095 : 4096;
        char letters[4096], name[80];
        memset(letters, 1, n), letters[n - 1] = 0;
        snprintf(name, sizeof name, "a word of %zu letters, at place 4,096", n);
        call(name, &f, &g, 0, bytes, n, packed(EDITION_DIFFERS, 4096, n), 4096, letters, n);
        snprintf(name, sizeof name, "a word of %zu letters, one byte of work short", n);
        call(name, &f, &g, 0, bytes - 1, n, refused(EDITION_REFUSED_SLOTS, 4095, 0), 4095, "", 0);
        snprintf(name, sizeof name, "a word of %zu letters, one byte of word short", n);
        call(name, &f, &g, 0, bytes, n - 1, refused(EDITION_REFUSED_WORD, 0, n), 4096, "", 0);
    }
}

static void refusals(void) {
    struct file h = file_h(), g = file_g(), f = file_f();
    const struct file none = {{0}, 0};
    static const uint8_t r2[] = {0x41, 0x46, 0x00}, r3[] = {0x41, 0x48, 0x00, 0x01, 0x00};
    static const uint8_t r4[] = {0x41, 0x48, 1, 1, 0, 0x41, 0x46, 1}, r5[] = {0x41, 0x48, 1, 1, 0, 0x41, 0x46, 0, 0x41, 0x46, 0};
    static const uint8_t r6[] = {0x41, 0x48, 1, 1, 0, 0x41, 0x45};
    const struct file bad[] = {none, raw(r2, sizeof r2), raw(r3, sizeof r3), raw(r4, sizeof r4), raw(r5, sizeof r5), raw(r6, sizeof r6)};
    for (uint64_t i = 0; i < 6; i++) {
        char name[64];
        snprintf(name, sizeof name, "row %u in the first file", (unsigned)i + 1);
        call(name, &bad[i], &h, 0, 65520, 2048, refused((unsigned)i + EDITION_REFUSED_FILE_ENDS, 1, 0), 0, "", 0);
        snprintf(name, sizeof name, "row %u in the second file", (unsigned)i + 1);
        call(name, &h, &bad[i], 0, 65520, 2048, refused((unsigned)i + EDITION_REFUSED_FILE_ENDS, 2, 0), 0, "", 0);
    }
    call("row 7: letter counts differ", &h, &g, 0, 65520, 2048, refused(EDITION_REFUSED_LETTERS, 0, 0), 0, "", 0);
    call("row 8: bound 15", &f, &g, 15, 65520, 2048, refused(EDITION_REFUSED_BOUND, 0, 0), 0, "", 0);
    call("row 8: bound 256 is not cut to a byte", &f, &g, 256, 65520, 2048, refused(EDITION_REFUSED_BOUND, 0, 0), 0, "", 0);
    call("row 8: bound 2^32 is not cut", &f, &g, (uint64_t)1 << 32, 65520, 2048, refused(EDITION_REFUSED_BOUND, 0, 0), 0, "", 0);
    call("8 comes before 7", &h, &g, 15, 65520, 2048, refused(EDITION_REFUSED_BOUND, 0, 0), 0, "", 0);
    call("7 comes before 6", &bad[5], &g, 0, 65520, 2048, refused(EDITION_REFUSED_LETTERS, 0, 0), 0, "", 0);
    call("6 of the first file comes before 6 of the second", &bad[5], &bad[5], 0, 65520, 2048, refused(EDITION_REFUSED_DEAD, 1, 0), 0, "", 0);
    call("a fault of the first file comes before one of the second", &bad[1], &bad[0], 15, 65520, 2048, refused(EDITION_REFUSED_MARK, 1, 0), 0, "", 0);
    check("NULL with length 0, four times", contain(NULL, 0, NULL, 0, 0, NULL, 0, NULL, 0) == refused(EDITION_REFUSED_FILE_ENDS, 1, 0));
    check("NULL buffers: a final initial vertex",
          contain(h.bytes, h.len, file_j().bytes, file_j().len, 0, NULL, 0, NULL, 0) == packed(EDITION_DIFFERS, 0, 0));
}

int main(void) {
    worked_cases();
    words();
    slots();
    longest();
    refusals();
    return conclude("contain from C");
}
