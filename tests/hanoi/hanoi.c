/* Calls hanoi_write, linked from the kernel's archive, on texts of the subset and on others: the first fault in the text decides, a label stands for
   the letters that make it true, and no byte but those of the file written changes. */
#include "../check.h"
#include <stdarg.h>

enum { GUARD = 64, MOST = EDITION_MAX_FILE + 1000, TEXT = 1 << 16 };

static uint8_t space[GUARD + MOST + GUARD];
static uint8_t *const out = space + GUARD;
static char text[TEXT], kept_text[TEXT]; /* the text that is called with, and a copy */
static size_t text_len;

static const struct file nothing = {{0}, 0};

static uint64_t packed(uint64_t kind, uint64_t length) { return kind + 256 * length; }

static uint64_t refused(unsigned refusal) { return packed(100 + refusal, 0); }

/* Whether the header's functions give the number's parts. */
static int parts(uint64_t r) {
    unsigned kind = edition_kind(r), refusal = edition_refusal(r);
    return packed(kind, edition_written_length(r)) == r && refusal == (kind < 100 ? 0 : kind - 100);
}

/* Puts the text together. */
static void say(const char *format, ...) {
    va_list rest;
    va_start(rest, format);
    int len = vsnprintf(text, sizeof text, format, rest);
    va_end(rest);
    if (len < 0 || (size_t)len >= sizeof text) exit(2);
    text_len = (size_t)len;
}

/* Calls hanoi_write on the text and a filled buffer; the number must be the one expected, the file in front, and all other bytes kept, the
   text's too. */
static void call(const char *name, size_t room, uint64_t number, const struct file *written) {
    memset(space, FILL, sizeof space);
    memcpy(kept_text, text, text_len);
    uint64_t r = hanoi_write((const uint8_t *)text, text_len, out, room);
    int ok = r == number && parts(r) && memcmp(text, kept_text, text_len) == 0;
    ok = ok && kept(space, GUARD) && memcmp(out, written->bytes, written->len) == 0;
    ok = ok && kept(out + written->len, GUARD + MOST - written->len);
    if (!ok) printf("  got %llu, not %llu, for %.*s\n", (unsigned long long)r, (unsigned long long)number, (int)text_len, text);
    check(name, ok);
}

/* The text gives this file in a buffer of its length, of a byte more and of many more; one of a byte less or of none is refused with 16. */
static void gives(const char *name, const struct file *file) {
    const struct { const char *what; size_t room; } rooms[] = {
        {"no bytes", 0}, {"one byte short", file->len - 1}, {"its length", file->len}, {"one byte more", file->len + 1}, {"many more", MOST}};
    for (size_t i = 0; i < sizeof rooms / sizeof *rooms; i++) {
        char line[200];
        snprintf(line, sizeof line, "%s: %s", name, rooms[i].what);
        if (rooms[i].room < file->len)
            call(line, rooms[i].room, packed(100 + EDITION_REFUSED_ROOM, file->len), &nothing);
        else
            call(line, rooms[i].room, packed(EDITION_WROTE, file->len), file);
    }
}

/* The text is refused so, into a buffer with room and into none: its faults come before 16. */
static void refuses(const char *name, unsigned refusal) {
    char line[200];
    snprintf(line, sizeof line, "%s: %u", name, refusal);
    call(line, MOST, refused(refusal), &nothing);
    snprintf(line, sizeof line, "%s: %u comes before 16", name, refusal);
    call(line, 0, refused(refusal), &nothing);
}

#define UP_TO_AP "HOA: v1 States: 2 Start: 0 AP: 1 \"a\" "
#define UP_TO_BODY UP_TO_AP "Acceptance: 1 Inf(0) --BODY-- "

/* The file of two states over one proposition that UP_TO_BODY begins, with no record. */
static struct file bare(void) {
    struct file f = header(2, 2, 0);
    end(&f);
    return f;
}

static void whole_texts(void) {
    struct file f = header(1, 2, 0);
    accepting(&f, 0), transition(&f, 0, 0, 0), end(&f);
    say("HOA:v1 States:1 Start:0 AP:1\"a\"acc-name:Buchi Acceptance:1 Inf(0)--BODY--State:0{0}[!0]0--END--");
    gives("as few blanks as can be", &f);
    say(" \t\r\n HOA:\tv1\rStates:\n1 Start: 0 AP: 1 \"a\" acc-name: Buchi Acceptance: 1 Inf ( 0 )\r\n--BODY-- State: 0 { 0 } [ ! 0 ] 0 "
        "--END-- \n\r\t ");
    gives("white space around every token", &f);
    struct file worked = example("examples/f.ba");
    say("HOA: v1\nStates: 4\nStart: 0\nAP: 1 \"p\"\nacc-name: Buchi\nAcceptance: 1 Inf(0)\n--BODY--\n"
        "State: 0\n[0] 1\n[!0] 2\nState: 1\n[0] 1\n[!0] 3\nState: 2\n[!0] 2\n[0] 3\nState: 3 {0}\n[t] 3\n--END--\n");
    gives("F", &worked);
    say("HOA: v1 States: 4 Start: 0 AP: 1 \"\" Acceptance: 1 Inf(0) --BODY-- State: 3 {0} [0] 3 [!0] 3 [t] 3 State: 1 [!0] 3 [0] 1 [0&0] 1\n"
        "State: 2 [0] 3 [!0] 2 [f] 0 State: 0 [!0] 2 [0 | f] 1 --END--");
    gives("F, with states and edges in another order, edges that overlap and one of no letter", &worked);
}

/* The largest states, letters and numbers of each item. */
static void largest(void) {
    struct file f = header(32, 16, 31);
    accepting(&f, 31), transition(&f, 31, 15, 31), end(&f);
    say("HOA: v1 States: 32 Start: 31 AP: 4 \"a\" \"a\" \"\" \" ~!#$%%&'()*+,-./:;<=>?@[]^_`{|}\" Acceptance: 1 Inf(0)\n"
        "--BODY-- State: 31 {0} [0&1&2&3] 31 --END--");
    gives("32 states, 4 names, two of them alike, one empty and one of all sorts of bytes", &f);
    struct file one = header(1, 1, 0);
    accepting(&one, 0), transition(&one, 0, 0, 0), end(&one);
    say("HOA: v1 States: 1 Start: 0 AP: 0 acc-name: Buchi Acceptance: 1 Inf(0) --BODY-- State: 0 {0} [t] 0 [f] 0 --END--");
    gives("no proposition: one letter", &one);
}

/* States that are not declared, no body, and dead states. */
static void bodies(void) {
    struct file none = bare();
    say("HOA: v1 States: 2 Start: 0 AP: 1 \"a\" Acceptance: 1 Inf(0)--BODY----END--");
    gives("no state is declared", &none);
    say(UP_TO_BODY "State: 1 State: 0 --END--");
    gives("states without edges", &none);
    say(UP_TO_BODY "State: 0 [f] 1 --END--");
    gives("an edge of no letter", &none);
    struct file one = header(2, 2, 0);
    accepting(&one, 0), transition(&one, 0, 0, 1), transition(&one, 0, 1, 1), end(&one);
    say(UP_TO_BODY "State: 0 {0} [t] 1 --END--");
    gives("a target that is not declared, and is dead", &one);
    struct file last = header(2, 2, 0);
    accepting(&last, 1), transition(&last, 1, 1, 0), end(&last);
    say(UP_TO_BODY "State: 1 {0} [0] 0 --END--");
    gives("an initial state that is not declared", &last);
}

/* A text with `between` in place of the blank where two tokens would touch. */
static void touching(void) {
    static const char *const places[] = {
        "HOA: v1%sStates: 2 Start: 0 AP: 1 \"a\" Acceptance: 1 Inf(0) --BODY-- --END--",
        "HOA: v1 States: 2%sStart: 0 AP: 1 \"a\" Acceptance: 1 Inf(0) --BODY-- --END--",
        "HOA: v1 States: 2 Start: 0%sAP: 1 \"a\" Acceptance: 1 Inf(0) --BODY-- --END--",
        "HOA: v1 States: 2 Start: 0 AP: 1 \"a\" acc-name: Buchi%sAcceptance: 1 Inf(0) --BODY-- --END--",
        "HOA: v1 States: 2 Start: 0 AP: 1 \"a\" Acceptance: 1%sInf(0) --BODY-- --END--",
        UP_TO_BODY "State: 0%sState: 1 --END--",
        UP_TO_BODY "State: 0 [f] 1%sState: 1 --END--",
    };
    struct file none = bare();
    for (size_t i = 0; i < sizeof places / sizeof *places; i++) {
        char name[64];
        snprintf(name, sizeof name, "place %zu where two tokens would touch", i + 1);
        say(places[i], ""), refuses(name, EDITION_REFUSED_TEXT);
        say(places[i], "\x0b"), refuses(name, EDITION_REFUSED_TEXT);
        say(places[i], "_"), refuses(name, EDITION_REFUSED_TEXT);
        for (const char *white = " \t\r\n"; *white; white++) {
            char between[2] = {*white, 0};
            say(places[i], between), gives(name, &none);
        }
    }
    struct file small = header(2, 1, 0);
    end(&small);
    for (int named = 0; named < 2; named++) {
        const char *item = named ? "acc-name: Buchi Acceptance:" : "Acceptance:";
        say("HOA: v1 States: 2 Start: 0 AP: 0%s 1 Inf(0) --BODY-- --END--", item), refuses("AP's count of 0 and the next item", EDITION_REFUSED_TEXT);
        say("HOA: v1 States: 2 Start: 0 AP: 0 %s 1 Inf(0) --BODY-- --END--", item), gives("AP's count of 0 and the next item", &small);
    }
}

struct row {
    const char *text;
    unsigned refusal;
};

/* Each text is named by itself, with dots for bytes that cannot be printed. */
static void rows(const struct row *row, size_t n) {
    for (size_t i = 0; i < n; i++) {
        char name[160];
        snprintf(name, sizeof name, "%s", row[i].text);
        for (char *at = name; *at; at++)
            if (*at < 0x20 || *at > 0x7e) *at = '.';
        say("%s", row[i].text), refuses(name, row[i].refusal);
    }
}

#define ROWS(list) rows(list, sizeof list / sizeof *list)

enum { HEADER = EDITION_REFUSED_HEADER, OUTSIDE = EDITION_REFUSED_OUTSIDE, OFF = EDITION_REFUSED_TEXT, MANY = EDITION_REFUSED_PROPOSITIONS };

/* A number's value is tested where the number ends, before the byte behind it; what is no number has no value. */
static const struct row values[] = {
    {"HOA: v1 States: 33Start: 0", HEADER},
    {"HOA: v1 States: 33", HEADER},
    {"HOA: v1 States: 33\xff", HEADER},
    {"HOA: v1 States: 32", OFF},
    {"HOA: v1 States: 3Start:", OFF},
    {"HOA: v1 States: 033", OFF},
    {"HOA: v1 States: 00", OFF},
    {"HOA: v1 States: 0", HEADER},
    {"HOA: v1 States: 0x", HEADER},
    {"HOA: v1 States: -1", OFF},
    {"HOA: v1 States: ", OFF},
    {"HOA: v1 States: 256", HEADER},
    {"HOA: v1 States: 4294967297", HEADER},
    {"HOA: v1 States: 18446744073709551617", HEADER},
    {"HOA: v1 States: 2 Start: 2AP:", HEADER},
    {"HOA: v1 States: 2 Start: 18446744073709551616", HEADER},
    {"HOA: v1 States: 2 Start: 02", OFF},
    {"HOA: v1 States: 2 Start: 1AP:", OFF},
    {"HOA: v1 States: 2 Start: 0 AP: 5", MANY},
    {"HOA: v1 States: 2 Start: 0 AP: 5 \"a\"", MANY},
    {"HOA: v1 States: 2 Start: 0 AP: 5 \"\\\"", MANY},
    {"HOA: v1 States: 2 Start: 0 AP: 05", OFF},
    {"HOA: v1 States: 2 Start: 0 AP: 18446744073709551616", MANY},
    {"HOA: v1 States: 2 Start: 0 AP: 4 \"a\" \"b\" \"c\"", OFF},
    {"HOA: v1 States: 2 Start: 5 AP: 5", HEADER},
    {"HOA: v1 States: 0 Start: 0 AP: 5", HEADER},
    {UP_TO_BODY "State: 2", OUTSIDE},
    {UP_TO_BODY "State: 09", OFF},
    {UP_TO_BODY "State: 9 \"x\"", OUTSIDE},
    {UP_TO_BODY "State: 18446744073709551616", OUTSIDE},
    {UP_TO_BODY "State: 0 State: 0", OFF},
    {UP_TO_BODY "State: 0 State: 0 [", OFF},
    {UP_TO_BODY "State: 9 State: 9", OUTSIDE},
    {UP_TO_BODY "State: 0 [0] 9State: 0", OUTSIDE},
    {UP_TO_BODY "State: 0 [0] 9&1", OUTSIDE},
    {UP_TO_BODY "State: 0 [0] 9{0}", OUTSIDE},
    {UP_TO_BODY "State: 0 [0] 2", OUTSIDE},
    {UP_TO_BODY "State: 0 [0] 02", OFF},
    {UP_TO_BODY "State: 0 [f] 9", OUTSIDE},
    {UP_TO_BODY "State: 0 [9] 9", OFF},
    {UP_TO_BODY "State: 0 [1] 1 --END--", OFF},
    {UP_TO_BODY "State: 0 [18446744073709551616] 0 --END--", OFF},
    {UP_TO_BODY "State: 0 [00] 0 --END--", OFF},
    {UP_TO_BODY "State: 0 [0 9", OFF},
    {UP_TO_BODY "[0] 9", OFF},
    {UP_TO_BODY "[9", OFF},
};

static void longest_numbers(void) {
    char digits[1002];
    memset(digits, '0', sizeof digits - 1), digits[0] = '1', digits[sizeof digits - 1] = 0;
    say("HOA: v1 States: %s", digits), refuses("States is 10 to the power of 1,000", HEADER);
    say("HOA: v1 States: 2 Start: 0 AP: %s", digits), refuses("AP is 10 to the power of 1,000", MANY);
    say(UP_TO_BODY "State: 0 [t] %s", digits), refuses("a target is 10 to the power of 1,000", OUTSIDE);
    say(UP_TO_BODY "State: 0 [%s] 9", digits), refuses("a proposition is 10 to the power of 1,000", OFF);
}

/* Texts of the format that are outside the subset, and texts that are of no format. */
static const struct row others[] = {
    {"", OFF},
    {" ", OFF},
    {"AH", OFF},
    {"hoa: v1", OFF},
    {"HOA : v1", OFF},
    {"HOA: v 1", OFF},
    {"HOA: V1", OFF},
    {"HOA: v2 States: 33", OFF},
    {"HOA: v1 name: \"x\" States: 33", OFF},
    {"HOA: v1 tool: \"x\" States: 33", OFF},
    {"HOA: v1 Start: 0 States: 33", OFF},
    {"HOA: v1 /* x */ States: 33", OFF},
    {"HOA: v1 States: 2 States: 33", OFF},
    {"HOA: v1 States: 2 Start: 0 Start: 9", OFF},
    {"HOA: v1 States: 2 Start: 0&9", OFF},
    {"HOA: v1 States: 2 Start: 0 Alias: @a 0 AP: 5", OFF},
    {"HOA: v1 States: 2 Start: 0 AP: 1 a", OFF},
    {"HOA: v1 States: 2 Start: 0 AP: 1 \"a", OFF},
    {"HOA: v1 States: 2 Start: 0 AP: 1 \"a\nb\"", OFF},
    {"HOA: v1 States: 2 Start: 0 AP: 1 \"a\tb\"", OFF},
    {"HOA: v1 States: 2 Start: 0 AP: 1 \"\x7f\" Acceptance: 1 Inf(0) --BODY-- --END--", OFF},
    {"HOA: v1 States: 2 Start: 0 AP: 1 \"\x1f\" Acceptance: 1 Inf(0) --BODY-- --END--", OFF},
    {"HOA: v1 States: 2 Start: 0 AP: 1 \"\xc3\xa9\" Acceptance: 1 Inf(0) --BODY-- --END--", OFF},
    {"HOA: v1 States: 2 Start: 0 AP: 1 \"\\\"\" Acceptance: 1 Inf(0) --BODY-- --END--", OFF},
    {"HOA: v1 States: 2 Start: 0 AP: 1 \"a\" \"b\" Acceptance: 1 Inf(0) --BODY-- --END--", OFF},
    {UP_TO_AP "acc-name: Buchi acc-name: Buchi Acceptance: 1 Inf(0) --BODY-- --END--", OFF},
    {UP_TO_AP "acc-name: buchi Acceptance: 1 Inf(0) --BODY-- --END--", OFF},
    {UP_TO_AP "acc-name: co-Buchi Acceptance: 1 Inf(0) --BODY-- --END--", OFF},
    {UP_TO_AP "acc-name: generalized-Buchi 1 Acceptance: 1 Inf(0) --BODY-- --END--", OFF},
    {UP_TO_AP "Acceptance: 1 Inf(0) acc-name: Buchi --BODY-- --END--", OFF},
    {UP_TO_AP "Acceptance: 01 Inf(0) --BODY-- --END--", OFF},
    {UP_TO_AP "Acceptance: 10 Inf(0) --BODY-- --END--", OFF},
    {UP_TO_AP "Acceptance: 2 Inf(0) --BODY-- --END--", OFF},
    {UP_TO_AP "Acceptance: 1 Inf(00) --BODY-- --END--", OFF},
    {UP_TO_AP "Acceptance: 1 Inf(1) --BODY-- --END--", OFF},
    {UP_TO_AP "Acceptance: 1 (Inf(0)) --BODY-- --END--", OFF},
    {UP_TO_AP "Acceptance: 1 Fin(0) --BODY-- --END--", OFF},
    {UP_TO_AP "Acceptance: 1 Inf(!0) --BODY-- --END--", OFF},
    {UP_TO_AP "Acceptance: 0 t --BODY-- --END--", OFF},
    {UP_TO_AP "Acceptance: 1 Inf(0) properties: state-acc --BODY-- --END--", OFF},
    {UP_TO_AP "--BODY-- --END--", OFF},
    {UP_TO_AP "Acceptance: 1 Inf(0) -- BODY -- --END--", OFF},
    {UP_TO_AP "Acceptance: 1 Inf(0) --END--", OFF},
    {UP_TO_BODY "--ABORT--", OFF},
    {UP_TO_BODY "State: 0 \"x\" --END--", OFF},
    {UP_TO_BODY "State: [0] 0 --END--", OFF},
    {UP_TO_BODY "State: 0 {} --END--", OFF},
    {UP_TO_BODY "State: 0 {1} --END--", OFF},
    {UP_TO_BODY "State: 0 {00} --END--", OFF},
    {UP_TO_BODY "State: 0 {0 0} --END--", OFF},
    {UP_TO_BODY "State: 0 {0}{0} --END--", OFF},
    {UP_TO_BODY "State: 0 [0] {0} 1 --END--", OFF},
    {UP_TO_BODY "State: 0 [0] 1 {0} --END--", OFF},
    {UP_TO_BODY "State: 0 [0] 1&0 --END--", OFF},
    {UP_TO_BODY "State: 0 [0] 1 0 --END--", OFF},
    {UP_TO_BODY "State: 0 1 --END--", OFF},
    {UP_TO_BODY "State: 0 [0] --END--", OFF},
    {UP_TO_BODY "State: 0 [] 1 --END--", OFF},
    {UP_TO_BODY "State: 0 [@a] 1 --END--", OFF},
    {UP_TO_BODY "State: 0 [0 1 --END--", OFF},
    {UP_TO_BODY "State: 0 [0&&0] 1 --END--", OFF},
    {UP_TO_BODY "State: 0 [0||0] 1 --END--", OFF},
    {UP_TO_BODY "State: 0 [0 0] 1 --END--", OFF},
    {UP_TO_BODY "State: 0 [0&] 1 --END--", OFF},
    {UP_TO_BODY "State: 0 [|0] 1 --END--", OFF},
    {UP_TO_BODY "State: 0 [0!] 1 --END--", OFF},
    {UP_TO_BODY "State: 0 [!] 1 --END--", OFF},
    {UP_TO_BODY "State: 0 [()] 1 --END--", OFF},
    {UP_TO_BODY "State: 0 [(0] 1 --END--", OFF},
    {UP_TO_BODY "State: 0 [0)] 1 --END--", OFF},
    {UP_TO_BODY "State: 0 [T] 1 --END--", OFF},
    {UP_TO_BODY "State: 0 [tt] 1 --END--", OFF},
    {UP_TO_BODY "State: 0 [t0] 1 --END--", OFF},
    {UP_TO_BODY "State: 0 [0t] 1 --END--", OFF},
    {UP_TO_BODY "--END-- x", OFF},
    {UP_TO_BODY "--END-- \x0b", OFF},
    {UP_TO_BODY "--END----END--", OFF},
    {UP_TO_BODY "--END-- HOA: v1 States: 33", OFF},
};

static void zero_bytes(void) {
    say(UP_TO_BODY "--END-- "), text[text_len - 1] = 0, refuses("byte 00 behind the end", OFF);
    say(UP_TO_BODY "--END--"), text[8] = 0, refuses("byte 00 between tokens", OFF);
}

/* Every text that stops before its end is refused with 17, and so is one with one byte that is of no token. */
static void cut(void) {
    static const char whole[] = "HOA: v1 States: 2 Start: 1 AP: 2 \"a\" \"b\" acc-name: Buchi Acceptance: 1 Inf(0)\n"
                                "--BODY-- State: 0 {0} [!0 & (1 | t)] 1 [f] 0 --END--";
    for (size_t len = 0; len + 1 < sizeof whole; len++) {
        char name[64];
        snprintf(name, sizeof name, "the first %zu bytes", len);
        say("%.*s", (int)len, whole), refuses(name, OFF);
        snprintf(name, sizeof name, "byte ff in place %zu", len);
        say("%s", whole), text[len] = (char)0xff, refuses(name, OFF);
    }
}

/* The letters of an edge from 0 to itself with this label, over so many propositions, in a file. */
static struct file loops(unsigned propositions, unsigned mask) {
    struct file f = header(1, (uint8_t)(1u << propositions), 0);
    for (uint8_t letter = 0; letter < 1u << propositions; letter++)
        if (mask >> letter & 1) transition(&f, 0, letter, 0);
    end(&f);
    return f;
}

static void labelled(unsigned propositions, const char *label) {
    static const char *const names[] = {"0", "1 \"a\"", "2 \"a\" \"b\"", "3 \"a\" \"b\" \"c\"", "4 \"a\" \"b\" \"c\" \"d\""};
    say("HOA: v1 States: 1 Start: 0 AP: %s Acceptance: 1 Inf(0) --BODY-- State: 0 [%s] 0 --END--", names[propositions], label);
}

#define P(p) (a >> (p) & 1)

/* The label over n propositions is true at just the letters a at which the expression is. */
#define CASE(n, label, truth) \
    do { \
        unsigned mask = 0; \
        for (unsigned a = 0; a < 1u << (n); a++) mask |= (unsigned)((truth) != 0) << a; \
        struct file f = loops(n, mask); \
        labelled(n, label), gives(label, &f); \
    } while (0)

/* Of the operators ! binds tightest and | loosest, and parentheses change that. */
static void precedence(void) {
    CASE(3, "0|1&!2", P(0) || (P(1) && !P(2)));
    CASE(3, "1&!2|0", P(0) || (P(1) && !P(2)));
    CASE(3, "(0|1)&!2", (P(0) || P(1)) && !P(2));
    CASE(3, "!0&1", !P(0) && P(1));
    CASE(3, "!(0&1)", !(P(0) && P(1)));
    CASE(3, "!0|1", !P(0) || P(1));
    CASE(3, "!(0|1)", !(P(0) || P(1)));
    CASE(3, "0&1|1&2|2&0", (P(0) && P(1)) || (P(1) && P(2)) || (P(2) && P(0)));
    CASE(3, "0&(1|1)&2|!2&!!1", (P(0) && P(1) && P(2)) || (!P(2) && P(1)));
    CASE(3, "t&2|f", P(2));
    CASE(3, "f&0|t&!t", 0);
    CASE(3, "!f", 1);
}

/* Bit p of a letter is the value of proposition p. */
static void propositions(void) {
    CASE(0, "t", 1);
    CASE(0, "f", 0);
    CASE(1, "0", P(0));
    CASE(2, "1", P(1));
    CASE(4, "0", P(0));
    CASE(4, "1", P(1));
    CASE(4, "2", P(2));
    CASE(4, "3", P(3));
    CASE(4, "!0&1&!2&3", a == 10);
    for (unsigned n = 0; n <= EDITION_MAX_PROPOSITIONS; n++) {
        char name[64], label[] = {(char)('0' + n), 0};
        snprintf(name, sizeof name, "a proposition that AP: %u lacks", n);
        labelled(n, label), refuses(name, OFF);
    }
}

/* So many of each string around the label 0 over one proposition. */
static void nested(const char *left, const char *right, unsigned times, const char *inner) {
    static char label[1024];
    label[0] = 0;
    for (unsigned i = 0; i < times; i++) strcat(label, left);
    strcat(label, inner);
    for (unsigned i = 0; i < times; i++) strcat(label, right);
    labelled(1, label);
}

/* At most 64 negations and parentheses in all stand around any one place. */
static void depth(void) {
    struct file positive = loops(1, 2), negative = loops(1, 1);
    nested("!", "", 64, "0"), gives("64 negations", &positive);
    nested("!", "", 63, "0"), gives("63 negations", &negative);
    nested("!", "", 65, "0"), refuses("65 negations", OFF);
    nested("(", ")", 64, "0"), gives("64 pairs of parentheses", &positive);
    nested("(", ")", 65, "0"), refuses("65 pairs of parentheses", OFF);
    nested("!(", ")", 32, "0"), gives("32 negated pairs", &positive);
    nested("!(", ")", 32, "!0"), refuses("32 negated pairs and a negation", OFF);
    nested("!(", ")", 32, "(0)"), refuses("32 negated pairs and one more pair", OFF);
    nested("!(", ")", 31, "!!0"), gives("31 negated pairs and two negations", &negative);
    nested("(", ")", 64, "0&0|f"), gives("operators inside 64 pairs", &positive);
    nested("(f|", ")", 64, "0"), gives("64 pairs, each behind an operator", &positive);
    nested("(", "&t)", 64, "0"), gives("64 pairs, each with an operator behind", &positive);
    nested("(", "|!0)", 63, "!!0|0"), refuses("two negations inside 63 pairs", OFF);
    nested("(", ")", 63, "!0&!0"), gives("negations beside each other inside 63 pairs", &negative);
}

/* Chains of operands have any length. */
static void chains(void) {
    enum { OPERANDS = 10000 };
    static char label[2 * OPERANDS];
    const struct { char operator; const char *name; struct file file; } kinds[] = {
        {'&', "10,000 operands with & between them", loops(2, 8)}, {'|', "10,000 operands with | between them", loops(2, 14)}};
    for (size_t k = 0; k < 2; k++) {
        for (size_t i = 0; i < OPERANDS; i++) label[2 * i] = (char)('0' + i % 2), label[2 * i + 1] = kinds[k].operator;
        label[sizeof label - 1] = 0;
        labelled(2, label), gives(kinds[k].name, &kinds[k].file);
    }
}

static void pointers(void) {
    check("NULL with length 0, twice", hanoi_write(NULL, 0, NULL, 0) == refused(OFF));
    say("HOA: v1 States: 1 Start: 0 AP: 0 Acceptance: 1 Inf(0) --BODY-- --END--");
    check("NULL with length 0 as the output buffer", hanoi_write((const uint8_t *)text, text_len, NULL, 0) == packed(100 + EDITION_REFUSED_ROOM, 7));
}

int main(void) {
    whole_texts();
    largest();
    bodies();
    touching();
    ROWS(values);
    longest_numbers();
    ROWS(others);
    zero_bytes();
    cut();
    precedence();
    propositions();
    depth();
    chains();
    pointers();
    return conclude("Hanoi texts from C");
}
