/* formulas [FILE FORMULA]...: compares what each automaton accepts with its formula, on every lasso word with a short stem and a short loop.

   A formula is evaluated while it is read: its value is the set of places of the lasso word at which it holds, as bits. From loosest to tightest:
   > implies, | or, & and, U until and W weak until, then ! X F G, `true`, p, q, r and parentheses. */
#include "../../examples/c/files.h"

enum { MOST_PLACES = 8 };

static uint8_t word[MOST_PLACES]; /* stem, then loop */
static size_t places, stem_len;
static uint32_t all;
static const char *at;

/* The places whose next place is in the set. The loop's last place is followed by its first. */
static uint32_t next(uint32_t set) {
    uint32_t wrapped = set >> stem_len & 1;
    return (set >> 1 | wrapped << (places - 1)) & all;
}

/* The places from which the first set lasts until the second. */
static uint32_t until(uint32_t first, uint32_t second) {
    uint32_t found = second;
    for (size_t i = 0; i < places; i++) found |= first & next(found);
    return found;
}

static uint32_t always(uint32_t set) { return all & ~until(all, all & ~set); }

static uint32_t holding(uint8_t proposition) {
    uint32_t set = 0;
    for (size_t i = 0; i < places; i++) set |= (uint32_t)((word[i] & proposition) != 0) << i;
    return set;
}

static uint32_t implies(void);

/* The next character, blanks skipped. */
static char peek(void) {
    while (*at == ' ') at++;
    return *at;
}

static void wrong(void) {
    printf("formulas: cannot read '%s'\n", at);
    exit(STATUS_WRONG_USE);
}

static uint32_t unary(void) {
    uint32_t set = 0;
    switch (peek()) {
    case '!': return at++, all & ~unary();
    case 'X': return at++, next(unary());
    case 'F': return at++, until(all, unary());
    case 'G': return at++, always(unary());
    case 'p': return at++, holding(1);
    case 'q': return at++, holding(2);
    case 'r': return at++, holding(4);
    case 't': return at += strlen("true"), all;
    case '(':
        at++, set = implies();
        if (peek() != ')') wrong();
        return at++, set;
    default: wrong(); return 0;
    }
}

static uint32_t untils(void) {
    uint32_t first = unary();
    if (peek() == 'U') return at++, until(first, untils());
    if (peek() == 'W') return at++, always(first) | until(first, untils());
    return first;
}

static uint32_t ands(void) {
    uint32_t set = untils();
    while (peek() == '&') at++, set &= untils();
    return set;
}

static uint32_t ors(void) {
    uint32_t set = ands();
    while (peek() == '|') at++, set |= ands();
    return set;
}

static uint32_t implies(void) {
    uint32_t set = ors();
    return peek() == '>' ? (at++, (all & ~set) | implies()) : set;
}

/* Whether the formula holds of the word at its first place. */
static int holds(const char *formula) {
    all = (1u << places) - 1, at = formula;
    uint32_t set = implies();
    if (peek()) wrong();
    return set & 1;
}

static uint8_t entry[EDITION_ENTRY_BYTES];
static unsigned long words, yes, differences;

/* Compares both on the word. */
static void compare(const char *name, const char *formula) {
    unsigned said = edition_kind(entry_verdict(entry, sizeof entry, word, stem_len, word + stem_len, places - stem_len));
    words++, yes += said == EDITION_YES;
    if (said == (holds(formula) ? EDITION_YES : EDITION_NO)) return;
    differences++;
    printf("failed  %s is not %s on stem of %zu letters:", name, formula, stem_len);
    print_word(word, places);
    printf("\n");
}

/* Counts the word up, lowest letter first; 0 after the last word. */
static int advance(unsigned letters) {
    for (size_t i = 0; i < places; i++) {
        if (++word[i] < letters) return 1;
        word[i] = 0;
    }
    return 0;
}

/* Compares both on every word with this length of stem and of loop. */
static void compare_all(const char *name, const char *formula, unsigned letters) {
    memset(word, 0, sizeof word);
    do compare(name, formula);
    while (advance(letters));
}

/* Compares both on stems of up to `most` letters and loops of 1 to `most`: fewer, the more letters there are. */
static void check(const char *name, const char *formula) {
    static struct file file;
    read_file(name, &file);
    memset(entry, 0, sizeof entry);
    if (entry_open(entry, sizeof entry, file.bytes, file.len)) exit(STATUS_REFUSED);
    unsigned letters = edition_letters(entry);
    size_t most = letters <= 2 ? 4 : letters <= 4 ? 3 : 2;
    for (size_t shape = 0; shape < (most + 1) * most; shape++) {
        stem_len = shape / most, places = stem_len + 1 + shape % most;
        compare_all(name, formula, letters);
    }
}

int main(int argc, char **argv) {
    for (int i = 1; i + 1 < argc; i += 2) check(argv[i], argv[i + 1]);
    printf("formulas: %d automata, %lu words, %lu accepted, %lu differences\n", argc / 2, words, yes, differences);
    return argc < 3 || argc % 2 == 0 || differences != 0;
}
