/* How many calls of each function had each kind of answer. */
#ifndef TESTS_COMPARE_TALLY_H
#define TESTS_COMPARE_TALLY_H

#include "sides.h"

/* An answer's kind and what is told apart within it: the file with refusals 1 to 6 of contain, the walk with 10 and 11 of offer. */
struct outcome {
    enum function function;
    unsigned kind, detail;
    const char *name;
};

static const struct outcome outcomes[] = {
    {CONTAIN, 0, 0, "contained"}, {CONTAIN, 1, 0, "differs"},
    {CONTAIN, 101, 1, "refused 1, first file"}, {CONTAIN, 101, 2, "refused 1, second file"},
    {CONTAIN, 102, 1, "refused 2, first file"}, {CONTAIN, 102, 2, "refused 2, second file"},
    {CONTAIN, 103, 1, "refused 3, first file"}, {CONTAIN, 103, 2, "refused 3, second file"},
    {CONTAIN, 104, 1, "refused 4, first file"}, {CONTAIN, 104, 2, "refused 4, second file"},
    {CONTAIN, 105, 1, "refused 5, first file"}, {CONTAIN, 105, 2, "refused 5, second file"},
    {CONTAIN, 106, 1, "refused 6, first file"}, {CONTAIN, 106, 2, "refused 6, second file"},
    {CONTAIN, 107, 0, "refused 7"}, {CONTAIN, 108, 0, "refused 8"}, {CONTAIN, 110, 0, "refused 10"}, {CONTAIN, 111, 0, "refused 11"},
    {OPEN, 0, 0, "opened"}, {OPEN, 101, 0, "refused 1"}, {OPEN, 102, 0, "refused 2"}, {OPEN, 103, 0, "refused 3"},
    {OPEN, 104, 0, "refused 4"}, {OPEN, 105, 0, "refused 5"}, {OPEN, 106, 0, "refused 6"}, {OPEN, 109, 0, "refused 9"},
    {OPEN, 112, 0, "refused 12"},
    {OFFER, 0, 0, "taken"}, {OFFER, 1, 0, "forward"}, {OFFER, 2, 0, "back"}, {OFFER, 101, 0, "refused 1"},
    {OFFER, 102, 0, "refused 2"}, {OFFER, 103, 0, "refused 3"}, {OFFER, 104, 0, "refused 4"}, {OFFER, 105, 0, "refused 5"},
    {OFFER, 106, 0, "refused 6"}, {OFFER, 107, 0, "refused 7"}, {OFFER, 108, 0, "refused 8"}, {OFFER, 109, 0, "refused 9"},
    {OFFER, 110, 1, "refused 10, forward walk"}, {OFFER, 110, 2, "refused 10, back walk"},
    {OFFER, 111, 1, "refused 11, forward walk"}, {OFFER, 111, 2, "refused 11, back walk"},
    {OFFER, 113, 0, "refused 13"}, {OFFER, 114, 0, "refused 14"},
    {VERDICT, 0, 0, "no"}, {VERDICT, 1, 0, "yes"}, {VERDICT, 109, 0, "refused 9"}, {VERDICT, 113, 0, "refused 13"},
    {VERDICT, 115, 0, "refused 15"},
    {WRITE, 0, 0, "wrote"}, {WRITE, 101, 0, "refused 1"}, {WRITE, 102, 0, "refused 2"}, {WRITE, 103, 0, "refused 3"},
    {WRITE, 104, 0, "refused 4"}, {WRITE, 105, 0, "refused 5"}, {WRITE, 116, 0, "refused 16"},
    {HANOI, 0, 0, "wrote"}, {HANOI, 103, 0, "refused 3"}, {HANOI, 104, 0, "refused 4"}, {HANOI, 116, 0, "refused 16"},
    {HANOI, 117, 0, "refused 17"}, {HANOI, 118, 0, "refused 18"},
};
enum { OUTCOMES = sizeof outcomes / sizeof *outcomes };

static uint64_t calls[FUNCTIONS], met[OUTCOMES], others[FUNCTIONS];
static size_t most_vertices[FUNCTIONS], longest_word[FUNCTIONS], longest_file[FUNCTIONS];

static inline size_t larger(size_t a, size_t b) { return a > b ? a : b; }

/* The outcome's place in the list, or OUTCOMES. */
static inline int place_of(enum function function, unsigned kind, unsigned detail) {
    int i = 0;
    while (i < OUTCOMES && (outcomes[i].function != function || outcomes[i].kind != kind || outcomes[i].detail != detail)) i++;
    return i;
}

/* Counts the answer of a call. */
static inline void count(enum function function, uint64_t number) {
    unsigned kind = edition_kind(number), detail = 0;
    if (function == CONTAIN && kind > 100 && kind <= 106) detail = (unsigned)edition_contain_count(number);
    if (function == OFFER) detail = edition_offer_walk(number);
    int place = place_of(function, kind, detail);
    calls[function]++;
    if (place < OUTCOMES) met[place]++;
    else others[function]++;
    if (function >= WRITE && kind == EDITION_WROTE) longest_file[function] = larger(longest_file[function], edition_written_length(number));
    if (kind > 2 || (function != CONTAIN && function != OFFER)) return;
    size_t vertices = larger(edition_offer_forward(number), edition_offer_back(number)), letters = edition_offer_word(number);
    if (function == CONTAIN) vertices = edition_contain_count(number), letters = edition_contain_word(number);
    most_vertices[function] = larger(most_vertices[function], vertices);
    longest_word[function] = larger(longest_word[function], letters);
}

/* Prints the counts; an outcome that no call came to is told, and a function that is not compared. */
static inline void print_counts(void) {
    for (int function = 0; function < FUNCTIONS; function++) {
        if (!is_compared((enum function)function)) {
            printf("%s: not compared, the build before lacks it\n", function_names[function]);
            continue;
        }
        printf("%s: %llu calls", function_names[function], (unsigned long long)calls[function]);
        if (longest_word[function]) printf(", up to %zu vertices and words of %zu letters", most_vertices[function], longest_word[function]);
        if (function >= WRITE) printf(", files of up to %zu bytes", longest_file[function]);
        printf("\n");
        for (int i = 0; i < OUTCOMES; i++) {
            if (outcomes[i].function != (enum function)function) continue;
            printf("  %s: ", outcomes[i].name);
            if (met[i]) printf("%llu\n", (unsigned long long)met[i]);
            else printf("never\n");
        }
        if (others[function]) printf("  other answers: %llu\n", (unsigned long long)others[function]);
    }
}

#endif
