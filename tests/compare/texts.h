/* Hanoi texts as they are drawn, whole and spoilt. */
#ifndef TESTS_COMPARE_TEXTS_H
#define TESTS_COMPARE_TEXTS_H

#include "automata.h"
#include <stdio.h>

enum { PROPOSITIONS = EDITION_MAX_PROPOSITIONS, NESTED = 64 };

static unsigned most_white; /* most bytes of white space that a text has where it needs none */

static inline int is_alphanumeric(uint8_t byte) {
    return (byte >= '0' && byte <= '9') || (byte >= 'A' && byte <= 'Z') || (byte >= 'a' && byte <= 'z');
}

/* Appends a token, or what stands for one, with white space before it where it is needed. What a text has no room for is left out. */
static inline void put_token(struct bytes *text, const char *bytes) {
    const char white[] = {' ', '\t', '\n', '\r'};
    size_t len = strlen(bytes);
    if (text->len + len + most_white + 1 > ROOM) return;
    if (len && text->len && is_alphanumeric(text->at[text->len - 1]) && is_alphanumeric((uint8_t)*bytes)) text->at[text->len++] = ' ';
    for (unsigned n = below(most_white + 1); n > 0; n--) text->at[text->len++] = (uint8_t)PICK(white);
    append(text, bytes, len);
}

static inline void put_tokens(struct bytes *text, const char *const *list, size_t n) {
    for (size_t i = 0; i < n; i++) put_token(text, list[i]);
}

#define TOKENS(text, ...) put_tokens(text, (const char *const[]){__VA_ARGS__}, sizeof((const char *const[]){__VA_ARGS__}) / sizeof(const char *))

static inline void put_number(struct bytes *text, unsigned value) {
    char digits[16];
    snprintf(digits, sizeof digits, "%u", value);
    put_token(text, digits);
}

static void draw_label(struct bytes *text, unsigned propositions, unsigned levels);

static void draw_operand(struct bytes *text, unsigned propositions, unsigned levels) {
    switch (levels ? below(4) : 3) {
    case 0: put_token(text, "!"), draw_operand(text, propositions, levels - 1); break;
    case 1: put_token(text, "("), draw_label(text, propositions, levels - 1), put_token(text, ")"); break;
    default:
        if (propositions && chance(7, 8)) put_number(text, below(propositions));
        else put_token(text, chance(1, 2) ? "t" : "f");
    }
}

/* Chains of conjunctions of operands, which have labels of fewer levels in them. */
static void draw_label(struct bytes *text, unsigned propositions, unsigned levels) {
    const unsigned lengths[] = {1, 1, 1, 2, 2, 3};
    for (unsigned parts = PICK(lengths); parts > 0; parts--) {
        for (unsigned operands = PICK(lengths); operands > 0; operands--) {
            draw_operand(text, propositions, levels);
            if (operands > 1) put_token(text, "&");
        }
        if (parts > 1) put_token(text, "|");
    }
}

/* An operand with about as many openings around it as there may be. */
static inline void draw_nested(struct bytes *text) {
    unsigned depth = between(NESTED - 2, NESTED + 1), pairs = 0;
    for (unsigned i = 0; i < depth; i++) {
        int is_pair = chance(1, 2);
        put_token(text, is_pair ? "(" : "!"), pairs += (unsigned)is_pair;
    }
    put_token(text, "t");
    while (pairs-- > 0) put_token(text, ")");
}

/* A chain of so many operands. */
static inline void long_chain(struct bytes *text, unsigned operands) {
    const char *sign = chance(1, 2) ? "|" : "&";
    for (unsigned i = 0; i < operands; i++) put_token(text, i ? sign : ""), put_token(text, chance(1, 2) ? "t" : "!f");
}

static inline void draw_edge(struct bytes *text, unsigned states, unsigned propositions) {
    put_token(text, "[");
    if (chance(1, 40)) draw_nested(text);
    else draw_label(text, propositions, below(3));
    put_token(text, "]"), put_number(text, below(states));
}

static inline void draw_header(struct bytes *text, unsigned states, unsigned propositions) {
    const char *const names[] = {"\"a\"", "\"\"", "\"p q\"", "\"!&|()[]{}:\"", "\"--END--\""};
    text->len = 0;
    TOKENS(text, "HOA:", "v1", "States:"), put_number(text, states), put_token(text, "Start:"), put_number(text, below(states));
    put_token(text, "AP:"), put_number(text, propositions);
    for (unsigned i = 0; i < propositions; i++) put_token(text, PICK(names));
    if (chance(1, 2)) TOKENS(text, "acc-name:", "Buchi");
    TOKENS(text, "Acceptance:", "1", "Inf", "(", "0", ")", "--BODY--");
}

/* A text with some of its states, in any order. */
static inline void draw_text(struct bytes *text) {
    unsigned states = draw_states(), propositions = below(PROPOSITIONS + 1), first = below(states), most = between(1, 6);
    most_white = below(3);
    draw_header(text, states, propositions);
    for (unsigned i = 0; i < states; i++) {
        if (chance(1, 8)) continue;
        put_token(text, "State:"), put_number(text, (first + i) % states);
        if (chance(1, 2)) TOKENS(text, "{", "0", "}");
        for (unsigned edges = below(most + 1); edges > 0; edges--) draw_edge(text, states, propositions);
    }
    put_token(text, "--END--"), put_token(text, "");
}

/* A text of every transition of so many states and propositions, or one with a long label. */
static inline void draw_large_text(struct bytes *text, unsigned states, unsigned propositions) {
    int is_chain = chance(1, 2);
    most_white = below(2);
    draw_header(text, states, propositions);
    for (unsigned q = 0; q < (is_chain ? 1 : states); q++) {
        put_token(text, "State:"), put_number(text, q), TOKENS(text, "{", "0", "}");
        for (unsigned to = 0; to < (is_chain ? 1 : states); to++) {
            put_token(text, "[");
            if (is_chain) long_chain(text, 10000);
            else put_token(text, "t");
            put_token(text, "]"), put_number(text, to);
        }
    }
    put_token(text, "--END--");
}

/* Puts bytes in place of so many at a place of the text, if there is room. */
static inline void replace(struct bytes *text, size_t place, size_t old, const char *bytes, size_t len) {
    if (text->len - old + len > ROOM) return;
    memmove(text->at + place + len, text->at + place + old, text->len - place - old);
    memcpy(text->at + place, bytes, len), text->len += len - old;
}

/* Changes one of the text's numbers: longer, with leading zeros, or another one. */
static inline void spoil_number(struct bytes *text) {
    const char *const numbers[] = {"0", "1", "4", "5", "9", "31", "32", "33", "256", "4294967296", "18446744073709551617"};
    size_t place = below((unsigned)text->len), len = 0;
    while (place > 0 && (text->at[place] < '0' || text->at[place] > '9')) place--;
    const char *other = chance(1, 2) ? PICK(numbers) : chance(1, 2) ? "0" : "1000";
    if (chance(1, 2)) len = 1;
    replace(text, place, len, other, strlen(other));
}

/* Changes a text in one way; most of them make it one that cannot be read. */
static inline void spoil_text(struct bytes *text) {
    const char bytes[] = " \t\n\r\v0123459!&|()[]{}\":-tf\\ASHIv";
    char byte = chance(3, 4) ? bytes[below(sizeof bytes)] : (char)bits();
    size_t place = text->len ? below((unsigned)text->len) : 0;
    if (!text->len) return;
    switch (below(8)) {
    case 0: text->at[place] = (uint8_t)byte; break;
    case 1: text->at[place] ^= (uint8_t)(1u << below(8)); break;
    case 2: replace(text, place, 1, "", 0); break;
    case 3: replace(text, place, 0, &byte, 1); break;
    case 4: byte = (char)text->at[place], replace(text, place, 0, &byte, 1); break;
    case 5: text->len = place; break;
    default: spoil_number(text);
    }
}

#endif
