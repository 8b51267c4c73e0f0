/* What programs over files need: files in memory, words, and a refusal's line. */
#ifndef EXAMPLES_FILES_H
#define EXAMPLES_FILES_H

#include <edition.h>
#include <stdint.h>
#include <stdio.h>
#include <stdlib.h>
#include <string.h>

/* Exit statuses: yes (contained, opened, taken, written), no (differs, turned down), refused, wrong use or unreadable file. */
enum { STATUS_YES = 0, STATUS_NO = 1, STATUS_REFUSED = 2, STATUS_WRONG_USE = 3 };

struct file {
    uint8_t bytes[1 << 17];
    size_t len;
};

/* Reads a whole file, or ends the program. A valid automaton file has at most EDITION_MAX_FILE bytes; a Hanoi text may be too long. */
static inline void read_file(const char *name, struct file *file) {
    FILE *in = fopen(name, "rb");
    if (!in) {
        fprintf(stderr, "%s cannot be read\n", name);
        exit(STATUS_WRONG_USE);
    }
    file->len = fread(file->bytes, 1, sizeof file->bytes, in);
    int whole = feof(in) && !ferror(in);
    fclose(in);
    if (!whole) {
        fprintf(stderr, "%s is too long or cannot be read\n", name);
        exit(STATUS_WRONG_USE);
    }
}

/* The bound as a number, or the end of the program. */
static inline uint64_t read_bound(const char *text) {
    char *end = NULL;
    unsigned long long bound = strtoull(text, &end, 10);
    if (*text < '0' || *text > '9' || *end) {
        fprintf(stderr, "%s is no bound\n", text);
        exit(STATUS_WRONG_USE);
    }
    return bound;
}

/* Prints a word as the listing does: its letters in decimal after single spaces. */
static inline void print_word(const uint8_t *word, size_t len) {
    printf(" word");
    for (size_t i = 0; i < len; i++) printf(" %u", word[i]);
}

/* Puts the file that a call has written onto standard output. A refusal is told beside it, since nothing else may stand there. */
static inline int put_written(uint64_t number, const uint8_t *out) {
    if (edition_refusal(number)) {
        fprintf(stderr, "refused %u\n", edition_refusal(number));
        return STATUS_REFUSED;
    }
    size_t len = edition_written_length(number);
    if (fwrite(out, 1, len, stdout) == len && fflush(stdout) == 0) return STATUS_YES;
    fprintf(stderr, "the file cannot be written\n");
    return STATUS_WRONG_USE;
}

/* Prints a refusal. */
static inline int print_refusal(uint64_t number) {
    printf("refused %u\n", edition_refusal(number));
    return STATUS_REFUSED;
}

#endif
