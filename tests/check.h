/* What the C tests share: files, made record by record or read from examples/, and checks that are counted. */
#ifndef TESTS_CHECK_H
#define TESTS_CHECK_H

#include <edition.h>
#include <stdio.h>
#include <stdlib.h>
#include <string.h>

struct file {
    uint8_t bytes[4096];
    size_t len;
};

static inline void put(struct file *f, const uint8_t *bytes, size_t len) { memcpy(f->bytes + f->len, bytes, len), f->len += len; }

static inline struct file header(uint8_t states, uint8_t letters, uint8_t initial) {
    struct file f = {{0x41, 0x48, states, letters, initial}, 5};
    return f;
}

static inline void accepting(struct file *f, uint8_t q) {
    const uint8_t record[] = {0x41, 0x46, q};
    put(f, record, sizeof record);
}

static inline void transition(struct file *f, uint8_t from, uint8_t letter, uint8_t to) {
    const uint8_t record[] = {0x41, 0x54, from, letter, to};
    put(f, record, sizeof record);
}

static inline void end(struct file *f) {
    const uint8_t record[] = {0x41, 0x45};
    put(f, record, sizeof record);
}

/* A chain of n states, the last one looping; all states accept, or only the last. */
static inline struct file chain(uint8_t n, uint8_t letters, int all) {
    struct file f = header(n, letters, 0);
    for (unsigned i = 0; i < (unsigned)n * letters; i++) {
        uint8_t q = (uint8_t)(i / letters), letter = (uint8_t)(i % letters), last = q + 1 == n;
        if (letter == 0 && (all || last)) accepting(&f, q);
        transition(&f, q, letter, (uint8_t)(last ? q : q + 1));
    }
    end(&f);
    return f;
}

/* A file of the examples, or the end of the test. */
static inline struct file example(const char *path) {
    struct file f = {{0}, 0};
    FILE *in = fopen(path, "rb");
    if (!in) {
        printf("%s cannot be read\n", path);
        exit(2);
    }
    f.len = fread(f.bytes, 1, sizeof f.bytes, in);
    fclose(in);
    return f;
}

static int failures, checks;

static inline void check(const char *name, int ok) {
    checks++;
    if (!ok) failures++;
    printf("%s: %s\n", ok ? "ok" : "FAILED", name);
}

enum { FILL = 0xa5 };

/* Whether the bytes are still those of a filled buffer. */
static inline int kept(const uint8_t *from, size_t n) {
    for (size_t i = 0; i < n; i++)
        if (from[i] != FILL) return 0;
    return 1;
}

/* The last line of a test, and its exit status. */
static inline int conclude(const char *name) {
    printf("%s: %d checks, %d failed\n", name, checks, failures);
    return failures != 0;
}

#endif
