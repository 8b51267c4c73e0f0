/* Numbers drawn from a seed: the same seed gives the same numbers. */
#ifndef TESTS_COMPARE_RANDOM_H
#define TESTS_COMPARE_RANDOM_H

#include <stddef.h>
#include <stdint.h>

static uint64_t random_state;

static inline uint64_t bits(void) {
    uint64_t z = random_state += 0x9e3779b97f4a7c15;
    z = (z ^ z >> 30) * 0xbf58476d1ce4e5b9;
    z = (z ^ z >> 27) * 0x94d049bb133111eb;
    return z ^ z >> 31;
}

static inline unsigned below(unsigned n) { return (unsigned)(bits() % n); }

static inline unsigned between(unsigned low, unsigned high) { return low + below(high - low + 1); }

/* True so many times of so many. */
static inline int chance(unsigned part, unsigned whole) { return below(whole) < part; }

/* One of an array's elements. */
#define PICK(array) ((array)[below(sizeof(array) / sizeof *(array))])

#endif
