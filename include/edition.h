/* The Büchi edition checker: the six functions of libkernel.a, and what takes their numbers apart.

   Link with target/staticlib/libkernel.a, which `tools/archive` writes. It needs memcpy, memmove, memset and memcmp at most.

   Arguments. A buffer is a pointer and its length in bytes; NULL goes with length 0. Any contents are answered, and any length below
   2^63: the proofs are about these, and no object in memory is longer. A buffer that a function writes (entry of open and offer,
   work, word, out) overlaps no other argument; those that it only reads may overlap each other.

   What is left alone. A refusal leaves every byte of `entry`, of `word` and of `out` as it was, and of `work` too, except that 10 and
   11 leave the slots of the walks made. `word` is written only where a word is given back, and the bytes past the word keep their
   contents; so do the bytes of `work` past the slots, and those of `out` past the file that is written.

   Threads. There are no global variables and no allocation: calls on buffers of their own may run at the same time.

   Stack. Within 64 KiB, and within 128 bytes more for each letter of the word that contain or entry_offer gives back, which may be
   EDITION_MAX_WORD letters: 576 KiB are enough for every call. A thread with less lends a shorter `word`: a word that does not fit
   is refused with 11 before any of it is read back. file_write stays within 4 KiB, hanoi_write within 32 KiB, whatever the text. What
   is measured stands in docs/reference.md, "The boundary for vendors". */
#ifndef EDITION_H
#define EDITION_H

#include <stddef.h>
#include <stdint.h>

/* The version: for people, and as a number to compare, 10000 * major + 100 * minor + patch. */
#define EDITION_VERSION "0.5.0"
#define EDITION_VERSION_NUMBER 500

#ifdef __cplusplus
extern "C" {
#endif

/* Limits. A longer work, word or out buffer is allowed. */
#define EDITION_MAX_STATES 32  /* of an automaton */
#define EDITION_MAX_LETTERS 16 /* of an automaton */
#define EDITION_MAX_PROPOSITIONS 4 /* of a Hanoi text */
#define EDITION_MAX_BOUND 14   /* a larger one is refused with 8 */
#define EDITION_MAX_LASSO 4096 /* letters of a stem, and of a loop */
#define EDITION_SLOT_BYTES 40  /* one listed vertex in the work buffer */
#define EDITION_MAX_SLOTS 4096 /* more slots are not used */
#define EDITION_MAX_WORK (EDITION_MAX_SLOTS * EDITION_SLOT_BYTES) /* bytes of the largest useful work buffer */
#define EDITION_MAX_WORD 4096  /* letters of a word: a word buffer of this length is never too short */
#define EDITION_ENTRY_BYTES 2061 /* an entry; one whose bytes are all zero is fresh, that is empty */
#define EDITION_MAX_FILE 82023 /* bytes of a file: an output buffer of this length is never too short. A Hanoi text may be longer */

/* Kinds of answers. A kind of 100 or more is a refusal, see edition_refusal. */
enum edition_contain_kind { EDITION_CONTAINED = 0, EDITION_DIFFERS = 1 };
enum edition_open_kind { EDITION_OPENED = 0 };
enum edition_offer_kind { EDITION_TAKEN = 0, EDITION_FORWARD = 1, EDITION_BACK = 2 };
enum edition_verdict_kind { EDITION_NO = 0, EDITION_YES = 1 };
enum edition_write_kind { EDITION_WROTE = 0 };

/* Refusals. */
enum edition_refusal_number {
    EDITION_REFUSED_FILE_ENDS = 1,    /* the file stops before its end record */
    EDITION_REFUSED_MARK = 2,         /* a mark is unknown or misplaced, or bytes follow the end record */
    EDITION_REFUSED_HEADER = 3,       /* a header value is outside its range. Of a text: States is not 1 to 32, or Start not below it */
    EDITION_REFUSED_OUTSIDE = 4,      /* a state or letter is not in the header. Of a text: a state or target is not below States */
    EDITION_REFUSED_REPEATED = 5,     /* an accepting or transition record is repeated */
    EDITION_REFUSED_DEAD = 6,         /* a reachable state reaches no accepting state that lies on a cycle */
    EDITION_REFUSED_LETTERS = 7,      /* the letter counts differ */
    EDITION_REFUSED_BOUND = 8,        /* the bound is above EDITION_MAX_BOUND */
    EDITION_REFUSED_MALFORMED = 9,    /* these bytes are no entry, or one that no list of calls makes */
    EDITION_REFUSED_SLOTS = 10,       /* the walk needs more slots: call again with more work bytes */
    EDITION_REFUSED_WORD = 11,        /* the word buffer is shorter than the word: call again with the length given */
    EDITION_REFUSED_ALREADY_OPEN = 12, /* the entry holds an edition already */
    EDITION_REFUSED_EMPTY = 13,       /* the entry is empty */
    EDITION_REFUSED_NOT_SMALLER = 14, /* no fewer states, and not as many with fewer transitions; or no edition number is left */
    EDITION_REFUSED_LASSO = 15,       /* the loop is empty, stem or loop is over EDITION_MAX_LASSO, or a letter is not the automaton's */
    EDITION_REFUSED_ROOM = 16,        /* the output buffer is shorter than the file: call again with the length given */
    EDITION_REFUSED_TEXT = 17,        /* the text is outside the subset of the Hanoi format, or has a proposition that AP lacks */
    EDITION_REFUSED_PROPOSITIONS = 18 /* the text has more than EDITION_MAX_PROPOSITIONS propositions */
};

/* Is the first file's automaton contained in the second's at the bound? The number has a kind, a count and a word length:
     EDITION_CONTAINED   count: the vertices of the walk
     EDITION_DIFFERS     count: the place of the final vertex; word length: the letters of the word that shows the difference, which
                         stands in front in `word`
     refusals 1 to 6     count: which file, 1 or 2
     refusal 10          count: the slots that there were
     refusal 11          word length: the length needed
   `work` holds the walk's slots afterwards, also with 10 and 11. */
uint64_t contain(const uint8_t *first, size_t first_len, const uint8_t *second, size_t second_len, uint64_t bound,
                 uint8_t *work, size_t work_len, uint8_t *word, size_t word_len);

/* Opens an empty entry with the file's automaton as edition 0: EDITION_OPENED or a refusal (9, 12, 1 to 6), which changes no byte. */
uint64_t entry_open(uint8_t *entry, size_t entry_len, const uint8_t *file, size_t file_len);

/* Offers the file's automaton as the next edition of the entry. The forward walk asks whether the held automaton is contained in
   the offer at the bound, the back walk whether the offer is contained in the held one.
     EDITION_TAKEN     the entry holds the offer, its edition number is one more; both counts
     EDITION_FORWARD   a word of the held automaton that the offer does not follow, in front in `word`; forward count
     EDITION_BACK      a word of the offer that the held automaton does not follow, in front in `word`; both counts
     refusal 10        the walk, and the slots that there were as that walk's count
     refusal 11        the walk, and the length needed as word length
   Only EDITION_TAKEN changes the entry. `work` holds the slots of the last walk made afterwards, also with 10 and 11, and past them
   those of a longer walk before it. Other refusals: 9, 13, 1 to 5, 8, 7, 6, 14, tested in this order. */
uint64_t entry_offer(uint8_t *entry, size_t entry_len, const uint8_t *file, size_t file_len, uint64_t bound,
                     uint8_t *work, size_t work_len, uint8_t *word, size_t word_len);

/* Does the held automaton accept the stem followed by the loop without end? EDITION_YES, EDITION_NO or a refusal (9, 13, 15). A letter
   is one byte. */
uint64_t entry_verdict(const uint8_t *entry, size_t entry_len, const uint8_t *stem, size_t stem_len,
                       const uint8_t *loop, size_t loop_len);

/* Writes the file's automaton in the fixed form: the header; the accepting records by state and the transition records by source, then
   letter, then target, lowest first; the end record. The number has a kind and a length:
     EDITION_WROTE     length: the bytes of the file written, which stands in front in `out`
     refusals 1 to 5   the file cannot be read; there is no length
     refusal 16        length: the bytes that `out` must have; tested after 1 to 5. An `out` as long as the file is never too short, nor
                       is one of EDITION_MAX_FILE bytes
   Files that hold the same automaton come out alike, and a file in the fixed form as it is. A dead state is no obstacle. */
uint64_t file_write(const uint8_t *file, size_t file_len, uint8_t *out, size_t out_len);

/* Writes the automaton of a text in the Hanoi Omega-Automata format, version 1, in the fixed form. Of that format a subset is read: at
   most 32 states, one of them initial, and 4 propositions; Büchi acceptance on states; a label and one target for every edge. The
   automaton has 2 to the power of the number of propositions as its letter count, and proposition 0 is the lowest bit of a letter. It
   has a transition for each edge and each letter at which the edge's label is true; edges may overlap. The number has a kind and a length:
     EDITION_WROTE           length: the bytes of the file written, which stands in front in `out`
     refusals 3, 4, 17, 18   the text cannot be read, and this is its first fault; there is no length
     refusal 16              length: the bytes that `out` must have; tested after the others. An `out` of EDITION_MAX_FILE bytes is
                             never too short
   A dead state is no obstacle. docs/reference.md, "Hanoi files", has the subset to the byte. */
uint64_t hanoi_write(const uint8_t *text, size_t text_len, uint8_t *out, size_t out_len);

/* Parts of a number. A part that an answer lacks is 0. */

/* The kind, of any of the six functions' numbers. */
static inline unsigned edition_kind(uint64_t number) { return (unsigned)(number & 0xff); }

/* The refusal, a number of enum edition_refusal_number, or 0 if the call was not refused. */
static inline unsigned edition_refusal(uint64_t number) {
    return edition_kind(number) >= 100 ? edition_kind(number) - 100 : 0;
}

/* contain: the count (with refusals 1 to 6, the file). */
static inline size_t edition_contain_count(uint64_t number) { return (size_t)(number >> 8 & 0xffff); }

/* contain: the letters of the word (with refusal 11, the length needed). */
static inline size_t edition_contain_word(uint64_t number) { return (size_t)(number >> 24); }

/* entry_offer: the forward walk's count. */
static inline size_t edition_offer_forward(uint64_t number) { return (size_t)(number >> 8 & 0xffff); }

/* entry_offer: the back walk's count. */
static inline size_t edition_offer_back(uint64_t number) { return (size_t)(number >> 24 & 0xffff); }

/* entry_offer: the letters of the word (with refusal 11, the length needed). */
static inline size_t edition_offer_word(uint64_t number) { return (size_t)(number >> 40 & 0xffff); }

/* entry_offer: with refusals 10 and 11 the walk, 1 forward or 2 back. */
static inline unsigned edition_offer_walk(uint64_t number) { return (unsigned)(number >> 56); }

/* file_write and hanoi_write: the bytes of the file that is written (with refusal 16, the length needed). */
static inline size_t edition_written_length(uint64_t number) { return (size_t)(number >> 8); }

/* Fields of an entry of EDITION_ENTRY_BYTES bytes that the functions above wrote. The fields of an empty entry mean nothing. */

/* 1 if the entry holds an edition, 0 if it is empty. */
static inline int edition_is_open(const uint8_t *entry) { return entry[0] == 1; }

/* States of the held automaton. */
static inline unsigned edition_states(const uint8_t *entry) { return entry[1]; }

/* Letters of the held automaton. */
static inline unsigned edition_letters(const uint8_t *entry) { return entry[2]; }

/* States of the first edition. */
static inline unsigned edition_first_states(const uint8_t *entry) { return entry[4]; }

/* The edition number: 0 after open, one more after each offer that was taken. */
static inline uint32_t edition_number(const uint8_t *entry) {
    return (uint32_t)entry[5] | (uint32_t)entry[6] << 8 | (uint32_t)entry[7] << 16 | (uint32_t)entry[8] << 24;
}

#ifdef __cplusplus
}
#endif

#endif
