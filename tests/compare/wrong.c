/* Wrong kernels for the test of tools/compare: the archive's functions, renamed to right_NAME, with the mistake that MISTAKE numbers. */
#include <edition.h>
#include <string.h>

enum { SLOT = EDITION_SLOT_BYTES };

uint64_t right_contain(const uint8_t *, size_t, const uint8_t *, size_t, uint64_t, uint8_t *, size_t, uint8_t *, size_t);
uint64_t right_entry_open(uint8_t *, size_t, const uint8_t *, size_t);
uint64_t right_entry_offer(uint8_t *, size_t, const uint8_t *, size_t, uint64_t, uint8_t *, size_t, uint8_t *, size_t);
uint64_t right_entry_verdict(const uint8_t *, size_t, const uint8_t *, size_t, const uint8_t *, size_t);
uint64_t right_file_write(const uint8_t *, size_t, uint8_t *, size_t);
uint64_t right_hanoi_write(const uint8_t *, size_t, uint8_t *, size_t);

uint64_t contain(const uint8_t *first, size_t first_len, const uint8_t *second, size_t second_len, uint64_t bound, uint8_t *work, size_t work_len,
                 uint8_t *word, size_t word_len) {
    if (MISTAKE == 1 && bound == 15) bound = 14; /* bound 15 passes as 14 */
    if (MISTAKE == 2 && bound == 256) bound = 0; /* the bound is cut to a byte */
    if (MISTAKE == 20 && first_len == 0) first_len = *first; /* a buffer of no bytes is read, also where it is NULL */
    uint64_t number = right_contain(first, first_len, second, second_len, bound, work, work_len, word, word_len);
    size_t count = edition_contain_count(number), letters = edition_contain_word(number);
    unsigned kind = edition_kind(number), refusal = edition_refusal(number);
    if (MISTAKE == 3 && kind == EDITION_CONTAINED && count == EDITION_MAX_SLOTS) number -= 1 << 8; /* the longest list is one too short */
    if (MISTAKE == 4 && kind == EDITION_DIFFERS && letters == EDITION_MAX_WORD) word[letters - 1] ^= 1; /* the last letter of the longest word */
    if (MISTAKE == 5 && kind == EDITION_DIFFERS && letters < word_len) word[letters] = 0; /* the byte behind the word is cleared */
    if (MISTAKE == 6 && refusal == EDITION_REFUSED_WORD && word_len) word[0] = 0; /* a word that does not fit is begun */
    if (MISTAKE == 7 && refusal == EDITION_REFUSED_SLOTS && work_len % SLOT) work[work_len - 1] ^= 1; /* the bytes behind the slots */
    if (MISTAKE == 8 && kind <= EDITION_DIFFERS && count > 0 && count * SLOT <= work_len) work[(count - 1) * SLOT + 39] = 1; /* a slot's last byte */
    if (MISTAKE == 9 && refusal == EDITION_REFUSED_DEAD) number = 100 + EDITION_REFUSED_DEAD + (1 << 8); /* a dead second file is told as first */
    return number;
}

uint64_t entry_open(uint8_t *entry, size_t entry_len, const uint8_t *file, size_t file_len) {
    if (MISTAKE == 10 && file_len == 82023) return 100 + EDITION_REFUSED_FILE_ENDS; /* the longest file is too long */
    uint64_t number = right_entry_open(entry, entry_len, file, file_len);
    unsigned refusal = edition_refusal(number);
    if (MISTAKE == 11 && refusal == EDITION_REFUSED_MALFORMED && entry_len > EDITION_ENTRY_BYTES) entry[entry_len - 1] = 0; /* no entry, and written */
    return number;
}

uint64_t entry_offer(uint8_t *entry, size_t entry_len, const uint8_t *file, size_t file_len, uint64_t bound, uint8_t *work, size_t work_len, uint8_t *word,
                     size_t word_len) {
    if (MISTAKE == 12 && work_len > EDITION_MAX_WORK) work_len = EDITION_MAX_WORK - 1; /* one slot less where there are more bytes than are used */
    if (MISTAKE == 13 && entry_len == EDITION_ENTRY_BYTES && edition_number(entry) == 183070) /* one number less for editions */
        return 100 + EDITION_REFUSED_NOT_SMALLER;
    uint64_t number = right_entry_offer(entry, entry_len, file, file_len, bound, work, work_len, word, word_len);
    if (MISTAKE == 14 && edition_kind(number) == EDITION_TAKEN) entry[4] = entry[1]; /* the first states become the held ones */
    if (MISTAKE == 15 && edition_kind(number) == EDITION_BACK) number &= ~(uint64_t)0xffff00; /* the forward count is lost */
    if (MISTAKE == 16 && edition_refusal(number) == EDITION_REFUSED_WORD) number = (number & 0xffffffffffffff) | (uint64_t)1 << 56; /* always walk 1 */
    return number;
}

uint64_t entry_verdict(const uint8_t *entry, size_t entry_len, const uint8_t *stem, size_t stem_len, const uint8_t *loop, size_t loop_len) {
    if (MISTAKE == 17 && loop_len == EDITION_MAX_LASSO) return 100 + EDITION_REFUSED_LASSO; /* the longest loop is too long */
    if (MISTAKE == 18 && stem_len == EDITION_MAX_LASSO + 1) stem_len--; /* a stem of 4,097 letters passes */
    uint64_t number = right_entry_verdict(entry, entry_len, stem, stem_len, loop, loop_len);
    if (MISTAKE == 19 && number == EDITION_YES && loop_len == 6 && stem_len == 6) number = EDITION_NO; /* some accepted words */
    return number;
}

/* Exchanges the last two transition records of a file, if there are two. */
static void exchange_last(uint8_t *file, size_t len) {
    uint8_t last[5];
    if (len < 7 + 2 * sizeof last || file[len - 11] != 0x54 || file[len - 6] != 0x54) return;
    memcpy(last, file + len - 7, sizeof last), memcpy(file + len - 7, file + len - 12, sizeof last), memcpy(file + len - 12, last, sizeof last);
}

uint64_t file_write(const uint8_t *file, size_t file_len, uint8_t *out, size_t out_len) {
    if (MISTAKE == 21 && edition_refusal(right_contain(file, file_len, file, file_len, 0, NULL, 0, NULL, 0)) == EDITION_REFUSED_DEAD)
        return 100 + EDITION_REFUSED_DEAD; /* dead states are refused */
    if (MISTAKE == 22 && out_len == 0) return 100 + EDITION_REFUSED_ROOM; /* without a buffer the file is not read */
    uint64_t number = right_file_write(file, file_len, out, out_len);
    size_t len = edition_written_length(number);
    unsigned refusal = edition_refusal(number);
    int wrote = refusal == 0;
    if (MISTAKE == 23 && refusal == EDITION_REFUSED_ROOM && out_len) out[0] = 0x41; /* a file that does not fit is begun */
    if (MISTAKE == 24 && refusal == EDITION_REFUSED_ROOM) number = 100 + EDITION_REFUSED_ROOM + ((uint64_t)out_len << 8); /* the room is told, not the need */
    if (MISTAKE == 25 && refusal == EDITION_REFUSED_REPEATED && out_len >= 5) memcpy(out, file, 5); /* the header is written before the file is read */
    if (MISTAKE == 26 && wrote && len == out_len) number = 100 + EDITION_REFUSED_ROOM + ((uint64_t)len << 8); /* the length needed is too short */
    if (MISTAKE == 27 && wrote && len < out_len) out[len] = 0; /* the byte behind the file is cleared */
    if (MISTAKE == 28 && wrote && len == EDITION_MAX_FILE) out[len - 3] ^= 1; /* the last target of the longest file */
    if (MISTAKE == 29 && wrote) memcpy(out, file, len); /* the file is written as it came */
    if (MISTAKE == 30 && wrote) exchange_last(out, len); /* the last two transitions are exchanged */
    return number;
}

/* The text with every byte that is one of two exchanged for the other, or one of them for the other. */
static const uint8_t *exchanged(const uint8_t *text, size_t len, uint8_t one, uint8_t other, int both) {
    static uint8_t copy[1 << 18];
    for (size_t i = 0; i < len; i++) copy[i] = text[i] == one ? other : both && text[i] == other ? one : text[i];
    return copy;
}

uint64_t hanoi_write(const uint8_t *text, size_t text_len, uint8_t *out, size_t out_len) {
    if (MISTAKE == 31 && text_len) text = exchanged(text, text_len, '&', '|', 1); /* & is read as | and | as & */
    if (MISTAKE == 32 && text_len) text = exchanged(text, text_len, '\v', ' ', 0); /* 0B is white space */
    if (MISTAKE == 33 && out_len == 0) return 100 + EDITION_REFUSED_ROOM; /* without a buffer the text is not read */
    if (MISTAKE == 34 && text_len > 30000) return 100 + EDITION_REFUSED_TEXT; /* long texts are refused */
    uint64_t number = right_hanoi_write(text, text_len, out, out_len);
    size_t len = edition_written_length(number);
    unsigned refusal = edition_refusal(number);
    int wrote = refusal == 0;
    if (MISTAKE == 35 && refusal == EDITION_REFUSED_PROPOSITIONS) number = 100 + EDITION_REFUSED_TEXT; /* 17 for 18 */
    if (MISTAKE == 36 && refusal == EDITION_REFUSED_OUTSIDE) number = 100 + EDITION_REFUSED_HEADER; /* 3 for 4 */
    if (MISTAKE == 37 && refusal == EDITION_REFUSED_TEXT && out_len) out[0] = 0x41; /* a file is begun before the text is read */
    if (MISTAKE == 38 && wrote && len < out_len) out[len] = 0; /* the byte behind the file is cleared */
    if (MISTAKE == 39 && wrote && len > 10 && out[6] == 0x46) out[7] ^= 1; /* another state accepts */
    if (MISTAKE == 40 && wrote && len == EDITION_MAX_FILE) out[len - 3] ^= 1; /* the last target of the longest file */
    return number;
}
