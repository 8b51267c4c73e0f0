/* entry FILE STEP...: opens an entry with the file and takes the steps in order, a line each. A step is `offer FILE BOUND` or
   `ask STEM LOOP`, the letters in decimal with commas between them, '' for the empty stem. The exit status is the last step's. */
#include "files.h"

static uint8_t entry[EDITION_ENTRY_BYTES]; /* all zero: fresh */
static struct file file;
static uint8_t work[EDITION_MAX_WORK], word[EDITION_MAX_WORD];

static int open_with(const char *name) {
    read_file(name, &file);
    uint64_t number = entry_open(entry, sizeof entry, file.bytes, file.len);
    if (edition_refusal(number)) return print_refusal(number);
    printf("opened states %u letters %u\n", edition_states(entry), edition_letters(entry));
    return STATUS_YES;
}

static int offer(const char *name, const char *bound) {
    read_file(name, &file);
    uint64_t number =
        entry_offer(entry, sizeof entry, file.bytes, file.len, read_bound(bound), work, sizeof work, word, sizeof word);
    if (edition_refusal(number)) return print_refusal(number);
    if (edition_kind(number) == EDITION_TAKEN) {
        printf("taken edition %u states %u of %u walks %zu %zu\n", (unsigned)edition_number(entry), edition_states(entry),
               edition_first_states(entry), edition_offer_forward(number), edition_offer_back(number));
        return STATUS_YES;
    }
    printf(edition_kind(number) == EDITION_FORWARD ? "forward" : "back");
    print_word(word, edition_offer_word(number));
    printf("\n");
    return STATUS_NO;
}

/* The letters of a word, and how many; or the end of the program. */
static size_t letters(const char *text, uint8_t *to) {
    size_t len = 0;
    for (const char *at = text; *at; at += *at == ',') {
        char *end = NULL;
        unsigned long letter = strtoul(at, &end, 10);
        if (*at < '0' || *at > '9' || letter > 255 || (*end && *end != ',') || len == EDITION_MAX_LASSO) {
            fprintf(stderr, "%s is no word\n", text);
            exit(STATUS_WRONG_USE);
        }
        to[len++] = (uint8_t)letter;
        at = end;
    }
    return len;
}

static int ask(const char *stem_text, const char *loop_text) {
    static uint8_t stem[EDITION_MAX_LASSO], loop[EDITION_MAX_LASSO];
    size_t stem_len = letters(stem_text, stem), loop_len = letters(loop_text, loop);
    uint64_t number = entry_verdict(entry, sizeof entry, stem, stem_len, loop, loop_len);
    if (edition_refusal(number)) return print_refusal(number);
    printf(edition_kind(number) == EDITION_YES ? "yes\n" : "no\n");
    return edition_kind(number) == EDITION_YES ? STATUS_YES : STATUS_NO;
}

static int wrong_use(void) {
    fprintf(stderr, "usage: entry FILE [offer FILE BOUND | ask STEM LOOP]...\n");
    return STATUS_WRONG_USE;
}

static int step(char **words) {
    if (strcmp(words[0], "offer") == 0) return offer(words[1], words[2]);
    if (strcmp(words[0], "ask") == 0) return ask(words[1], words[2]);
    return wrong_use();
}

int main(int argc, char **argv) {
    if (argc % 3 != 2) return wrong_use();
    int status = open_with(argv[1]);
    for (int i = 2; i < argc && status != STATUS_WRONG_USE; i += 3) status = step(argv + i);
    return status;
}
