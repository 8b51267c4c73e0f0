/* contain FIRST SECOND BOUND: is the first automaton contained in the second at the bound? Prints one line, with the word that shows a
   difference. */
#include "files.h"

static struct file first, second;
static uint8_t work[EDITION_MAX_WORK], word[EDITION_MAX_WORD];

int main(int argc, char **argv) {
    if (argc != 4) {
        fprintf(stderr, "usage: contain FIRST SECOND BOUND\n");
        return STATUS_WRONG_USE;
    }
    read_file(argv[1], &first);
    read_file(argv[2], &second);
    uint64_t number = contain(first.bytes, first.len, second.bytes, second.len, read_bound(argv[3]), work, sizeof work, word, sizeof word);
    if (edition_refusal(number)) return print_refusal(number);
    if (edition_kind(number) == EDITION_CONTAINED) {
        printf("contained %zu\n", edition_contain_count(number));
        return STATUS_YES;
    }
    printf("differs %zu", edition_contain_count(number));
    print_word(word, edition_contain_word(number));
    printf("\n");
    return STATUS_NO;
}
