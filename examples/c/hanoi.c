/* hanoi TEXT: writes the automaton of a Hanoi text in the fixed form to standard output. */
#include "files.h"

static struct file text;
static uint8_t out[EDITION_MAX_FILE];

int main(int argc, char **argv) {
    if (argc != 2) {
        fprintf(stderr, "usage: hanoi TEXT\n");
        return STATUS_WRONG_USE;
    }
    read_file(argv[1], &text);
    return put_written(hanoi_write(text.bytes, text.len, out, sizeof out), out);
}
