/* write FILE: writes the file's automaton in the fixed form to standard output. */
#include "files.h"

static struct file file;
static uint8_t out[EDITION_MAX_FILE];

int main(int argc, char **argv) {
    if (argc != 2) {
        fprintf(stderr, "usage: write FILE\n");
        return STATUS_WRONG_USE;
    }
    read_file(argv[1], &file);
    return put_written(file_write(file.bytes, file.len, out, sizeof out), out);
}
