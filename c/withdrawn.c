/* Whether the texts on the lines of standard input are withdrawn by the register in a file: what the tool `balsa withdrawn` prints. A refused text is left out.
 * withdrawn FILE; the exit status is 0 where all are clear, 1 where one is not, 2 where there is no such register. */
#define _POSIX_C_SOURCE 200809L
#include "balsa.h"

#include <stdio.h>
#include <stdlib.h>
#include <sys/types.h>

static uint8_t reg[BALSA_REGISTER];

/* The register of a file; its length. */
static size_t load(const char *path) {
    FILE *file = fopen(path, "rb");
    if (file == NULL) {
        return 0;
    }
    size_t length = fread(reg, 1, sizeof reg, file);
    fclose(file);
    return length;
}

/* Prints what is said of a text; whether it may be released. */
static int is_released(unsigned long line, const char *text, size_t length) {
    balsa_withdrawn_reply w = balsa_withdrawn(reg, sizeof reg, (const uint8_t *)text, length);
    if (BALSA_IS_CLEAR(w)) {
        printf("%lu: clear\n", line);
    } else if (w.code == BALSA_ACCEPTED && w.answer == BALSA_WITHDRAWN) {
        printf("%lu: withdrawn, entry %zu, tag %u\n", line, w.entry, w.tag);
    } else if (w.code == BALSA_ACCEPTED) {
        printf("%lu: undecided, entry %zu\n", line, w.entry);
    }
    return BALSA_IS_CLEAR(w);
}

int main(int argc, char **argv) {
    if (argc != 2 || balsa_register_entry(reg, load(argv[1]), 0).code != BALSA_ACCEPTED) {
        fputs("withdrawn FILE: a file with a register\n", stderr);
        return 2;
    }
    char *line = NULL;
    size_t room = 0;
    unsigned long number = 0, released = 0;
    ssize_t length;
    while ((length = getline(&line, &room, stdin)) > 0) {
        size_t text = (size_t)length - (line[length - 1] == '\n');
        released += (unsigned long)is_released(++number, line, text);
    }
    free(line);
    return released < number;
}
