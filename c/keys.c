/* The keys of the texts on the lines of standard input: what the tool `balsa key` prints. A refused text is left out. */
#define _POSIX_C_SOURCE 200809L
#include "balsa.h"

#include <inttypes.h>
#include <stdio.h>
#include <stdlib.h>
#include <sys/types.h>

static int32_t atoms[BALSA_ATOM_TABLE], bonds[BALSA_BOND_TABLE];

int main(void) {
    char *line = NULL;
    size_t room = 0;
    unsigned long number = 0;
    ssize_t length;
    while ((length = getline(&line, &room, stdin)) > 0) {
        number++;
        size_t text = (size_t)length - (line[length - 1] == '\n');
        balsa_read_reply r = balsa_read((const uint8_t *)line, text, atoms, BALSA_ATOM_TABLE, bonds,
                                        BALSA_BOND_TABLE);
        if (r.code != BALSA_ACCEPTED) {
            continue;
        }
        balsa_key_reply k = balsa_key(atoms, BALSA_ATOM_TABLE, bonds, BALSA_BOND_TABLE, r.atoms, r.bonds);
        if (k.code == BALSA_ACCEPTED) {
            printf("%lu: %016" PRIx64 "\n", number, k.key);
        }
    }
    free(line);
    return 0;
}
