/* Reads a text from the first argument, lists its matchings, and writes the molecule kekulized by the first. */
#include "balsa.h"

#include <stdio.h>
#include <string.h>

int main(int argc, char **argv) {
    static int32_t atoms[BALSA_ATOM_TABLE], bonds[BALSA_BOND_TABLE];
    static uint8_t row[BALSA_ROW], out[BALSA_TEXT];
    static uint16_t ren[BALSA_RENUMBERING];
    const char *text = argc > 1 ? argv[1] : "c1ccccc1";

    balsa_read_reply r = balsa_read((const uint8_t *)text, strlen(text), atoms, BALSA_ATOM_TABLE,
                                    bonds, BALSA_BOND_TABLE);
    if (r.code != 0) {
        printf("refusal %u at %zu: %s\n", r.code, r.place, balsa_refusal_text(r.code));
        return 1;
    }
    printf("%zu atoms, %zu bonds\n", r.atoms, r.bonds);
    uint32_t c = balsa_first(atoms, BALSA_ATOM_TABLE, bonds, BALSA_BOND_TABLE, r.atoms, r.bonds, row,
                             BALSA_ROW);
    while (c == 0) {
        for (size_t b = 0; b < r.bonds; b++) {
            putchar('0' + row[b]);
        }
        putchar('\n');
        c = balsa_next(atoms, BALSA_ATOM_TABLE, bonds, BALSA_BOND_TABLE, r.atoms, r.bonds, row,
                       BALSA_ROW);
    }
    balsa_first(atoms, BALSA_ATOM_TABLE, bonds, BALSA_BOND_TABLE, r.atoms, r.bonds, row, BALSA_ROW);
    balsa_kekulize(atoms, BALSA_ATOM_TABLE, bonds, BALSA_BOND_TABLE, r.atoms, r.bonds, row, BALSA_ROW);
    balsa_write_reply w = balsa_write(atoms, BALSA_ATOM_TABLE, bonds, BALSA_BOND_TABLE, r.atoms,
                                      r.bonds, out, BALSA_TEXT, ren, BALSA_RENUMBERING);
    if (w.code != 0) {
        printf("refusal %u: %s\n", w.code, balsa_refusal_text(w.code));
        return 1;
    }
    printf("%.*s\n", (int)w.length, (const char *)out);
    return 0;
}
