/* The report of standard input, line by line through the single calls: what the program `report` writes.
 * lines [LENGTH]: texts within the limit are read in pieces of so many bytes. */
#define _POSIX_C_SOURCE 200809L
#include "balsa.h"

#include <stdio.h>
#include <stdlib.h>
#include <sys/types.h>

static int32_t atoms[BALSA_ATOM_TABLE], bonds[BALSA_BOND_TABLE];
static uint8_t row[BALSA_ROW], out[BALSA_TEXT];
static uint16_t ren[BALSA_RENUMBERING];

/* Reads a text in pieces of so many bytes, up to its end or a refusal. */
static balsa_read_reply read_in_pieces(const uint8_t *text, size_t length, size_t piece) {
    balsa_fed f = balsa_start(atoms, BALSA_ATOM_TABLE, bonds, BALSA_BOND_TABLE);
    for (size_t at = 0; at < length && f.code == BALSA_ACCEPTED; at += piece) {
        size_t here = length - at < piece ? length - at : piece;
        f = balsa_feed(f.state, text + at, here, atoms, BALSA_ATOM_TABLE, bonds, BALSA_BOND_TABLE);
    }
    f = balsa_end(f.state, atoms, BALSA_ATOM_TABLE, bonds, BALSA_BOND_TABLE);
    return (balsa_read_reply){f.code, f.place, f.atoms, f.bonds, f.overfull};
}

/* Reads a text whole where no length is given or the text is over the limit: there 2 comes first. */
static balsa_read_reply read_text(const uint8_t *text, size_t length, size_t piece) {
    if (piece > 0 && length <= BALSA_TEXT) {
        return read_in_pieces(text, length, piece);
    }
    return balsa_read(text, length, atoms, BALSA_ATOM_TABLE, bonds, BALSA_BOND_TABLE);
}

/* A refusal of the calls after reading has place 0. */
static uint32_t refused(uint32_t code, size_t place) {
    printf("%u %zu\n", code, place);
    return code;
}

/* Prints what is said of a text; its refusal or 0. */
static uint32_t say(const uint8_t *text, size_t length, size_t piece) {
    balsa_read_reply r = read_text(text, length, piece);
    if (r.code != BALSA_ACCEPTED) {
        return refused(r.code, r.place);
    }
    uint32_t code = balsa_first(atoms, BALSA_ATOM_TABLE, bonds, BALSA_BOND_TABLE, r.atoms, r.bonds,
                                row, BALSA_ROW);
    if (code == BALSA_ACCEPTED) {
        code = balsa_kekulize(atoms, BALSA_ATOM_TABLE, bonds, BALSA_BOND_TABLE, r.atoms, r.bonds,
                              row, BALSA_ROW);
    }
    if (code != BALSA_ACCEPTED) {
        return refused(code, 0);
    }
    balsa_write_reply w = balsa_write(atoms, BALSA_ATOM_TABLE, bonds, BALSA_BOND_TABLE, r.atoms,
                                      r.bonds, out, BALSA_TEXT, ren, BALSA_RENUMBERING);
    if (w.code != BALSA_ACCEPTED) {
        return refused(w.code, 0);
    }
    printf("0 %zu %zu %zu ", r.atoms, r.bonds, r.overfull);
    for (size_t b = 0; b < r.bonds; b++) {
        putchar('0' + row[b]);
    }
    printf("%s %.*s%s\n", r.bonds == 0 ? "-" : "", (int)w.length, (const char *)out,
           w.length == 0 ? "-" : "");
    return BALSA_ACCEPTED;
}

int main(int argc, char **argv) {
    size_t piece = argc > 1 ? strtoul(argv[1], NULL, 10) : 0;
    char *line = NULL;
    size_t room = 0;
    unsigned long number = 0, refusals = 0;
    ssize_t length;
    puts("balsa report");
    while ((length = getline(&line, &room, stdin)) > 0) {
        printf("%lu: ", ++number);
        size_t text = (size_t)length - (line[length - 1] == '\n');
        refusals += say((const uint8_t *)line, text, piece) != BALSA_ACCEPTED;
    }
    printf("accepted %lu refused %lu\n", number - refusals, refusals);
    free(line);
    return 0;
}
