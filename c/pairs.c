/* Whether the two texts on each line of standard input, with a tab between them, are the same compound: what the tool `balsa same` prints. A refused pair is left out. */
#define _POSIX_C_SOURCE 200809L
#include "balsa.h"

#include <stdio.h>
#include <stdlib.h>
#include <string.h>
#include <sys/types.h>

/* A molecule in its tables, and its row. */
typedef struct {
    int32_t atoms[BALSA_ATOM_TABLE], bonds[BALSA_BOND_TABLE];
    size_t n, m;
    uint8_t row[BALSA_ROW];
} molecule;

static molecule one, other;
static uint16_t ren[BALSA_RENUMBERING];

static uint32_t read_text(const char *text, size_t length, molecule *into) {
    balsa_read_reply r = balsa_read((const uint8_t *)text, length, into->atoms, BALSA_ATOM_TABLE,
                                    into->bonds, BALSA_BOND_TABLE);
    into->n = r.atoms;
    into->m = r.bonds;
    return r.code;
}

/* Prints a row as digits. */
static void put_row(const molecule *from) {
    putchar(' ');
    for (size_t b = 0; b < from->m; b++) {
        putchar('0' + from->row[b]);
    }
    if (from->m == 0) {
        putchar('-');
    }
}

/* Prints what is said of two texts. */
static void say(unsigned long line, const char *text, size_t length, const char *text2, size_t length2) {
    if (read_text(text, length, &one) != BALSA_ACCEPTED ||
        read_text(text2, length2, &other) != BALSA_ACCEPTED) {
        return;
    }
    uint32_t code = balsa_same(one.atoms, BALSA_ATOM_TABLE, one.bonds, BALSA_BOND_TABLE, one.n, one.m,
                               other.atoms, BALSA_ATOM_TABLE, other.bonds, BALSA_BOND_TABLE, other.n,
                               other.m, one.row, BALSA_ROW, other.row, BALSA_ROW, ren,
                               BALSA_RENUMBERING);
    if (code == BALSA_DIFFERENT) {
        printf("%lu: different\n", line);
    } else if (code == BALSA_ACCEPTED) {
        printf("%lu: same", line);
        put_row(&one);
        put_row(&other);
        printf("%s", one.n == 0 ? " -" : "");
        for (size_t a = 0; a < one.n; a++) {
            printf("%c%u", a == 0 ? ' ' : ',', ren[a]);
        }
        putchar('\n');
    }
}

int main(void) {
    char *line = NULL;
    size_t room = 0;
    unsigned long number = 0;
    ssize_t length;
    while ((length = getline(&line, &room, stdin)) > 0) {
        size_t all = (size_t)length - (line[length - 1] == '\n');
        const char *tab = memchr(line, '\t', all);
        if (tab == NULL) {
            return 1;
        }
        size_t first = (size_t)(tab - line);
        say(++number, line, first, tab + 1, all - first - 1);
    }
    free(line);
    return 0;
}
