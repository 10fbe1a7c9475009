/* Short buffers, null pointers, invalid tables and rubbish rows, through C: each gives its code and leaves what it must.
 * Prints the number of checks, or the first one that fails. */
#include "balsa.h"

#include <limits.h>
#include <stdio.h>
#include <stdlib.h>
#include <string.h>

static int32_t atoms[BALSA_ATOM_TABLE], bonds[BALSA_BOND_TABLE];
static uint8_t row[BALSA_ROW], out[BALSA_TEXT];
static uint16_t ren[BALSA_RENUMBERING], pairs[BALSA_ROW];
static unsigned checks;

static void expect(int holds, const char *what) {
    if (!holds) {
        printf("fails: %s\n", what);
        exit(1);
    }
    checks++;
}

/* Whether every byte of a buffer has this value. */
static int all(const void *buffer, size_t size, unsigned char value) {
    const unsigned char *bytes = buffer;
    while (size > 0 && bytes[size - 1] == value) {
        size--;
    }
    return size == 0;
}

static balsa_read_reply read_text(const char *text) {
    return balsa_read((const uint8_t *)text, strlen(text), atoms, BALSA_ATOM_TABLE, bonds,
                      BALSA_BOND_TABLE);
}

static uint32_t first(size_t n, size_t m, size_t room) {
    return balsa_first(atoms, BALSA_ATOM_TABLE, bonds, BALSA_BOND_TABLE, n, m, row, room);
}

/* Refusal 1: one cell too few, and null with length 0; nothing changes. */
static void short_buffers(void) {
    memset(atoms, 7, sizeof atoms);
    memset(bonds, 7, sizeof bonds);
    balsa_read_reply r = balsa_read((const uint8_t *)"CC", 2, atoms, BALSA_ATOM_TABLE - 1, bonds,
                                    BALSA_BOND_TABLE);
    expect(r.code == 1 && r.place == 0 && r.atoms == 0 && r.bonds == 0 && r.overfull == 0,
           "a short atom table");
    r = balsa_read((const uint8_t *)"CC", 2, atoms, BALSA_ATOM_TABLE, NULL, 0);
    expect(r.code == 1, "no bond table");
    expect(all(atoms, sizeof atoms, 7) && all(bonds, sizeof bonds, 7), "1 leaves the tables");
    memset(row, 7, sizeof row);
    expect(first(1, 0, BALSA_ROW - 1) == 1 && all(row, sizeof row, 7), "a short row");
    memset(pairs, 7, sizeof pairs);
    balsa_forced_reply f = balsa_first_forced(atoms, BALSA_ATOM_TABLE, bonds, BALSA_BOND_TABLE, 1, 0,
                                              row, BALSA_ROW, pairs, BALSA_ROW - 1);
    expect(f.code == 1 && f.forced == 0, "a short list");
    expect(all(row, sizeof row, 7) && all(pairs, sizeof pairs, 7), "1 leaves the row and the list");
    memset(out, 7, sizeof out);
    memset(ren, 7, sizeof ren);
    balsa_write_reply w = balsa_write(atoms, BALSA_ATOM_TABLE, bonds, BALSA_BOND_TABLE, 1, 0, out,
                                      BALSA_TEXT - 1, ren, BALSA_RENUMBERING);
    expect(w.code == 1 && w.length == 0, "a short output");
    w = balsa_write(atoms, BALSA_ATOM_TABLE, bonds, BALSA_BOND_TABLE, 1, 0, out, BALSA_TEXT, ren,
                    BALSA_RENUMBERING - 1);
    expect(w.code == 1, "a short renumbering");
    expect(all(out, sizeof out, 7) && all(ren, sizeof ren, 7), "1 leaves the output");
}

/* The empty text, also as null with length 0; a refusal with its place zeroes both tables. */
static void texts(void) {
    balsa_read_reply r = balsa_read(NULL, 0, atoms, BALSA_ATOM_TABLE, bonds, BALSA_BOND_TABLE);
    expect(r.code == 0 && r.atoms == 0 && r.bonds == 0, "the empty text");
    memset(atoms, 7, sizeof atoms);
    r = read_text("C11");
    expect(r.code == 7 && r.place == 2 && r.atoms == 0 && r.overfull == 0, "C11 is 7 at 2");
    expect(all(atoms, sizeof atoms, 0) && all(bonds, sizeof bonds, 0), "a refusal zeroes the tables");
    r = read_text("c1ccnc1");
    expect(r.code == 11 && r.place == 0, "c1ccnc1 is 11");
    r = read_text("FC(F)(F)(F)F");
    expect(r.code == 0 && r.overfull == 1, "an over-full atom");
    r = read_text("F[C](F)(F)(F)F");
    expect(r.code == 0 && r.overfull == 0, "brackets do not count");
    r = read_text("c1ccnc1.FC(F)(F)(F)F");
    expect(r.code == 11 && r.overfull == 0, "no number at a refusal");
}

/* Tetrahedral marks: stored for the hydrogen and the bonds by number, written for the text's order; 23, and 13 in tables. */
static void marks(void) {
    static const char alanine[] = "N[C@@H](C)C(=O)O";
    static const int32_t wrong[] = {INT_MIN, -1, 3, INT_MAX};
    balsa_read_reply r = read_text(alanine);
    expect(r.code == 0 && atoms[7 + 6] == 1, "the hydrogen and the first bond change places");
    balsa_write_reply w = balsa_write(atoms, BALSA_ATOM_TABLE, bonds, BALSA_BOND_TABLE, r.atoms, r.bonds,
                                      out, BALSA_TEXT, ren, BALSA_RENUMBERING);
    expect(w.code == 0 && w.length == sizeof alanine - 1 && memcmp(out, alanine, w.length) == 0,
           "and are written back");
    for (size_t i = 0; i < sizeof wrong / sizeof *wrong; i++) {
        atoms[7 + 6] = wrong[i];
        expect(first(r.atoms, r.bonds, BALSA_ROW) == 13, "a cell that is no mark");
    }
    atoms[7 + 6] = 2;
    expect(first(r.atoms, r.bonds, BALSA_ROW) == 0, "the other mark");
    atoms[6] = 1;
    expect(first(r.atoms, r.bonds, BALSA_ROW) == 13, "a mark without four neighbours");
    r = read_text("C[S@](=O)C");
    expect(r.code == BALSA_UNFIT_MARK && r.place == 0 && all(atoms, sizeof atoms, 0), "a sulfoxide is 23");
}

/* Refusal 13: cells out of range and counts above the limits, in every call on tables. */
static void invalid_tables(void) {
    balsa_read_reply r = read_text("c1ccccc1");
    static const int32_t wrong[] = {INT_MIN, -1, 6, INT_MAX};
    for (size_t i = 0; i < sizeof wrong / sizeof *wrong; i++) {
        int32_t before = bonds[1];
        bonds[1] = wrong[i];
        memset(row, 7, sizeof row);
        expect(first(r.atoms, r.bonds, BALSA_ROW) == 13, "an end that is no atom");
        expect(all(row, sizeof row, 0), "13 zeroes the row");
        expect(balsa_kekulize(atoms, BALSA_ATOM_TABLE, bonds, BALSA_BOND_TABLE, r.atoms, r.bonds, row,
                              BALSA_ROW) == 13 && bonds[1] == wrong[i], "13 leaves the tables");
        balsa_write_reply w = balsa_write(atoms, BALSA_ATOM_TABLE, bonds, BALSA_BOND_TABLE, r.atoms,
                                          r.bonds, out, BALSA_TEXT, ren, BALSA_RENUMBERING);
        expect(w.code == 13 && w.length == 0 && all(out, sizeof out, 0), "13 zeroes the output");
        bonds[1] = before;
    }
    expect(balsa_check(atoms, BALSA_ATOM_TABLE, bonds, BALSA_BOND_TABLE, SIZE_MAX, SIZE_MAX) == 13,
           "counts above the limits");
    expect(balsa_check(atoms, BALSA_ATOM_TABLE, bonds, BALSA_BOND_TABLE, r.atoms, r.bonds) == 0,
           "benzene is valid");
}

/* Refusal 12: rows that are no matchings; the end after the last one. */
static void rubbish_rows(void) {
    balsa_read_reply r = read_text("c1ccccc1");
    memset(row, 2, sizeof row);
    expect(balsa_is_matching(atoms, BALSA_ATOM_TABLE, bonds, BALSA_BOND_TABLE, r.atoms, r.bonds, row,
                             BALSA_ROW) == 12 && all(row, sizeof row, 2), "no matching, and unchanged");
    expect(balsa_kekulize(atoms, BALSA_ATOM_TABLE, bonds, BALSA_BOND_TABLE, r.atoms, r.bonds, row,
                          BALSA_ROW) == 12 && atoms[1] == 1, "12 leaves the tables");
    expect(balsa_next(atoms, BALSA_ATOM_TABLE, bonds, BALSA_BOND_TABLE, r.atoms, r.bonds, row,
                      BALSA_ROW) == 12 && all(row, sizeof row, 0), "12 zeroes the row");
    static const uint8_t calls[] = {1, 0, 1, 1, 1};
    static const uint8_t told[] = {12, 0, 0, BALSA_END, 12};
    uint8_t codes[sizeof calls];
    expect(balsa_replay(calls, sizeof calls, atoms, BALSA_ATOM_TABLE, bonds, BALSA_BOND_TABLE, r.atoms,
                        r.bonds, row, BALSA_ROW, codes, sizeof codes) == 0, "a list of calls");
    expect(memcmp(codes, told, sizeof told) == 0, "12, two matchings, the end, 12");
    expect(balsa_replay(calls, sizeof calls, atoms, BALSA_ATOM_TABLE, bonds, BALSA_BOND_TABLE, r.atoms,
                        r.bonds, row, BALSA_ROW, codes, sizeof codes - 1) == 1, "too few codes");
}

/* The second engine: the forced list with its number and the zeros behind it, and its refusals. */
static void forced_pairs(void) {
    static const uint16_t listed[] = {1, 3, 5};
    balsa_read_reply r = read_text("CccccccC");
    memset(pairs, 7, sizeof pairs);
    balsa_forced_reply f = balsa_first_forced(atoms, BALSA_ATOM_TABLE, bonds, BALSA_BOND_TABLE, r.atoms,
                                              r.bonds, row, BALSA_ROW, pairs, BALSA_ROW);
    expect(f.code == 0 && f.forced == 3, "three pairs are forced");
    expect(memcmp(pairs, listed, sizeof listed) == 0, "the bonds 1, 3 and 5");
    expect(all(pairs + 3, sizeof pairs - sizeof listed, 0), "zeros behind the list");
    expect(balsa_next_forced(atoms, BALSA_ATOM_TABLE, bonds, BALSA_BOND_TABLE, r.atoms, r.bonds, row,
                             BALSA_ROW) == BALSA_END && all(row, sizeof row, 0), "the end");
    expect(balsa_next_forced(atoms, BALSA_ATOM_TABLE, bonds, BALSA_BOND_TABLE, r.atoms, r.bonds, row,
                             BALSA_ROW) == 12, "zeros are no matching");
    bonds[1] = -1;
    memset(pairs, 7, sizeof pairs);
    f = balsa_first_forced(atoms, BALSA_ATOM_TABLE, bonds, BALSA_BOND_TABLE, r.atoms, r.bonds, row,
                           BALSA_ROW, pairs, BALSA_ROW);
    expect(f.code == 13 && f.forced == 0 && all(pairs, sizeof pairs, 0), "13 zeroes the list");
}

/* A second molecule, and the cells that are lent for each output. */
static int32_t atoms2[BALSA_ATOM_TABLE], bonds2[BALSA_BOND_TABLE];
static uint8_t row2[BALSA_ROW];
static size_t room = BALSA_ROW, room2 = BALSA_ROW, numbers = BALSA_RENUMBERING;

/* Compares two texts; the end of the second's first bond may be spoilt. */
static uint32_t same(const char *one, const char *other, int spoilt) {
    balsa_read_reply second = read_text(other);
    memcpy(atoms2, atoms, sizeof atoms);
    memcpy(bonds2, bonds, sizeof bonds);
    bonds2[1] = spoilt ? -1 : bonds2[1];
    balsa_read_reply first = read_text(one);
    memset(row, 7, sizeof row);
    memset(row2, 7, sizeof row2);
    memset(ren, 7, sizeof ren);
    return balsa_same(atoms, BALSA_ATOM_TABLE, bonds, BALSA_BOND_TABLE, first.atoms, first.bonds,
                      atoms2, BALSA_ATOM_TABLE, bonds2, BALSA_BOND_TABLE, second.atoms, second.bonds,
                      row, room, row2, room2, ren, numbers);
}

/* Whether every byte of what the call fills has this value. */
static int outputs_are(unsigned char value) {
    return all(row, sizeof row, value) && all(row2, sizeof row2, value) && all(ren, sizeof ren, value);
}

/* The same compound: the rows and the renumbering, zeros behind them and at "no", 13 before 19; a short output changes nothing. */
static void compounds(void) {
    static const uint8_t doubles[] = {1, 0, 1, 0, 1, 0};
    static const uint16_t turned[] = {0, 5, 4, 3, 2, 1};
    expect(same("c1ccccc1", "C=1C=CC=CC1", 0) == BALSA_ACCEPTED, "two drawings of benzene");
    expect(memcmp(row, doubles, sizeof doubles) == 0 && memcmp(ren, turned, sizeof turned) == 0 &&
           all(row + 6, sizeof row - 6, 0) && all(row2, sizeof row2, 0) &&
           all(ren + 6, sizeof ren - sizeof turned, 0), "the first rows, the smallest renumbering");
    expect(same("", "", 0) == BALSA_ACCEPTED && outputs_are(0), "two empty molecules");
    expect(same("F/C=C/F", "F/C=C\\F", 0) == BALSA_ACCEPTED, "marks of bonds are left aside");
    expect(same("N[C@@H](C)C(=O)O", "N[C@H](C)C(=O)O", 0) == BALSA_ACCEPTED, "and those of atoms");
    expect(same("CCO", "COC", 0) == BALSA_DIFFERENT && outputs_are(0), "no zeroes the outputs");
    expect(same("", "C", 0) == BALSA_DIFFERENT && outputs_are(0), "nothing is like nothing only");
    char chain[66] = "";
    memset(chain, 'C', 64);
    expect(same(chain, chain, 0) == BALSA_ACCEPTED && ren[63] == 63, "64 atoms");
    chain[64] = 'C';
    expect(same(chain, "CC", 0) == BALSA_LARGE_MOLECULE && outputs_are(0), "65 atoms in the first");
    expect(same("CC", chain, 0) == BALSA_LARGE_MOLECULE && outputs_are(0), "65 atoms in the second");
    expect(same(chain, "CC", 1) == BALSA_INVALID && outputs_are(0), "13 before 19");
    size_t *lent[] = {&room, &room2, &numbers};
    for (size_t i = 0; i < 3; i++) {
        (*lent[i])--;
        expect(same(chain, "CC", 1) == BALSA_SHORT && outputs_are(7), "a short output");
        (*lent[i])++;
    }
    expect(balsa_same(atoms, BALSA_ATOM_TABLE - 1, bonds, BALSA_BOND_TABLE, 0, 0, NULL, 0, NULL, 0, 0, 0,
                      row, room, row2, room2, ren, numbers) == BALSA_SHORT && outputs_are(7),
           "short tables");
}

/* The register: too short, any bytes, gaps, full at 64 entries and at byte 32,767; a refusal changes nothing. */
static void registers(void) {
    static uint8_t reg[BALSA_REGISTER + 3], before[sizeof reg], body[BALSA_REGISTER_BODY + 1];
    memset(reg, 7, sizeof reg);
    memset(before, 7, sizeof before);
    expect(balsa_register_empty(reg, BALSA_REGISTER - 1) == 1 && balsa_register_empty(NULL, 0) == 1,
           "a short register");
    expect(balsa_register_add(reg, sizeof reg, 5, body, 1) == 17, "rubbish is 17");
    expect(balsa_register_entry(reg, sizeof reg, 0).code == 17, "rubbish has no entries");
    expect(memcmp(reg, before, sizeof reg) == 0, "1 and 17 leave the register");
    expect(balsa_register_empty(reg, sizeof reg) == 0 && reg[0] == 1 && reg[1] == 0 &&
           memcmp(reg + 2, before + 2, sizeof reg - 2) == 0, "emptying stores two bytes");
    expect(balsa_register_add(reg, sizeof reg, 1, body, BALSA_REGISTER_BODY + 1) == 18, "a long body");
    for (unsigned i = 0; i < 7; i++) {
        expect(balsa_register_add(reg, sizeof reg, 1, body, BALSA_REGISTER_BODY) == 0, "a full body");
    }
    expect(balsa_register_add(reg, sizeof reg, 1, body, 3711) == 18, "past byte 32,767");
    for (size_t k = 0; k < 3710 + 7; k++) {
        expect(balsa_register_entry(reg, sizeof reg, 7).found == 0, "not added before the last step");
        expect(balsa_register_step(reg, sizeof reg, 65535, body, 3710, k) == 0, "a step");
    }
    balsa_entry_reply e = balsa_register_entry(reg, sizeof reg, 7);
    expect(e.code == 0 && e.found == 1 && e.tag == 65535 && e.start == 29058 && e.length == 3710,
           "the entry up to byte 32,767");
    for (unsigned i = 8; i < BALSA_REGISTER_ENTRIES; i++) {
        expect(balsa_register_add(reg, sizeof reg, 2, NULL, 0) == 0, "an empty body, as null");
    }
    expect(balsa_register_add(reg, sizeof reg, 2, NULL, 0) == 18, "a 65th entry");
    e = balsa_register_entry(reg, sizeof reg, SIZE_MAX);
    expect(e.code == 0 && e.found == 0 && e.tag == 0 && e.start == 0 && e.length == 0,
           "no entry at the largest place");
    balsa_walk_reply w = {.next = 0};
    for (unsigned i = 0; i < BALSA_REGISTER_ENTRIES; i++) {
        w = balsa_register_walk(reg, sizeof reg, w.next);
        expect(w.code == 0 && w.next == i + 1 && w.tag == (i < 7 ? 1 : i == 7 ? 65535 : 2),
               "each entry in its turn");
    }
    for (unsigned i = 0; i < 3; i++) {
        w = balsa_register_walk(reg, sizeof reg, w.next);
        expect(w.code == BALSA_END && w.next == BALSA_REGISTER_ENTRIES && w.length == 0,
               "the end, as often as asked");
    }
    w = balsa_register_walk(reg, sizeof reg, SIZE_MAX);
    expect(w.code == BALSA_END && w.next == SIZE_MAX, "the end at the largest place");
    w = balsa_register_walk(reg, BALSA_REGISTER - 1, 9);
    expect(w.code == 1 && w.next == 9, "a walk of a short register");
    reg[8]++;
    expect(balsa_register_entry(reg, sizeof reg, 0).code == 17, "a gap between bodies");
    w = balsa_register_walk(reg, sizeof reg, 5);
    expect(w.code == 17 && w.next == 5, "17 at any step");
    expect(reg[BALSA_REGISTER] == 7, "bytes past the register stay");
}

/* The key of a text that is read. */
static uint64_t key(const char *text) {
    balsa_read_reply r = read_text(text);
    balsa_key_reply k = balsa_key(atoms, BALSA_ATOM_TABLE, bonds, BALSA_BOND_TABLE, r.atoms, r.bonds);
    expect(k.code == 0, "a key");
    return k.key;
}

/* The key: the same for every drawing, at any size; 1 and 13 with key 0. */
static void keys(void) {
    expect(key("CC1=C(C)C=CC=C1") == key("CC=1C(C)=CC=CC1") && key("Cc1ccccc1C") == key("CC=1C(C)=CC=CC1"),
           "Kekule forms and selected letters have one key");
    expect(key("[H]C([H])([H])[H]") == key("C") && key("[CH4:1]") == key("C"), "drawn hydrogens and map numbers too");
    expect(key("[2H]C") != key("[H]C") && key("CCO") != key("COC"), "an isotope has not, nor another compound");
    char chain[BALSA_RENUMBERING + 1] = "";
    memset(chain, 'C', BALSA_RENUMBERING);
    expect(key(chain) != key("C"), "1,000 atoms");
    balsa_read_reply r = read_text("CC");
    balsa_key_reply k = balsa_key(atoms, BALSA_ATOM_TABLE - 1, bonds, BALSA_BOND_TABLE, r.atoms, r.bonds);
    expect(k.code == 1 && k.key == 0, "a short table");
    k = balsa_key(NULL, 0, NULL, 0, SIZE_MAX, SIZE_MAX);
    expect(k.code == 1 && k.key == 0, "no tables, and 1 before 13");
    bonds[1] = -1;
    k = balsa_key(atoms, BALSA_ATOM_TABLE, bonds, BALSA_BOND_TABLE, r.atoms, r.bonds);
    expect(k.code == 13 && k.key == 0, "an end that is no atom");
    k = balsa_key(atoms, BALSA_ATOM_TABLE, bonds, BALSA_BOND_TABLE, SIZE_MAX, SIZE_MAX);
    expect(k.code == 13 && k.key == 0, "counts above the limits");
}

static balsa_withdraw_reply withdraw(uint8_t *reg, size_t reg_len, const char *text) {
    return balsa_withdraw(reg, reg_len, 7, (const uint8_t *)text, strlen(text));
}

/* Whether a text is withdrawn so, with nothing else in the reply. */
static int asked(const uint8_t *reg, const char *text, uint32_t answer, uint16_t tag, size_t entry) {
    balsa_withdrawn_reply w = balsa_withdrawn(reg, BALSA_REGISTER, (const uint8_t *)text, strlen(text));
    expect(BALSA_IS_CLEAR(w) == (answer == BALSA_CLEAR), "only what is clear is clear");
    return w.code == 0 && w.place == 0 && w.answer == answer && w.tag == tag && w.entry == entry;
}

/* Whether a question is refused so, with nothing else in the reply. */
static int refused(const uint8_t *reg, size_t reg_len, const char *text, uint32_t code, size_t place) {
    balsa_withdrawn_reply w = balsa_withdrawn(reg, reg_len, (const uint8_t *)text, strlen(text));
    expect(!BALSA_IS_CLEAR(w), "a refusal is not clear");
    return w.code == code && w.place == place && w.answer == 0 && w.tag == 0 && w.entry == 0;
}

/* Withdrawal: every drawing, bodies that are not read, the order of refusals; a refusal changes nothing. */
static void withdrawals(void) {
    static uint8_t reg[BALSA_REGISTER], before[sizeof reg];
    static const char atom[] = "-[999CoH9-9:9999]";
    static char chain[BALSA_REGISTER_BODY + sizeof atom] = "C";
    memset(reg, 7, sizeof reg);
    memset(before, 7, sizeof before);
    balsa_withdraw_reply w = withdraw(reg, sizeof reg - 1, "C11");
    expect(w.code == 1 && w.place == 0, "1 before what reading refuses");
    w = withdraw(reg, sizeof reg, "C11");
    expect(w.code == 7 && w.place == 2, "reading's refusal with its place, before 17");
    w = withdraw(reg, sizeof reg, "C");
    expect(w.code == 17 && w.place == 0, "rubbish is 17");
    expect(balsa_withdraw(NULL, 0, 7, NULL, 0).code == 1, "no register");
    expect(memcmp(reg, before, sizeof reg) == 0, "a refusal leaves the register");
    expect(refused(reg, sizeof reg - 1, "C11", 1, 0) && refused(reg, 0, "C11", 1, 0), "1 first");
    expect(refused(reg, sizeof reg, "C11", 17, 0), "17 before what reading refuses");
    balsa_register_empty(reg, sizeof reg);
    expect(refused(reg, sizeof reg, "C11", 7, 2) && refused(reg, sizeof reg, "cc", 22, 0), "reading's refusals");
    expect(asked(reg, "C", BALSA_CLEAR, 0, 0), "nothing is listed");
    expect(balsa_withdrawn(reg, sizeof reg, NULL, 0).answer == BALSA_CLEAR, "the empty text, as null");
    expect(withdraw(reg, sizeof reg, "CC1=C(C)C=CC=C1").code == 0 && reg[1] == 1, "a text is withdrawn");
    expect(asked(reg, "CC=1C(C)=CC=CC1", BALSA_WITHDRAWN, 7, 0), "in the other Kekule form");
    expect(asked(reg, "Cc1ccccc1C", BALSA_WITHDRAWN, 7, 0), "with selected letters");
    expect(asked(reg, "[H]C([H])([H])c1ccccc1[CH3:9]", BALSA_WITHDRAWN, 7, 0), "with hydrogens and a map number");
    expect(asked(reg, "Cc1cccc(C)c1", BALSA_CLEAR, 0, 0), "another xylene is clear");
    balsa_register_add(reg, sizeof reg, 8, (const uint8_t *)"no text", 7);
    expect(asked(reg, "Cc1cccc(C)c1", BALSA_UNDECIDED, 0, 1), "a body that is not read");
    expect(asked(reg, "Cc1ccccc1C", BALSA_WITHDRAWN, 7, 0), "withdrawn before undecided");
    balsa_withdraw(reg, sizeof reg, 9, (const uint8_t *)"Cc1cccc(C)c1", 12);
    expect(asked(reg, "Cc1cccc(C)c1", BALSA_WITHDRAWN, 9, 2), "behind what is not read too");
    balsa_withdraw(reg, sizeof reg, 10, NULL, 0);
    expect(asked(reg, "", BALSA_WITHDRAWN, 10, 3), "the empty text is withdrawn");
    memcpy(before, reg, sizeof reg);
    while (strlen(chain) <= BALSA_REGISTER_BODY) {
        strcat(chain, atom);
    }
    w = withdraw(reg, sizeof reg, chain);
    expect(w.code == 18 && w.place == 0 && asked(reg, chain, BALSA_UNDECIDED, 0, 1), "a text longer than a body");
    w = withdraw(reg, sizeof reg, "C11");
    expect(w.code == 7 && memcmp(reg, before, sizeof reg) == 0, "nothing is added");
}

/* From a text to the text kekulized: a short output stays, a refusal zeroes it, zeros follow the text. */
static balsa_standard_reply standardize(const char *text, size_t out_len) {
    memset(out, 7, sizeof out);
    return balsa_standardize((const uint8_t *)text, strlen(text), out, out_len);
}

static void standardized(void) {
    balsa_standard_reply r = standardize("c1ccccc1", BALSA_TEXT - 1);
    expect(r.code == 1 && r.place == 0 && r.length == 0 && all(out, sizeof out, 7), "an output that is short");
    r = balsa_standardize(NULL, 0, NULL, 0);
    expect(r.code == 1, "no output");
    r = standardize("c1ccccc1", BALSA_TEXT);
    expect(r.code == 0 && r.atoms == 6 && r.bonds == 6 && r.overfull == 0 && r.length == 11, "benzene");
    expect(memcmp(out, "C1=CC=CC=C1", 11) == 0 && all(out + 11, BALSA_TEXT - 11, 0), "its text, and zeros");
    r = standardize("FC(F)(F)(F)F", BALSA_TEXT);
    expect(r.code == 0 && r.overfull == 1, "an over-full atom");
    r = standardize("CC11", BALSA_TEXT);
    expect(r.code == 7 && r.place == 3 && r.atoms == 0 && r.bonds == 0 && r.length == 0, "reading's refusal");
    expect(all(out, BALSA_TEXT, 0), "a refusal zeroes the output");
    r = standardize("c1cccc1", BALSA_TEXT);
    expect(r.code == 11 && r.place == 0, "no matching");
}

/* The report: as long as it says; one byte too few changes nothing; zeros follow it. */
static void reports(void) {
    static const char input[] = "c1ccccc1\nC11\n\n";
    static const char report[] = "balsa report\n1: 0 6 6 0 101010 C1=CC=CC=C1\n2: 7 2\n3: 0 0 0 0 - -\n"
                                 "accepted 2 refused 1\n";
    size_t input_len = sizeof input - 1, length = sizeof report - 1;
    const uint8_t *lines = (const uint8_t *)input;
    expect(balsa_report_length(lines, input_len) == length, "the length of the report");
    memset(out, 7, sizeof out);
    balsa_report_reply r = balsa_report(lines, input_len, out, length - 1);
    expect(r.code == 1 && r.length == 0 && all(out, sizeof out, 7), "a report that does not fit");
    r = balsa_report(lines, input_len, NULL, 0);
    expect(r.code == 1, "no output");
    r = balsa_report(lines, input_len, out, length);
    expect(r.code == 0 && r.length == length && memcmp(out, report, length) == 0, "01's sample");
    expect(all(out + length, sizeof out - length, 7), "nothing after the output");
    r = balsa_report(NULL, 0, out, sizeof out);
    expect(r.code == 0 && r.length == 34, "the report of nothing");
    expect(all(out + r.length, sizeof out - r.length, 0), "zeros after the report");
}

/* The calls for a text in pieces. */
static balsa_fed feed(balsa_pieces state, const char *piece) {
    return balsa_feed(state, (const uint8_t *)piece, strlen(piece), atoms, BALSA_ATOM_TABLE, bonds,
                      BALSA_BOND_TABLE);
}

static balsa_fed start(void) {
    return balsa_start(atoms, BALSA_ATOM_TABLE, bonds, BALSA_BOND_TABLE);
}

static balsa_fed end(balsa_pieces state) {
    return balsa_end(state, atoms, BALSA_ATOM_TABLE, bonds, BALSA_BOND_TABLE);
}

/* Whether a call answered with this code and place, and with counts of 0. */
static int told(balsa_fed f, uint32_t code, size_t place) {
    return f.code == code && f.place == place && f.atoms == 0 && f.bonds == 0 && f.overfull == 0;
}

static int tables_are(unsigned char value) {
    return all(atoms, sizeof atoms, value) && all(bonds, sizeof bonds, value);
}

/* docs/RULES.md says how long a state is. */
_Static_assert(sizeof(balsa_pieces) == 6064, "");

/* A text in pieces: as it is read whole; refusals when their byte is known, repeated; 1, 24 and 25 change nothing. */
static void pieces(void) {
    static int32_t whole[BALSA_ATOM_TABLE], whole_bonds[BALSA_BOND_TABLE];
    read_text("F[C@H]12.Br2.Cl1");
    memcpy(whole, atoms, sizeof atoms);
    memcpy(whole_bonds, bonds, sizeof bonds);
    memset(atoms, 7, sizeof atoms);
    memset(bonds, 7, sizeof bonds);
    balsa_fed f = start();
    expect(told(f, 0, 0) && tables_are(0), "a start zeroes the tables");
    static const char *const cut[] = {"F[C", "@H", "]1", "", "2.B", "r2.C", "l1"};
    for (size_t k = 0; k < sizeof cut / sizeof cut[0]; k++) {
        f = feed(f.state, cut[k]);
        expect(told(f, 0, 0), "a piece that goes on");
    }
    f = end(f.state);
    expect(f.code == 0 && f.place == 0 && f.atoms == 4 && f.bonds == 3 && f.overfull == 0, "the end");
    expect(memcmp(atoms, whole, sizeof atoms) == 0 && memcmp(bonds, whole_bonds, sizeof bonds) == 0,
           "the tables of the whole text");
    expect(told(feed(f.state, ""), BALSA_ENDED, 0) && told(end(f.state), BALSA_ENDED, 0) &&
           memcmp(atoms, whole, sizeof atoms) == 0, "24 after the end, which changes nothing");

    f = feed(start().state, "C%1");
    expect(told(f, 0, 0), "half a number");
    balsa_fed g = feed(feed(f.state, "0C%1").state, "0");
    expect(told(g, 8, 5) && tables_are(0), "8 at the % with its second digit");
    memset(atoms, 7, sizeof atoms);
    memset(bonds, 7, sizeof bonds);
    g = balsa_feed(g.state, NULL, 0, atoms, BALSA_ATOM_TABLE, bonds, BALSA_BOND_TABLE);
    expect(told(g, 8, 5) && tables_are(0), "a refusal is repeated");
    g = end(g.state);
    expect(told(g, 8, 5) && told(end(g.state), BALSA_ENDED, 0), "at the end too, and then it is 24");
    expect(told(end(f.state), 3, 3), "a text that ends too soon");
    expect(told(end(start().state), 0, 0), "the empty text");

    balsa_fed longest = start();
    for (size_t k = 0; k < BALSA_TEXT; k++) {
        longest = feed(longest.state, k % 2 ? "." : "*");
        expect(longest.code == (k < 2 * BALSA_RENUMBERING ? 0 : 4), "1,000 atoms");
    }
    expect(told(feed(longest.state, "*"), 4, 2 * BALSA_RENUMBERING), "a refusal before the limit comes first");

    f = feed(start().state, "C(C");
    memset(atoms + 14, 7, sizeof atoms - 14 * sizeof atoms[0]);
    g = balsa_feed(f.state, (const uint8_t *)"C", 1, atoms, BALSA_ATOM_TABLE - 1, bonds, BALSA_BOND_TABLE);
    expect(told(g, 1, 0) && g.state.atoms == 2 && g.state.depth == 1 && g.state.read == 3, "1 leaves the state");
    expect(told(feed(g.state, "C)"), 0, 0), "and the reading goes on");
    balsa_pieces broken = f.state;
    broken.hub = 2;
    g = feed(broken, "@");
    expect(told(g, BALSA_BROKEN_STATE, 0) && g.state.hub == 2 && g.state.atoms == 2, "a hub that is no atom");
    broken.told = BALSA_ENDED;
    expect(told(end(broken), BALSA_ENDED, 0), "the hub is not looked at after the end");
    broken.read = BALSA_TEXT + 1;
    expect(told(end(broken), BALSA_BROKEN_STATE, 0), "25 before 24");
    memset(&broken, 255, sizeof broken);
    expect(told(feed(broken, "C"), BALSA_BROKEN_STATE, 0) && told(end(broken), BALSA_BROKEN_STATE, 0),
           "rubbish is 25");
    expect(told(balsa_end(broken, NULL, 0, NULL, 0), 1, 0), "1 before 25");
    g = balsa_start(atoms, BALSA_ATOM_TABLE, NULL, 0);
    expect(told(g, 1, 0) && g.state.told == 0 && g.state.read == 0 && atoms[BALSA_ATOM_TABLE - 1] == 0x07070707,
           "a start with a short table changes nothing");
}

int main(void) {
    short_buffers();
    texts();
    marks();
    invalid_tables();
    rubbish_rows();
    forced_pairs();
    compounds();
    registers();
    keys();
    withdrawals();
    standardized();
    reports();
    pieces();
    printf("%u checks hold\n", checks);
    return 0;
}
