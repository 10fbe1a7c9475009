/* Balsa text: reading, writing, kekulizing and comparing, and whether a text is withdrawn in any drawing, by
 * a proved library (crate balsa; link libbalsa.a).
 *
 * A slice is a pointer and then its length in elements; a length of 0 may come with a null pointer.
 * Every call is proved for all lengths and all contents: nothing outside the slices is touched, every
 * call ends, and the answer is the one named here. The caller keeps what C cannot check: the pointers
 * are valid for their lengths and aligned, and no slice that is written overlaps another one.
 *
 * Tables: 7 cells for an atom (element, selected, isotope, hydrogens, charge, extension, mark: 0 none, 1 for
 * `@`, 2 for `@@`, of the hydrogen, if there is one, and then the bonds by ascending number), 3 for a bond
 * (first end, second end, kind: 0 elided, 1, 2, 3, 4 for `/`, 5 for `\`). Least lengths: atoms 7000, bonds 3300, row 1100, out 16384, ren 1000.
 * n and m are the numbers of atoms and bonds in the tables.
 *
 * Codes: 0 accepted, 1 to 25 the refusals of docs/RULES.md, 254 "different" (balsa_same), 255 "end"
 * (balsa_next, balsa_register_walk). Refusals 1, 24 and 25 change nothing; any other zeroes what is named as output; an acceptance zeroes the unused rest.
 *
 * Threads: a call keeps nothing, allocates nothing and takes no lock; it works on what it is lent and on
 * its stack. Calls may run at once in any threads as long as none is lent what another one writes.
 * Stack: each call is held to 512 KiB of a thread's stack by a test (docs/PERFORMANCE.md has what was seen). */
#ifndef BALSA_H
#define BALSA_H

#include <stddef.h>
#include <stdint.h>

#define BALSA_VERSION "0.1.0"

/* Grows with each change of an answer: 1 the first rules, 2 charged ring atoms (P1), 3 over-full atoms
 * counted (P10), 4 no loose selected atoms (P6), 5 larger limits (P7), 6 up and down bonds (P5), 7
 * tetrahedral marks (P8). What is stored of answers, as in an index of a database, is good for one edition. */
#define BALSA_EDITION 7

#ifdef __cplusplus
extern "C" {
#endif

/* The codes by name. */
enum {
    BALSA_ACCEPTED = 0,
    BALSA_SHORT = 1,
    BALSA_LONG_TEXT = 2,
    BALSA_GRAMMAR = 3,
    BALSA_MANY_ATOMS = 4,
    BALSA_MANY_BONDS = 5,
    BALSA_DEEP_BRANCH = 6,
    BALSA_SELF_BRIDGE = 7,
    BALSA_REPEATED_BOND = 8,
    BALSA_SYMBOL_CLASH = 9,
    BALSA_OPEN_BRIDGE = 10,
    BALSA_UNMATCHABLE = 11,
    BALSA_NOT_MATCHING = 12,
    BALSA_INVALID = 13,
    BALSA_MANY_BRIDGES = 14,
    BALSA_DEEP_WRITING = 15,
    BALSA_LONG_WRITING = 16,
    BALSA_INVALID_REGISTER = 17,
    BALSA_FULL_REGISTER = 18,
    BALSA_LARGE_MOLECULE = 19,
    BALSA_CROWDED_END = 20,
    BALSA_STRAY_MARK = 21,
    BALSA_LOOSE_ATOM = 22,
    BALSA_UNFIT_MARK = 23,
    BALSA_ENDED = 24,
    BALSA_BROKEN_STATE = 25,
    BALSA_DIFFERENT = 254,
    BALSA_END = 255
};

enum {
    BALSA_ATOM_TABLE = 7000,
    BALSA_BOND_TABLE = 3300,
    BALSA_ROW = 1100,
    BALSA_TEXT = 16384,
    BALSA_RENUMBERING = 1000,
    BALSA_SAME_ATOMS = 64
};

/* These three are in libbalsa.so; with libbalsa.a compile c/refusal_text.c too. */

/* What a refusal says in words, without a full stop; NULL for a number that is no refusal. */
const char *balsa_refusal_text(uint32_t code);

/* BALSA_VERSION and BALSA_EDITION of the library that is linked. */
const char *balsa_version(void);
uint32_t balsa_edition(void);

/* code 0 with both counts and the number of over-full atoms outside brackets (bond sum above every
 * target valence), or a refusal's code with its place and counts 0 */
typedef struct {
    uint32_t code;
    size_t place;
    size_t atoms;
    size_t bonds;
    size_t overfull;
} balsa_read_reply;

/* code 0 with the length of the text, or a refusal's code with length 0 */
typedef struct {
    uint32_t code;
    size_t length;
} balsa_write_reply;

/* code 0 with the number of pairs forced before any choice, or a refusal's code with 0 */
typedef struct {
    uint32_t code;
    size_t forced;
} balsa_forced_reply;

/* code 0 with the symbol's bytes, atomic number (0 for '*') and 1 for a selected letter; or code 3 with
 * the place of the byte with which no symbol goes on */
typedef struct {
    uint32_t code;
    size_t place;
    size_t length;
    uint32_t element;
    uint32_t selected;
} balsa_symbol_reply;

/* The symbol of a bracket at two bytes; second is 0 where first is the last byte. */
balsa_symbol_reply balsa_symbol(uint8_t first, uint8_t second);

/* code 0 with the number of bytes of the report, or code 1 with length 0 */
typedef struct {
    uint32_t code;
    size_t length;
} balsa_report_reply;

/* code 0 with the counts and the length of the text, or a refusal's code with its place, counts and length being 0 */
typedef struct {
    uint32_t code;
    size_t place;
    size_t atoms;
    size_t bonds;
    size_t overfull;
    size_t length;
} balsa_standard_reply;

/* Reads a text. Output: atoms, bonds. Refusals 1 to 11, 20 to 23. */
balsa_read_reply balsa_read(const uint8_t *text, size_t text_len, int32_t *atoms, size_t atoms_len,
                            int32_t *bonds, size_t bonds_len);

/* Writes a molecule; ren[a] is the place of atom a in the text. Output: out, ren. Refusals 1, 13, 14, 15, 16. */
balsa_write_reply balsa_write(const int32_t *atoms, size_t atoms_len, const int32_t *bonds,
                              size_t bonds_len, size_t n, size_t m, uint8_t *out, size_t out_len,
                              uint16_t *ren, size_t ren_len);

/* Reads a text, kekulizes it by its first matching and writes it, in one call and with no tables lent: out gets
 * what balsa_read, balsa_first, balsa_kekulize and balsa_write in turn give, and the first refusal among them is
 * handed back, its place 0 after reading. Output: out. Refusals 1 (out is short), 2 to 11, 14 to 16, 20 to 23. */
balsa_standard_reply balsa_standardize(const uint8_t *text, size_t text_len, uint8_t *out, size_t out_len);

/* Whether the tables are valid. Refusals 1, 13. */
uint32_t balsa_check(const int32_t *atoms, size_t atoms_len, const int32_t *bonds, size_t bonds_len,
                     size_t n, size_t m);

/* The first matching. Output: row. Refusals 1, 13, 11. */
uint32_t balsa_first(const int32_t *atoms, size_t atoms_len, const int32_t *bonds, size_t bonds_len,
                     size_t n, size_t m, uint8_t *row, size_t row_len);

/* The matching after the one in row, or 255 with a zeroed row. Output: row. Refusals 1, 13, 12. */
uint32_t balsa_next(const int32_t *atoms, size_t atoms_len, const int32_t *bonds, size_t bonds_len,
                    size_t n, size_t m, uint8_t *row, size_t row_len);

/* Whether row is a matching: 0, or 12. Changes nothing. Refusals 1, 13. */
uint32_t balsa_is_matching(const int32_t *atoms, size_t atoms_len, const int32_t *bonds,
                           size_t bonds_len, size_t n, size_t m, const uint8_t *row, size_t row_len);

/* Makes the bonds of the matching row double and every atom unselected, in place. A refusal changes
 * nothing: 1, 13, 12, 20. */
uint32_t balsa_kekulize(int32_t *atoms, size_t atoms_len, int32_t *bonds, size_t bonds_len, size_t n,
                        size_t m, const uint8_t *row, size_t row_len);

/* The row of sides: 1 at each double bond whose two ends have their lowest marked neighbours on the same
 * side, 2 if on opposite sides, else 0. Output: row. Refusals 1, 13. */
uint32_t balsa_sides(const int32_t *atoms, size_t atoms_len, const int32_t *bonds, size_t bonds_len,
                     size_t n, size_t m, uint8_t *row, size_t row_len);

/* Runs calls on row one after the other, 0 for the first matching, any other byte for the next, and
 * stores the code of each in codes; the rest of codes is zeroed. Refusal 1 where codes is shorter
 * than calls: nothing changes. */
uint32_t balsa_replay(const uint8_t *calls, size_t calls_len, const int32_t *atoms, size_t atoms_len,
                      const int32_t *bonds, size_t bonds_len, size_t n, size_t m, uint8_t *row,
                      size_t row_len, uint8_t *codes, size_t codes_len);

/* The second engine: while an atom without a partner has exactly one neighbour without one along the
 * bonds that may become double, the lowest such atom is paired; only what is left is searched. */

/* As balsa_first; pairs, which is as long as a row, gets the bonds of the pairs forced before any choice, in
 * turn. Each is in every matching. Output: row, pairs. Refusals 1 (also for a short pairs), 13, 11. */
balsa_forced_reply balsa_first_forced(const int32_t *atoms, size_t atoms_len, const int32_t *bonds,
                                      size_t bonds_len, size_t n, size_t m, uint8_t *row,
                                      size_t row_len, uint16_t *pairs, size_t pairs_len);

/* As balsa_next. Output: row. Refusals 1, 13, 12. */
uint32_t balsa_next_forced(const int32_t *atoms, size_t atoms_len, const int32_t *bonds,
                           size_t bonds_len, size_t n, size_t m, uint8_t *row, size_t row_len);

/* Whether two molecules of at most BALSA_SAME_ATOMS atoms are the same compound, drawn differently: some
 * matching of one and some matching of the other kekulize to the same molecule under some renumbering.
 * Atom cells must match, bonds are compared by order, and marks are left aside. 0: row1 gets the first
 * such matching of the first molecule, row2 the first of the second that goes with it, and ren[a] is the
 * number in the second of the first's atom a, smallest at the first atom where renumberings differ. 254:
 * they are not the same, and all three are zeroed; so is a molecule without a matching and any other.
 * Output: row1, row2, ren, of the lengths of a row and of a renumbering. Refusals 1, 13 (either molecule),
 * 19 (over 64 atoms in either). Real pairs take microseconds; with many atoms or parts that are alike the
 * time may grow exponentially (docs/PERFORMANCE.md). */
uint32_t balsa_same(const int32_t *atoms1, size_t atoms1_len, const int32_t *bonds1, size_t bonds1_len,
                    size_t n1, size_t m1, const int32_t *atoms2, size_t atoms2_len,
                    const int32_t *bonds2, size_t bonds2_len, size_t n2, size_t m2, uint8_t *row1,
                    size_t row1_len, uint8_t *row2, size_t row2_len, uint16_t *ren, size_t ren_len);

/* ---- The key ---- */

/* code 0 with the key, or a refusal's code with key 0 */
typedef struct {
    uint32_t code;
    uint64_t key;
} balsa_key_reply;

/* A number of a molecule of any size that all its redrawings have (docs/RULES.md says what these are): other
 * numbers of atoms and bonds, other Kekule forms or selected letters, hydrogens drawn as atoms, extensions and
 * marks do not change it. Two molecules with different keys are no redrawings; two with the same key need not
 * be any. Fit for an index of one edition. Refusals 1, 13. */
balsa_key_reply balsa_key(const int32_t *atoms, size_t atoms_len, const int32_t *bonds, size_t bonds_len,
                          size_t n, size_t m);

/* The report of the lines of an input, as the program `report` writes it (docs/RULES.md). Output: out; the
 * bytes after the report are zeroed. Refusal 1 where the report does not fit: nothing changes. */
balsa_report_reply balsa_report(const uint8_t *input, size_t input_len, uint8_t *out, size_t out_len);

/* How many bytes the report of an input has. SIZE_MAX stands for that number and all larger ones, which
 * no buffer has. */
size_t balsa_report_length(const uint8_t *input, size_t input_len);

/* ---- A text in pieces ----
 *
 * balsa_start, then balsa_feed for each piece (an empty one too), then balsa_end. Each call hands back the state
 * for the next one. With the state and the tables handed in as they were left, the answer, place and tables at the
 * end are those of balsa_read on the whole text, however it was cut. One difference: 2 is told when the first byte
 * too many arrives, unless a byte before it was refused; read whole, such a text is 2 first.
 *
 * Any state and any tables have an answer. What each call gives, in this order:
 *
 *                              code                        state             tables
 * balsa_start                  0, or 1: a short table      fresh             zeroed; with 1 unchanged
 * a table is short             1                           as handed in      unchanged
 * state or tables are broken   25                          as handed in      unchanged
 * ended before                 24                          as handed in      unchanged
 * refused before               the same code and place     as handed in;     zeroed again
 *                                                          by an end ended
 * balsa_feed, a byte refused   2 to 9 with its place,      refused           zeroed
 *                              with the piece that has it
 * balsa_feed, else             0, counts 0                 the next          as read so far
 * balsa_end                    3 at the length, 10,        ended             zeroed
 *                              20 to 23, 11
 * balsa_end, else              0 with the counts           ended             the molecule, the rest zeroed
 *
 * 25, exactly: the counts in the state with the tables are not sound, 20 to 23 apart; while the reading goes on,
 * the hub (before the first atom: any but 0) or the atom of an open branch or bridge is not below the atom count,
 * or over 64 branches are open; over 16,384 bytes are said to be read; in a bracket a field is above its largest
 * value, or after % and a digit that digit. docs/RULES.md says what else a state may hold. */

enum {
    BALSA_BRANCHES = 64,
    BALSA_BRIDGES = 100
};

/* A reading between two pieces: numbers only, so that it may be copied, stored and sent elsewhere, with the tables.
 * A caller hands it back as it was left. Every cell is 0 before the first byte; once refused or ended, every one
 * but the first two. Two states are told apart by their cells: the bytes between these may be anything. */
typedef struct {
    uint8_t told;     /* 0 it goes on, 24 it has ended, else the refusal that was told */
    uint16_t place;   /* of that refusal */
    uint16_t read;    /* bytes read */
    uint8_t mode;     /* where the grammar's machine stands: 10 and above in a bracket, 7 after % and a digit */
    uint8_t letter;   /* first letter of a half-read symbol */
    uint8_t pending;  /* before the next atom or bridge: 0 nothing, a symbol's kind and 1, above those a dot */
    uint8_t tens;     /* first digit after % */
    uint16_t element; /* the bracket's fields so far */
    uint16_t selected;
    uint16_t isotope;
    uint16_t hydrogens;
    int32_t charge;
    uint16_t extension;
    uint16_t mark;
    uint16_t hub;                     /* the atom to which the next one is joined */
    uint16_t atoms;                   /* used rows of the tables */
    uint16_t bonds;
    uint16_t depth;                   /* open branches */
    uint16_t hubs[BALSA_BRANCHES];    /* the hub of each */
    uint16_t openers[BALSA_BRIDGES];  /* by number: the atom and 1 where it opened, or 0 */
    uint8_t symbols[BALSA_BRIDGES];   /* the kind at each opening */
    uint16_t offsets[BALSA_BRIDGES];  /* the place of each opening */
    uint8_t outsides[BALSA_RENUMBERING]; /* 1 for an atom outside brackets */
    uint16_t keys[2 * BALSA_ROW];     /* by bond: where its bridge's digits stood, for tetrahedral marks */
} balsa_pieces;

/* code, place and counts as balsa_read hands them back, and the state for the next call */
typedef struct {
    uint32_t code;
    size_t place;
    size_t atoms;
    size_t bonds;
    size_t overfull;
    balsa_pieces state;
} balsa_fed;

/* Begins a reading. Output: atoms, bonds, which hold the reading from now on. Refusal 1. */
balsa_fed balsa_start(int32_t *atoms, size_t atoms_len, int32_t *bonds, size_t bonds_len);

/* Reads a piece. Refusals 1, 25, 24, and 2 to 9 as soon as a byte is known to be refused. */
balsa_fed balsa_feed(balsa_pieces state, const uint8_t *piece, size_t piece_len, int32_t *atoms,
                     size_t atoms_len, int32_t *bonds, size_t bonds_len);

/* Says that the text has ended. Refusals 1, 25, 24, what was told before, and 3, 10, 20 to 23, 11. */
balsa_fed balsa_end(balsa_pieces state, int32_t *atoms, size_t atoms_len, int32_t *bonds,
                    size_t bonds_len);

/* ---- A lease: whether a follower of a numbered feed of withdrawals may release ----
 *
 * The follower stores withdrawals 1, 2, 3, .. as they come, notes the time and then asks for the head, the number
 * of the newest withdrawal. It may release only while everything up to the last head is stored and that head was
 * asked for at most a limit ago: then a withdrawal that it missed is younger than the limit. Times are numbers of
 * one clock of the follower's, in any unit. Every call has an answer for all numbers; a lease is handed on from
 * call to call. docs/SIDECAR.md says how it is used. */

typedef struct {
    uint32_t phase;  /* 0: no head was heard, 1: one was, any other: halted */
    uint64_t held;   /* every withdrawal up to this number is stored */
    uint64_t head;   /* the last head, and the time at which it was asked for */
    uint64_t asked;
} balsa_lease;

/* answer 0 yes, with the number up to which everything is stored and the age of the head; 1 withdrawn; 2 undecided;
 * 3 stale, with the age; 4 halted. What is not named is 0. */
typedef struct {
    uint32_t answer;
    uint64_t held;
    uint64_t age;
} balsa_release_reply;

/* The lease of a follower that has stored everything up to a number, and has heard nothing. */
balsa_lease balsa_lease_new(uint64_t held);

/* After a fault, as of a disk: halted, and no call undoes that. */
balsa_lease balsa_lease_halt(balsa_lease lease);

/* A head was heard, asked for at a time. One below an earlier head, or below what is stored, halts. */
balsa_lease balsa_lease_heard(balsa_lease lease, uint64_t asked, uint64_t head);

/* The withdrawal with a number was stored. Any number but the next one halts. */
balsa_lease balsa_lease_stored(balsa_lease lease, uint64_t number);

/* Whether a text may be released at a time, by the verdict of all that is stored on it, as balsa_withdrawn answers:
 * 0 clear, 1 withdrawn, any other undecided. Halted comes first, then the verdict, then stale. */
balsa_release_reply balsa_lease_release(balsa_lease lease, uint64_t now, uint64_t limit,
                                        uint32_t verdict);

/* ---- A register of entries, each a tag and a body, that survives a power cut ----
 *
 * A register is at least 32,768 bytes that the caller lends (what is beyond is neither looked at nor
 * changed): byte 0 is 1, byte 1 the number of entries, then 64 entries of 6 bytes (start, length and
 * tag, low byte first), then from byte 386 the bodies back to back. At most 64 entries; a body has at
 * most 4,096 bytes and ends at byte 32,767 or before. Any bytes may stand in a register that is lent.
 *
 * Codes: 0 done; 1 the register is too short; 17 its layout breaks a rule; 18 no room for the body.
 * They are checked in this order, and a refusal leaves the register as it was. */

enum {
    BALSA_REGISTER = 32768,
    BALSA_REGISTER_ENTRIES = 64,
    BALSA_REGISTER_BODY = 4096
};

/* code 0 with found 1, the tag and where the body stands; code 0 with found 0 where there is no such
 * entry; or a refusal's code. What is not named is 0. */
typedef struct {
    uint32_t code;
    uint32_t found;
    uint16_t tag;
    size_t start;
    size_t length;
} balsa_entry_reply;

/* Empties a register, whatever stands in it: stores bytes 0 and 1, no more. Refusal 1. */
uint32_t balsa_register_empty(uint8_t *reg, size_t reg_len);

/* Adds an entry: all the steps of balsa_register_step, in order. Refusals 1, 17, 18. */
uint32_t balsa_register_add(uint8_t *reg, size_t reg_len, uint16_t tag, const uint8_t *body,
                            size_t body_len);

/* Step k of adding: stores at most one byte. The body comes first, then the entry, and byte 1 with
 * step body_len + 6, the last; past it nothing changes. Made in order from 0 on, the register lists
 * after every step the old entries, or after the last one those and the new one: power may go after
 * any of them. Refusals 1, 17, 18. */
uint32_t balsa_register_step(uint8_t *reg, size_t reg_len, uint16_t tag, const uint8_t *body,
                             size_t body_len, size_t k);

/* The entry at a place counted from 0. Refusals 1, 17. */
balsa_entry_reply balsa_register_entry(const uint8_t *reg, size_t reg_len, size_t place);

/* code 0 with an entry's tag, where its body stands and the place of the next step; or 255 past the
 * last entry, or a refusal's code, with next as it was handed in. What is not named is 0. */
typedef struct {
    uint32_t code;
    uint16_t tag;
    size_t start;
    size_t length;
    size_t next;
} balsa_walk_reply;

/* A step of a walk from a place, 0 at the start: each entry once, in order, and then 255 as often as
 * it is asked. Refusals 1, 17. */
balsa_walk_reply balsa_register_walk(const uint8_t *reg, size_t reg_len, size_t place);

/* ---- Withdrawal: may this compound be released? ----
 *
 * A register lists texts that are withdrawn, each under a tag. A text is withdrawn if it and a listed one are
 * redrawings (docs/RULES.md): in every drawing, that is, whatever its numbers, its Kekule form, its selected
 * letters, its drawn hydrogens, its map numbers and its marks. Release on clear and on nothing else: that is
 * BALSA_IS_CLEAR of a reply, code 0 and answer 0 (the answer of a refusal is 0 too). */

enum {
    BALSA_CLEAR = 0,
    BALSA_WITHDRAWN = 1,
    BALSA_UNDECIDED = 2
};

/* code 0, or a refusal's code with its place in the text */
typedef struct {
    uint32_t code;
    size_t place;
} balsa_withdraw_reply;

/* Adds a text that is accepted by reading: all the steps of balsa_register_step, in order, so that power may
 * go after any of them. Refusals in this order: 1; reading's, with its place; 17; 18. A refusal leaves the
 * register as it was. In a register that only this call has added to, every body is read. */
balsa_withdraw_reply balsa_withdraw(uint8_t *reg, size_t reg_len, uint16_t tag, const uint8_t *text,
                                    size_t text_len);

/* code 0 with the answer, or a refusal's code with its place. What is not named is 0. */
typedef struct {
    uint32_t code;
    size_t place;
    uint32_t answer;
    uint16_t tag;
    size_t entry;
} balsa_withdrawn_reply;

/* Whether a reply allows a release: the register and the text were read, and the text is clear. */
#define BALSA_IS_CLEAR(reply) ((reply).code == BALSA_ACCEPTED && (reply).answer == BALSA_CLEAR)

/* Whether a text is withdrawn. BALSA_WITHDRAWN: an entry is a redrawing of it, with the place and the tag of the
 * first that was found to be one. Else BALSA_UNDECIDED: an entry could not be decided, with the place of the
 * first: its body is no text that is read, or it and the text have one key and no renumbering was found within
 * the steps that are bounded. Else BALSA_CLEAR: every body is read, and no entry is a redrawing. Refusals in this
 * order: 1; 17; reading's, with its place in the text. */
balsa_withdrawn_reply balsa_withdrawn(const uint8_t *reg, size_t reg_len, const uint8_t *text,
                                      size_t text_len);

#ifdef __cplusplus
}
#endif

#endif
