/* The words of the refusals, as in rust/balsa/src/refusal.rs, and which library this is. */
#include "balsa.h"

/* The limits that the words name. */
_Static_assert(BALSA_TEXT == 16384 && BALSA_RENUMBERING == 1000 && BALSA_ROW == 1100 &&
               BALSA_SAME_ATOMS == 64, "");

static const char *const words[] = {
    [BALSA_SHORT] = "a buffer is too short",
    [BALSA_LONG_TEXT] = "the text is over 16,384 bytes",
    [BALSA_GRAMMAR] = "no text of the grammar continues so",
    [BALSA_MANY_ATOMS] = "a 1,001st atom begins",
    [BALSA_MANY_BONDS] = "a 1,101st bond is to be made",
    [BALSA_DEEP_BRANCH] = "a 65th branch opens inside 64",
    [BALSA_SELF_BRIDGE] = "a bridge joins an atom to itself",
    [BALSA_REPEATED_BOND] = "a bridge joins two atoms that have a bond",
    [BALSA_SYMBOL_CLASH] = "the symbols at a bridge's ends differ",
    [BALSA_OPEN_BRIDGE] = "a bridge is open at the end",
    [BALSA_UNMATCHABLE] = "no matching exists",
    [BALSA_NOT_MATCHING] = "the row is not a matching of this molecule",
    [BALSA_INVALID] = "the tables are not sound",
    [BALSA_MANY_BRIDGES] = "over 99 bridges would be open at once",
    [BALSA_DEEP_WRITING] = "the written branches would nest over 64 deep",
    [BALSA_LONG_WRITING] = "the written text would be over 16,384 bytes",
    [BALSA_INVALID_REGISTER] = "the layout of the register breaks a rule",
    [BALSA_FULL_REGISTER] = "the register has no room for the body",
    [BALSA_LARGE_MOLECULE] = "a molecule has over 64 atoms",
    [BALSA_CROWDED_END] = "two marked neighbours of one end lie on the same side",
    [BALSA_STRAY_MARK] = "a mark touches no double bond",
    [BALSA_LOOSE_ATOM] = "a selected atom has fewer than two bonds",
    [BALSA_UNFIT_MARK] = "a tetrahedral mark without four neighbours",
    [BALSA_ENDED] = "the text has already ended",
    [BALSA_BROKEN_STATE] = "the reading's state or tables are broken",
};

const char *balsa_refusal_text(uint32_t code) {
    return code < sizeof words / sizeof words[0] ? words[code] : NULL;
}

const char *balsa_version(void) {
    return BALSA_VERSION;
}

uint32_t balsa_edition(void) {
    return BALSA_EDITION;
}
