//! Why a call says no: the numbers of the paper.

/// The reason of a refusal, under the paper's number.
#[derive(Clone, Copy, Debug, PartialEq, Eq, PartialOrd, Ord, Hash)]
#[repr(u8)]
pub enum Code {
    /// A buffer handed in is too short.
    ShortBuffer = 1,
    /// The text is longer than a text may be.
    TextTooLong = 2,
    /// The text breaks the grammar.
    Grammar = 3,
    /// One atom too many begins.
    TooManyAtoms = 4,
    /// One bond too many is to be made.
    TooManyBonds = 5,
    /// One branch too many opens inside the open ones.
    BranchesTooDeep = 6,
    /// A bridge joins an atom to itself.
    SelfBridge = 7,
    /// A bridge joins two atoms that have a bond.
    RepeatedBond = 8,
    /// The bond symbols at a bridge's ends differ, or its marks are not opposite.
    UnequalSymbols = 9,
    /// A bridge is open at the end of the text.
    OpenBridge = 10,
    /// No matching exists.
    Unmatchable = 11,
    /// The row handed in is not a matching.
    NotAMatching = 12,
    /// The tables are not sound.
    InvalidTables = 13,
    /// The written text would need too many bridges open at once.
    TooManyBridges = 14,
    /// The written branches would nest too deep.
    WrittenTooDeep = 15,
    /// The written text would be too long.
    WrittenTooLong = 16,
    /// The layout of the register breaks a rule.
    InvalidRegister = 17,
    /// The register has no room for the body.
    RegisterFull = 18,
    /// A molecule has more atoms than are compared.
    TooLarge = 19,
    /// Two marked neighbours of an end of a double bond lie on the same side.
    CrowdedEnd = 20,
    /// A mark touches no double bond.
    StrayMark = 21,
    /// A selected atom has fewer than two bonds.
    LooseSelected = 22,
    /// A tetrahedral mark stands at an atom without four neighbours.
    UnfitMark = 23,
    /// The text that comes in pieces has ended before.
    Ended = 24,
    /// The state of a reading in pieces, or its tables, are not as they may be.
    BrokenState = 25,
}

impl Code {
    /// The paper's number.
    pub fn number(self) -> u8 {
        self as u8
    }
}

/// A refusal: its reason and the byte it is about, 0 where the reason is about none.
#[derive(Clone, Copy, Debug, PartialEq, Eq)]
pub struct Refusal {
    /// The reason.
    pub code: Code,
    /// The byte of the text.
    pub place: usize,
}

impl Refusal {
    /// A refusal about the byte at `place`.
    pub fn at(code: Code, place: usize) -> Self {
        Refusal { code, place }
    }
}

impl From<Code> for Refusal {
    fn from(code: Code) -> Self {
        Refusal::at(code, 0)
    }
}
