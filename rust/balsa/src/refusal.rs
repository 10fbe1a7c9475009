//! Why a call says no, and the words for it.

use crate::tables::{RENUMBERING, ROW, SAME_ATOMS, TEXT};
use std::fmt;

/// The refusals of the rules, each once: name, number and words.
macro_rules! refusals {
    ($($name:ident = $number:literal, $words:literal;)*) => {
        /// The reason of a refusal, with the number that the rules give it.
        #[derive(Clone, Copy, Debug, PartialEq, Eq, Hash)]
        #[repr(u8)]
        pub enum Code {
            $(#[doc = concat!("Told as: ", $words, ".")] $name = $number,)*
        }

        impl Code {
            /// All codes in ascending order.
            pub const ALL: &'static [Code] = &[$(Code::$name),*];

            /// What the refusal says in words, without its number.
            ///
            /// ```
            /// assert_eq!(balsa::Code::OpenBridge.words(), "a bridge is open at the end");
            /// ```
            pub fn words(self) -> &'static str {
                match self {
                    $(Code::$name => $words,)*
                }
            }

            pub(crate) fn known(number: u32) -> Option<Code> {
                match number {
                    $($number => Some(Code::$name),)*
                    _ => None,
                }
            }
        }
    };
}

// c/refusal_text.c says the same; c/refusals.out lists it for the tests of both.
refusals! {
    Short = 1, "a buffer is too short";
    LongText = 2, "the text is over 16,384 bytes";
    Grammar = 3, "no text of the grammar continues so";
    ManyAtoms = 4, "a 1,001st atom begins";
    ManyBonds = 5, "a 1,101st bond is to be made";
    DeepBranch = 6, "a 65th branch opens inside 64";
    SelfBridge = 7, "a bridge joins an atom to itself";
    RepeatedBond = 8, "a bridge joins two atoms that have a bond";
    SymbolClash = 9, "the symbols at a bridge's ends differ";
    OpenBridge = 10, "a bridge is open at the end";
    Unmatchable = 11, "no matching exists";
    NotMatching = 12, "the row is not a matching of this molecule";
    Invalid = 13, "the tables are not sound";
    ManyBridges = 14, "over 99 bridges would be open at once";
    DeepWriting = 15, "the written branches would nest over 64 deep";
    LongWriting = 16, "the written text would be over 16,384 bytes";
    InvalidRegister = 17, "the layout of the register breaks a rule";
    FullRegister = 18, "the register has no room for the body";
    LargeMolecule = 19, "a molecule has over 64 atoms";
    CrowdedEnd = 20, "two marked neighbours of one end lie on the same side";
    StrayMark = 21, "a mark touches no double bond";
    LooseAtom = 22, "a selected atom has fewer than two bonds";
    UnfitMark = 23, "a tetrahedral mark without four neighbours";
    Ended = 24, "the text has already ended";
    BrokenState = 25, "the reading's state or tables are broken";
}

// The limits that the words above name.
const _: () = assert!(TEXT == 16384 && RENUMBERING == 1000 && ROW == 1100 && SAME_ATOMS == 64);

impl Code {
    /// The refusal of a number that a call answers with.
    pub(crate) fn of(number: u32) -> Code {
        Code::known(number).unwrap_or_else(|| panic!("{number} is no refusal of the rules"))
    }

    /// The number of the rules.
    pub fn number(self) -> u8 {
        self as u8
    }

    /// Whether the refusal is told at a place in the text.
    pub fn has_place(self) -> bool {
        (2..=10).contains(&self.number())
    }
}

impl fmt::Display for Code {
    /// `refusal 10: a bridge is open at the end`
    fn fmt(&self, f: &mut fmt::Formatter<'_>) -> fmt::Result {
        write!(f, "refusal {}: {}", self.number(), self.words())
    }
}

impl std::error::Error for Code {}

/// A refusal and its place in the text, 0 where there is none.
#[derive(Clone, Copy, Debug, PartialEq, Eq, Hash)]
pub struct Refusal {
    /// The reason.
    pub code: Code,
    /// The offset of the byte that it is told at.
    pub place: usize,
}

impl Refusal {
    /// The refusal in words, with the text that was refused and a caret under the place.
    ///
    /// ```
    /// let text = b"C11";
    /// let refusal = balsa::Molecule::read(text).unwrap_err();
    /// assert_eq!(
    ///     refusal.message(text).to_string(),
    ///     "refusal 7 at byte 2: a bridge joins an atom to itself\n  C11\n    ^"
    /// );
    /// ```
    pub fn message<'a>(&self, text: &'a [u8]) -> impl fmt::Display + 'a {
        Message {
            refusal: *self,
            text,
        }
    }

    /// The part of a text that shows the place of this refusal.
    pub fn excerpt(&self, text: &[u8]) -> Excerpt {
        let place = self.code.has_place().then_some(self.place);
        Excerpt::of(text, place)
    }
}

impl fmt::Display for Refusal {
    /// `refusal 7 at byte 2: a bridge joins an atom to itself`, or without a place as its code.
    fn fmt(&self, f: &mut fmt::Formatter<'_>) -> fmt::Result {
        let Refusal { code, place } = self;
        if !code.has_place() {
            return code.fmt(f);
        }
        let number = code.number();
        write!(f, "refusal {number} at byte {place}: {}", code.words())
    }
}

impl std::error::Error for Refusal {}

impl From<Code> for Refusal {
    fn from(code: Code) -> Self {
        Refusal { code, place: 0 }
    }
}

/// What [`Refusal::message`] shows.
struct Message<'a> {
    refusal: Refusal,
    text: &'a [u8],
}

impl fmt::Display for Message<'_> {
    fn fmt(&self, f: &mut fmt::Formatter<'_>) -> fmt::Result {
        let Excerpt { line, column } = self.refusal.excerpt(self.text);
        write!(f, "{}\n  {line}", self.refusal)?;
        match column {
            Some(column) => write!(f, "\n  {:column$}^", ""),
            None => Ok(()),
        }
    }
}

/// The most bytes of a text that an excerpt shows.
const SHOWN: usize = 72;
/// Stands where an excerpt leaves something out.
const CUT: &str = "...";

/// A part of a text in one line, a column for each byte.
#[derive(Clone, Debug, PartialEq, Eq)]
pub struct Excerpt {
    /// The line: `?` for a byte that is not printable ASCII, `...` where the text was cut.
    pub line: String,
    /// The column of the place, from 0, where there is one.
    pub column: Option<usize>,
}

impl Excerpt {
    fn of(text: &[u8], place: Option<usize>) -> Self {
        let last_start = text.len().saturating_sub(SHOWN);
        let start = place.unwrap_or(0).saturating_sub(SHOWN / 2).min(last_start);
        let end = text.len().min(start + SHOWN);
        let before = if start > 0 { CUT } else { "" };
        let after = if end < text.len() { CUT } else { "" };
        let shown = text[start..end].iter().map(|&byte| printable(byte));
        let line = before.chars().chain(shown).chain(after.chars());
        Excerpt {
            line: line.collect(),
            column: place.map(|place| before.len() + place - start),
        }
    }
}

fn printable(byte: u8) -> char {
    match byte {
        b' '..=b'~' => byte.into(),
        _ => '?',
    }
}
