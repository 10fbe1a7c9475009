//! A register of entries, each a tag and a body, in bytes that the caller owns, and whether a text is
//! withdrawn by one of them.

use crate::ffi;
use crate::refusal::{Code, Refusal};
use std::fmt;
use std::iter::FusedIterator;
use std::ops::Range;

/// Bytes of a register; what is beyond is neither looked at nor changed.
pub const REGISTER: usize = 32_768;
/// The most entries.
pub const MAX_ENTRIES: usize = 64;
/// The most bytes of a body.
pub const MAX_BODY: usize = 4096;
/// Where the first body starts.
const FIRST_BODY: usize = 386;

/// A register over bytes: a `Vec<u8>`, a `&mut [u8]`, a `&[u8]` to read from.
///
/// ```
/// use balsa::register::REGISTER;
/// use balsa::Register;
///
/// let mut register = Register::new(vec![0; REGISTER]);
/// register.empty()?;
/// register.add(7, b"withdrawn")?;
/// assert_eq!(register.entry(0)?, Some((7, &b"withdrawn"[..])));
/// assert_eq!(register.entry(1)?, None);
/// # Ok::<(), balsa::Code>(())
/// ```
#[derive(Clone, Debug, PartialEq, Eq)]
pub struct Register<B> {
    bytes: B,
}

impl<B: AsRef<[u8]>> Register<B> {
    /// The register that stands in the bytes, whatever they are.
    pub fn new(bytes: B) -> Self {
        Register { bytes }
    }

    /// The bytes.
    pub fn bytes(&self) -> &[u8] {
        self.bytes.as_ref()
    }

    /// The bytes, handed back.
    pub fn into_bytes(self) -> B {
        self.bytes
    }

    /// The tag and the body of the entry at a place counted from 0, or none.
    ///
    /// # Errors
    /// 1 or 17.
    pub fn entry(&self, place: usize) -> Result<Option<(u16, &[u8])>, Code> {
        let bytes = self.bytes();
        let reply = ffi::register_entry(bytes, place);
        done(reply.code)?;
        let body = || &bytes[reply.start..reply.start + reply.length];
        Ok((reply.found == 1).then(|| (reply.tag, body())))
    }

    /// The entries in order, each a tag and a body.
    ///
    /// ```
    /// # let mut register = balsa::Register::new(vec![0; 32_768]);
    /// # register.empty()?;
    /// register.add(7, b"c1ccccc1")?;
    /// register.add(9, b"CC")?;
    /// for (tag, body) in register.entries()? {
    ///     println!("{tag}: {} bytes", body.len());
    /// }
    /// # assert_eq!(register.entries()?.map(|(tag, _)| tag).collect::<Vec<_>>(), [7, 9]);
    /// # Ok::<(), balsa::Code>(())
    /// ```
    ///
    /// # Errors
    /// 1 or 17.
    pub fn entries(&self) -> Result<Entries<'_>, Code> {
        let register = self.bytes();
        match ffi::register_walk(register, 0).code {
            0 | END => Ok(Entries { register, next: 0 }),
            number => Err(Code::of(number)),
        }
    }

    /// Whether a text is withdrawn: whether an entry's text is a redrawing of it. It is asked of the
    /// compound and not of the text: another Kekulé form, selected letters, other numbers, hydrogens
    /// drawn as atoms, map numbers and marks hide nothing.
    ///
    /// Release what is [`Withdrawn::Clear`], and nothing else: not what is undecided, nor a text that is
    /// refused.
    ///
    /// ```
    /// use balsa::{Register, Withdrawn};
    ///
    /// let mut register = Register::new(vec![0; 32_768]);
    /// register.empty()?;
    /// register.withdraw(7, b"CC1=C(C)C=CC=C1")?;
    /// let listed = Withdrawn::Withdrawn { tag: 7, entry: 0 };
    /// assert_eq!(register.withdrawn(b"CC=1C(C)=CC=CC1")?, listed);
    /// assert_eq!(register.withdrawn(b"Cc1ccccc1C([H])[H]")?, listed);
    /// assert!(register.withdrawn(b"Cc1cccc(C)c1")?.is_clear());
    /// # Ok::<(), balsa::Refusal>(())
    /// ```
    ///
    /// # Errors
    /// 1 or 17, then what reading the text refuses, with its place.
    pub fn withdrawn(&self, text: &[u8]) -> Result<Withdrawn, Refusal> {
        let reply = ffi::withdrawn(self.bytes(), text);
        told(reply.code, reply.place)?;
        Ok(Withdrawn::of(reply.answer, reply.tag, reply.entry))
    }

    /// Where the last entry stands of a register to which one was added: its line in the table of
    /// contents, and its body.
    pub(crate) fn last_entry(&self) -> (Range<usize>, Range<usize>) {
        let place = usize::from(self.bytes()[1]) - 1;
        let line = 2 + 6 * place;
        let reply = ffi::register_entry(self.bytes(), place);
        (line..line + 6, reply.start..reply.start + reply.length)
    }

    /// The rule that the layout breaks, if there is one: the reason of 1 and 17 in words.
    pub fn damage(&self) -> Option<Damage> {
        Damage::of(self.bytes())
    }
}

impl<B: AsMut<[u8]>> Register<B> {
    /// Empties the register, whatever stands in it.
    ///
    /// # Errors
    /// 1, and nothing changes.
    pub fn empty(&mut self) -> Result<(), Code> {
        done(ffi::register_empty(self.bytes.as_mut()))
    }

    /// Adds an entry: every step of [`Register::step`].
    ///
    /// # Errors
    /// 1, 17 or 18, and nothing changes.
    pub fn add(&mut self, tag: u16, body: &[u8]) -> Result<(), Code> {
        done(ffi::register_add(self.bytes.as_mut(), tag, body))
    }

    /// Withdraws a text: adds it as a body, if it is one that is read. It is every step of
    /// [`Register::step`], so that power may go after any of them.
    ///
    /// # Errors
    /// 1, then what reading the text refuses, with its place, then 17 or 18; nothing changes.
    ///
    /// ```
    /// # use balsa::{Code, Refusal, Register};
    /// # let mut register = Register::new(vec![0; 32_768]);
    /// # register.empty()?;
    /// let refusal = register.withdraw(7, b"C11").unwrap_err();
    /// assert_eq!(refusal, Refusal { code: Code::SelfBridge, place: 2 });
    /// assert_eq!(register.entries()?.count(), 0);
    /// # Ok::<(), balsa::Code>(())
    /// ```
    pub fn withdraw(&mut self, tag: u16, text: &[u8]) -> Result<(), Refusal> {
        let reply = ffi::withdraw(self.bytes.as_mut(), tag, text);
        told(reply.code, reply.place)
    }

    /// Step `k` of adding, counted from 0: stores at most one byte. The last one, step
    /// `body.len() + 6`, makes the entry count; past it nothing changes.
    ///
    /// # Errors
    /// 1, 17 or 18, and nothing changes.
    pub fn step(&mut self, tag: u16, body: &[u8], k: usize) -> Result<(), Code> {
        done(ffi::register_step(self.bytes.as_mut(), tag, body, k))
    }
}

/// Whether a compound is withdrawn. Release on [`Withdrawn::Clear`], and on nothing else.
#[must_use = "a compound is released only if it is clear"]
#[derive(Clone, Copy, Debug, PartialEq, Eq)]
pub enum Withdrawn {
    /// Every body of the register is read, and no entry is a redrawing of the text.
    Clear,
    /// An entry is a redrawing of the text: the first that was found to be one.
    Withdrawn {
        /// The entry's tag.
        tag: u16,
        /// The entry's place.
        entry: usize,
    },
    /// No entry was found to be a redrawing, but not all could be decided: a body is not read, or it and
    /// the text have one key and no renumbering was found within the bounded steps.
    Undecided {
        /// The place of the first such entry.
        entry: usize,
    },
}

impl Withdrawn {
    /// What a reply says. Only the number of "clear" is clear.
    fn of(answer: u32, tag: u16, entry: usize) -> Self {
        match answer {
            0 => Withdrawn::Clear,
            1 => Withdrawn::Withdrawn { tag, entry },
            _ => Withdrawn::Undecided { entry },
        }
    }

    /// Whether the compound may be released.
    #[must_use]
    pub fn is_clear(self) -> bool {
        self == Withdrawn::Clear
    }
}

impl fmt::Display for Withdrawn {
    /// `clear`, `withdrawn, entry 0, tag 7` or `undecided, entry 0`
    fn fmt(&self, f: &mut fmt::Formatter<'_>) -> fmt::Result {
        match *self {
            Withdrawn::Clear => write!(f, "clear"),
            Withdrawn::Withdrawn { tag, entry } => write!(f, "withdrawn, entry {entry}, tag {tag}"),
            Withdrawn::Undecided { entry } => write!(f, "undecided, entry {entry}"),
        }
    }
}

/// The number of a walk's end.
const END: u32 = 255;

/// An iterator over the entries of a register, in order.
#[derive(Clone, Debug)]
pub struct Entries<'a> {
    register: &'a [u8],
    next: usize,
}

impl<'a> Iterator for Entries<'a> {
    type Item = (u16, &'a [u8]);

    fn next(&mut self) -> Option<Self::Item> {
        let step = ffi::register_walk(self.register, self.next);
        self.next = step.next;
        let body = || &self.register[step.start..step.start + step.length];
        (step.code == 0).then(|| (step.tag, body()))
    }
}

impl FusedIterator for Entries<'_> {}

fn done(code: u32) -> Result<(), Code> {
    match code {
        0 => Ok(()),
        number => Err(Code::of(number)),
    }
}

/// The same of a code with a place in the text.
fn told(code: u32, place: usize) -> Result<(), Refusal> {
    done(code).map_err(|code| Refusal { code, place })
}

/// What is wrong with the layout of a register: the first rule that it breaks.
///
/// The proved calls decide between valid and not; this only finds the words.
#[derive(Clone, Copy, Debug, PartialEq, Eq)]
pub enum Damage {
    /// The register has only so many bytes.
    Short(usize),
    /// Byte 0 is this and not 1.
    Mark(u8),
    /// Byte 1 says so many entries.
    Count(u8),
    /// An entry does not start where the bodies before it end.
    Start {
        /// The entry's place.
        place: usize,
        /// Where it says that it starts.
        start: usize,
        /// Where the bodies before it end.
        end: usize,
    },
    /// A body has over 4,096 bytes.
    Length {
        /// The entry's place.
        place: usize,
        /// How long it says that it is.
        length: usize,
    },
    /// A body passes byte 32,767.
    End {
        /// The entry's place.
        place: usize,
        /// Where its body ends.
        end: usize,
    },
}

impl Damage {
    fn of(bytes: &[u8]) -> Option<Damage> {
        let Some(bytes) = bytes.first_chunk::<REGISTER>() else {
            return Some(Damage::Short(bytes.len()));
        };
        let [mark, count, contents @ ..] = bytes;
        if *mark != 1 {
            return Some(Damage::Mark(*mark));
        }
        if usize::from(*count) > MAX_ENTRIES {
            return Some(Damage::Count(*count));
        }
        let mut end = FIRST_BODY;
        for (place, entry) in contents.chunks(6).take((*count).into()).enumerate() {
            let number = |i: usize| usize::from(u16::from_le_bytes([entry[i], entry[i + 1]]));
            let (start, length) = (number(0), number(2));
            if start != end {
                return Some(Damage::Start { place, start, end });
            }
            if length > MAX_BODY {
                return Some(Damage::Length { place, length });
            }
            end += length;
            if end > REGISTER {
                return Some(Damage::End { place, end });
            }
        }
        None
    }

    /// The refusal that this is the reason of: 1 or 17.
    pub fn code(self) -> Code {
        match self {
            Damage::Short(_) => Code::Short,
            _ => Code::InvalidRegister,
        }
    }
}

impl fmt::Display for Damage {
    fn fmt(&self, f: &mut fmt::Formatter<'_>) -> fmt::Result {
        match *self {
            Damage::Short(length) => write!(f, "{length} bytes are under {REGISTER}"),
            Damage::Mark(mark) => write!(f, "byte 0 is {mark} and not 1"),
            Damage::Count(count) => write!(f, "byte 1 says {count} entries, over {MAX_ENTRIES}"),
            Damage::Start { place, start, end } => write!(
                f,
                "entry {place} starts at byte {start}, but the bodies before it end at {end}"
            ),
            Damage::Length { place, length } => write!(
                f,
                "the body of entry {place} has {length} bytes, over {MAX_BODY}"
            ),
            Damage::End { place, end } => {
                write!(
                    f,
                    "the body of entry {place} ends at byte {end}, past {REGISTER}"
                )
            }
        }
    }
}
