//! What is held, in memory, and the answers that it gives.

use crate::segments::Entry;
use balsa::register::REGISTER;
use balsa::{Lease, Molecule, Refusal, Register, Release, Verdict, Withdrawn};
use std::cell::RefCell;
use std::collections::HashMap;
use std::fmt;

/// The withdrawals, by the key that all redrawings of a compound share, and the lease.
#[derive(Debug)]
pub struct Store {
    lease: Lease,
    entries: Vec<Entry>,
    by_key: HashMap<u64, Vec<usize>>,
    fault: String,
}

/// An answer to "may this text be released".
#[derive(Debug, PartialEq, Eq)]
pub enum Answer {
    /// Yes: everything up to the number is held, and the head was asked for so many milliseconds ago.
    Yes {
        /// The number.
        held: u64,
        /// The milliseconds.
        age: u64,
    },
    /// No: it is a redrawing of this withdrawal.
    Withdrawn {
        /// Its number.
        number: u64,
        /// Its tag.
        tag: u16,
    },
    /// No: it is no text.
    Refused(Refusal),
    /// No: whether it is a redrawing of this withdrawal could not be decided.
    Undecided {
        /// Its number.
        number: u64,
    },
    /// No: nothing young enough was heard, or not all of it is held.
    Stale {
        /// The milliseconds since the last head was asked for.
        age: u64,
    },
    /// No, until somebody has looked.
    Halted(String),
}

/// The key of a text, or why it is none.
pub fn key(text: &[u8]) -> Result<u64, Refusal> {
    Molecule::read(text).map(|molecule| molecule.key())
}

impl Store {
    /// What was found on the disk.
    pub fn new(entries: Vec<Entry>) -> Store {
        let mut store = Store {
            lease: Lease::new(0),
            entries: Vec::new(),
            by_key: HashMap::new(),
            fault: String::new(),
        };
        for (number, entry) in (1..).zip(entries) {
            store.hold(number, entry);
        }
        store
    }

    /// A store that has failed before it began.
    pub fn failed(why: String) -> Store {
        let mut store = Store::new(Vec::new());
        store.halt(why);
        store
    }

    /// Every withdrawal up to this number is held.
    pub fn held(&self) -> u64 {
        self.lease.held()
    }

    /// Why it has halted, if it has.
    pub fn fault(&self) -> Option<&str> {
        self.lease.is_halted().then_some(&self.fault)
    }

    /// Whether this is the withdrawal that is held under a number.
    pub fn holds(&self, number: u64, entry: &Entry) -> bool {
        let place = usize::try_from(number).ok().and_then(|n| n.checked_sub(1));
        place.and_then(|place| self.entries.get(place)) == Some(entry)
    }

    /// Halts for good; the first reason is kept.
    pub fn halt(&mut self, why: String) {
        if !self.lease.is_halted() {
            self.fault = why;
        }
        self.lease.halt();
    }

    /// Whether a withdrawal with this number would be the next one.
    pub fn expects(&self, number: u64) -> bool {
        let mut next = self.lease;
        next.stored(number);
        !next.is_halted()
    }

    /// Takes in the next withdrawal, which is on the disk.
    pub fn hold(&mut self, number: u64, entry: Entry) {
        match key(&entry.body) {
            Ok(key) => self.by_key.entry(key).or_default().push(self.entries.len()),
            Err(refusal) => self.halt(format!("withdrawal {number} is no text: {refusal}")),
        }
        self.entries.push(entry);
        self.lease.stored(number);
    }

    /// A head was heard that was asked for at a time.
    pub fn heard(&mut self, asked: u64, head: u64) {
        let held = self.held();
        self.lease.heard(asked, head);
        if self.lease.is_halted() && self.fault.is_empty() {
            self.fault = format!("the head went back to {head}, and {held} are held");
        }
    }

    /// Whether a text may be released at a time, with its key as [`key`] tells it.
    pub fn answer(&self, text: &[u8], key: Result<u64, Refusal>, now: u64, limit: u64) -> Answer {
        if let Some(fault) = self.fault() {
            return Answer::Halted(fault.to_string());
        }
        let key = match key {
            Ok(key) => key,
            Err(refusal) => return Answer::Refused(refusal),
        };
        let (verdict, place) = self.verdict(text, key);
        let number = place as u64 + 1;
        match self.lease.release(now, limit, verdict) {
            Release::Yes { held, age } => Answer::Yes { held, age },
            Release::Withdrawn => Answer::Withdrawn {
                number,
                tag: self.entries[place].tag,
            },
            Release::Undecided => Answer::Undecided { number },
            Release::Stale { age } => Answer::Stale { age },
            Release::Halted => Answer::Halted(String::new()),
        }
    }

    /// What all that is held says of a text, and by which entry. Redrawings have equal keys, so that the others are clear.
    fn verdict(&self, text: &[u8], key: u64) -> (Verdict, usize) {
        let mut told = (Verdict::Clear, 0);
        for &place in self.by_key.get(&key).into_iter().flatten() {
            match compared(&self.entries[place], text) {
                Verdict::Clear => {}
                Verdict::Withdrawn => return (Verdict::Withdrawn, place),
                Verdict::Undecided => told = (Verdict::Undecided, place),
            }
        }
        told
    }
}

thread_local! {
    /// A register for one entry.
    static ALONE: RefCell<Register<Vec<u8>>> = RefCell::new(Register::new(vec![0; REGISTER]));
}

/// What the withdrawal check says of a text by one entry.
fn compared(entry: &Entry, text: &[u8]) -> Verdict {
    ALONE.with_borrow_mut(|register| {
        if register.empty().is_err() || register.withdraw(entry.tag, &entry.body).is_err() {
            return Verdict::Undecided;
        }
        match register.withdrawn(text) {
            Ok(Withdrawn::Clear) => Verdict::Clear,
            Ok(Withdrawn::Withdrawn { .. }) => Verdict::Withdrawn,
            _ => Verdict::Undecided,
        }
    })
}

impl fmt::Display for Answer {
    fn fmt(&self, f: &mut fmt::Formatter<'_>) -> fmt::Result {
        match self {
            Answer::Yes { held, age } => write!(f, "yes {held} {age}"),
            Answer::Withdrawn { number, tag } => write!(f, "no withdrawn {number} {tag}"),
            Answer::Refused(refusal) => {
                write!(f, "no refused {}", refusal.code.number())?;
                if refusal.code.has_place() {
                    write!(f, " {}", refusal.place)?;
                }
                Ok(())
            }
            Answer::Undecided { number } => write!(f, "no undecided {number}"),
            Answer::Stale { age } => write!(f, "no stale {age}"),
            Answer::Halted(why) => write!(f, "no halted {why}"),
        }
    }
}
