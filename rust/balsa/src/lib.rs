//! Balsa text read, kekulized, written and compared by a proved library.
//!
//! [`standardize()`] goes from a text to the text kekulized in one call.
//! [`Molecule`] owns its tables; [`tables`] has the calls on buffers that the caller lends;
//! [`PieceReader`] reads a text that comes in pieces, and [`pieces`] has its calls; [`report()`] reports
//! the lines of an input. Every answer is defined for all inputs: nothing panics, and nothing outside
//! the buffers is touched.
//!
//! [`Lease`] says whether a follower of a feed of withdrawals may release.
//!
//! [`Register`] keeps bodies of bytes under tags and survives a power cut after any store;
//! [`RegisterFile`] is one in a file. [`Register::withdrawn`] tells whether a text is withdrawn by one of
//! them, in any drawing: release what is [`Withdrawn::Clear`], and nothing else.

mod ffi;
mod lease;
mod molecule;
pub mod pieces;
mod refusal;
pub mod register;
#[cfg(unix)]
mod register_file;
mod report;
mod standard;
mod symbol;
pub mod tables;

pub use lease::{Lease, Release, Verdict};
pub use molecule::{Matchings, Molecule, Sameness, Written};
pub use pieces::PieceReader;
pub use refusal::{Code, Excerpt, Refusal};
pub use register::{Damage, Entries, Register, Withdrawn};
#[cfg(unix)]
pub use register_file::{FileError, RegisterFile};
pub use report::{report, report_into};
pub use standard::{standardize, standardize_into, Standard};
pub use symbol::{symbol, Symbol};

/// The edition of the rules: it grows with each change of an answer (`include/balsa.h` lists them).
/// What is stored of answers is good for one edition.
pub const EDITION: u32 = 7;
