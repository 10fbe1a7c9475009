//! A reader, writer and kekulizer of Balsa texts, written from the paper alone.
//!
//! It is the second program to which the proved one is compared, and the baseline of the
//! benchmark. [`read`], [`first`], [`next`], [`kekulize`], [`same`] and [`write`] work on a [`Molecule`];
//! [`tables`] holds the same calls on tables of `i32`, with the paper's rules for short buffers
//! and for what a refusal leaves behind. [`register`] holds the calls on a register, [`withdrawal`]
//! those that ask whether a compound is withdrawn in it. [`Pieces`] is a text that comes in pieces;
//! [`pieces_state`] tells which states of such a reading are refused.

mod blossom;
mod conformation;
pub mod element;
mod forced;
mod matching;
mod molecule;
mod pieces;
pub mod pieces_state;
mod read;
mod redrawing;
mod redrawn;
mod refusal;
pub mod register;
mod report;
mod same;
mod search;
pub mod tables;
mod tetrahedral;
mod valence;
pub mod withdrawal;
mod write;

pub use conformation::sides;
pub use element::{number_of, symbol_of};
pub use forced::forced;
pub use matching::{first, has_matching, is_matching, kekulize, next};
pub use molecule::{Atom, Bond, Kind, Molecule, Neighbour, Neighbours};
pub use pieces::Pieces;
pub use read::{read, reading, Reading};
pub use redrawn::{are_redrawings, folded};
pub use refusal::{Code, Refusal};
pub use report::{report, report_line, Accepted};
pub use same::{same, same_by_search, same_by_trying, shows, Sameness};
pub use tetrahedral::Mark;
pub use valence::{delocalized, implied_hydrogens, is_shorthand, reached, Reached};
pub use write::{write, Written};

/// The longest text that is read or written, in bytes.
pub const MAX_TEXT: usize = 16_384;
/// The most atoms of a molecule.
pub const MAX_ATOMS: usize = 1000;
/// The most bonds of a molecule.
pub const MAX_BONDS: usize = 1100;
/// The deepest nesting of branches.
pub const MAX_BRANCHES: usize = 64;
/// The highest bridge number, and so the most bridges open at once.
pub const MAX_BRIDGES: usize = 99;
/// The most atoms of a molecule that is compared with another.
pub const MAX_COMPARED: usize = 64;
/// The cells of an atom's row in a table.
pub const ATOM_CELLS: usize = 7;
/// The cells of a bond's row in a table.
pub const BOND_CELLS: usize = 3;
