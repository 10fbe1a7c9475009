//! Comparing implementations on random texts, whole and in pieces, tables and registers.
//!
//! All that is random comes from a seed, so that a difference can be found again. To compare
//! another implementation, implement [`implementation::Implementation`] for it and name it in the
//! program `compare`.

pub mod buffers;
pub mod corpus;
pub mod drawings;
pub mod hard;
pub mod implementation;
pub mod laws;
pub mod limits;
pub mod molecules;
pub mod pair;
pub mod pieces;
pub mod proved;
pub mod random;
pub mod registers;
pub mod spelling;
pub mod states;
pub mod texts;
pub mod withdrawals;
