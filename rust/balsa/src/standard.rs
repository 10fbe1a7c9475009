//! One call from a text to the text kekulized.

use crate::ffi;
use crate::refusal::{Code, Refusal};
use crate::tables::{Counts, TEXT};

/// What [`standardize_into`] answers.
#[derive(Clone, Copy, Debug, Default, PartialEq, Eq)]
pub struct Standard {
    /// How many atoms and bonds the molecule has.
    pub counts: Counts,
    /// How many atoms outside brackets were over-full in the text.
    pub overfull: usize,
    /// How many bytes the kekulized text has.
    pub length: usize,
}

/// Reads a text, kekulizes it by its first matching and writes it.
///
/// # Errors
/// The first refusal among these: 2 to 11 and 20 to 23 of reading with their places, 20 of kekulizing
/// and 14 to 16 of writing at place 0.
///
/// ```
/// assert_eq!(balsa::standardize(b"c1ccccc1")?, b"C1=CC=CC=C1");
/// # Ok::<(), balsa::Refusal>(())
/// ```
pub fn standardize(text: &[u8]) -> Result<Vec<u8>, Refusal> {
    let mut out = [0; TEXT];
    let standard = standardize_into(text, &mut out)?;
    Ok(out[..standard.length].to_vec())
}

/// The same into a buffer that the caller lends; zeros follow the text.
///
/// # Errors
/// 1 for a buffer of less than [`TEXT`] bytes, which stays as it was; any other refusal zeroes it.
pub fn standardize_into(text: &[u8], out: &mut [u8]) -> Result<Standard, Refusal> {
    let reply = ffi::standardize(text, out);
    match reply.code {
        0 => Ok(Standard {
            counts: Counts {
                atoms: reply.atoms,
                bonds: reply.bonds,
            },
            overfull: reply.overfull,
            length: reply.length,
        }),
        number => Err(Refusal {
            code: Code::of(number),
            place: reply.place,
        }),
    }
}
