//! The plain engine, exported for measuring by the crate `kekule_plain`.

use balsa::tables::{Counts, Step};
use balsa::Code;

mod linked {
    extern "C" {
        pub fn balsa_plain_first(
            atoms: *const i32,
            atoms_len: usize,
            bonds: *const i32,
            bonds_len: usize,
            n: usize,
            m: usize,
            row: *mut u8,
            row_len: usize,
        ) -> u32;
        pub fn balsa_plain_next(
            atoms: *const i32,
            atoms_len: usize,
            bonds: *const i32,
            bonds_len: usize,
            n: usize,
            m: usize,
            row: *mut u8,
            row_len: usize,
        ) -> u32;
    }
}

/// Stores the first matching in the row.
pub fn first(atoms: &[i32], bonds: &[i32], counts: Counts, row: &mut [u8]) -> Result<(), Code> {
    // SAFETY: the pointers and lengths are those of live slices, which do not overlap.
    let code = unsafe {
        linked::balsa_plain_first(
            atoms.as_ptr(),
            atoms.len(),
            bonds.as_ptr(),
            bonds.len(),
            counts.atoms,
            counts.bonds,
            row.as_mut_ptr(),
            row.len(),
        )
    };
    match code {
        0 => Ok(()),
        11 => Err(Code::Unmatchable),
        _ => Err(Code::Invalid),
    }
}

/// Stores the matching after the row in the row.
pub fn next(atoms: &[i32], bonds: &[i32], counts: Counts, row: &mut [u8]) -> Result<Step, Code> {
    // SAFETY: as for `first`.
    let code = unsafe {
        linked::balsa_plain_next(
            atoms.as_ptr(),
            atoms.len(),
            bonds.as_ptr(),
            bonds.len(),
            counts.atoms,
            counts.bonds,
            row.as_mut_ptr(),
            row.len(),
        )
    };
    match code {
        0 => Ok(Step::Given),
        255 => Ok(Step::End),
        12 => Err(Code::NotMatching),
        _ => Err(Code::Invalid),
    }
}
