//! The exported calls. A slice passes as a pointer and a length in elements.
//!
//! This is the only module with `unsafe`. Every call is proved for all buffers and all contents, so
//! the wrappers have nothing to test: `&` and `&mut` keep the memory valid and the buffers apart.

pub mod lease;

use crate::pieces::State;
use crate::tables::Tables;

/// What `balsa_read` hands back.
#[repr(C)]
pub struct ReadReply {
    pub code: u32,
    pub place: usize,
    pub atoms: usize,
    pub bonds: usize,
    pub overfull: usize,
}

/// What `balsa_write` hands back.
#[repr(C)]
pub struct WriteReply {
    pub code: u32,
    pub length: usize,
}

/// What `balsa_standardize` hands back.
#[repr(C)]
pub struct StandardReply {
    pub code: u32,
    pub place: usize,
    pub atoms: usize,
    pub bonds: usize,
    pub overfull: usize,
    pub length: usize,
}

/// What `balsa_first_forced` hands back.
#[repr(C)]
pub struct ForcedReply {
    pub code: u32,
    pub forced: usize,
}

/// What `balsa_symbol` hands back.
#[repr(C)]
pub struct SymbolReply {
    pub code: u32,
    pub place: usize,
    pub length: usize,
    pub element: u32,
    pub selected: u32,
}

/// What the calls for a text in pieces hand back.
#[repr(C)]
pub struct FedReply {
    pub code: u32,
    pub place: usize,
    pub atoms: usize,
    pub bonds: usize,
    pub overfull: usize,
    pub state: State,
}

/// What `balsa_register_entry` hands back.
#[repr(C)]
pub struct EntryReply {
    pub code: u32,
    pub found: u32,
    pub tag: u16,
    pub start: usize,
    pub length: usize,
}

/// What `balsa_report` hands back.
#[repr(C)]
pub struct ReportReply {
    pub code: u32,
    pub length: usize,
}

/// What `balsa_register_walk` hands back.
#[repr(C)]
pub struct WalkReply {
    pub code: u32,
    pub tag: u16,
    pub start: usize,
    pub length: usize,
    pub next: usize,
}

/// What `balsa_key` hands back.
#[repr(C)]
pub struct KeyReply {
    pub code: u32,
    pub key: u64,
}

/// What `balsa_withdraw` hands back.
#[repr(C)]
pub struct WithdrawReply {
    pub code: u32,
    pub place: usize,
}

/// What `balsa_withdrawn` hands back.
#[repr(C)]
pub struct WithdrawnReply {
    pub code: u32,
    pub place: usize,
    pub answer: u32,
    pub tag: u16,
    pub entry: usize,
}

mod linked {
    use super::{
        EntryReply, FedReply, ForcedReply, KeyReply, ReadReply, ReportReply, StandardReply, State,
        SymbolReply, WalkReply, WithdrawReply, WithdrawnReply, WriteReply,
    };

    extern "C" {
        pub fn balsa_symbol(first: u8, second: u8) -> SymbolReply;
        pub fn balsa_read(
            text: *const u8,
            text_len: usize,
            atoms: *mut i32,
            atoms_len: usize,
            bonds: *mut i32,
            bonds_len: usize,
        ) -> ReadReply;
        pub fn balsa_write(
            atoms: *const i32,
            atoms_len: usize,
            bonds: *const i32,
            bonds_len: usize,
            n: usize,
            m: usize,
            out: *mut u8,
            out_len: usize,
            ren: *mut u16,
            ren_len: usize,
        ) -> WriteReply;
        pub fn balsa_standardize(
            text: *const u8,
            text_len: usize,
            out: *mut u8,
            out_len: usize,
        ) -> StandardReply;
        pub fn balsa_check(
            atoms: *const i32,
            atoms_len: usize,
            bonds: *const i32,
            bonds_len: usize,
            n: usize,
            m: usize,
        ) -> u32;
        pub fn balsa_first(
            atoms: *const i32,
            atoms_len: usize,
            bonds: *const i32,
            bonds_len: usize,
            n: usize,
            m: usize,
            row: *mut u8,
            row_len: usize,
        ) -> u32;
        pub fn balsa_next(
            atoms: *const i32,
            atoms_len: usize,
            bonds: *const i32,
            bonds_len: usize,
            n: usize,
            m: usize,
            row: *mut u8,
            row_len: usize,
        ) -> u32;
        pub fn balsa_first_forced(
            atoms: *const i32,
            atoms_len: usize,
            bonds: *const i32,
            bonds_len: usize,
            n: usize,
            m: usize,
            row: *mut u8,
            row_len: usize,
            pairs: *mut u16,
            pairs_len: usize,
        ) -> ForcedReply;
        pub fn balsa_next_forced(
            atoms: *const i32,
            atoms_len: usize,
            bonds: *const i32,
            bonds_len: usize,
            n: usize,
            m: usize,
            row: *mut u8,
            row_len: usize,
        ) -> u32;
        pub fn balsa_sides(
            atoms: *const i32,
            atoms_len: usize,
            bonds: *const i32,
            bonds_len: usize,
            n: usize,
            m: usize,
            row: *mut u8,
            row_len: usize,
        ) -> u32;
        pub fn balsa_is_matching(
            atoms: *const i32,
            atoms_len: usize,
            bonds: *const i32,
            bonds_len: usize,
            n: usize,
            m: usize,
            row: *const u8,
            row_len: usize,
        ) -> u32;
        pub fn balsa_kekulize(
            atoms: *mut i32,
            atoms_len: usize,
            bonds: *mut i32,
            bonds_len: usize,
            n: usize,
            m: usize,
            row: *const u8,
            row_len: usize,
        ) -> u32;
        pub fn balsa_replay(
            calls: *const u8,
            calls_len: usize,
            atoms: *const i32,
            atoms_len: usize,
            bonds: *const i32,
            bonds_len: usize,
            n: usize,
            m: usize,
            row: *mut u8,
            row_len: usize,
            codes: *mut u8,
            codes_len: usize,
        ) -> u32;
        pub fn balsa_same(
            atoms1: *const i32,
            atoms1_len: usize,
            bonds1: *const i32,
            bonds1_len: usize,
            n1: usize,
            m1: usize,
            atoms2: *const i32,
            atoms2_len: usize,
            bonds2: *const i32,
            bonds2_len: usize,
            n2: usize,
            m2: usize,
            row1: *mut u8,
            row1_len: usize,
            row2: *mut u8,
            row2_len: usize,
            ren: *mut u16,
            ren_len: usize,
        ) -> u32;
        pub fn balsa_key(
            atoms: *const i32,
            atoms_len: usize,
            bonds: *const i32,
            bonds_len: usize,
            n: usize,
            m: usize,
        ) -> KeyReply;
        pub fn balsa_start(
            atoms: *mut i32,
            atoms_len: usize,
            bonds: *mut i32,
            bonds_len: usize,
        ) -> FedReply;
        pub fn balsa_feed(
            state: State,
            piece: *const u8,
            piece_len: usize,
            atoms: *mut i32,
            atoms_len: usize,
            bonds: *mut i32,
            bonds_len: usize,
        ) -> FedReply;
        pub fn balsa_end(
            state: State,
            atoms: *mut i32,
            atoms_len: usize,
            bonds: *mut i32,
            bonds_len: usize,
        ) -> FedReply;
        pub fn balsa_report(
            input: *const u8,
            input_len: usize,
            out: *mut u8,
            out_len: usize,
        ) -> ReportReply;
        pub fn balsa_report_length(input: *const u8, input_len: usize) -> usize;
        pub fn balsa_register_empty(reg: *mut u8, reg_len: usize) -> u32;
        pub fn balsa_register_add(
            reg: *mut u8,
            reg_len: usize,
            tag: u16,
            body: *const u8,
            body_len: usize,
        ) -> u32;
        pub fn balsa_register_step(
            reg: *mut u8,
            reg_len: usize,
            tag: u16,
            body: *const u8,
            body_len: usize,
            k: usize,
        ) -> u32;
        pub fn balsa_register_entry(reg: *const u8, reg_len: usize, place: usize) -> EntryReply;
        pub fn balsa_register_walk(reg: *const u8, reg_len: usize, place: usize) -> WalkReply;
        pub fn balsa_withdraw(
            reg: *mut u8,
            reg_len: usize,
            tag: u16,
            text: *const u8,
            text_len: usize,
        ) -> WithdrawReply;
        pub fn balsa_withdrawn(
            reg: *const u8,
            reg_len: usize,
            text: *const u8,
            text_len: usize,
        ) -> WithdrawnReply;
    }
}

pub fn symbol(first: u8, second: u8) -> SymbolReply {
    // SAFETY: two bytes pass by value.
    unsafe { linked::balsa_symbol(first, second) }
}

pub fn read(text: &[u8], atoms: &mut [i32], bonds: &mut [i32]) -> ReadReply {
    // SAFETY: the pointers and lengths are those of live slices, which do not overlap.
    unsafe {
        linked::balsa_read(
            text.as_ptr(),
            text.len(),
            atoms.as_mut_ptr(),
            atoms.len(),
            bonds.as_mut_ptr(),
            bonds.len(),
        )
    }
}

pub fn write(
    atoms: &[i32],
    bonds: &[i32],
    n: usize,
    m: usize,
    out: &mut [u8],
    ren: &mut [u16],
) -> WriteReply {
    // SAFETY: as for `read`.
    unsafe {
        linked::balsa_write(
            atoms.as_ptr(),
            atoms.len(),
            bonds.as_ptr(),
            bonds.len(),
            n,
            m,
            out.as_mut_ptr(),
            out.len(),
            ren.as_mut_ptr(),
            ren.len(),
        )
    }
}

pub fn check(atoms: &[i32], bonds: &[i32], n: usize, m: usize) -> u32 {
    // SAFETY: as for `read`.
    unsafe {
        linked::balsa_check(
            atoms.as_ptr(),
            atoms.len(),
            bonds.as_ptr(),
            bonds.len(),
            n,
            m,
        )
    }
}

pub fn first(atoms: &[i32], bonds: &[i32], n: usize, m: usize, row: &mut [u8]) -> u32 {
    // SAFETY: as for `read`.
    unsafe {
        linked::balsa_first(
            atoms.as_ptr(),
            atoms.len(),
            bonds.as_ptr(),
            bonds.len(),
            n,
            m,
            row.as_mut_ptr(),
            row.len(),
        )
    }
}

pub fn next(atoms: &[i32], bonds: &[i32], n: usize, m: usize, row: &mut [u8]) -> u32 {
    // SAFETY: as for `read`.
    unsafe {
        linked::balsa_next(
            atoms.as_ptr(),
            atoms.len(),
            bonds.as_ptr(),
            bonds.len(),
            n,
            m,
            row.as_mut_ptr(),
            row.len(),
        )
    }
}

pub fn first_forced(
    atoms: &[i32],
    bonds: &[i32],
    n: usize,
    m: usize,
    row: &mut [u8],
    pairs: &mut [u16],
) -> ForcedReply {
    // SAFETY: as for `read`.
    unsafe {
        linked::balsa_first_forced(
            atoms.as_ptr(),
            atoms.len(),
            bonds.as_ptr(),
            bonds.len(),
            n,
            m,
            row.as_mut_ptr(),
            row.len(),
            pairs.as_mut_ptr(),
            pairs.len(),
        )
    }
}

pub fn next_forced(atoms: &[i32], bonds: &[i32], n: usize, m: usize, row: &mut [u8]) -> u32 {
    // SAFETY: as for `read`.
    unsafe {
        linked::balsa_next_forced(
            atoms.as_ptr(),
            atoms.len(),
            bonds.as_ptr(),
            bonds.len(),
            n,
            m,
            row.as_mut_ptr(),
            row.len(),
        )
    }
}

pub fn sides(atoms: &[i32], bonds: &[i32], n: usize, m: usize, row: &mut [u8]) -> u32 {
    // SAFETY: as for `read`.
    unsafe {
        linked::balsa_sides(
            atoms.as_ptr(),
            atoms.len(),
            bonds.as_ptr(),
            bonds.len(),
            n,
            m,
            row.as_mut_ptr(),
            row.len(),
        )
    }
}

pub fn is_matching(atoms: &[i32], bonds: &[i32], n: usize, m: usize, row: &[u8]) -> u32 {
    // SAFETY: as for `read`.
    unsafe {
        linked::balsa_is_matching(
            atoms.as_ptr(),
            atoms.len(),
            bonds.as_ptr(),
            bonds.len(),
            n,
            m,
            row.as_ptr(),
            row.len(),
        )
    }
}

pub fn kekulize(atoms: &mut [i32], bonds: &mut [i32], n: usize, m: usize, row: &[u8]) -> u32 {
    // SAFETY: as for `read`.
    unsafe {
        linked::balsa_kekulize(
            atoms.as_mut_ptr(),
            atoms.len(),
            bonds.as_mut_ptr(),
            bonds.len(),
            n,
            m,
            row.as_ptr(),
            row.len(),
        )
    }
}

pub fn replay(
    calls: &[u8],
    atoms: &[i32],
    bonds: &[i32],
    n: usize,
    m: usize,
    row: &mut [u8],
    codes: &mut [u8],
) -> u32 {
    // SAFETY: as for `read`.
    unsafe {
        linked::balsa_replay(
            calls.as_ptr(),
            calls.len(),
            atoms.as_ptr(),
            atoms.len(),
            bonds.as_ptr(),
            bonds.len(),
            n,
            m,
            row.as_mut_ptr(),
            row.len(),
            codes.as_mut_ptr(),
            codes.len(),
        )
    }
}

pub fn same(
    one: Tables<'_>,
    other: Tables<'_>,
    row1: &mut [u8],
    row2: &mut [u8],
    ren: &mut [u16],
) -> u32 {
    // SAFETY: as for `read`.
    unsafe {
        linked::balsa_same(
            one.atoms.as_ptr(),
            one.atoms.len(),
            one.bonds.as_ptr(),
            one.bonds.len(),
            one.counts.atoms,
            one.counts.bonds,
            other.atoms.as_ptr(),
            other.atoms.len(),
            other.bonds.as_ptr(),
            other.bonds.len(),
            other.counts.atoms,
            other.counts.bonds,
            row1.as_mut_ptr(),
            row1.len(),
            row2.as_mut_ptr(),
            row2.len(),
            ren.as_mut_ptr(),
            ren.len(),
        )
    }
}

pub fn key(atoms: &[i32], bonds: &[i32], n: usize, m: usize) -> KeyReply {
    // SAFETY: as for `read`.
    unsafe {
        linked::balsa_key(
            atoms.as_ptr(),
            atoms.len(),
            bonds.as_ptr(),
            bonds.len(),
            n,
            m,
        )
    }
}

pub fn start(atoms: &mut [i32], bonds: &mut [i32]) -> FedReply {
    // SAFETY: as for `read`.
    unsafe {
        linked::balsa_start(
            atoms.as_mut_ptr(),
            atoms.len(),
            bonds.as_mut_ptr(),
            bonds.len(),
        )
    }
}

pub fn feed(state: &State, piece: &[u8], atoms: &mut [i32], bonds: &mut [i32]) -> FedReply {
    // SAFETY: as for `read`; the state is numbers, which may be any.
    unsafe {
        linked::balsa_feed(
            state.clone(),
            piece.as_ptr(),
            piece.len(),
            atoms.as_mut_ptr(),
            atoms.len(),
            bonds.as_mut_ptr(),
            bonds.len(),
        )
    }
}

pub fn end(state: &State, atoms: &mut [i32], bonds: &mut [i32]) -> FedReply {
    // SAFETY: as for `feed`.
    unsafe {
        linked::balsa_end(
            state.clone(),
            atoms.as_mut_ptr(),
            atoms.len(),
            bonds.as_mut_ptr(),
            bonds.len(),
        )
    }
}

pub fn standardize(text: &[u8], out: &mut [u8]) -> StandardReply {
    // SAFETY: as for `read`.
    unsafe { linked::balsa_standardize(text.as_ptr(), text.len(), out.as_mut_ptr(), out.len()) }
}

pub fn report(input: &[u8], out: &mut [u8]) -> ReportReply {
    // SAFETY: as for `read`.
    unsafe { linked::balsa_report(input.as_ptr(), input.len(), out.as_mut_ptr(), out.len()) }
}

pub fn report_length(input: &[u8]) -> usize {
    // SAFETY: as for `read`.
    unsafe { linked::balsa_report_length(input.as_ptr(), input.len()) }
}

pub fn register_empty(reg: &mut [u8]) -> u32 {
    // SAFETY: as for `read`.
    unsafe { linked::balsa_register_empty(reg.as_mut_ptr(), reg.len()) }
}

pub fn register_add(reg: &mut [u8], tag: u16, body: &[u8]) -> u32 {
    // SAFETY: as for `read`.
    unsafe {
        linked::balsa_register_add(reg.as_mut_ptr(), reg.len(), tag, body.as_ptr(), body.len())
    }
}

pub fn register_step(reg: &mut [u8], tag: u16, body: &[u8], k: usize) -> u32 {
    // SAFETY: as for `read`.
    unsafe {
        linked::balsa_register_step(
            reg.as_mut_ptr(),
            reg.len(),
            tag,
            body.as_ptr(),
            body.len(),
            k,
        )
    }
}

pub fn register_entry(reg: &[u8], place: usize) -> EntryReply {
    // SAFETY: as for `read`.
    unsafe { linked::balsa_register_entry(reg.as_ptr(), reg.len(), place) }
}

pub fn register_walk(reg: &[u8], place: usize) -> WalkReply {
    // SAFETY: as for `read`.
    unsafe { linked::balsa_register_walk(reg.as_ptr(), reg.len(), place) }
}

pub fn withdraw(reg: &mut [u8], tag: u16, text: &[u8]) -> WithdrawReply {
    // SAFETY: as for `read`.
    unsafe { linked::balsa_withdraw(reg.as_mut_ptr(), reg.len(), tag, text.as_ptr(), text.len()) }
}

pub fn withdrawn(reg: &[u8], text: &[u8]) -> WithdrawnReply {
    // SAFETY: as for `read`.
    unsafe { linked::balsa_withdrawn(reg.as_ptr(), reg.len(), text.as_ptr(), text.len()) }
}
