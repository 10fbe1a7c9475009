//! What is measured: the four calls, each on the slot that the one before left.

use balsa_reference::tables::{Counts, ATOM_TABLE, BOND_TABLE, RENUMBERING, ROW, TEXT};
use balsa_reference::{first, kekulize, read, report_line, write, Molecule, Written};
use compare::buffers::Buffers;
use compare::implementation::Implementation;
use std::hint::black_box;

/// An implementation of the four calls.
pub trait Subject {
    /// What the calls work on.
    type Slot: Clone;
    /// An empty slot.
    fn slot(&self) -> Self::Slot;
    /// Reads a text, and tells whether it is accepted.
    fn read(&self, text: &[u8], slot: &mut Self::Slot) -> bool;
    /// Finds the first matching.
    fn first(&self, slot: &mut Self::Slot);
    /// Kekulizes by the matching found.
    fn kekulize(&self, slot: &mut Self::Slot);
    /// Writes the molecule.
    fn write(&self, slot: &mut Self::Slot);
    /// Goes from a text to the text kekulized in one call.
    fn standardize(&self, text: &[u8], slot: &mut Self::Slot);
}

/// The reference on its own molecules.
pub struct Molecules;

/// A molecule and what the calls find for it.
#[derive(Clone, Default)]
pub struct MoleculeSlot {
    molecule: Molecule,
    row: Option<Vec<u8>>,
    written: Option<Written>,
}

impl Subject for Molecules {
    type Slot = MoleculeSlot;

    fn slot(&self) -> MoleculeSlot {
        MoleculeSlot::default()
    }

    fn read(&self, text: &[u8], slot: &mut MoleculeSlot) -> bool {
        match read(text) {
            Ok(molecule) => {
                slot.molecule = molecule;
                true
            }
            Err(refusal) => {
                black_box(refusal);
                false
            }
        }
    }

    fn first(&self, slot: &mut MoleculeSlot) {
        slot.row = first(&slot.molecule);
    }

    fn kekulize(&self, slot: &mut MoleculeSlot) {
        if let Some(row) = &slot.row {
            // a refusal leaves the molecule as it was, and that is written
            let _ = kekulize(&mut slot.molecule, row);
        }
    }

    fn write(&self, slot: &mut MoleculeSlot) {
        slot.written = write(&slot.molecule).ok();
    }

    fn standardize(&self, text: &[u8], _: &mut MoleculeSlot) {
        black_box(report_line(text).is_ok());
    }
}

/// An implementation of the calls on tables.
pub struct OnTables<I>(pub I);

impl<I: Implementation> Subject for OnTables<I> {
    type Slot = Buffers;

    fn slot(&self) -> Buffers {
        Buffers {
            atoms: vec![0; ATOM_TABLE],
            bonds: vec![0; BOND_TABLE],
            counts: Counts::default(),
            row: vec![0; ROW],
            text: vec![0; TEXT],
            pairs: vec![0; ROW],
            renumbering: vec![0; RENUMBERING],
            calls: Vec::new(),
            codes: Vec::new(),
        }
    }

    fn read(&self, text: &[u8], slot: &mut Buffers) -> bool {
        self.0.read(text, slot).is_accepted()
    }

    fn first(&self, slot: &mut Buffers) {
        black_box(self.0.first(slot));
    }

    fn kekulize(&self, slot: &mut Buffers) {
        black_box(self.0.kekulize(slot));
    }

    fn write(&self, slot: &mut Buffers) {
        black_box(self.0.write(slot));
    }

    fn standardize(&self, text: &[u8], slot: &mut Buffers) {
        black_box(self.0.standardize(text, slot));
    }
}
