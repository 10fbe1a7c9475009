//! The buffers that are handed to a call, and random ones.

use crate::limits;
use crate::molecules::{self, Effort};
use crate::random::Random;
use balsa_reference::tables::{self, Counts, ATOM_TABLE, BOND_TABLE, RENUMBERING, ROW, TEXT};
use balsa_reference::{first, next, Molecule, ATOM_CELLS, BOND_CELLS, MAX_ATOMS, MAX_BONDS};

/// The place of the tetrahedral mark in an atom's row.
const MARK: usize = 6;

/// All buffers that the calls need.
#[derive(Clone, Debug, PartialEq, Eq)]
pub struct Buffers {
    /// The table of atoms.
    pub atoms: Vec<i32>,
    /// The table of bonds.
    pub bonds: Vec<i32>,
    /// The used rows of both.
    pub counts: Counts,
    /// The row of a matching.
    pub row: Vec<u8>,
    /// The list of forced pairs.
    pub pairs: Vec<u16>,
    /// The output of a text.
    pub text: Vec<u8>,
    /// The output of a renumbering.
    pub renumbering: Vec<u16>,
    /// A list of calls on the row.
    pub calls: Vec<u8>,
    /// The output of their codes.
    pub codes: Vec<u8>,
}

impl Buffers {
    /// Buffers of random content, sometimes longer than need be and rarely shorter.
    pub fn dirty(random: &mut Random) -> Self {
        let is_short = random.percent(4);
        let mut length = |least: usize| match random.below(8) {
            0 if is_short => random.below(least),
            1 if is_short => least - 1,
            2 => least + random.below(40),
            _ => least,
        };
        let (atoms, bonds) = (length(ATOM_TABLE), length(BOND_TABLE));
        let (row, text, renumbering) = (length(ROW), length(TEXT), length(RENUMBERING));
        let pairs = length(ROW);
        let calls = calls(random);
        let codes = match random.below(8) {
            0 => calls.len().saturating_sub(1),
            1 => calls.len() + random.below(4),
            _ => calls.len(),
        };
        let dirt = random.number();
        Buffers {
            atoms: vec![dirt as i32; atoms],
            bonds: vec![dirt as i32 | 1; bonds],
            counts: Counts::default(),
            row: vec![dirt as u8; row],
            pairs: vec![dirt as u16 | 1; pairs],
            text: vec![dirt as u8 | 1; text],
            renumbering: vec![dirt as u16; renumbering],
            calls,
            codes: vec![dirt as u8 | 1; codes],
        }
    }

    /// Random tables and a random row: mostly valid, often with a matching, sometimes not.
    pub fn random(random: &mut Random, effort: Effort) -> Self {
        let molecule = if random.percent(10) {
            limits::molecule(random)
        } else {
            let mut molecule = molecules::molecule(random, effort);
            random.shuffle(&mut molecule.bonds);
            molecule
        };
        let mut buffers = Buffers::dirty(random);
        buffers.store(&molecule);
        buffers.store_row(&row(random, &molecule));
        if random.percent(20) {
            for _ in 0..random.between(1, 2) {
                buffers.damage(random);
            }
        }
        buffers
    }

    /// Buffers just as long as need be that hold a molecule, and zeros else.
    pub fn clean(molecule: &Molecule) -> Self {
        let mut buffers = Buffers {
            atoms: vec![0; ATOM_TABLE],
            bonds: vec![0; BOND_TABLE],
            counts: Counts::default(),
            row: vec![0; ROW],
            pairs: vec![0; ROW],
            text: vec![0; TEXT],
            renumbering: vec![0; RENUMBERING],
            calls: Vec::new(),
            codes: Vec::new(),
        };
        buffers.store(molecule);
        buffers
    }

    /// Buffers of random content that hold a molecule, which is sometimes damaged.
    pub fn holding(random: &mut Random, molecule: &Molecule) -> Self {
        let mut buffers = Buffers::dirty(random);
        buffers.store(molecule);
        if random.percent(3) {
            buffers.damage(random);
        }
        buffers
    }

    /// Stores a molecule; the cells after the used rows stay as they are.
    fn store(&mut self, molecule: &Molecule) {
        self.counts = tables::counts(molecule);
        let mut atoms = vec![0; ATOM_TABLE];
        let mut bonds = vec![0; BOND_TABLE];
        tables::fill(molecule, &mut atoms, &mut bonds);
        copy(&mut self.atoms, &atoms[..ATOM_CELLS * self.counts.atoms]);
        copy(&mut self.bonds, &bonds[..BOND_CELLS * self.counts.bonds]);
    }

    fn store_row(&mut self, row: &[u8]) {
        copy(&mut self.row, row);
    }

    /// Whether a table is shorter than it must be.
    pub fn are_short(&self) -> bool {
        self.atoms.len() < ATOM_TABLE || self.bonds.len() < BOND_TABLE
    }

    /// Changes a cell or a count, perhaps to something that is not valid.
    pub fn damage(&mut self, random: &mut Random) {
        let value = match random.below(12) {
            0 => i32::MIN,
            1 => i32::MAX,
            2 => -1,
            3 => *random.pick(&[9, 10, -9, -10, 118, 119, 999, 1000, 1001, 9999, 10_000]),
            4..7 => random.below(1000) as i32,
            _ => random.below(5) as i32,
        };
        let atoms = self.counts.atoms.min(MAX_ATOMS);
        let bonds = self.counts.bonds.min(MAX_BONDS);
        let atom_cell = random.below(ATOM_CELLS * atoms + 1);
        let bond_cell = random.below(BOND_CELLS * bonds + 1);
        match random.below(7) {
            0 | 1 => set(&mut self.atoms, atom_cell, value),
            2 | 3 => set(&mut self.bonds, bond_cell, value),
            4 if bonds > 1 => self.repeat_bond(random),
            5 => self.damage_mark(random),
            _ => self.damage_counts(random),
        }
    }

    /// Stores a tetrahedral mark, or a cell that is none.
    fn damage_mark(&mut self, random: &mut Random) {
        let atom = random.below(self.counts.atoms.min(MAX_ATOMS) + 1);
        let value = *random.pick(&[-1, 0, 1, 1, 2, 2, 3, 256]);
        set(&mut self.atoms, ATOM_CELLS * atom + MARK, value);
    }

    /// Stores one bond's ends over another's.
    fn repeat_bond(&mut self, random: &mut Random) {
        let bonds = self.counts.bonds.min(MAX_BONDS);
        let from = BOND_CELLS * random.below(bonds);
        let to = BOND_CELLS * random.below(bonds);
        if from.max(to) + BOND_CELLS <= self.bonds.len() {
            self.bonds.copy_within(from..from + 2, to);
        }
    }

    fn damage_counts(&mut self, random: &mut Random) {
        let count = match random.below(4) {
            0 => *random.pick(&[1000, 1001, 1100, 1101, 1 << 32, 1 << 63, usize::MAX]),
            1 => 0,
            _ => random.below(1101),
        };
        if random.percent(50) {
            self.counts.atoms = count;
        } else {
            self.counts.bonds = count;
        }
    }
}

/// A short list of calls: mostly the next matching, sometimes the first.
fn calls(random: &mut Random) -> Vec<u8> {
    let count = random.below(9);
    (0..count)
        .map(|_| *random.pick(&[0, 1, 1, 1, 2, 255]))
        .collect()
}

/// A row for a molecule: a matching, one that is nearly so, or anything.
fn row(random: &mut Random, molecule: &Molecule) -> Vec<u8> {
    let mut row = first(molecule).unwrap_or_else(|| vec![0; molecule.bonds.len()]);
    for _ in 0..random.below(4) {
        if let Some(Some(later)) = next(molecule, &row) {
            row = later;
        }
    }
    let edits = match random.below(10) {
        0 => row.len(),
        1..3 => 1,
        3 => 2,
        _ => 0,
    };
    for _ in 0..edits.min(row.len()) {
        let place = random.below(row.len());
        row[place] = *random.pick(&[0, 1, 1, 1 - row[place].min(1), 2, 255]);
    }
    row
}

fn copy<T: Copy>(buffer: &mut [T], cells: &[T]) {
    let length = buffer.len().min(cells.len());
    buffer[..length].copy_from_slice(&cells[..length]);
}

fn set(buffer: &mut [i32], place: usize, value: i32) {
    if let Some(cell) = buffer.get_mut(place) {
        *cell = value;
    }
}
