//! The corpus of real texts, and its molecules that are compared.

use balsa_reference::{read, Molecule, MAX_COMPARED};
use std::collections::BTreeMap;

/// Each text on a line.
pub const TEXTS: &str = include_str!("../../../corpus/real.smi");

/// Texts with tetrahedral marks, each on a line.
pub const MARKED: &str = include_str!("../../../corpus/marked.smi");

/// The molecules of at most 64 atoms.
pub fn molecules() -> Vec<Molecule> {
    compared(TEXTS)
}

/// Those of the texts with tetrahedral marks.
pub fn marked() -> Vec<Molecule> {
    compared(MARKED)
}

/// The accepted ones of at most 64 atoms.
fn compared(texts: &str) -> Vec<Molecule> {
    let all = texts.lines().flat_map(|text| read(text.as_bytes()));
    all.filter(|molecule| molecule.atoms.len() <= MAX_COMPARED)
        .collect()
}

/// Pairs of places of molecules that have the same formula: each with so many that come after it,
/// in a ring.
pub fn of_one_formula(molecules: &[Molecule], most: usize) -> Vec<(usize, usize)> {
    let mut groups: BTreeMap<_, Vec<usize>> = BTreeMap::new();
    for (place, molecule) in molecules.iter().enumerate() {
        groups.entry(formula(molecule)).or_default().push(place);
    }
    let mut pairs = Vec::new();
    for group in groups.values() {
        for step in 1..=most.min(group.len() - 1) {
            let next = group.iter().cycle().skip(step);
            pairs.extend(group.iter().copied().zip(next.copied()));
        }
    }
    pairs
}

/// The elements in order, and the number of hydrogens.
fn formula(molecule: &Molecule) -> (Vec<u8>, usize) {
    let mut elements: Vec<u8> = molecule.atoms.iter().map(|atom| atom.element).collect();
    elements.sort_unstable();
    let hydrogens = molecule
        .atoms
        .iter()
        .map(|atom| usize::from(atom.hydrogens));
    (elements, hydrogens.sum())
}
