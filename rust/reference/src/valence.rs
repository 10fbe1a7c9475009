//! Target valences, implied hydrogens and delocalized atoms.

use crate::molecule::{Atom, Molecule};

/// The target valences of an element, empty where the table has none.
fn targets(element: u8) -> &'static [u32] {
    match element {
        5 => &[3],
        6 => &[4],
        7 | 15 => &[3, 5],
        8 => &[2],
        16 => &[2, 4, 6],
        9 | 17 | 35 | 53 | 85 | 117 => &[1],
        _ => &[],
    }
}

/// Whether an atom of this element can be selected.
pub(crate) fn is_selectable(element: u8) -> bool {
    matches!(element, 6 | 7 | 8 | 15 | 16)
}

/// Whether an atom of this element can stand outside brackets.
pub fn is_shorthand(element: u8) -> bool {
    element == 0 || !targets(element).is_empty()
}

/// What the bond sum of an atom outside brackets meets.
#[derive(Clone, Copy, Debug, PartialEq, Eq)]
pub enum Reached {
    /// The first target that is not below the bond sum.
    Target(u32),
    /// Nothing: the element has no target.
    NoTarget,
    /// Nothing: the bond sum is above every target. The atom is over-full.
    AboveAll,
}

/// The target that an atom outside brackets reaches; a selected one has its first target only.
pub fn reached(element: u8, selected: bool, bond_sum: u32) -> Reached {
    let targets = match targets(element) {
        [] => return Reached::NoTarget,
        [first, ..] if selected => std::slice::from_ref(first),
        targets => targets,
    };
    let target = targets.iter().find(|&&target| target >= bond_sum);
    target.map_or(Reached::AboveAll, |&target| Reached::Target(target))
}

/// The hydrogens that an atom outside brackets gets; a selected one starts its sum at 1.
pub fn implied_hydrogens(element: u8, selected: bool, bond_sum: u32) -> u8 {
    match reached(element, selected, bond_sum) {
        Reached::Target(target) => target.saturating_sub(bond_sum + u32::from(selected)) as u8,
        Reached::NoTarget | Reached::AboveAll => 0,
    }
}

/// The first target of a selected atom, shifted by its charge. It can be below zero.
fn shifted_target(atom: &Atom) -> i32 {
    let first = targets(atom.element)[0] as i32;
    let charge = i32::from(atom.charge);
    match atom.element {
        6 => first - charge.abs(),
        _ => first + charge,
    }
}

/// Whether an atom with this bond sum is delocalized (in the paper: kept).
fn is_delocalized(atom: &Atom, bond_sum: u32) -> bool {
    let used = bond_sum as i32 + i32::from(atom.hydrogens) + 1;
    atom.selected && used <= shifted_target(atom)
}

/// For each atom whether it is delocalized.
pub fn delocalized(molecule: &Molecule) -> Vec<bool> {
    let sums = molecule.bond_sums();
    let atoms = molecule.atoms.iter().zip(sums);
    atoms.map(|(atom, sum)| is_delocalized(atom, sum)).collect()
}
