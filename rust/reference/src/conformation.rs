//! The marks `/` and `\` around double bonds.

use crate::molecule::{Bond, Kind, Molecule};
use crate::refusal::Code;

/// Where the mark of a bond places a neighbour of an atom.
#[derive(Clone, Copy, Debug, PartialEq, Eq)]
enum Side {
    Above,
    Below,
}

/// A neighbour that a mark places.
#[derive(Clone, Copy)]
struct Placed {
    neighbour: usize,
    side: Side,
}

/// The neighbours of every atom that marks place, by ascending number.
fn placed_neighbours(molecule: &Molecule) -> Vec<Vec<Placed>> {
    let mut placed = vec![Vec::new(); molecule.atoms.len()];
    for bond in &molecule.bonds {
        let (of_first, of_second) = match bond.kind {
            Kind::Up => (Side::Above, Side::Below),
            Kind::Down => (Side::Below, Side::Above),
            _ => continue,
        };
        placed[bond.first].push(Placed {
            neighbour: bond.second,
            side: of_first,
        });
        placed[bond.second].push(Placed {
            neighbour: bond.first,
            side: of_second,
        });
    }
    for neighbours in &mut placed {
        neighbours.sort_unstable_by_key(|placed| placed.neighbour);
    }
    placed
}

fn doubles(molecule: &Molecule) -> impl Iterator<Item = &Bond> {
    let bonds = molecule.bonds.iter();
    bonds.filter(|bond| bond.kind == Kind::Double)
}

/// Whether marks place two neighbours of an end of a double bond on the same side.
pub fn is_crowded(molecule: &Molecule) -> bool {
    let placed = placed_neighbours(molecule);
    let is_crowded = |atom: usize| {
        let on = |side| placed[atom].iter().filter(|one| one.side == side).count();
        on(Side::Above) > 1 || on(Side::Below) > 1
    };
    doubles(molecule).any(|bond| is_crowded(bond.first) || is_crowded(bond.second))
}

/// Whether a mark touches no double bond.
pub fn has_stray_mark(molecule: &Molecule) -> bool {
    let mut is_end = vec![false; molecule.atoms.len()];
    for bond in doubles(molecule) {
        is_end[bond.first] = true;
        is_end[bond.second] = true;
    }
    let mut marked = molecule.bonds.iter().filter(|bond| bond.kind.is_mark());
    marked.any(|bond| !is_end[bond.first] && !is_end[bond.second])
}

/// The refusal of the marks of a molecule, if there is one.
pub fn marks(molecule: &Molecule) -> Result<(), Code> {
    if is_crowded(molecule) {
        Err(Code::CrowdedEnd)
    } else if has_stray_mark(molecule) {
        Err(Code::StrayMark)
    } else {
        Ok(())
    }
}

/// The row of sides: 1 at each double bond whose ends have their lowest placed neighbours on the
/// same side, 2 if on opposite sides, 0 at every other bond.
pub fn sides(molecule: &Molecule) -> Vec<u8> {
    let placed = placed_neighbours(molecule);
    let entry = |bond: &Bond| {
        if bond.kind != Kind::Double {
            return 0;
        }
        match (placed[bond.first].first(), placed[bond.second].first()) {
            (Some(one), Some(other)) if one.side == other.side => 1,
            (Some(_), Some(_)) => 2,
            _ => 0,
        }
    };
    molecule.bonds.iter().map(entry).collect()
}
