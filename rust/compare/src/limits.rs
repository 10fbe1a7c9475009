//! Molecules at the limits of writing.

use crate::molecules::mark_centers;
use crate::random::Random;
use balsa_reference::{Atom, Bond, Kind, Mark, Molecule, MAX_ATOMS, MAX_BONDS};

const CARBON: Atom = Atom {
    element: 6,
    selected: false,
    isotope: 0,
    hydrogens: 0,
    charge: 0,
    extension: 0,
    mark: Mark::None,
};

/// The longest spelling of an atom.
pub const LONG: Atom = Atom {
    element: 27,
    selected: false,
    isotope: 999,
    hydrogens: 9,
    charge: -9,
    extension: 9999,
    mark: Mark::None,
};

fn of_ends(atoms: usize, ends: impl Iterator<Item = (usize, usize)>, kind: Kind) -> Molecule {
    let bonds = ends.map(|(one, other)| Bond::between(one, other, kind));
    Molecule {
        atoms: vec![CARBON; atoms],
        bonds: bonds.take(MAX_BONDS).collect(),
    }
}

/// All bonds between 18 to 23 atoms: about 99 bridges open at once.
pub fn complete(random: &mut Random) -> Molecule {
    let atoms = random.between(18, 23);
    let pairs = (0..atoms).flat_map(|one| (one + 1..atoms).map(move |other| (one, other)));
    of_ends(atoms, pairs, Kind::Single)
}

/// A chain of atoms, all joined to the first: about 99 bridges open there.
pub fn fan(random: &mut Random) -> Molecule {
    let atoms = random.between(100, 104);
    let chain = (1..atoms).map(|atom| (atom - 1, atom));
    let spokes = (2..atoms).map(|atom| (0, atom));
    of_ends(atoms, chain.chain(spokes), Kind::Elided)
}

/// A spine whose atoms have leaves after it, about 64 deep, perhaps with bridges and with long
/// spellings, so that up to three limits are passed.
pub fn nested(random: &mut Random) -> Molecule {
    let depth = random.between(62, 67);
    let spine = (0..depth).map(|atom| (atom, atom + 1));
    let leaves = (0..depth).map(|atom| (atom, depth + 1 + atom));
    let mut molecule = of_ends(2 * depth + 1, spine.chain(leaves), Kind::Single);
    if random.percent(50) {
        let bridges = *random.pick(&[1, 50, 98, 99, 100, 101]);
        let ends = (2..molecule.atoms.len()).filter(|&end| end != depth + 1);
        let bonds = ends.map(|end| Bond::between(0, end, Kind::Triple));
        molecule.bonds.extend(bonds.take(bridges));
    }
    if random.percent(50) {
        let atoms = random.between(molecule.atoms.len(), MAX_ATOMS);
        molecule.atoms = vec![LONG; atoms];
    }
    molecule
}

/// A chain of atoms with the longest spellings but for some bytes: about 16,384 of them. It perhaps
/// begins with a delocalized ring and ends with short atoms.
pub fn longest(random: &mut Random) -> Molecule {
    let (ring, long, short) = match random.percent(50) {
        true => (6, 963, random.below(9)),
        false => (0, 964, 0),
    };
    let atoms = ring + long + short;
    let chain = (1..atoms).map(|atom| (atom - 1, atom));
    let mut molecule = of_ends(atoms, chain, Kind::Single);
    molecule.atoms[ring..ring + long].fill(LONG);
    if ring > 0 {
        molecule.bonds.insert(5, Bond::between(0, 5, Kind::Elided));
    }
    for bond in &mut molecule.bonds {
        if bond.second < ring || bond.first >= ring + long {
            bond.kind = Kind::Elided;
        }
    }
    for (number, atom) in molecule.atoms.iter_mut().enumerate() {
        if number < ring {
            (atom.selected, atom.hydrogens) = (true, u8::from(number < 5));
        }
    }
    for number in 0..random.below(9) {
        molecule.atoms[ring + number].isotope = 99;
    }
    molecule
}

/// A molecule at one of the limits, perhaps with tetrahedral marks.
pub fn molecule(random: &mut Random) -> Molecule {
    let mut molecule = match random.below(4) {
        0 => complete(random),
        1 => fan(random),
        2 => nested(random),
        _ => longest(random),
    };
    if random.percent(30) {
        mark_centers(random, &mut molecule);
    }
    molecule
}
