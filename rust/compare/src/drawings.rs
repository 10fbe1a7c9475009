//! Random pairs of molecules: the same compound drawn twice, or nearly so.

use crate::molecules::{self, Effort};
use crate::random::Random;
use balsa_reference::{
    delocalized, first, implied_hydrogens, next, Atom, Bond, Kind, Mark, Molecule, MAX_ATOMS,
    MAX_BONDS, MAX_COMPARED,
};

/// Two molecules, both mostly of at most 64 atoms: renumbered, redrawn, with other tetrahedral marks,
/// perhaps with a cell, an order or an end changed.
pub fn pair(random: &mut Random, effort: Effort) -> [Molecule; 2] {
    let molecule = compared(random, effort);
    if random.percent(3) {
        return [molecule, compared(random, effort)];
    }
    let mut other = redrawn(random, &molecule);
    if random.percent(50) {
        turn_marks(random, &mut other);
    }
    if random.percent(40) {
        change(random, &mut other);
    }
    if random.percent(85) {
        other = renumbered(random, &other);
    }
    [redrawn(random, &molecule), other]
}

/// A molecule of few atoms, or of as many as are compared, rarely of one more.
fn compared(random: &mut Random, effort: Effort) -> Molecule {
    if random.percent(50) {
        return small(random);
    }
    let most = MAX_COMPARED + random.below(2);
    loop {
        let mut molecule = molecules::molecule(random, effort);
        if molecule.atoms.len() <= most {
            if random.percent(3) {
                add_chain(&mut molecule, most);
            }
            return molecule;
        }
    }
}

/// Adds a chain behind the last atom, up to so many atoms.
fn add_chain(molecule: &mut Molecule, most: usize) {
    for atom in molecule.atoms.len()..most {
        molecule.atoms.push(Atom::default());
        if atom > 0 {
            molecule
                .bonds
                .push(Bond::between(atom - 1, atom, Kind::Single));
        }
    }
}

/// A molecule of at most 6 atoms that have much in common.
pub fn small(random: &mut Random) -> Molecule {
    let count = random.below(7);
    let chance = random.between(20, 80);
    let elided = *random.pick(&[50, 80, 95]);
    let mut bonds = Vec::new();
    for second in 0..count {
        for first in 0..second {
            if random.percent(chance) {
                bonds.push(Bond::between(first, second, small_kind(random, elided)));
            }
        }
    }
    random.shuffle(&mut bonds);
    let mut molecule = Molecule {
        atoms: vec![Atom::default(); count],
        bonds,
    };
    let selected = *random.pick(&[0, 60, 90, 100]);
    let (sums, degrees) = (molecule.bond_sums(), molecule.degrees());
    for (number, atom) in molecule.atoms.iter_mut().enumerate() {
        atom.selected = degrees[number] > 1 && random.percent(selected);
        atom.element = *random.pick(&[6, 6, 6, 7]);
        atom.charge = if atom.element == 7 && random.percent(50) {
            random.below(5) as i8
        } else {
            0
        };
        if random.percent(80) {
            atom.hydrogens = implied_hydrogens(atom.element, atom.selected, sums[number]);
        }
    }
    molecule
}

fn small_kind(random: &mut Random, elided: usize) -> Kind {
    if random.percent(elided) {
        Kind::Elided
    } else {
        *random.pick(&[Kind::Single, Kind::Double, Kind::Double, Kind::Triple])
    }
}

/// The molecule with its atoms in random order, and its bonds too.
pub fn renumbered(random: &mut Random, molecule: &Molecule) -> Molecule {
    let mut numbers: Vec<usize> = (0..molecule.atoms.len()).collect();
    random.shuffle(&mut numbers);
    let mut atoms = molecule.atoms.clone();
    for (atom, &number) in molecule.atoms.iter().zip(&numbers) {
        atoms[number] = *atom;
    }
    let moved = |bond: &Bond| Bond::between(numbers[bond.first], numbers[bond.second], bond.kind);
    let mut bonds: Vec<Bond> = molecule.bonds.iter().map(moved).collect();
    random.shuffle(&mut bonds);
    Molecule { atoms, bonds }
}

/// The molecule as it is, or with some or all double bonds placed by one of its matchings.
pub fn redrawn(random: &mut Random, molecule: &Molecule) -> Molecule {
    let chance = *random.pick(&[0, 0, 50, 100, 100]);
    drawn(random, molecule, chance)
}

/// The molecule with all double bonds placed by one of its matchings, renumbered.
pub fn other_drawing(random: &mut Random, molecule: &Molecule) -> Molecule {
    let drawn = drawn(random, molecule, 100);
    renumbered(random, &drawn)
}

/// The molecule with its double bonds placed in so many of a hundred parts, and some single bonds
/// written. Where it has no matching, or marks stand against it, it is as it was.
fn drawn(random: &mut Random, molecule: &Molecule, chance: usize) -> Molecule {
    let Some(row) = matching(random, molecule) else {
        return molecule.clone();
    };
    let mut drawn = molecule.clone();
    let parts = parts(molecule);
    let is_drawn: Vec<bool> = parts.iter().map(|_| random.percent(chance)).collect();
    for (atom, &part) in drawn.atoms.iter_mut().zip(&parts) {
        atom.selected = atom.selected && !is_drawn[part];
    }
    for (bond, &cell) in drawn.bonds.iter_mut().zip(&row) {
        if is_drawn[parts[bond.first]] && bond.kind == Kind::Elided {
            bond.kind = match cell {
                1 => Kind::Double,
                _ if random.percent(30) => Kind::Single,
                _ => Kind::Elided,
            };
        }
    }
    match drawn.late_refusal() {
        None => drawn,
        Some(_) => molecule.clone(),
    }
}

/// One of the first matchings.
fn matching(random: &mut Random, molecule: &Molecule) -> Option<Vec<u8>> {
    let mut row = first(molecule)?;
    for _ in 0..random.below(6) {
        if let Some(Some(later)) = next(molecule, &row) {
            row = later;
        }
    }
    Some(row)
}

/// A redrawing of a molecule: perhaps with double bonds placed, with hydrogens drawn as atoms, with
/// extensions, with marks put in or left out, and with other numbers. What is sound stays so.
pub fn redrawing(random: &mut Random, molecule: &Molecule) -> Molecule {
    let mut drawn = redrawn(random, molecule);
    if random.percent(60) {
        draw_hydrogens(random, &mut drawn);
    }
    if random.percent(50) {
        for atom in &mut drawn.atoms {
            atom.extension = [0, random.below(10_000) as u16][random.below(2)];
        }
    }
    if random.percent(50) {
        turn_marks(random, &mut drawn);
        mark_atoms(random, &mut drawn);
        mark_bonds(random, &mut drawn);
    }
    match random.percent(85) {
        true => renumbered(random, &drawn),
        false => drawn,
    }
}

/// Draws hydrogens as atoms: some, or all.
fn draw_hydrogens(random: &mut Random, molecule: &mut Molecule) {
    let chance = *random.pick(&[10, 50, 100]);
    for host in 0..molecule.atoms.len() {
        let count = match molecule.atoms[host].element {
            1 => 0,
            _ => molecule.atoms[host].hydrogens,
        };
        for _ in 0..count {
            let number = molecule.atoms.len();
            let is_full = number == MAX_ATOMS || molecule.bonds.len() == MAX_BONDS;
            if random.percent(chance) && !is_full {
                molecule.atoms[host].hydrogens -= 1;
                molecule.atoms.push(Atom {
                    element: 1,
                    ..Atom::default()
                });
                let kind = *random.pick(&[Kind::Elided, Kind::Single]);
                molecule.bonds.push(Bond::between(host, number, kind));
            }
        }
    }
}

/// Marks some of the atoms that have four neighbours, one hydrogen among them at most.
fn mark_atoms(random: &mut Random, molecule: &mut Molecule) {
    let degrees = molecule.degrees();
    for (atom, degree) in molecule.atoms.iter_mut().zip(degrees) {
        let is_fit = atom.hydrogens < 2 && degree + usize::from(atom.hydrogens) == 4;
        if is_fit && random.percent(40) {
            atom.mark = *random.pick(&[Mark::Counterclockwise, Mark::Clockwise]);
        }
    }
}

/// Leaves out some marks of bonds, and marks some of those that are no matching's, where all stays sound.
fn mark_bonds(random: &mut Random, molecule: &mut Molecule) {
    let delocalized = delocalized(molecule);
    for bond in 0..molecule.bonds.len() {
        let Bond {
            first,
            second,
            kind,
        } = molecule.bonds[bond];
        let is_induced = kind == Kind::Elided && delocalized[first] && delocalized[second];
        if kind.order() > 1 || is_induced || random.percent(60) {
            continue;
        }
        molecule.bonds[bond].kind = *random.pick(&[Kind::Single, Kind::Up, Kind::Down]);
        if molecule.late_refusal().is_some() {
            molecule.bonds[bond].kind = kind;
        }
    }
}

/// For each atom the lowest of those that induced bonds join it to, over any number of them.
fn parts(molecule: &Molecule) -> Vec<usize> {
    let delocalized = delocalized(molecule);
    let mut parts: Vec<usize> = (0..molecule.atoms.len()).collect();
    for bond in &molecule.bonds {
        let is_induced =
            bond.kind == Kind::Elided && delocalized[bond.first] && delocalized[bond.second];
        if is_induced {
            let (one, other) = (parts[bond.first], parts[bond.second]);
            for part in &mut parts {
                if *part == one.max(other) {
                    *part = one.min(other);
                }
            }
        }
    }
    parts
}

/// Turns tetrahedral marks and leaves some out.
fn turn_marks(random: &mut Random, molecule: &mut Molecule) {
    for atom in &mut molecule.atoms {
        atom.mark = *random.pick(&[atom.mark, atom.mark.turned(), Mark::None]);
    }
}

/// Changes a cell, an order, an end, or exchanges two atoms' cells.
pub fn change(random: &mut Random, molecule: &mut Molecule) {
    let (atoms, bonds) = (molecule.atoms.len(), molecule.bonds.len());
    match random.below(4) {
        0 if atoms > 0 => change_cell(random, &mut molecule.atoms),
        1 if bonds > 0 => {
            let bond = random.below(bonds);
            molecule.bonds[bond].kind = small_kind(random, 30);
        }
        2 if bonds > 1 => exchange_ends(random, molecule),
        3 if atoms > 1 => {
            let (one, other) = (random.below(atoms), random.below(atoms));
            let selected = molecule.atoms[one].selected;
            molecule.atoms.swap(one, other);
            molecule.atoms[other].selected = molecule.atoms[one].selected;
            molecule.atoms[one].selected = selected;
        }
        _ => {}
    }
}

fn change_cell(random: &mut Random, atoms: &mut [Atom]) {
    let number = random.below(atoms.len());
    let atom = &mut atoms[number];
    match random.below(6) {
        0 => atom.element = *random.pick(&[6, 7, 8, 15, 16]),
        1 => atom.selected = !atom.selected && [6, 7, 8, 15, 16].contains(&atom.element),
        2 => atom.isotope = 13 - atom.isotope.min(13),
        3 => atom.hydrogens = (atom.hydrogens + 1) % 10,
        4 => atom.charge = -atom.charge + random.below(2) as i8,
        _ => atom.extension = 1 - atom.extension.min(1),
    }
}

/// Two bonds exchange their second ends: every atom keeps its number of bonds.
fn exchange_ends(random: &mut Random, molecule: &mut Molecule) {
    let count = molecule.bonds.len();
    let (one, other) = (random.below(count), random.below(count));
    let (a, b) = (molecule.bonds[one], molecule.bonds[other]);
    let joined = |first: usize, second: usize| {
        let ends = (first.min(second), first.max(second));
        first == second || molecule.bonds.iter().any(|bond| bond.ends() == ends)
    };
    if one != other && !joined(a.first, b.second) && !joined(b.first, a.second) {
        molecule.bonds[one] = Bond::between(a.first, b.second, a.kind);
        molecule.bonds[other] = Bond::between(b.first, a.second, b.kind);
    }
}
