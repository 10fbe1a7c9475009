//! Redrawings: folding, and whether some renumbering makes two folded molecules one.
//!
//! Parts that are not joined go to one another one by one: since redrawing is an equivalence, a part may
//! take any free one that it goes to. Inside a part atoms get colours by their neighbours, and where these
//! leave a choice, an atom is placed on each atom of its colour in turn.

use crate::molecule::{Atom, Bond, Kind, Molecule, Neighbours};
use crate::redrawing::Colours;
use crate::tetrahedral::Mark;
use crate::valence::delocalized;

/// The most hydrogens of an atom.
const MAX_HYDROGENS: u8 = 9;

/// The molecule without extensions and marks, its plain hydrogen atoms made hydrogens of their
/// neighbours, by ascending number, as long as these have room.
pub fn folded(molecule: &Molecule) -> Molecule {
    let neighbours = molecule.neighbours();
    let mut atoms = molecule.atoms.clone();
    for atom in &mut atoms {
        atom.extension = 0;
        atom.mark = Mark::None;
    }
    let mut number = vec![None; atoms.len()];
    let mut staying = 0;
    for (atom, number) in number.iter_mut().enumerate() {
        let host = host(molecule, &neighbours, atom);
        match host.filter(|&host| atoms[host].hydrogens < MAX_HYDROGENS) {
            Some(host) => atoms[host].hydrogens += 1,
            None => {
                *number = Some(staying);
                staying += 1;
            }
        }
    }
    let moved = |bond: &Bond| {
        let kind = match bond.kind {
            Kind::Up | Kind::Down => Kind::Single,
            kind => kind,
        };
        Some(Bond::between(
            number[bond.first]?,
            number[bond.second]?,
            kind,
        ))
    };
    let stays = |(atom, number): (Atom, &Option<usize>)| number.map(|_| atom);
    Molecule {
        atoms: atoms.into_iter().zip(&number).filter_map(stays).collect(),
        bonds: molecule.bonds.iter().filter_map(moved).collect(),
    }
}

/// The neighbour of a plain hydrogen atom: element 1, no isotope, charge or hydrogens, not selected, one
/// bond, of order 1, to an atom that is no hydrogen.
fn host(molecule: &Molecule, neighbours: &Neighbours, atom: usize) -> Option<usize> {
    let Atom {
        element,
        selected,
        isotope,
        hydrogens,
        charge,
        ..
    } = molecule.atoms[atom];
    let is_bare = (element, selected, isotope, hydrogens, charge) == (1, false, 0, 0, 0);
    let [only] = neighbours.of(atom) else {
        return None;
    };
    let is_single = molecule.bonds[only.bond].kind.order() == 1;
    let is_heavy = molecule.atoms[only.atom].element != 1;
    (is_bare && is_single && is_heavy).then_some(only.atom)
}

/// Whether two molecules are redrawings: whether some renumbering keeps element, isotope, hydrogens,
/// charge, which atoms are joined, and each atom's bond sum after kekulizing, after folding.
pub fn are_redrawings(one: &Molecule, other: &Molecule) -> bool {
    are_one(&folded(one), &folded(other))
}

/// The same of folded molecules.
pub fn are_one(one: &Molecule, other: &Molecule) -> bool {
    let counts = |molecule: &Molecule| (molecule.atoms.len(), molecule.bonds.len());
    if counts(one) != counts(other) {
        return false;
    }
    let mut free = parts(other);
    parts(one).iter().all(|part| {
        let found = free.iter().position(|other| part.goes_to(other));
        found.map(|place| free.swap_remove(place)).is_some()
    })
}

/// Element, isotope, hydrogens, charge, and the bond sum after kekulizing.
type Label = (u8, u16, u8, i8, u32);

/// Atoms that are joined to one another, over any number of bonds, and to no others.
struct Part {
    labels: Vec<Label>,
    joined: Vec<Vec<usize>>,
}

/// The parts of a molecule.
fn parts(molecule: &Molecule) -> Vec<Part> {
    let neighbours = molecule.neighbours();
    let sums = molecule.bond_sums();
    let is_delocalized = delocalized(molecule);
    let label = |&atom: &usize| {
        let sum = sums[atom] + u32::from(is_delocalized[atom]);
        let atom = molecule.atoms[atom];
        (atom.element, atom.isotope, atom.hydrogens, atom.charge, sum)
    };
    let mut number = vec![None; molecule.atoms.len()];
    let mut parts = Vec::new();
    for root in 0..molecule.atoms.len() {
        if number[root].is_some() {
            continue;
        }
        number[root] = Some(0);
        let mut atoms = vec![root];
        let mut seen = 0;
        while let Some(&atom) = atoms.get(seen) {
            seen += 1;
            for to in neighbours.of(atom) {
                if number[to.atom].is_none() {
                    number[to.atom] = Some(atoms.len());
                    atoms.push(to.atom);
                }
            }
        }
        let joined = |&atom: &usize| {
            let around = neighbours.of(atom).iter();
            around.filter_map(|to| number[to.atom]).collect()
        };
        parts.push(Part {
            labels: atoms.iter().map(label).collect(),
            joined: atoms.iter().map(joined).collect(),
        });
    }
    parts
}

impl Part {
    /// Whether some renumbering keeps labels and which atoms are joined.
    fn goes_to(&self, other: &Part) -> bool {
        self.labels.len() == other.labels.len()
            && Colours::numbered(self.labels.clone(), other.labels.clone())
                .is_some_and(|colours| self.extends(other, colours))
    }

    /// Whether some such renumbering keeps these colours.
    fn extends(&self, other: &Part, colours: Colours) -> bool {
        let Some(colours) = self.refined(other, colours) else {
            return false;
        };
        let sizes = colours.sizes();
        let open = (0..self.labels.len()).filter(|&atom| sizes[colours.first[atom]] > 1);
        let Some(atom) = open.min_by_key(|&atom| sizes[colours.first[atom]]) else {
            return self.is_kept(other, &colours.placed());
        };
        let images = 0..self.labels.len();
        let mut images = images.filter(|&image| colours.second[image] == colours.first[atom]);
        images.any(|image| self.extends(other, colours.with(atom, image)))
    }

    /// Finer colours, by those of the neighbours, until they tell no more atoms apart.
    fn refined(&self, other: &Part, mut colours: Colours) -> Option<Colours> {
        loop {
            let count = colours.count();
            let first = self.surroundings(&colours.first);
            let second = other.surroundings(&colours.second);
            colours = Colours::numbered(first, second)?;
            if colours.count() == count {
                return Some(colours);
            }
        }
    }

    /// The colour of each atom with those of its neighbours.
    fn surroundings(&self, colours: &[usize]) -> Vec<(usize, Vec<usize>)> {
        let around = |(atom, joined): (usize, &Vec<usize>)| {
            let mut around: Vec<usize> = joined.iter().map(|&to| colours[to]).collect();
            around.sort_unstable();
            (colours[atom], around)
        };
        self.joined.iter().enumerate().map(around).collect()
    }

    /// Whether a renumbering keeps labels and which atoms are joined.
    fn is_kept(&self, other: &Part, images: &[Option<usize>]) -> bool {
        let images: Vec<usize> = images.iter().copied().flatten().collect();
        let are_same = |atom: usize| {
            let image = images[atom];
            let mut moved: Vec<usize> = self.joined[atom].iter().map(|&to| images[to]).collect();
            let mut joined = other.joined[image].clone();
            moved.sort_unstable();
            joined.sort_unstable();
            self.labels[atom] == other.labels[image] && moved == joined
        };
        images.len() == self.labels.len() && (0..images.len()).all(are_same)
    }
}
