//! Random molecules.

use crate::random::Random;
use balsa_reference::{
    delocalized, implied_hydrogens, is_shorthand, Atom, Bond, Kind, Mark, Molecule, MAX_ATOMS,
    MAX_BONDS,
};

/// How hard the matchings of the molecules may be.
#[derive(Clone, Copy, Debug, PartialEq, Eq)]
pub enum Effort {
    /// Few enough selected atoms for a search that tries every choice.
    Plain,
    /// Up to the limits: a search that tries every choice may not end.
    Hard,
}

impl Effort {
    fn most_selected(self) -> usize {
        match self {
            Effort::Plain => 36,
            Effort::Hard => MAX_ATOMS,
        }
    }
}

/// The ends of the bonds of a graph, and its number of vertices.
#[derive(Clone, Debug, Default)]
struct Shape {
    atoms: usize,
    ends: Vec<(usize, usize)>,
}

impl Shape {
    fn join(&mut self, one: usize, other: usize) {
        let ends = (one.min(other), one.max(other));
        let is_full = self.ends.len() == MAX_BONDS;
        if one != other && !is_full && !self.ends.contains(&ends) {
            self.ends.push(ends);
        }
    }

    /// Puts another graph beside this one, if there is room.
    fn add(&mut self, other: Shape) {
        let has_room = self.ends.len() + other.ends.len() <= MAX_BONDS;
        if has_room && self.atoms + other.atoms <= MAX_ATOMS {
            let moved = |(one, two)| (one + self.atoms, two + self.atoms);
            self.ends.extend(other.ends.into_iter().map(moved));
            self.atoms += other.atoms;
        }
    }
}

/// A tree of at most `size` atoms, with some more bonds.
fn tree(random: &mut Random, size: usize) -> Shape {
    let mut shape = Shape {
        atoms: random.between(1, size),
        ends: Vec::new(),
    };
    let reach = *random.pick(&[1, 3, MAX_ATOMS]);
    for atom in 1..shape.atoms {
        let parent = random.between(atom.saturating_sub(reach), atom - 1);
        shape.join(parent, atom);
    }
    for _ in 0..random.below(1 + shape.atoms / 3) {
        let (one, other) = (random.below(shape.atoms), random.below(shape.atoms));
        shape.join(one, other);
    }
    shape
}

/// Rings in a row, fused, spiro or joined by a bond.
fn rings(random: &mut Random, size: usize) -> Shape {
    let mut shape = Shape::default();
    let mut last = 0;
    while shape.atoms + 8 <= size.max(8) {
        let ring = random.between(3, 8);
        let start = shape.atoms;
        shape.atoms += ring;
        for step in 0..ring {
            shape.join(start + step, start + (step + 1) % ring);
        }
        if start > 0 {
            shape.join(last, start);
            if random.percent(60) {
                shape.join(last - 1, start + 1);
            }
        }
        last = start + random.between(2, ring - 1);
    }
    shape
}

/// Hexagons of a honeycomb.
fn honeycomb(random: &mut Random, size: usize) -> Shape {
    let mut cells: Vec<(i32, i32)> = vec![(0, 0)];
    let mut corners: Vec<(i32, i32)> = Vec::new();
    let mut shape = Shape::default();
    loop {
        let (column, row) = cells[cells.len() - 1];
        let around = [(0, 1), (1, 0), (1, -1), (0, -1), (-1, 0), (-1, 1)];
        // a corner is named by three times its mean place over the cells that meet there
        let corner = |side: usize| {
            let ((a, b), (c, d)) = (around[side], around[(side + 1) % 6]);
            (3 * column + a + c, 3 * row + b + d)
        };
        let numbers: Vec<usize> = (0..6)
            .map(|side| number_in(&mut corners, corner(side)))
            .collect();
        shape.atoms = corners.len();
        for side in 0..6 {
            shape.join(numbers[side], numbers[(side + 1) % 6]);
        }
        if shape.atoms + 4 > size || cells.len() > 400 {
            return shape;
        }
        let (from_column, from_row) = *random.pick(&cells);
        let (columns, rows) = *random.pick(&around);
        cells.push((from_column + columns, from_row + rows));
    }
}

/// The number of an item in a list, to which it is added if need be.
fn number_in(list: &mut Vec<(i32, i32)>, item: (i32, i32)) -> usize {
    list.iter()
        .position(|&other| other == item)
        .unwrap_or_else(|| {
            list.push(item);
            list.len() - 1
        })
}

/// Few atoms with many bonds.
fn dense(random: &mut Random) -> Shape {
    let mut shape = Shape {
        atoms: random.between(2, 24),
        ends: Vec::new(),
    };
    let chance = random.between(20, 100);
    for one in 0..shape.atoms {
        for other in one + 1..shape.atoms {
            if random.percent(chance) {
                shape.join(one, other);
            }
        }
    }
    shape
}

fn shape(random: &mut Random) -> Shape {
    let mut shape = Shape::default();
    let size = *random.pick(&[2, 5, 5, 10, 10, 20, 20, 40, 40, 80, 200, MAX_ATOMS]);
    let pieces = if random.percent(70) {
        1
    } else {
        random.between(2, 9)
    };
    for _ in 0..pieces {
        let piece = match random.below(10) {
            0..4 => tree(random, size),
            4..6 => rings(random, size),
            6..9 => honeycomb(random, size),
            _ => dense(random),
        };
        shape.add(piece);
    }
    shape
}

/// The style of a molecule's atoms and bonds.
#[derive(Clone, Copy, PartialEq, Eq)]
enum Style {
    Selected,
    Mixed,
    Wild,
}

fn element(random: &mut Random, selected: bool, style: Style) -> u8 {
    if selected && style == Style::Selected {
        return *random.pick(&[6, 6, 6, 6, 6, 6, 6, 7, 7, 8, 15, 16]);
    }
    if selected {
        return *random.pick(&[6, 7, 8, 15, 16]);
    }
    match random.below(10) {
        0..6 => *random.pick(&[6, 6, 6, 7, 8, 16]),
        6..9 => *random.pick(&[0, 5, 6, 7, 8, 9, 15, 16, 17, 35, 53, 85, 117]),
        _ => random.below(119) as u8,
    }
}

fn kind(random: &mut Random, style: Style) -> Kind {
    let elided = match style {
        Style::Selected => 97,
        Style::Mixed => 75,
        Style::Wild => 30,
    };
    if random.percent(elided) {
        Kind::Elided
    } else {
        *random.pick(&[Kind::Elided, Kind::Single, Kind::Double, Kind::Triple])
    }
}

/// A number of up to `digits` digits, often at a bound.
fn number(random: &mut Random, digits: u32) -> u16 {
    let digits = random.between(1, digits as usize) as u32;
    let (low, high) = (10usize.pow(digits - 1), 10usize.pow(digits) - 1);
    (match random.below(3) {
        0 => low,
        1 => high,
        _ => random.between(low, high),
    }) as u16
}

fn charge(random: &mut Random) -> i8 {
    random.between(0, 18) as i8 - 9
}

/// Gives an atom fields that stand in brackets only.
fn add_fields(random: &mut Random, atom: &mut Atom) {
    if random.percent(30) {
        atom.isotope = number(random, 3);
    }
    if random.percent(40) {
        atom.charge = charge(random);
    }
    if random.percent(20) {
        atom.extension = number(random, 4);
    }
    if random.percent(40) {
        atom.hydrogens = random.below(10) as u8;
    }
}

/// A random molecule within the limits.
pub fn molecule(random: &mut Random, effort: Effort) -> Molecule {
    let mut shape = shape(random);
    if random.percent(20) {
        random.shuffle(&mut shape.ends);
    }
    let style = *random.pick(&[Style::Selected, Style::Selected, Style::Mixed, Style::Wild]);
    let ends = shape.ends.iter();
    let bonds = ends.map(|&(one, other)| Bond::between(one, other, kind(random, style)));
    let mut molecule = Molecule {
        bonds: bonds.collect(),
        atoms: vec![Atom::default(); shape.atoms],
    };
    if random.percent(75) {
        dress_with_a_matching(random, &mut molecule, effort);
    } else {
        dress(random, &mut molecule, effort, style);
    }
    charge_selected(random, &mut molecule);
    mark(random, &mut molecule);
    if random.percent(5) {
        add_marked_pair(random, &mut molecule);
    }
    mark_centers(random, &mut molecule);
    molecule
}

/// Gives tetrahedral marks to atoms with three or four bonds, mostly with the hydrogens that fit, and
/// in some molecules to any other atom.
pub fn mark_centers(random: &mut Random, molecule: &mut Molecule) {
    let chance = *random.pick(&[0, 0, 50, 100]);
    let careless = *random.pick(&[0, 0, 0, 3]);
    let degrees = molecule.degrees();
    for (atom, degree) in molecule.atoms.iter_mut().zip(degrees) {
        let hydrogens = match degree {
            3 => 1,
            4 => 0,
            _ => continue,
        };
        if !random.percent(chance) {
            continue;
        }
        let is_careless = random.percent(careless);
        // the hydrogens of a selected atom stay: they decide whether there is a matching
        if !atom.selected && !is_careless {
            atom.hydrogens = hydrogens;
        }
        if atom.hydrogens == hydrogens || is_careless {
            atom.mark = tetrahedral_mark(random);
        }
    }
    if random.percent(4) && !molecule.atoms.is_empty() {
        let number = random.below(molecule.atoms.len());
        molecule.atoms[number].mark = tetrahedral_mark(random);
    }
}

fn tetrahedral_mark(random: &mut Random) -> Mark {
    *random.pick(&[Mark::Counterclockwise, Mark::Clockwise])
}

/// Adds `C=C/c(\C=C)cC` with any two marks: a pair of selected atoms, one of which has two marked
/// neighbours and becomes an end of a double bond only when it is kekulized.
fn add_marked_pair(random: &mut Random, molecule: &mut Molecule) {
    let base = molecule.atoms.len();
    if base + 7 > MAX_ATOMS || molecule.bonds.len() + 6 > MAX_BONDS {
        return;
    }
    for (selected, hydrogens) in [(0, 2), (0, 1), (1, 0), (0, 1), (0, 2), (1, 0), (0, 3)] {
        molecule.atoms.push(Atom {
            element: 6,
            selected: selected == 1,
            hydrogens,
            ..Atom::default()
        });
    }
    let mut mark = || *random.pick(&[Kind::Up, Kind::Down]);
    let ends = [
        (0, 1, Kind::Double),
        (1, 2, mark()),
        (2, 3, mark()),
        (3, 4, Kind::Double),
        (2, 5, Kind::Elided),
        (5, 6, Kind::Elided),
    ];
    let bonds = ends.map(|(one, other, kind)| Bond::between(base + one, base + other, kind));
    molecule.bonds.extend(bonds);
}

/// Marks bonds beside double bonds, mostly so that the two of one end lie on opposite sides, and in
/// some molecules any other bonds. Marks have the order of what they replace.
fn mark(random: &mut Random, molecule: &mut Molecule) {
    let chance = *random.pick(&[0, 0, 50, 100]);
    let careless = *random.pick(&[0, 0, 0, 20]);
    let neighbours = molecule.neighbours();
    for number in 0..molecule.bonds.len() {
        let bond = molecule.bonds[number];
        if bond.kind == Kind::Double && random.percent(chance) {
            for end in [bond.first, bond.second] {
                let mut mark = *random.pick(&[Kind::Up, Kind::Down]);
                for to in neighbours.of(end) {
                    let is_marked = is_markable(molecule, to.bond) && random.percent(70);
                    if is_marked {
                        molecule.bonds[to.bond] = Bond::between(end, to.atom, mark);
                        if !random.percent(careless) {
                            mark = mark.turned();
                        }
                    }
                }
            }
        }
    }
    if random.percent(careless / 2) && !molecule.bonds.is_empty() {
        let number = random.below(molecule.bonds.len());
        if is_markable(molecule, number) {
            molecule.bonds[number].kind = Kind::Up;
        }
    }
}

/// Whether a bond has order 1, no mark, and is not elided between two selected atoms.
fn is_markable(molecule: &Molecule, number: usize) -> bool {
    let bond = molecule.bonds[number];
    let is_selected = |atom: usize| molecule.atoms[atom].selected;
    match bond.kind {
        Kind::Single => true,
        Kind::Elided => !is_selected(bond.first) || !is_selected(bond.second),
        _ => false,
    }
}

/// The atoms that may be selected: those with two bonds, and in some molecules also loose ones.
fn tight(random: &mut Random, molecule: &Molecule) -> Vec<bool> {
    let loose = *random.pick(&[0, 0, 0, 5]);
    let degrees = molecule.degrees().into_iter();
    degrees
        .map(|degree| degree >= 2 || random.percent(loose))
        .collect()
}

/// Gives the atoms any elements and fields; mostly the molecule has no matching.
fn dress(random: &mut Random, molecule: &mut Molecule, effort: Effort, style: Style) {
    let sums = molecule.bond_sums();
    let tight = tight(random, molecule);
    let chance = [95, 40, 30][style as usize];
    let mut selected_atoms = 0;
    for ((atom, sum), tight) in molecule.atoms.iter_mut().zip(sums).zip(tight) {
        let is_free = tight && selected_atoms < effort.most_selected();
        atom.selected = is_free && random.percent(chance);
        selected_atoms += usize::from(atom.selected);
        atom.element = element(random, atom.selected, style);
        if is_shorthand(atom.element) {
            atom.hydrogens = implied_hydrogens(atom.element, atom.selected, sum);
        }
        if style == Style::Wild && random.percent(40) || random.percent(2) {
            add_fields(random, atom);
        } else if random.percent(3) {
            atom.hydrogens = random.below(4) as u8;
        }
    }
}

/// Selects pairs of atoms joined by elided bonds, so that the molecule mostly has a matching.
fn dress_with_a_matching(random: &mut Random, molecule: &mut Molecule, effort: Effort) {
    let sums = molecule.bond_sums();
    let tight = tight(random, molecule);
    let mut order: Vec<usize> = (0..molecule.bonds.len()).collect();
    if random.percent(50) {
        random.shuffle(&mut order);
    }
    let mut pairs = 0;
    for number in order {
        let Bond {
            first,
            second,
            kind,
        } = molecule.bonds[number];
        let is_free =
            |atom: usize| !molecule.atoms[atom].selected && tight[atom] && sums[atom] <= 3;
        let has_room = 2 * pairs < effort.most_selected() && random.percent(97);
        if kind == Kind::Elided && is_free(first) && is_free(second) && has_room {
            molecule.atoms[first].selected = true;
            molecule.atoms[second].selected = true;
            pairs += 1;
        }
    }
    let fields = *random.pick(&[0, 0, 2, 20]);
    for (atom, sum) in molecule.atoms.iter_mut().zip(sums) {
        atom.element = match (atom.selected, sum) {
            (true, 0..=1) => *random.pick(&[6, 6, 7, 8, 15, 16]),
            (true, 2) => *random.pick(&[6, 6, 6, 7, 15]),
            (true, _) => 6,
            (false, _) => element(random, false, Style::Mixed),
        };
        let is_pruned = !atom.selected && random.percent(30);
        if let (true, Some(element)) = (is_pruned, pruned_element(random, sum)) {
            (atom.element, atom.selected) = (element, true);
        }
        if is_shorthand(atom.element) {
            atom.hydrogens = implied_hydrogens(atom.element, atom.selected, sum);
        }
        if is_pruned && atom.selected && sum == 2 && matches!(atom.element, 7 | 15) {
            atom.hydrogens = 1;
        } else if random.percent(fields) && !atom.selected {
            add_fields(random, atom);
        }
    }
}

/// An element whose atom is pruned if it is selected, with a hydrogen if need be.
fn pruned_element(random: &mut Random, bond_sum: u32) -> Option<u8> {
    match bond_sum {
        0 | 1 => None,
        2 => Some(*random.pick(&[7, 8, 15, 16])),
        3 => Some(*random.pick(&[7, 8, 15, 16])),
        _ => Some(*random.pick(&[6, 7, 8, 15, 16])),
    }
}

/// Charges some of the selected atoms, mostly so that each stays delocalized or pruned.
fn charge_selected(random: &mut Random, molecule: &mut Molecule) {
    let chance = *random.pick(&[0, 0, 4, 30]);
    let was_delocalized = delocalized(molecule);
    for number in 0..molecule.atoms.len() {
        let atom = molecule.atoms[number];
        if !atom.selected || !random.percent(chance) {
            continue;
        }
        molecule.atoms[number] = Atom {
            element: *random.pick(&[6, 7, 8, 15, 16]),
            charge: charge(random),
            hydrogens: random.below(2) as u8,
            ..atom
        };
        let is_same = delocalized(molecule)[number] == was_delocalized[number];
        if !is_same && random.percent(95) {
            molecule.atoms[number] = atom;
        }
    }
}
