//! First and next against the paper's definition: all rows of 0 and 1 are tried.

use balsa_reference::tables::{self, Counts, Step, Tables, ATOM_TABLE, BOND_TABLE, ROW};
use balsa_reference::{tables::fill, Atom, Bond, Code, Kind, Molecule, ATOM_CELLS, BOND_CELLS};
use compare::molecules::{self, Effort};
use compare::random::Random;

/// The row of an atom.
fn atom_row(tables: Tables<'_>, atom: usize) -> &[i32] {
    &tables.atoms[ATOM_CELLS * atom..][..ATOM_CELLS]
}

/// The rows of the bonds at an atom.
fn bonds_at(tables: Tables<'_>, atom: usize) -> impl Iterator<Item = &[i32]> {
    let bonds = tables.bonds.chunks(BOND_CELLS).take(tables.counts.bonds);
    bonds.filter(move |bond| bond[0] as usize == atom || bond[1] as usize == atom)
}

/// The order of a bond: elided and marked ones count 1.
fn order(bond: &[i32]) -> i32 {
    match bond[2] {
        0 | 4 | 5 => 1,
        kind => kind,
    }
}

/// The delocalized atoms, from the cells of valid tables.
fn delocalized(tables: Tables) -> Vec<bool> {
    let is_delocalized = |atom: usize| {
        let cells = atom_row(tables, atom);
        let sum: i32 = bonds_at(tables, atom).map(order).sum();
        let target = match (cells[0], cells[4]) {
            (6, charge) => 4 - charge.abs(),
            (7 | 15, charge) => 3 + charge,
            (_, charge) => 2 + charge,
        };
        cells[1] == 1 && sum + cells[3] < target
    };
    (0..tables.counts.atoms).map(is_delocalized).collect()
}

/// Whether a selected atom has fewer than two bonds (request P6).
fn has_loose(tables: Tables) -> bool {
    let is_loose =
        |atom: usize| atom_row(tables, atom)[1] == 1 && bonds_at(tables, atom).count() < 2;
    (0..tables.counts.atoms).any(is_loose)
}

/// Whether a tetrahedral mark stands at an atom whose bonds and hydrogens are not four, or that has
/// more than one hydrogen (request P8).
fn has_unfit(tables: Tables) -> bool {
    let is_unfit = |atom: usize| {
        let [_, _, _, hydrogens, _, _, mark] = *atom_row(tables, atom) else {
            return true;
        };
        let bonds = bonds_at(tables, atom).count() as i32;
        mark != 0 && (bonds + hydrogens != 4 || hydrogens > 1)
    };
    (0..tables.counts.atoms).any(is_unfit)
}

/// Whether an atom with a double bond has two marked neighbours on the same side (request P5): `/`
/// places one numbered after it above, one numbered before it below.
fn has_crowded(tables: Tables) -> bool {
    let is_crowded = |atom: usize| {
        let is_above = |bond: &[i32]| (bond[2] == 4) == (bond[0] as usize == atom);
        let marked = || bonds_at(tables, atom).filter(|bond| bond[2] >= 4);
        let above = marked().filter(|bond| is_above(bond)).count();
        has_double(tables, atom) && (above > 1 || marked().count() - above > 1)
    };
    (0..tables.counts.atoms).any(is_crowded)
}

/// Whether a mark touches no double bond (request P5).
fn has_stray(tables: Tables) -> bool {
    let mut bonds = tables.bonds.chunks(BOND_CELLS).take(tables.counts.bonds);
    let touches = |atom: i32| has_double(tables, atom as usize);
    bonds.any(|bond| bond[2] >= 4 && !touches(bond[0]) && !touches(bond[1]))
}

fn has_double(tables: Tables, atom: usize) -> bool {
    bonds_at(tables, atom).any(|bond| bond[2] == 2)
}

/// Whether a row is a matching, word by word.
fn is_matching(tables: Tables, delocalized: &[bool], row: &[u8]) -> bool {
    let mut ends = vec![0; tables.counts.atoms];
    for (bond, &cell) in tables.bonds.chunks(BOND_CELLS).zip(row) {
        let (one, other) = (bond[0] as usize, bond[1] as usize);
        if cell == 1 {
            if bond[2] != 0 || !delocalized[one] || !delocalized[other] {
                return false;
            }
            ends[one] += 1;
            ends[other] += 1;
        }
    }
    ends.iter()
        .zip(delocalized)
        .all(|(&ends, &is_delocalized)| ends == i32::from(is_delocalized))
}

/// Every row of 0 and 1, the one with 1 at the first difference first.
fn rows(bonds: usize) -> Vec<Vec<u8>> {
    let row = |number: usize| {
        (0..bonds)
            .rev()
            .map(|bit| (number >> bit & 1) as u8)
            .collect()
    };
    (0..1 << bonds).rev().map(row).collect()
}

/// Compares the calls on this molecule, for every row, with the definition; gives the number of
/// its matchings.
fn check(molecule: &Molecule) -> usize {
    let (mut atoms, mut bonds) = (vec![0; ATOM_TABLE], vec![0; BOND_TABLE]);
    fill(molecule, &mut atoms, &mut bonds);
    let counts: Counts = tables::counts(molecule);
    let tables = Tables {
        atoms: &atoms,
        bonds: &bonds,
        counts,
    };
    let is_late = has_loose(tables) || has_crowded(tables) || has_stray(tables);
    if is_late || has_unfit(tables) {
        let answer = tables::first(tables, &mut [9; ROW]);
        assert_eq!(answer, Err(Code::InvalidTables), "{molecule:?}");
        return 0;
    }
    let delocalized = delocalized(tables);
    let all = rows(counts.bonds);
    let is_listed = |row: &&Vec<u8>| is_matching(tables, &delocalized, row);
    let list: Vec<&Vec<u8>> = all.iter().filter(is_listed).collect();
    let padded = |row: Option<&&Vec<u8>>| {
        let mut cells = vec![0; ROW];
        cells[..counts.bonds].copy_from_slice(row.map_or(&vec![0; counts.bonds], |row| row));
        cells
    };
    let mut row = vec![9; ROW];
    let answer = if list.is_empty() {
        Err(Code::Unmatchable)
    } else {
        Ok(())
    };
    assert_eq!(tables::first(tables, &mut row), answer, "{molecule:?}");
    assert_eq!(row, padded(list.first()), "{molecule:?}");
    for given in &all {
        let place = list.iter().position(|row| *row == given);
        let mut row = vec![9; ROW];
        row[..counts.bonds].copy_from_slice(given);
        assert_eq!(tables::is_matching(tables, &row), Ok(place.is_some()));
        let later = place.and_then(|place| list.get(place + 1));
        let answer = match (place, later) {
            (None, _) => Err(Code::NotAMatching),
            (Some(_), None) => Ok(Step::End),
            (Some(_), Some(_)) => Ok(Step::Matching),
        };
        assert_eq!(
            tables::next(tables, &mut row),
            answer,
            "{molecule:?} {given:?}"
        );
        assert_eq!(row, padded(later), "{molecule:?} {given:?}");
    }
    list.len()
}

/// All molecules with five carbon atoms, selected or not, and at most five elided bonds, which
/// are numbered by their ends.
#[test]
fn every_small_molecule() {
    let pairs: Vec<(usize, usize)> = (0..5)
        .flat_map(|one| (one + 1..5).map(move |other| (one, other)))
        .collect();
    let mut matchings = 0;
    for bond_set in 0..1u32 << pairs.len() {
        if bond_set.count_ones() > 5 {
            continue;
        }
        let chosen = pairs
            .iter()
            .enumerate()
            .filter(|(place, _)| bond_set >> place & 1 == 1);
        let bond =
            |(_, &(one, other)): (usize, &(usize, usize))| Bond::between(one, other, Kind::Elided);
        let bonds: Vec<Bond> = chosen.map(bond).collect();
        for selected_set in 0..32 {
            let atom = |number: usize| Atom {
                element: 6,
                selected: selected_set >> number & 1 == 1,
                ..Atom::default()
            };
            let molecule = Molecule {
                atoms: (0..5).map(atom).collect(),
                bonds: bonds.clone(),
            };
            matchings += check(&molecule);
        }
    }
    assert!(matchings > 1000, "{matchings}");
}

#[test]
fn random_molecules() {
    let mut random = Random::new(7);
    let (mut checked, mut listed) = (0, 0);
    while checked < 3000 {
        let mut molecule = molecules::molecule(&mut random, Effort::Plain);
        random.shuffle(&mut molecule.bonds);
        if molecule.bonds.len() <= 9 {
            checked += 1;
            listed += check(&molecule);
        }
    }
    assert!(listed > 1500, "{listed}");
}
