//! The calls of the engine that forces pairs: their refusals, their list, and that they answer as the other calls do.

use balsa::tables::{self, Counts, Step, ATOM_CELLS, ATOM_TABLE, BOND_CELLS, BOND_TABLE, ROW};
use balsa::{Code, Molecule};

fn read(text: &str) -> (Vec<i32>, Vec<i32>, Counts) {
    let mut atoms = vec![0; ATOM_TABLE];
    let mut bonds = vec![0; BOND_TABLE];
    let counts = tables::read(text.as_bytes(), &mut atoms, &mut bonds)
        .unwrap()
        .counts;
    (atoms, bonds, counts)
}

/// A selected carbon with three selected neighbours, each with a methyl: no text gives these tables,
/// since they lack a matching.
fn star() -> (Vec<i32>, Vec<i32>, Counts) {
    let ends = [[0, 1], [0, 2], [0, 3], [1, 4], [2, 5], [3, 6]];
    let mut atoms = vec![0; ATOM_TABLE];
    for (atom, row) in atoms.chunks_exact_mut(ATOM_CELLS).take(7).enumerate() {
        row[..2].copy_from_slice(&[6, i32::from(atom < 4)]);
    }
    let mut bonds = vec![0; BOND_TABLE];
    for (row, ends) in bonds.chunks_exact_mut(BOND_CELLS).zip(&ends) {
        row[..2].copy_from_slice(ends);
    }
    let counts = Counts {
        atoms: 7,
        bonds: ends.len(),
    };
    (atoms, bonds, counts)
}

#[test]
fn short_buffers_change_nothing() {
    let (atoms, bonds, counts) = read("CccccccC");
    for (room, list) in [(ROW - 1, ROW), (ROW, ROW - 1), (0, 0)] {
        let mut row = vec![7; room];
        let mut pairs = vec![9; list];
        let told = tables::first_forced(&atoms, &bonds, counts, &mut row, &mut pairs);
        assert_eq!(told, Err(Code::Short));
        assert!(row.iter().all(|&cell| cell == 7) && pairs.iter().all(|&cell| cell == 9));
    }
    let mut row = vec![7; ROW - 1];
    let told = tables::next_forced(&atoms, &bonds, counts, &mut row);
    assert_eq!(told, Err(Code::Short));
    assert!(row.iter().all(|&cell| cell == 7));
}

#[test]
fn a_refusal_zeroes_the_row_and_the_list() {
    let (atoms, mut bonds, counts) = read("CccccccC");
    bonds[2] = 9;
    let mut row = vec![7; ROW + 3];
    let mut pairs = vec![9; ROW + 5];
    let told = tables::first_forced(&atoms, &bonds, counts, &mut row, &mut pairs);
    assert_eq!(told, Err(Code::Invalid));
    assert!(row.iter().all(|&cell| cell == 0) && pairs.iter().all(|&cell| cell == 0));
    // one pair is made before an atom is stuck
    let (atoms, bonds, counts) = star();
    let mut row = vec![7; ROW];
    let mut pairs = vec![9; ROW];
    let told = tables::first_forced(&atoms, &bonds, counts, &mut row, &mut pairs);
    assert_eq!(told, Err(Code::Unmatchable));
    assert!(row.iter().all(|&cell| cell == 0) && pairs.iter().all(|&cell| cell == 0));
    let mut row = vec![2; ROW];
    let told = tables::next_forced(&atoms, &bonds, counts, &mut row);
    assert_eq!(told, Err(Code::NotMatching));
    assert!(row.iter().all(|&cell| cell == 0));
}

#[test]
fn the_list_and_the_zeros_behind_it() {
    let (atoms, bonds, counts) = read("CccccccC");
    let mut row = vec![7; ROW];
    let mut pairs = vec![9; ROW + 2];
    let told = tables::first_forced(&atoms, &bonds, counts, &mut row, &mut pairs);
    assert_eq!(told, Ok(3));
    assert_eq!(pairs[..4], [1, 3, 5, 0]);
    assert!(pairs[3..].iter().all(|&cell| cell == 0));
    assert_eq!(row[..7], [0, 1, 0, 1, 0, 1, 0]);
}

#[test]
fn forced_pairs_are_in_every_matching() {
    for text in [
        "c1ccccc1",
        "o1cccc1",
        "Cccc1ccccc1",
        "c1ccc2ccccc2c1",
        "c1cc2cccccc2c1",
        "CC",
        "",
    ] {
        let molecule = Molecule::read(text.as_bytes()).unwrap();
        let forced = molecule.forced();
        for row in molecule.matchings() {
            assert!(forced.iter().all(|&bond| row[bond as usize] == 1), "{text}");
        }
    }
}

#[test]
fn both_engines_list_the_same() {
    for text in [
        "c1ccccc1",
        "c1ccc2ccccc2c1",
        "c1cc2ccc3cccc4ccc(c1)c2c34",
        "Cccc1ccccc1",
        "CC",
    ] {
        let molecule = Molecule::read(text.as_bytes()).unwrap();
        let (atoms, bonds, counts) = read(text);
        let mut row = vec![0; ROW];
        let mut pairs = vec![0; ROW];
        tables::first_forced(&atoms, &bonds, counts, &mut row, &mut pairs).unwrap();
        let mut listed = vec![row[..counts.bonds].to_vec()];
        while tables::next_forced(&atoms, &bonds, counts, &mut row) == Ok(Step::Given) {
            listed.push(row[..counts.bonds].to_vec());
        }
        assert_eq!(listed, molecule.matchings().collect::<Vec<_>>(), "{text}");
    }
}

#[test]
fn an_odd_ring_behind_30_benzenes_ends() {
    let (mut atoms, bonds, counts) = read(&("c1ccccc1.".repeat(30) + "C1CCCC1"));
    for row in atoms
        .chunks_exact_mut(ATOM_CELLS)
        .take(counts.atoms)
        .skip(180)
    {
        (row[1], row[3]) = (1, 1);
    }
    let mut row = vec![7; ROW];
    let mut pairs = vec![9; ROW];
    let told = tables::first_forced(&atoms, &bonds, counts, &mut row, &mut pairs);
    assert_eq!(told, Err(Code::Unmatchable));
    assert!(row.iter().all(|&cell| cell == 0) && pairs.iter().all(|&cell| cell == 0));
}
