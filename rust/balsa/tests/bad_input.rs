//! Short buffers, invalid tables and rubbish rows give the numbers of the rules.

use balsa::tables::{
    self, Counts, Read, Step, ATOM_CELLS, ATOM_TABLE, BOND_TABLE, RENUMBERING, ROW, TEXT,
};
use balsa::{Code, Molecule};

const BENZENE: &[u8] = b"c1ccccc1";

fn benzene() -> (Vec<i32>, Vec<i32>, Counts) {
    let mut atoms = vec![7; ATOM_TABLE];
    let mut bonds = vec![9; BOND_TABLE];
    let Read { counts, .. } = tables::read(BENZENE, &mut atoms, &mut bonds).unwrap();
    (atoms, bonds, counts)
}

#[test]
fn short_tables_change_nothing() {
    let mut atoms = vec![7; ATOM_TABLE - 1];
    let mut bonds = vec![9; BOND_TABLE];
    let refusal = tables::read(BENZENE, &mut atoms, &mut bonds).unwrap_err();
    assert_eq!(refusal.code, Code::Short);
    assert!(atoms.iter().all(|&cell| cell == 7) && bonds.iter().all(|&cell| cell == 9));
}

#[test]
fn a_refusal_zeroes_the_tables() {
    let mut atoms = vec![7; ATOM_TABLE + 5];
    let mut bonds = vec![9; BOND_TABLE];
    let refusal = tables::read(b"CC(", &mut atoms, &mut bonds).unwrap_err();
    assert_eq!((refusal.code, refusal.place), (Code::Grammar, 3));
    assert!(atoms.iter().chain(&bonds).all(|&cell| cell == 0));
}

#[test]
fn a_short_output_stays_and_a_refusal_zeroes_it() {
    let mut out = vec![7; TEXT + 3];
    let refusal = balsa::standardize_into(BENZENE, &mut out[..TEXT - 1]).unwrap_err();
    assert_eq!((refusal.code, refusal.place), (Code::Short, 0));
    assert!(out.iter().all(|&byte| byte == 7));
    let refusal = balsa::standardize_into(b"CC(", &mut out[..TEXT]).unwrap_err();
    assert_eq!((refusal.code, refusal.place), (Code::Grammar, 3));
    assert!(out[..TEXT].iter().all(|&byte| byte == 0) && out[TEXT..] == [7; 3]);
    out.fill(7);
    let standard = balsa::standardize_into(BENZENE, &mut out[..TEXT]).unwrap();
    assert_eq!(&out[..standard.length], b"C1=CC=CC=C1");
    assert!(out[standard.length..TEXT].iter().all(|&byte| byte == 0) && out[TEXT..] == [7; 3]);
}

#[test]
fn invalid_tables_are_told() {
    let (atoms, mut bonds, counts) = benzene();
    for (cell, value) in [(0, 5), (1, 0), (1, 6), (2, 4), (0, i32::MIN), (1, i32::MAX)] {
        let before = std::mem::replace(&mut bonds[cell], value);
        let mut row = vec![3; ROW];
        assert_eq!(
            tables::first(&atoms, &bonds, counts, &mut row),
            Err(Code::Invalid)
        );
        assert!(row.iter().all(|&x| x == 0));
        bonds[cell] = before;
    }
    let huge = Counts {
        atoms: usize::MAX,
        bonds: usize::MAX,
    };
    assert_eq!(tables::check(&atoms, &bonds, huge), Err(Code::Invalid));
}

#[test]
fn keys_of_bad_tables() {
    let (mut atoms, bonds, counts) = benzene();
    let key = tables::key(&atoms, &bonds, counts).unwrap();
    assert_eq!(Molecule::read(b"C1=CC=CC=C1").unwrap().key(), key);
    let short = tables::key(&atoms[1..], &bonds, counts);
    assert_eq!(short, Err(Code::Short));
    let huge = Counts {
        atoms: usize::MAX,
        bonds: usize::MAX,
    };
    assert_eq!(tables::key(&atoms, &bonds, huge), Err(Code::Invalid));
    assert_eq!(tables::key(&[], &[], huge), Err(Code::Short));
    atoms[3] = 10;
    assert_eq!(tables::key(&atoms, &bonds, counts), Err(Code::Invalid));
}

#[test]
fn tetrahedral_marks_are_judged() {
    let mut atoms = vec![7; ATOM_TABLE];
    let mut bonds = vec![9; BOND_TABLE];
    let read = tables::read(b"F[C@](Cl)(Br)I", &mut atoms, &mut bonds).unwrap();
    let mark = ATOM_CELLS + 6;
    assert_eq!((atoms[6], atoms[mark]), (0, 1));
    for (value, expected) in [
        (0, Ok(())),
        (2, Ok(())),
        (3, Err(Code::Invalid)),
        (-1, Err(Code::Invalid)),
        (i32::MIN, Err(Code::Invalid)),
    ] {
        atoms[mark] = value;
        assert_eq!(tables::check(&atoms, &bonds, read.counts), expected);
    }
    (atoms[6], atoms[mark]) = (1, 1);
    let checked = tables::check(&atoms, &bonds, read.counts);
    assert_eq!(checked, Err(Code::Invalid));
    let refusal = Molecule::read(b"C[S@](=O)C").unwrap_err();
    assert_eq!((refusal.code, refusal.place), (Code::UnfitMark, 0));
}

#[test]
fn rubbish_rows_are_no_matchings() {
    let (mut atoms, mut bonds, counts) = benzene();
    let mut row = vec![2; ROW];
    assert_eq!(
        tables::next(&atoms, &bonds, counts, &mut row),
        Err(Code::NotMatching)
    );
    assert!(row.iter().all(|&x| x == 0));
    let before = atoms.clone();
    assert_eq!(
        tables::kekulize(&mut atoms, &mut bonds, counts, &row),
        Err(Code::NotMatching)
    );
    assert_eq!(atoms, before);
    assert_eq!(
        tables::first(&atoms, &bonds, counts, &mut row[..ROW - 1]),
        Err(Code::Short)
    );
}

#[test]
fn a_list_of_calls() {
    let (atoms, bonds, counts) = benzene();
    let mut row = vec![5; ROW];
    let mut codes = [7; 7];
    tables::replay(
        &[1, 0, 1, 1, 1, 0],
        &atoms,
        &bonds,
        counts,
        &mut row,
        &mut codes,
    )
    .unwrap();
    assert_eq!(codes, [12, 0, 0, 255, 12, 0, 0]);
    assert_eq!(row[..6], [1, 0, 1, 0, 1, 0]);
    assert_eq!(
        tables::next(&atoms, &bonds, counts, &mut row),
        Ok(Step::Given)
    );
}

#[test]
fn writing_needs_room() {
    let (atoms, bonds, counts) = benzene();
    let mut text = vec![1; TEXT - 1];
    let mut renumbering = vec![1; RENUMBERING];
    assert_eq!(
        tables::write(&atoms, &bonds, counts, &mut text, &mut renumbering),
        Err(Code::Short)
    );
    assert!(text.iter().all(|&b| b == 1));
}

#[test]
fn a_text_without_a_matching() {
    let refusal = Molecule::read(b"c1ccnc1").unwrap_err();
    assert_eq!((refusal.code.number(), refusal.place), (11, 0));
}
