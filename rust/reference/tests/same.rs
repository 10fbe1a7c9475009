//! The same compound, drawn differently: texts of the readings, and what the paper says of rows,
//! renumberings and limits.

use balsa_reference::tables::{self, Counts, Tables, ATOM_TABLE, BOND_TABLE, RENUMBERING, ROW};
use balsa_reference::{read, same, shows, Atom, Bond, Code, Kind, Molecule, Sameness};

fn molecule(text: &str) -> Molecule {
    read(text.as_bytes()).expect(text)
}

fn sameness(one: &str, other: &str) -> Option<Sameness> {
    let (first, second) = (molecule(one), molecule(other));
    let answer = same(&first, &second).expect("few atoms");
    let back = same(&second, &first).expect("few atoms");
    assert_eq!(answer.is_some(), back.is_some(), "{one} {other}");
    if let Some(found) = &answer {
        assert!(shows(&first, &second, found), "{one} {other} {found:?}");
    }
    answer
}

fn are_same(one: &str, other: &str) -> bool {
    sameness(one, other).is_some()
}

/// The rows as digits, and the renumbering.
fn shown(one: &str, other: &str) -> (String, String, Vec<u16>) {
    let digits = |row: Vec<u8>| row.iter().map(|cell| char::from(b'0' + cell)).collect();
    let found = sameness(one, other).expect(one);
    (digits(found.row1), digits(found.row2), found.renumbering)
}

#[test]
fn drawings_of_one_compound() {
    assert!(are_same("c1ccccc1", "C1=CC=CC=C1"));
    assert!(are_same("c1ccccc1", "C=1C=CC=CC1"));
    assert!(are_same("OCC", "C(-C)O"));
    assert!(are_same("c1ccc2ccccc2c1", "C1=CC=C2C=CC=CC2=C1"));
    assert!(are_same("c1cc[nH]c1", "N1C=CC=C1"));
    assert!(are_same("C.O", "O.C"));
    assert!(are_same("[13CH4]", "[13CH4]"));
}

#[test]
fn unlike_compounds() {
    assert!(!are_same("CC", "C=C"));
    assert!(!are_same("C=C", "C#C"));
    assert!(!are_same("CCO", "COC"));
    assert!(!are_same("C", "[13CH4]"));
    assert!(!are_same("[CH4]", "[CH4+]"));
    assert!(!are_same("C", "[CH3]"));
    assert!(!are_same("C", "[CH4:1]"));
    assert!(!are_same("CC", "CCC"));
    assert!(!are_same("C1CCCCC1", "C1CC1.C1CC1"));
    assert!(!are_same("c1ccccc1", "C1CCCCC1"));
}

/// A drawing without delocalized atoms has one matching only.
#[test]
fn it_is_not_transitive() {
    let aromatic = "Cc1c(C)cccc1";
    let (one, other) = ("CC1=C(C)C=CC=C1", "CC=1C(C)=CC=CC1");
    assert!(are_same(one, aromatic) && are_same(aromatic, other));
    assert!(!are_same(one, other));
    assert!(are_same(one, one) && are_same(other, other));
}

#[test]
fn the_first_rows_and_the_smallest_renumbering() {
    let benzene = "c1ccccc1";
    let numbers = (0..6).collect::<Vec<u16>>();
    let row = |digits: &str| digits.to_string();
    assert_eq!(
        shown(benzene, benzene),
        (row("101010"), row("101010"), numbers.clone())
    );
    // the bonds of the drawing stand as in the second matching, so the ring is turned
    assert_eq!(
        shown(benzene, "C=1C=CC=CC1"),
        (row("101010"), row("000000"), vec![0, 5, 4, 3, 2, 1])
    );
    assert_eq!(
        shown("C=1C=CC=CC1", benzene),
        (row("000000"), row("101010"), vec![0, 5, 4, 3, 2, 1])
    );
    assert_eq!(
        shown("Cc1c(C)cccc1", "CC=1C(C)=CC=CC1"),
        (
            row("00010101"),
            row("00000000"),
            vec![0, 1, 2, 3, 4, 5, 6, 7]
        )
    );
    assert_eq!(shown("C.C.C", "C.C.C").2, [0, 1, 2]);
    assert_eq!(shown("CCO", "OCC").2, [2, 1, 0]);
}

#[test]
fn marks_are_left_aside() {
    assert!(are_same("F/C=C/F", r"F/C=C\F"));
    assert!(are_same("F/C=C/F", "FC=CF"));
    // kekulizing by its only row is refused as 20
    assert!(are_same(r"C=C/c(\C=C)cC", "C=CC(C=C)=CC"));
}

#[test]
fn nothing() {
    let empty = Sameness {
        row1: vec![],
        row2: vec![],
        renumbering: vec![],
    };
    assert_eq!(sameness("", ""), Some(empty));
    assert!(!are_same("", "C"));
    assert!(!are_same("C", ""));
}

/// A ring of selected carbon atoms: with an odd number it has no matching.
fn ring(count: usize) -> Molecule {
    let atom = Atom {
        element: 6,
        selected: true,
        hydrogens: 1,
        ..Atom::default()
    };
    let ends = (1..count).map(|atom| (atom - 1, atom));
    let bond = |(one, other)| Bond::between(one, other, Kind::Elided);
    Molecule {
        atoms: vec![atom; count],
        bonds: ends.chain([(0, count - 1)]).map(bond).collect(),
    }
}

#[test]
fn without_a_matching_there_is_no_like() {
    for count in [3, 5, 7, 63] {
        assert_eq!(same(&ring(count), &ring(count)), Ok(None), "{count}");
    }
    let unselected = |mut molecule: Molecule| {
        for atom in &mut molecule.atoms {
            atom.selected = false;
        }
        molecule
    };
    assert_eq!(same(&unselected(ring(5)), &ring(5)), Ok(None));
    assert_eq!(same(&ring(5), &unselected(ring(5))), Ok(None));
}

#[test]
fn up_to_64_atoms() {
    let found = same(&ring(64), &ring(64)).expect("few atoms");
    assert!(found.is_some_and(|found| shows(&ring(64), &ring(64), &found)));
    assert_eq!(same(&ring(65), &ring(64)), Err(Code::TooLarge));
    assert_eq!(same(&ring(64), &ring(65)), Err(Code::TooLarge));
    assert_eq!(same(&ring(65), &Molecule::default()), Err(Code::TooLarge));
    assert_eq!(same(&molecule(&"C".repeat(64)), &ring(64)), Ok(None));
}

/// An induced bond can become double and no more.
#[test]
fn order_3_opposite_an_induced_bond() {
    assert!(!are_same(
        "[n+2]1[n+2][n+2][n+2]1",
        "[N+2]1#[N+2][N+2]#[N+2]1"
    ));
    assert!(are_same(
        "[n+2]1[n+2][n+2][n+2]1",
        "[N+2]1=[N+2][N+2]=[N+2]1"
    ));
}

/// The sums allow it: one matching makes the bond beside the fixed double bond double too.
#[test]
fn a_delocalized_atom_with_a_fixed_double_bond() {
    assert!(are_same("C=cc=C", "C=C=C=C"));
    assert!(are_same("[c]1=[c][c]=[c]1", "[C]1=[C]=[C]=[C]=1"));
    assert!(are_same("[c]1=[c][c]=[c]1", "[c]1[c]=[c][c]=1"));
    assert!(!are_same("C=cc=C", "C=CC=C"));
}

fn lent(text: &str) -> (Vec<i32>, Vec<i32>, Counts) {
    let (mut atoms, mut bonds) = (vec![7; ATOM_TABLE], vec![7; BOND_TABLE]);
    let read = tables::read(text.as_bytes(), &mut atoms, &mut bonds).expect(text);
    (atoms, bonds, read.counts)
}

/// The answer on tables, with what is left in both rows and the renumbering.
fn on_tables(one: &str, other: &str, rooms: [usize; 3]) -> (Result<bool, Code>, Vec<u16>) {
    let ((atoms1, bonds1, counts1), (atoms2, bonds2, counts2)) = (lent(one), lent(other));
    let mut row1 = vec![9; rooms[0]];
    let mut row2 = vec![9; rooms[1]];
    let mut renumbering = vec![9; rooms[2]];
    let first = Tables {
        atoms: &atoms1,
        bonds: &bonds1,
        counts: counts1,
    };
    let second = Tables {
        atoms: &atoms2,
        bonds: &bonds2,
        counts: counts2,
    };
    let answer = tables::same(first, second, &mut row1, &mut row2, &mut renumbering);
    let rows = row1.into_iter().chain(row2).map(u16::from);
    (answer, rows.chain(renumbering).collect())
}

#[test]
fn what_is_left_in_the_buffers() {
    let room = [ROW, ROW, RENUMBERING];
    let (answer, cells) = on_tables("c1ccccc1", "C1=CC=CC=C1", room);
    assert_eq!(answer, Ok(true));
    assert_eq!(cells[..7], [1, 0, 1, 0, 1, 0, 0]);
    assert!(cells[6..2 * ROW].iter().all(|&cell| cell == 0));
    assert_eq!(cells[2 * ROW..2 * ROW + 7], [0, 1, 2, 3, 4, 5, 0]);
    let (answer, cells) = on_tables("CC", "CO", room);
    assert_eq!(
        (answer, cells.iter().all(|&cell| cell == 0)),
        (Ok(false), true)
    );
    let (answer, cells) = on_tables(&"C".repeat(65), "CO", room);
    assert_eq!(answer, Err(Code::TooLarge));
    assert!(cells.iter().all(|&cell| cell == 0));
    for short in 0..3 {
        let mut rooms = room;
        rooms[short] -= 1;
        let (answer, cells) = on_tables(&"C".repeat(65), "CO", rooms);
        assert_eq!(answer, Err(Code::ShortBuffer));
        assert!(cells.iter().all(|&cell| cell == 9));
    }
}
