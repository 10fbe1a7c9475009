//! Up and down bonds: the texts of the readings.

use balsa_reference::{kekulize, read, report_line, sides, write, Kind};

fn refusal(text: &str) -> (u8, usize) {
    let refusal = read(text.as_bytes()).expect_err(text);
    (refusal.code.number(), refusal.place)
}

fn bonds(text: &str) -> Vec<(usize, usize, u8)> {
    let molecule = read(text.as_bytes()).expect(text);
    let rows = molecule.bonds.iter();
    rows.map(|bond| (bond.first, bond.second, bond.kind as u8))
        .collect()
}

fn row(text: &str) -> Vec<u8> {
    sides(&read(text.as_bytes()).expect(text))
}

#[test]
fn sides_of_double_bonds() {
    assert_eq!(row("F/C=C/F"), [0, 2, 0]);
    assert_eq!(row(r"F\C=C\F"), [0, 2, 0]);
    assert_eq!(row(r"F/C=C\F"), [0, 1, 0]);
    assert_eq!(row("F/C=C"), [0, 0]);
    assert_eq!(row(r"F\1.Cl/C1=C/F"), [0, 0, 1, 0]);
    assert_eq!(row(r"Cl/1.F\C1=C/F"), [0, 0, 2, 0]);
    assert_eq!(row(r"C1=C/C\1"), [1, 0, 0]);
    assert_eq!(row(r"C/C=C/C=C\C"), [0, 2, 0, 1, 0]);
    assert_eq!(row("Cc1ccccc1"), [0; 7]);
}

#[test]
fn refusals_of_marks() {
    assert_eq!(refusal("C/C"), (21, 0));
    assert_eq!(refusal("F/c1ccccc1"), (21, 0));
    assert_eq!(refusal("c1cccc1.C/C"), (21, 0));
    assert_eq!(refusal(r"F/C(\F)=C"), (20, 0));
    assert_eq!(refusal(r"F/C(\F)=C1"), (10, 9));
    assert_eq!(refusal("O=C(/C=C/F)/C=C/F"), (20, 0));
    assert_eq!(refusal(r"F/S(=O)(=O)\F"), (20, 0));
    assert_eq!(refusal(r"F/C(/Cl)(\Br)=C"), (20, 0));
    assert_eq!(refusal("F/.C"), (3, 2));
    assert_eq!(refusal("F/"), (3, 2));
    assert_eq!(refusal("F//C=C"), (3, 2));
    assert!(read(b"F/S(=O)(=O)/F").is_ok());
    assert!(read(br"C=C/C(\C=C)F").is_ok());
}

#[test]
fn marks_of_bridges() {
    for text in ["F/C=C", "F/1.C1=C", r"F1.C\1=C", r"F/1.C\1=C"] {
        assert_eq!(bonds(text)[0].2, Kind::Up as u8, "{text}");
    }
    assert_eq!(bonds("C(=CC/1)1").last(), Some(&(0, 2, 5)));
    assert_eq!(bonds("C(=CC1)/1").last(), Some(&(0, 2, 4)));
    assert_eq!(refusal("F/1.C-1=C"), (9, 6));
    assert_eq!(refusal("F/1.C/1=C"), (9, 6));
    assert_eq!(refusal(r"F-1.C\1=C"), (9, 6));
}

#[test]
fn marks_are_written_as_seen_from_the_atom_before() {
    for (text, written) in [
        (r"F\1.Cl/C1=C/F", r"F\C(\Cl)=C/F"),
        (r"C1=C/C\1", "C/1=C/C1"),
        ("C(=CC/1)1", r"C\1=CC1"),
    ] {
        let molecule = read(text.as_bytes()).expect(text);
        let again = write(&molecule).expect(text).text;
        assert_eq!(String::from_utf8_lossy(&again), written);
    }
}

#[test]
fn kekulizing_looks_at_the_new_ends() {
    let text = r"C=C/c(\C=C)cC";
    let mut molecule = read(text.as_bytes()).expect(text);
    let before = molecule.clone();
    let refused = kekulize(&mut molecule, &[0, 0, 0, 0, 1, 0]).expect_err(text);
    assert_eq!((refused.number(), molecule), (20, before));
    let reported = report_line(text.as_bytes()).expect_err(text);
    assert_eq!((reported.code.number(), reported.place), (20, 0));
}
