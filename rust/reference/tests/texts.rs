//! The texts of the paper, read, matched and refused.

use balsa_reference::{
    first, next, reached, read, reading, Atom, Bond, Code, Kind, Mark, Molecule, Reached, Refusal,
};

fn molecule(text: &str) -> Molecule {
    read(text.as_bytes()).unwrap_or_else(|refusal| panic!("{text}: {refusal:?}"))
}

fn hydrogens(text: &str) -> Vec<u8> {
    let atoms = molecule(text).atoms;
    atoms.iter().map(|atom| atom.hydrogens).collect()
}

fn digits(row: &[u8]) -> String {
    row.iter().map(|cell| char::from(b'0' + cell)).collect()
}

/// All matchings of a text, by asking for the first and then for the next ones.
fn matchings(text: &str) -> Vec<String> {
    let molecule = molecule(text);
    let mut rows = Vec::new();
    let mut row = first(&molecule);
    while let Some(found) = row {
        row = next(&molecule, &found).expect("a matching was handed in");
        rows.push(digits(&found));
    }
    rows
}

fn refused(text: impl AsRef<[u8]>, code: Code, place: usize) {
    let text = text.as_ref();
    let shown = String::from_utf8_lossy(text);
    assert_eq!(read(text), Err(Refusal { code, place }), "{shown}");
}

fn accepted(text: impl AsRef<[u8]>) {
    let text = text.as_ref();
    let shown = String::from_utf8_lossy(text);
    assert!(read(text).is_ok(), "{shown}: {:?}", read(text));
}

#[test]
fn the_empty_text_has_one_matching() {
    assert_eq!(molecule(""), Molecule::default());
    assert_eq!(matchings(""), [""]);
}

#[test]
fn hydrogens_are_counted() {
    assert_eq!(hydrogens("C"), [4]);
    assert_eq!(hydrogens("CN(C)(C)C"), [3, 1, 3, 3, 3]);
    assert_eq!(hydrogens("[C]"), [0]);
    assert_eq!(hydrogens("FC(F)(F)(F)F"), [0; 6]);
    assert_eq!(hydrogens("*"), [0]);
    assert_eq!(hydrogens("[*H3]"), [3]);
    assert_eq!(
        hydrogens("B.N.O.F.P.S.Cl.Br.I.At.Ts"),
        [3, 3, 2, 1, 3, 2, 1, 1, 1, 1, 1]
    );
    assert_eq!(hydrogens("CS(C)C"), [3, 1, 3, 3]);
    assert_eq!(hydrogens("CS(=C)(=C)C"), [3, 0, 2, 2, 3]);
    assert_eq!(hydrogens("c1ccccc1"), [1; 6]);
    assert_eq!(hydrogens("n1ccccc1-n2cccc2")[6], 0);
    assert_eq!(hydrogens("Cn1cccc1")[1], 0);
    assert_eq!(hydrogens("[nH]1cccc1")[0], 1);
    assert_eq!(hydrogens("C=s(=C)(C)C")[1], 0);
}

/// Request P10.
#[test]
fn over_full_atoms_are_counted() {
    let overfull = |text: &str| reading(text.as_bytes()).unwrap().overfull;
    assert_eq!(overfull(""), 0);
    assert_eq!(overfull("CN(C)(C)C"), 0);
    assert_eq!(overfull("FC(F)(F)(F)F"), 1);
    assert_eq!(overfull("F[C](F)(F)(F)F"), 0);
    assert_eq!(overfull("*(C)(C)(C)C"), 0);
    assert_eq!(overfull("c1(C)(C)(C)cccc1"), 1);
    assert_eq!(overfull("c1(C)(C)cccc1"), 0);
    assert_eq!(overfull("F(F)F.O(C)(C)C.N(C)(C)(C)(C)(C)C"), 3);
    assert_eq!(overfull("CS(C)(C)(C)(C)C"), 0);
    assert_eq!(overfull("C=C=C.C#C=C"), 1);
}

#[test]
fn targets_are_reached() {
    assert_eq!(reached(6, false, 4), Reached::Target(4));
    assert_eq!(reached(7, false, 4), Reached::Target(5));
    assert_eq!(reached(16, false, 0), Reached::Target(2));
    assert_eq!(reached(16, false, 7), Reached::AboveAll);
    assert_eq!(reached(6, true, 4), Reached::Target(4));
    assert_eq!(reached(7, true, 4), Reached::AboveAll);
    assert_eq!(reached(0, false, 9), Reached::NoTarget);
}

#[test]
fn matchings_are_listed_in_order() {
    assert_eq!(matchings("c1ccccc1"), ["101010", "010101"]);
    assert_eq!(matchings("o1cccc1"), ["01010"]);
    assert_eq!(matchings("c1cc[nH]c1"), ["01001"]);
    let naphthalene = ["10101010010", "01010101001", "01001010101"];
    assert_eq!(matchings("c1ccc2ccccc2c1"), naphthalene);
    assert_eq!(matchings("CccC"), ["010"]);
    assert_eq!(matchings("O=c1cc[nH]cc1"), ["0010010"]);
    assert_eq!(matchings("CC"), ["0"]);
    assert_eq!(matchings("C"), [""]);
}

#[test]
fn texts_without_a_matching_are_refused() {
    for text in ["c1ccnc1", "c1cc1-c1cc1", "CcC", "c1cccc1", "[s+]1cccc1"] {
        refused(text, Code::Unmatchable, 0);
    }
}

/// Request P6: told after an open bridge and before the matching, hydrogens being no bonds.
#[test]
fn loose_selected_atoms_are_refused() {
    for text in ["cc", "c-c", "c", "c(c)(c)c", "[cH4]", "CCc", "c1cccc1.c"] {
        refused(text, Code::LooseSelected, 0);
    }
    refused("cC1", Code::OpenBridge, 2);
}

/// Request P1.
#[test]
fn charges_shift_the_first_target() {
    assert_eq!(matchings("c1cc[n+]([O-])cc1"), ["1010010", "0100101"]);
    assert_eq!(matchings("[cH-]1cccc1"), ["01010"]);
    assert_eq!(matchings("[cH+]1cccccc1"), ["0101010"]);
    assert_eq!(matchings("[c-5]1cccc1"), ["01010"]);
    assert_eq!(matchings("[o+]1ccccc1"), ["101010", "010101"]);
    assert_eq!(matchings("[n-]1cccc1"), ["01010"]);
    assert_eq!(matchings("[n-9]1cccc1"), ["01010"]);
    assert_eq!(hydrogens("[cH-]1cccc1"), [1; 5]);
}

#[test]
fn a_row_that_is_no_matching_has_no_next() {
    let benzene = molecule("c1ccccc1");
    assert_eq!(
        next(&benzene, &[1, 0, 1, 0, 1, 0]),
        Some(Some(vec![0, 1, 0, 1, 0, 1]))
    );
    assert_eq!(next(&benzene, &[0, 1, 0, 1, 0, 1]), Some(None));
    assert_eq!(next(&benzene, &[0, 0, 0, 0, 0, 0]), None);
    assert_eq!(next(&benzene, &[1, 1, 1, 0, 0, 0]), None);
    assert_eq!(next(&benzene, &[2, 0, 1, 0, 1, 0]), None);
    assert_eq!(next(&molecule("CC"), &[1]), None);
    assert_eq!(next(&molecule("CC"), &[0]), Some(None));
}

#[test]
fn bridges_are_refused() {
    refused("C11", Code::SelfBridge, 2);
    refused("C1C1", Code::RepeatedBond, 3);
    refused("C=1CC#1", Code::UnequalSymbols, 6);
    refused("C=1CC-1", Code::UnequalSymbols, 6);
    refused("C1CC", Code::OpenBridge, 1);
    refused("C=1CC", Code::OpenBridge, 2);
    refused("C12CC2C%98", Code::OpenBridge, 1);
    refused("C%98C1C%98", Code::OpenBridge, 5);
    refused("C-1=1", Code::SelfBridge, 4);
    refused("C-1C=1", Code::RepeatedBond, 5);
    refused("C%12CC=%12%12%12", Code::SelfBridge, 13);
    refused("C1C1C", Code::RepeatedBond, 3);
    refused("C12.C12", Code::RepeatedBond, 6);
    refused("C1C1x", Code::RepeatedBond, 3);
    refused("C1Cx", Code::Grammar, 3);
    accepted("C-1CC1");
    accepted("C1CC-1");
    accepted("C-1CC-1");
    accepted("C1CCC1CC1CC1");
}

#[test]
fn a_bridge_joins_its_ends_in_order() {
    let bonds = molecule("C(CC=1)1").bonds;
    let expected = [
        (0, 1, Kind::Elided),
        (1, 2, Kind::Elided),
        (0, 2, Kind::Double),
    ];
    assert_eq!(
        bonds,
        expected.map(|(one, other, kind)| Bond::between(one, other, kind))
    );
    let bonds = molecule("C%10.C=1.C1#%10").bonds;
    let expected = [(1, 2, Kind::Double), (0, 2, Kind::Triple)];
    assert_eq!(
        bonds,
        expected.map(|(one, other, kind)| Bond::between(one, other, kind))
    );
}

#[test]
fn the_hub_returns_after_a_branch() {
    let ends = |text| -> Vec<_> { molecule(text).bonds.iter().map(Bond::ends).collect() };
    assert_eq!(ends("C(C)C"), [(0, 1), (0, 2)]);
    assert_eq!(ends("C(C(C)C)C"), [(0, 1), (1, 2), (1, 3), (0, 4)]);
    assert_eq!(ends("C(.C)C"), [(0, 2)]);
    assert_eq!(ends("C(.CC)(C.C)C"), [(1, 2), (0, 3), (0, 5)]);
    assert_eq!(ends("C.CC"), [(1, 2)]);
    assert_eq!(ends("C(C)1CC1"), [(0, 1), (0, 2), (2, 3), (0, 3)]);
    assert_eq!(ends("C1.C1"), [(0, 1)]);
}

#[test]
fn the_grammar_is_kept() {
    let wrong = [
        ("C()", 2),
        ("C(C", 3),
        ("C%01", 2),
        ("C.1", 2),
        ("[1000C]", 4),
        ("[CH1]", 3),
        ("Cu", 1),
        ("(C)", 0),
        ("C)", 1),
        ("C(C))", 4),
        ("C((C))", 2),
        ("C(1)", 2),
        ("C(=1)", 3),
        ("C(.1)", 3),
        ("C(-.C)", 3),
        ("C(", 2),
        ("C(.", 3),
        ("C(-", 3),
        ("-C", 0),
        ("1", 0),
        (".", 0),
        (")", 0),
        ("C-", 2),
        ("C.", 2),
        ("C--C", 2),
        ("C-(C)", 2),
        ("C.(C)", 2),
        ("C..C", 2),
        ("C-.C", 2),
        ("C%", 2),
        ("C%1", 3),
        ("C%1x", 3),
        ("C%1-", 3),
        ("C0", 1),
        ("C%%", 2),
        ("A", 1),
        ("Ac", 1),
        ("T", 1),
        ("Te", 1),
        ("At1AtAt1T", 9),
        ("b", 0),
        ("H", 0),
        ("Si", 1),
        ("C c", 1),
        ("C\r", 1),
        ("C$C", 1),
        ("C:C", 1),
        ("C@", 1),
        ("[@C]", 1),
        ("[C@", 3),
        ("[C@@", 4),
        ("[C@@@]", 4),
        ("[C@1]", 3),
        ("[C@TH1]", 3),
        ("[C@+@]", 4),
        ("[CH@]", 3),
        ("[C:1@]", 4),
        ("[Cl@l]", 4),
        ("C~", 1),
        ("l", 0),
        ("C-)", 2),
        ("[", 1),
        ("[]", 1),
        ("[1", 2),
        ("[1]", 2),
        ("[0C]", 1),
        ("[01C]", 1),
        ("[10]", 3),
        ("[C", 2),
        ("[CH", 3),
        ("[CH0]", 3),
        ("[CHH]", 3),
        ("[CH10]", 3),
        ("[CH22]", 4),
        ("[C+1]", 3),
        ("[C+0]", 3),
        ("[C++]", 3),
        ("[C+-]", 3),
        ("[C+22]", 4),
        ("[C+H]", 3),
        ("[C:]", 3),
        ("[C:0]", 3),
        ("[C:01]", 3),
        ("[C:12345]", 7),
        ("[C:1+]", 4),
        ("[c", 2),
        ("[cl]", 2),
        ("[se]", 2),
        ("[b]", 1),
        ("[J]", 1),
        ("[Q]", 1),
        ("[A]", 2),
        ("[A", 2),
        ("[Xx]", 2),
        ("[Cx]", 2),
        ("[Uu]", 2),
        ("[CC]", 2),
        ("[H2]", 2),
        ("[HHH]", 3),
        ("[[C]]", 1),
        ("[C)", 2),
        ("[C]]", 3),
        ("[*", 2),
        ("[**]", 2),
        ("[Cl", 3),
        ("[CL]", 2),
        ("[c]x", 3),
        ("C]", 1),
        ("[-C]", 1),
        ("[C-H]", 3),
        ("[1:C]", 2),
        ("[C:1", 4),
        ("[Co]C(o)(", 9),
    ];
    for (text, place) in wrong {
        refused(text, Code::Grammar, place);
    }
    refused([b'C', 0], Code::Grammar, 1);
    refused([b'C', 255], Code::Grammar, 1);
    refused([200], Code::Grammar, 0);
    for text in [
        "[Cu]",
        "[Sc]",
        "C(.C)",
        "C(-C)",
        "[HH]",
        "[2HH9+9:9999]",
        "C=%99CC%99",
        "*1**-1",
    ] {
        accepted(text);
    }
}

#[test]
fn sc_outside_brackets_is_two_atoms() {
    let atoms = molecule("SccC").atoms;
    let seen: Vec<_> = atoms
        .iter()
        .map(|atom| (atom.element, atom.selected))
        .collect();
    assert_eq!(seen, [(16, false), (6, true), (6, true), (6, false)]);
    assert_eq!(molecule("[Sc]").atoms[0].element, 21);
}

#[test]
fn the_fields_of_a_bracket_are_read() {
    let atom = Atom {
        element: 26,
        selected: false,
        isotope: 999,
        hydrogens: 9,
        charge: -9,
        extension: 9999,
        mark: Mark::None,
    };
    assert_eq!(molecule("[999FeH9-9:9999]").atoms, [atom]);
    let atom = Atom {
        element: 7,
        selected: true,
        isotope: 10,
        hydrogens: 1,
        charge: 1,
        extension: 10,
        mark: Mark::None,
    };
    assert_eq!(molecule("[10nH+:10]1nC1").atoms[0], atom);
    assert_eq!(molecule("[*-2]").atoms[0].charge, -2);
    assert_eq!(molecule("[H]").atoms[0].hydrogens, 0);
    assert_eq!(molecule("[HH]").atoms[0].hydrogens, 1);
}

#[test]
fn atoms_are_limited() {
    accepted("C".repeat(1000));
    accepted("C.".repeat(999) + "C");
    refused("C".repeat(1001), Code::TooManyAtoms, 1000);
    refused("C".repeat(1000) + ".C", Code::TooManyAtoms, 1001);
    refused("C".repeat(1000) + "=[", Code::TooManyAtoms, 1001);
    refused("C".repeat(1000) + "T", Code::TooManyAtoms, 1000);
    refused("C".repeat(1000) + "x", Code::Grammar, 1000);
    refused("[CH4]".repeat(1000) + "[x", Code::TooManyAtoms, 5000);
    accepted("C".repeat(999) + "[CH4]");
    refused("C".repeat(999) + "[x", Code::Grammar, 1000);
}

/// A text of 992 atoms in a chain and `extra` bridges: 991 + `extra` bonds.
fn bridged(extra: usize) -> String {
    let mut text = String::new();
    for atom in 0..992 {
        text += "C";
        if atom >= 2 && atom - 2 < extra {
            text += ["1", "2", "3"][(atom - 2) % 3];
        }
        if atom < extra {
            text += ["1", "2", "3"][atom % 3];
        }
    }
    text
}

#[test]
fn bonds_are_limited() {
    let full = bridged(109);
    assert_eq!(molecule(&full).bonds.len(), 1100);
    let place = full.len();
    refused(full.clone() + "C", Code::TooManyBonds, place);
    refused(full.clone() + "=[x", Code::TooManyBonds, place + 1);
    refused(full.clone() + "(-C)", Code::TooManyBonds, place + 2);
    refused(full.clone() + "=(", Code::Grammar, place + 1);
    accepted(full.clone() + ".C");
    accepted(full.clone() + "(.C).C");
    refused(full.clone() + ".C1.C1", Code::TooManyBonds, place + 5);
    refused(full.clone() + ".C%10.C=%10", Code::TooManyBonds, place + 8);
    refused(full.clone() + ".C%10.C=%1", Code::Grammar, place + 10);
    refused(full.clone() + "11", Code::TooManyBonds, place + 1);
    refused(full.clone() + "1", Code::OpenBridge, place);
    refused(
        full.clone() + &".C".repeat(8) + "C",
        Code::TooManyAtoms,
        place + 16,
    );
    let one_less = bridged(108);
    assert_eq!(molecule(&one_less).bonds.len(), 1099);
    accepted(one_less.clone() + "C");
    refused(
        one_less.clone() + "CC",
        Code::TooManyBonds,
        one_less.len() + 1,
    );
    refused(
        one_less.clone() + "11",
        Code::SelfBridge,
        one_less.len() + 1,
    );
}

#[test]
fn branches_are_limited() {
    let nested = |depth| "C(".repeat(depth) + "C" + &")".repeat(depth);
    accepted(nested(64));
    refused(nested(65), Code::BranchesTooDeep, 129);
    refused("C(".repeat(64) + "C(", Code::BranchesTooDeep, 129);
    refused("C(".repeat(64) + "C", Code::Grammar, 129);
    accepted("C(C)".repeat(99) + "C");
}

#[test]
fn the_length_is_limited() {
    refused("x".repeat(16_385), Code::TextTooLong, 16_384);
    refused("x".repeat(100_000), Code::TextTooLong, 16_384);
    refused("x".repeat(16_384), Code::Grammar, 0);
    assert_eq!(longest().len(), 16_384);
    accepted(longest());
    refused(longest() + "C", Code::TextTooLong, 16_384);
}

/// An accepted text of 16,384 bytes: a chain of 13 short atoms and 963 long ones.
fn longest() -> String {
    "C".repeat(13) + &"-[999CoH9-9:9999]".repeat(963)
}

#[test]
fn refusals_come_by_place_and_then_by_number() {
    refused("C1CC=1CC#1(", Code::Grammar, 11);
    refused("C=1CC#1)", Code::UnequalSymbols, 6);
    refused("C11)", Code::SelfBridge, 2);
    refused("C1(", Code::Grammar, 3);
    refused("c1", Code::OpenBridge, 1);
    refused("c", Code::LooseSelected, 0);
}
