//! Writing: the rules of the paper one by one, the limits, and reading back.

use balsa_reference::{
    first, kekulize, read, report_line, write, Atom, Bond, Code, Kind, Mark, Molecule, Refusal,
    MAX_TEXT,
};

const CARBON: Atom = Atom {
    element: 6,
    selected: false,
    isotope: 0,
    hydrogens: 0,
    charge: 0,
    extension: 0,
    mark: Mark::None,
};

/// The longest spelling of an atom.
const LONG: Atom = Atom {
    element: 27,
    selected: false,
    isotope: 999,
    hydrogens: 9,
    charge: -9,
    extension: 9999,
    mark: Mark::None,
};

fn rewritten(text: &str) -> String {
    let molecule = read(text.as_bytes()).unwrap_or_else(|refusal| panic!("{text}: {refusal:?}"));
    String::from_utf8(write(&molecule).unwrap().text).unwrap()
}

fn molecule(atoms: usize, ends: &[(usize, usize)]) -> Molecule {
    let bond = |&(one, other): &(usize, usize)| Bond::between(one, other, Kind::Single);
    Molecule {
        atoms: vec![CARBON; atoms],
        bonds: ends.iter().map(bond).collect(),
    }
}

/// Reading back keeps every atom and every bond with its kind under the renumbering.
fn assert_read_back(molecule: &Molecule) {
    let written = write(molecule).unwrap();
    let shown = String::from_utf8_lossy(&written.text);
    let renumber = |atom: usize| usize::from(written.renumbering[atom]);
    let back = match read(&written.text) {
        Err(Refusal {
            code: Code::Unmatchable,
            ..
        }) => return assert_eq!(first(molecule), None, "{shown}"),
        back => back.unwrap(),
    };
    assert_eq!(back.atoms.len(), molecule.atoms.len(), "{shown}");
    assert_eq!(back.bonds.len(), molecule.bonds.len(), "{shown}");
    for (number, atom) in molecule.atoms.iter().enumerate() {
        assert_eq!(back.atoms[renumber(number)], *atom, "{shown}");
    }
    for bond in &molecule.bonds {
        let (one, other) = (renumber(bond.first), renumber(bond.second));
        let moved = Bond::between(one, other, bond.kind);
        assert!(back.bonds.contains(&moved), "{shown}");
    }
}

#[test]
fn simple_texts_stay() {
    let texts = [
        "",
        "C",
        "CC",
        "C.C",
        "C=C",
        "C#C",
        "C-C",
        "c1ccccc1",
        "C(C)(C)C",
        "C(=O)O",
        "[CH3]",
        "*",
        "[*H]",
        "[13CH4]",
        "[nH]1cccc1",
        "[Cu+2]",
        "[O-]",
        "[CH2:7]",
        "[999Og]",
        "Cl",
        "Br",
        "At",
        "Ts",
        "C1CC1C1CC1",
        "C12CC1C2",
        "C=1CC1",
        "[H]",
        "[HH]",
        "[Cl]",
        "[BrH2-]",
        "C[c-]cC",
        "C1C2CC12",
        "C1CCC1.C1CC1",
        "[SH4]",
        "C(C(C)C)C",
        "[C-4]",
    ];
    for text in texts {
        assert_eq!(rewritten(text), text);
    }
}

#[test]
fn other_spellings_change() {
    let texts = [
        ("C1.C1", "CC"),
        ("[CH4]", "C"),
        ("[cH]1[cH][cH][cH][cH][cH]1", "c1ccccc1"),
        ("C(C)", "CC"),
        ("C(.C)C", "CC.C"),
        ("C%55CC%55", "C1CC1"),
        ("C1CC=1", "C=1CC1"),
        ("C=1CC=1", "C=1CC1"),
        ("C(C)1CC1", "C1(C)CC1"),
        ("CC(C)(CC)C", "CC(C)(CC)C"),
        ("C12CC1.C2", "C1(CC1)C"),
        ("C(CC1)1", "C1CC1"),
        ("CC1.C1(C)C", "CCC(C)C"),
        ("[C]1=[C][C]=[C][C]=[C]1", "[C]1=[C][C]=[C][C]=[C]1"),
    ];
    for (text, expected) in texts {
        assert_eq!(rewritten(text), expected, "{text}");
    }
}

#[test]
fn the_walk_goes_by_bond_number() {
    let text = |molecule: &Molecule| String::from_utf8(write(molecule).unwrap().text).unwrap();
    let mut star = molecule(4, &[(0, 3), (0, 1), (0, 2)]);
    star.atoms[1].element = 7;
    star.atoms[2].element = 8;
    star.atoms[3].element = 9;
    assert_eq!(text(&star), "[C](-F)(-[N])-[O]");
    assert_eq!(write(&star).unwrap().renumbering, [0, 2, 3, 1]);
    let ring = molecule(3, &[(1, 2), (0, 2), (0, 1)]);
    assert_eq!(text(&ring), "[C]-1-[C]-[C]1");
    assert_eq!(write(&ring).unwrap().renumbering, [0, 2, 1]);
    let pieces = molecule(4, &[(1, 3)]);
    assert_eq!(text(&pieces), "[C].[C]-[C].[C]");
    assert_eq!(write(&pieces).unwrap().renumbering, [0, 1, 3, 2]);
}

#[test]
fn closings_come_before_openings_and_free_their_numbers() {
    let text = |molecule: &Molecule| String::from_utf8(write(molecule).unwrap().text).unwrap();
    let ladder = molecule(
        5,
        &[
            (0, 1),
            (1, 2),
            (2, 3),
            (3, 4),
            (0, 2),
            (2, 4),
            (0, 4),
            (1, 4),
        ],
    );
    assert_eq!(text(&ladder), "[C]-1-2-[C]-3-C1-1-[C]-C231");
}

#[test]
fn kekulized_texts_are_written() {
    let kekulized = |text: &str| {
        let mut molecule = read(text.as_bytes()).unwrap();
        let row = first(&molecule).unwrap();
        kekulize(&mut molecule, &row).unwrap();
        assert_read_back(&molecule);
        String::from_utf8(write(&molecule).unwrap().text).unwrap()
    };
    assert_eq!(kekulized("c1ccccc1"), "C1=CC=CC=C1");
    assert_eq!(kekulized("o1cccc1"), "O1C=CC=C1");
    assert_eq!(kekulized("c1cc[nH]c1"), "C=1C=CNC1");
    assert_eq!(kekulized("O=c1cc[nH]cc1"), "O=C1C=CNC=C1");
    assert_eq!(kekulized("CccC"), "CC=CC");
    assert_eq!(kekulized("C[c][c]C"), "C[C]=[C]C");
}

#[test]
fn a_molecule_without_a_matching_is_written() {
    let mut lone = molecule(3, &[(0, 1), (1, 2)]);
    lone.atoms[1].selected = true;
    let text = write(&lone).unwrap().text;
    assert_eq!(read(&text), Err(Code::Unmatchable.into()));
}

/// All bonds between `atoms` atoms.
fn complete(atoms: usize) -> Molecule {
    let pairs = (0..atoms).flat_map(|one| (one + 1..atoms).map(move |other| (one, other)));
    molecule(atoms, &pairs.collect::<Vec<_>>())
}

#[test]
fn bridges_are_limited() {
    assert_read_back(&complete(20));
    assert!(write(&complete(20))
        .unwrap()
        .text
        .windows(3)
        .any(|bytes| bytes == b"%99"));
    assert_eq!(write(&complete(21)), Err(Code::TooManyBridges));
    assert_eq!(write(&complete(22)), Err(Code::TooManyBridges));
}

/// A spine of `depth` + 1 atoms whose every atom but the last has a leaf after it.
fn nested(depth: usize) -> Molecule {
    let spine = (0..depth).map(|atom| (atom, atom + 1));
    let leaves = (0..depth).map(|atom| (atom, depth + 1 + atom));
    molecule(2 * depth + 1, &spine.chain(leaves).collect::<Vec<_>>())
}

#[test]
fn written_branches_are_limited() {
    assert_read_back(&nested(64));
    assert_eq!(write(&nested(65)), Err(Code::WrittenTooDeep));
}

/// A nested molecule with more bonds from its first atom, and perhaps with long spellings.
fn nested_and_bridged(depth: usize, bridges: usize, is_long: bool) -> Molecule {
    let mut molecule = nested(depth);
    let leaf = depth + 1;
    let ends = (2..molecule.atoms.len()).filter(|&end| end != leaf);
    let bonds = ends.map(|end| Bond::between(0, end, Kind::Triple));
    molecule.bonds.extend(bonds.take(bridges));
    if is_long {
        molecule.atoms = vec![LONG; 1000];
    }
    molecule
}

#[test]
fn refusals_come_by_number_over_the_whole_walk() {
    let answer = |depth, bridges, is_long| {
        let written = write(&nested_and_bridged(depth, bridges, is_long));
        written.map(|_| ())
    };
    assert_eq!(answer(65, 100, true), Err(Code::TooManyBridges));
    assert_eq!(answer(64, 100, true), Err(Code::TooManyBridges));
    assert_eq!(answer(65, 100, false), Err(Code::TooManyBridges));
    assert_eq!(answer(65, 99, true), Err(Code::WrittenTooDeep));
    assert_eq!(answer(65, 99, false), Err(Code::WrittenTooDeep));
    assert_eq!(answer(64, 99, true), Err(Code::WrittenTooLong));
    assert_eq!(answer(64, 99, false), Ok(()));
}

/// A chain of 964 atoms with the longest spellings, but with `less` bytes less.
fn longest(less: usize) -> Molecule {
    let ends: Vec<_> = (1..964).map(|atom| (atom - 1, atom)).collect();
    let mut molecule = molecule(964, &ends);
    for (number, atom) in molecule.atoms.iter_mut().enumerate() {
        *atom = LONG;
        atom.isotope = if number < less { 99 } else { 999 };
    }
    molecule
}

#[test]
fn the_written_length_is_limited() {
    assert_eq!(write(&longest(0)), Err(Code::WrittenTooLong));
    assert_eq!(write(&longest(2)), Err(Code::WrittenTooLong));
    assert_eq!(write(&longest(3)).unwrap().text.len(), MAX_TEXT);
    assert_read_back(&longest(3));
}

/// The kekulized text has three symbols more: 16,384 bytes, and one too many.
#[test]
fn a_kekulized_text_can_be_too_long() {
    let text = |tail| "c1ccccc1".to_string() + &"-[999CoH9-9:9999]".repeat(963) + tail;
    for tail in ["CC", "CCC"] {
        let molecule = read(text(tail).as_bytes()).unwrap();
        assert_read_back(&molecule);
        assert_eq!(rewritten(&text(tail)), text(tail));
    }
    let written = report_line(text("CC").as_bytes()).unwrap();
    assert_eq!(written.text.len(), MAX_TEXT);
    assert_eq!(
        report_line(text("CCC").as_bytes()),
        Err(Code::WrittenTooLong.into())
    );
}

#[test]
fn real_texts_are_read_back() {
    let corpus = include_str!("../../../corpus/real.smi");
    for line in corpus.lines() {
        let mut molecule = read(line.as_bytes()).unwrap_or_else(|no| panic!("{line}: {no:?}"));
        assert_read_back(&molecule);
        let row = first(&molecule).unwrap();
        assert_eq!(kekulize(&mut molecule, &row), Ok(()), "{line}");
        assert_read_back(&molecule);
        assert!(molecule.atoms.iter().all(|atom| !atom.selected), "{line}");
    }
}
