//! The calls on tables: short buffers, what refusals leave behind, and validity.

use balsa_reference::tables::{
    self, Counts, Step, Tables, ATOM_TABLE, BOND_TABLE, RENUMBERING, ROW, TEXT,
};
use balsa_reference::{read, Code, Refusal, ATOM_CELLS, BOND_CELLS};

/// What buffers hold before a call.
const DIRT: u8 = 77;

/// Tables of a text, with dirt after the used rows.
struct Lent {
    atoms: Vec<i32>,
    bonds: Vec<i32>,
    counts: Counts,
}

impl Lent {
    fn of(text: &str) -> Self {
        let molecule = read(text.as_bytes()).unwrap();
        let counts = tables::counts(&molecule);
        let mut atoms = vec![0; ATOM_TABLE + 5];
        let mut bonds = vec![0; BOND_TABLE + 4];
        tables::fill(&molecule, &mut atoms, &mut bonds);
        atoms[ATOM_CELLS * counts.atoms..].fill(-3);
        bonds[BOND_CELLS * counts.bonds..].fill(-3);
        Lent {
            atoms,
            bonds,
            counts,
        }
    }

    fn tables(&self) -> Tables<'_> {
        Tables {
            atoms: &self.atoms,
            bonds: &self.bonds,
            counts: self.counts,
        }
    }

    /// The tables with this many cells only.
    fn cut(&self, atoms: usize, bonds: usize) -> Tables<'_> {
        Tables {
            atoms: &self.atoms[..atoms],
            bonds: &self.bonds[..bonds],
            counts: self.counts,
        }
    }
}

fn row(digits: &str) -> Vec<u8> {
    let mut row = vec![DIRT; ROW + 3];
    for (cell, digit) in row.iter_mut().zip(digits.bytes()) {
        *cell = digit - b'0';
    }
    row
}

fn padded(digits: &str) -> Vec<u8> {
    let mut row = row(digits);
    row[digits.len()..].fill(0);
    row
}

#[test]
fn reading_fills_the_tables() {
    let (mut atoms, mut bonds) = ([7; ATOM_TABLE + 1], [7; BOND_TABLE + 1]);
    let read = tables::read(b"[13nH-:5]1=CC1", &mut atoms, &mut bonds).unwrap();
    assert_eq!(read.counts, Counts { atoms: 3, bonds: 3 });
    assert_eq!(read.overfull, 0);
    assert_eq!(atoms[..7], [7, 1, 13, 1, -1, 5, 0]);
    assert_eq!(atoms[7..21], [6, 0, 0, 1, 0, 0, 0, 6, 0, 0, 2, 0, 0, 0]);
    assert_eq!(bonds[..9], [0, 1, 2, 1, 2, 0, 0, 2, 0]);
    let unused = atoms[21..].iter().chain(&bonds[9..]);
    assert!(unused.copied().all(|cell| cell == 0));
}

#[test]
fn a_refused_reading_zeroes_the_tables() {
    let (mut atoms, mut bonds) = ([7; ATOM_TABLE + 1], [7; BOND_TABLE + 1]);
    let answer = tables::read(b"CC11", &mut atoms, &mut bonds);
    let refusal = Refusal {
        code: Code::SelfBridge,
        place: 3,
    };
    assert_eq!(answer, Err(refusal));
    assert!(atoms.iter().chain(&bonds).all(|&cell| cell == 0));
}

#[test]
fn short_tables_stop_a_reading_before_anything_else() {
    let too_long = [b'C'; 5000];
    for (atom_cells, bond_cells) in [(ATOM_TABLE - 1, BOND_TABLE), (ATOM_TABLE, BOND_TABLE - 1)] {
        for text in [&b"C"[..], b"x", &too_long] {
            let (mut atoms, mut bonds) = (vec![7; atom_cells], vec![7; bond_cells]);
            let answer = tables::read(text, &mut atoms, &mut bonds);
            assert_eq!(answer, Err(Code::ShortBuffer.into()));
            assert!(atoms.iter().chain(&bonds).all(|&cell| cell == 7));
        }
    }
}

#[test]
fn the_row_is_filled_and_its_rest_zeroed() {
    let lent = Lent::of("c1ccccc1");
    let mut cells = row("");
    assert_eq!(tables::first(lent.tables(), &mut cells), Ok(()));
    assert_eq!(cells, padded("101010"));
    cells[6..].fill(DIRT);
    assert_eq!(tables::next(lent.tables(), &mut cells), Ok(Step::Matching));
    assert_eq!(cells, padded("010101"));
    cells[6..].fill(DIRT);
    assert_eq!(tables::next(lent.tables(), &mut cells), Ok(Step::End));
    assert_eq!(cells, padded(""));
    assert_eq!(
        tables::next(lent.tables(), &mut cells),
        Err(Code::NotAMatching)
    );
    assert_eq!(cells, padded(""));
}

#[test]
fn a_molecule_without_delocalized_atoms_ends_again_and_again() {
    let lent = Lent::of("CCO");
    let mut cells = row("00");
    for _ in 0..3 {
        assert_eq!(tables::next(lent.tables(), &mut cells), Ok(Step::End));
        assert_eq!(cells, padded(""));
    }
    assert_eq!(tables::first(lent.tables(), &mut cells), Ok(()));
    assert_eq!(cells, padded(""));
}

#[test]
fn a_missing_matching_zeroes_the_row() {
    let mut lent = Lent::of("C1CC1");
    lent.atoms[1] = 1;
    lent.atoms[3] = 0;
    let mut cells = row("100");
    assert_eq!(
        tables::first(lent.tables(), &mut cells),
        Err(Code::Unmatchable)
    );
    assert_eq!(cells, padded(""));
    for digits in ["0", "1"] {
        let mut cells = row(digits);
        let answer = tables::next(lent.tables(), &mut cells);
        assert_eq!(answer, Err(Code::NotAMatching));
        assert_eq!(cells, padded(""));
        assert_eq!(tables::is_matching(lent.tables(), &row(digits)), Ok(false));
    }
}

#[test]
fn only_exact_rows_are_matchings() {
    let lent = Lent::of("c1ccccc1");
    for number in 0..64 {
        let digits = format!("{number:06b}");
        let expected = digits == "101010" || digits == "010101";
        let answer = tables::is_matching(lent.tables(), &row(&digits));
        assert_eq!(answer, Ok(expected), "{digits}");
    }
    assert_eq!(
        tables::is_matching(lent.tables(), &row("101012")),
        Ok(false)
    );
    assert_eq!(
        tables::is_matching(lent.tables(), &row("301010")),
        Ok(false)
    );
}

#[test]
fn kekulizing_changes_kinds_and_selected_cells_only() {
    let mut lent = Lent::of("c1cc[nH]c1");
    let (mut atoms, mut bonds) = (lent.atoms.clone(), lent.bonds.clone());
    let cells = row("01001");
    let answer = tables::kekulize(&mut atoms, &mut bonds, lent.counts, &cells);
    assert_eq!(answer, Ok(()));
    for atom in 0..5 {
        lent.atoms[ATOM_CELLS * atom + 1] = 0;
    }
    lent.bonds[3 + 2] = 2;
    lent.bonds[3 * 4 + 2] = 2;
    assert_eq!((atoms, bonds), (lent.atoms, lent.bonds));
}

#[test]
fn a_refused_kekulization_changes_nothing() {
    let lent = Lent::of("c1cc[nH]c1");
    let mut unequal = lent.counts;
    unequal.bonds += 1;
    let answers = [
        ("01010", lent.counts, Code::NotAMatching),
        ("00000", lent.counts, Code::NotAMatching),
        ("01001", unequal, Code::InvalidTables),
    ];
    for (digits, counts, code) in answers {
        let (mut atoms, mut bonds) = (lent.atoms.clone(), lent.bonds.clone());
        let answer = tables::kekulize(&mut atoms, &mut bonds, counts, &row(digits));
        assert_eq!(answer, Err(code));
        assert_eq!((&atoms, &bonds), (&lent.atoms, &lent.bonds));
    }
}

#[test]
fn writing_fills_text_and_renumbering() {
    let lent = Lent::of("C(.C)C");
    let (mut text, mut renumbering) = ([DIRT; TEXT + 2], [7; RENUMBERING + 2]);
    assert_eq!(
        tables::write(lent.tables(), &mut text, &mut renumbering),
        Ok(4)
    );
    assert_eq!(&text[..4], b"CC.C");
    assert!(text[4..].iter().all(|&byte| byte == 0));
    assert_eq!(renumbering[..3], [0, 2, 1]);
    assert!(renumbering[3..].iter().all(|&cell| cell == 0));
}

#[test]
fn a_refused_writing_zeroes_text_and_renumbering() {
    let mut lent = Lent::of("CC");
    lent.bonds[2] = 4;
    let (mut text, mut renumbering) = ([DIRT; TEXT + 2], [7; RENUMBERING + 2]);
    let answer = tables::write(lent.tables(), &mut text, &mut renumbering);
    assert_eq!(answer, Err(Code::InvalidTables));
    assert!(text.iter().all(|&byte| byte == 0));
    assert!(renumbering.iter().all(|&cell| cell == 0));
}

#[test]
fn short_buffers_change_nothing() {
    let mut lent = Lent::of("CccC");
    lent.counts.atoms = 999;
    let (text, cells) = ([DIRT; TEXT], row("010"));
    for (atoms, bonds) in [
        (ATOM_TABLE - 1, BOND_TABLE),
        (ATOM_TABLE, BOND_TABLE - 1),
        (0, 0),
    ] {
        let cut = lent.cut(atoms, bonds);
        let (mut output, mut numbers, mut found) = (text, [7; RENUMBERING], cells.clone());
        assert_eq!(tables::first(cut, &mut found), Err(Code::ShortBuffer));
        assert_eq!(tables::next(cut, &mut found), Err(Code::ShortBuffer));
        assert_eq!(tables::is_matching(cut, &found), Err(Code::ShortBuffer));
        let answer = tables::write(cut, &mut output, &mut numbers);
        assert_eq!(answer, Err(Code::ShortBuffer));
        let (mut atoms, mut bonds) = (cut.atoms.to_vec(), cut.bonds.to_vec());
        let answer = tables::kekulize(&mut atoms, &mut bonds, cut.counts, &found);
        assert_eq!(answer, Err(Code::ShortBuffer));
        assert_eq!((&atoms[..], &bonds[..]), (cut.atoms, cut.bonds));
        assert_eq!(
            (output, numbers, found),
            (text, [7; RENUMBERING], cells.clone())
        );
    }
    let whole = lent.tables();
    let mut short = vec![DIRT; ROW - 1];
    assert_eq!(tables::first(whole, &mut short), Err(Code::ShortBuffer));
    assert_eq!(tables::next(whole, &mut short), Err(Code::ShortBuffer));
    assert_eq!(tables::is_matching(whole, &short), Err(Code::ShortBuffer));
    assert_eq!(short, [DIRT; ROW - 1]);
    for (bytes, numbers) in [(TEXT - 1, RENUMBERING), (TEXT, RENUMBERING - 1)] {
        let (mut text, mut renumbering) = (vec![DIRT; bytes], vec![7; numbers]);
        let answer = tables::write(whole, &mut text, &mut renumbering);
        assert_eq!(answer, Err(Code::ShortBuffer));
        assert!(text.iter().all(|&byte| byte == DIRT));
        assert!(renumbering.iter().all(|&cell| cell == 7));
    }
}

/// Whether tables are valid, as every call sees it.
fn is_valid(lent: &Lent) -> bool {
    let invalid = Err(Code::InvalidTables);
    let answer = tables::molecule(lent.tables());
    let mut cells = row("");
    let first = tables::first(lent.tables(), &mut cells);
    assert_eq!(answer.is_err(), first == invalid);
    if first == invalid {
        assert_eq!(cells, padded(""));
    }
    let next = tables::next(lent.tables(), &mut cells);
    assert_eq!(answer.is_err(), next == Err(Code::InvalidTables));
    answer.is_ok()
}

#[test]
fn cells_have_bounds() {
    let bounds = [
        (0, 118),
        (0, 0),
        (0, 999),
        (0, 9),
        (-9, 9),
        (0, 9999),
        (0, 2),
    ];
    for (cell, (low, high)) in bounds.into_iter().enumerate() {
        for (value, expected) in [
            (low, true),
            (high, true),
            (low - 1, false),
            (high + 1, false),
            (i32::MIN, false),
            (i32::MAX, false),
        ] {
            let mut lent = Lent::of("[Fe].[Fe](F)(F)(F)F");
            lent.atoms[ATOM_CELLS + cell] = value;
            assert_eq!(is_valid(&lent), expected, "{cell} {value}");
        }
    }
}

#[test]
fn only_some_elements_can_be_selected() {
    for element in 0..=118 {
        let mut lent = Lent::of("C1CC1");
        lent.atoms[0] = element;
        lent.atoms[1] = 1;
        assert_eq!(is_valid(&lent), [6, 7, 8, 15, 16].contains(&element));
        lent.atoms[1] = 2;
        assert!(!is_valid(&lent));
    }
}

#[test]
fn bonds_have_rules() {
    let bonds: [([i32; 6], bool); 15] = [
        ([0, 1, 0, 1, 2, 0], true),
        ([0, 1, 3, 0, 2, 3], true),
        ([0, 1, 4, 1, 2, 0], false),
        ([0, 1, -1, 1, 2, 0], false),
        ([1, 0, 0, 1, 2, 0], false),
        ([0, 1, 0, 2, 2, 0], false),
        ([0, 1, 0, 1, 3, 0], false),
        ([0, 1, 0, 0, 1, 1], false),
        ([1, 2, 0, 1, 2, 0], false),
        ([0, 2, 0, 1, 2, 0], true),
        ([-1, 2, 0, 1, 2, 0], false),
        ([0, -2, 0, 1, 2, 0], false),
        ([0, i32::MAX, 0, 1, 2, 0], false),
        ([i32::MIN, 1, 0, 1, 2, 0], false),
        ([0, 1, i32::MAX, 1, 2, 0], false),
    ];
    for (cells, expected) in bonds {
        let mut lent = Lent::of("CCC");
        lent.bonds[..6].copy_from_slice(&cells);
        assert_eq!(is_valid(&lent), expected, "{cells:?}");
    }
}

#[test]
fn counts_have_bounds() {
    let mut lent = Lent::of("CC");
    lent.atoms.fill(0);
    for (bond, cells) in lent.bonds.chunks_exact_mut(3).enumerate() {
        let (first, second) = (bond as i32 % 50, 50 + bond as i32 / 50);
        cells.copy_from_slice(&[first, second, 0]);
    }
    for (atoms, bonds, expected) in [
        (1000, 1100, true),
        (1001, 1100, false),
        (1000, 1101, false),
        (0, 0, true),
        (0, 1, false),
        (51, 50, true),
        (50, 50, false),
        (usize::MAX, 0, false),
        (0, usize::MAX, false),
        (1 << 63, 1 << 63, false),
    ] {
        lent.counts = Counts { atoms, bonds };
        assert_eq!(is_valid(&lent), expected, "{atoms} {bonds}");
    }
}
