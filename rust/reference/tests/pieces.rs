//! Texts in pieces against the same texts read whole; when a refusal is told; which states are refused.

use balsa_reference::pieces_state::{fault, Fault, Fields, HalfRead, State};
use balsa_reference::tables::{self, Counts, ATOM_TABLE, BOND_TABLE};
use balsa_reference::{reading, Code, Pieces, Reading, Refusal, MAX_TEXT};

/// Texts of the paper, accepted and refused.
const TEXTS: [&str; 40] = [
    "",
    "C",
    "CN(C)(C)C",
    "[C]",
    "FC(F)(F)(F)F",
    "c1ccccc1",
    "c1cc[nH]c1",
    "c1ccnc1",
    "c1ccc2ccccc2c1",
    "ClCBr.[At].AtTs",
    "C11",
    "C1C1",
    "C=1CC#1",
    "C1CC",
    "C1.C1",
    "C%10CCC%10",
    "C%10C%10",
    "C%%10",
    "C()",
    "C(C",
    "C%01",
    "C%1",
    "C.1",
    "[1000C]",
    "[999CoH9-9:9999]",
    "[CH1]",
    "[C:0]",
    "[C:99999]",
    "Cu",
    "[Cu]",
    "[Xy]",
    "At.A",
    "F/C=C/F",
    "C=C(/F)/F",
    "C/C",
    "cc",
    "N[C@@H](C)C(=O)O",
    "[C@@@H]",
    "C[S@](=O)C",
    "C)",
];

/// The answer of a text in pieces, and after how many bytes a refusal was told before the end.
fn in_pieces(pieces: &[&[u8]]) -> (Result<Reading, Refusal>, Option<usize>) {
    let mut reader = Pieces::default();
    let mut bytes = 0;
    let mut told = None;
    for piece in pieces {
        bytes += piece.len();
        if reader.feed(piece).is_err() {
            told = told.or(Some(bytes));
        }
    }
    let answer = reader.end();
    assert_eq!(reader.feed(b""), Err(Code::Ended.into()));
    assert_eq!(reader.end(), Err(Code::Ended.into()));
    (answer, told)
}

#[test]
fn however_a_text_is_cut() {
    for text in TEXTS {
        let bytes = text.as_bytes();
        for place in 0..=bytes.len() {
            let (first, second) = bytes.split_at(place);
            let (answer, _) = in_pieces(&[first, b"", second]);
            assert_eq!(answer, reading(bytes), "{text} cut at {place}");
        }
        let single: Vec<&[u8]> = bytes.chunks(1).collect();
        assert_eq!(in_pieces(&single).0, reading(bytes), "{text}");
    }
}

/// After which byte a refusal is told.
#[test]
fn a_refusal_is_told_with_its_byte() {
    for (text, after, code, place) in [
        ("C&CC", 2, Code::Grammar, 1),
        ("C11CC", 3, Code::SelfBridge, 2),
        ("C%10C%10C", 8, Code::RepeatedBond, 5),
        ("C=%10CC#%10C", 11, Code::UnequalSymbols, 8),
        ("C%10C%1&", 8, Code::Grammar, 7),
        ("A)C", 2, Code::Grammar, 1),
        ("Cu", 2, Code::Grammar, 1),
        ("[Xy]", 3, Code::Grammar, 2),
        ("[12345", 5, Code::Grammar, 4),
        ("C)C", 2, Code::Grammar, 1),
    ] {
        let single: Vec<&[u8]> = text.as_bytes().chunks(1).collect();
        let (answer, told) = in_pieces(&single);
        assert_eq!(answer, Err(Refusal::at(code, place)), "{text}");
        assert_eq!(told, Some(after), "{text}");
    }
    for text in ["C(C", "C1CC", "cc", "C/C", "c1cccc1", "C%1", "[C", "A"] {
        let (answer, told) = in_pieces(&[text.as_bytes()]);
        assert!(answer.is_err() && told.is_none(), "{text}");
    }
}

#[test]
fn limits_are_told_at_the_first_byte() {
    let atoms = "C".repeat(1000) + "C";
    let nested = "C(".repeat(65);
    let bonds = bonds();
    for (text, code) in [
        (&atoms, Code::TooManyAtoms),
        (&nested, Code::BranchesTooDeep),
        (&bonds, Code::TooManyBonds),
    ] {
        let (before, last) = text.as_bytes().split_at(text.len() - 1);
        let mut pieces = Pieces::default();
        assert_eq!(pieces.feed(before), Ok(()), "{code:?}");
        let told = Err(Refusal::at(code, before.len()));
        assert_eq!(pieces.feed(last), told);
        // the letter that would make it another atom comes too late
        assert_eq!(pieces.feed(b"l"), told);
        assert_eq!(pieces.end().map(|_| ()), told);
    }
}

/// A chain of 899 atoms, 202 of them joined to the next but one: 1,100 bonds, and an atom more.
fn bonds() -> String {
    let mut text = String::new();
    for atom in 0..899 {
        text += "C";
        if (2..204).contains(&atom) {
            text += ["1", "2", "3"][(atom - 2) % 3];
        }
        if atom < 202 {
            text += ["1", "2", "3"][atom % 3];
        }
    }
    text + "C"
}

#[test]
fn two_comes_with_the_first_byte_too_many() {
    let text = "C".repeat(13) + &"-[999CoH9-9:9999]".repeat(963);
    assert_eq!(text.len(), MAX_TEXT);
    let mut pieces = Pieces::default();
    assert_eq!(pieces.feed(text.as_bytes()), Ok(()));
    assert!(pieces.clone().end().is_ok());
    let told = Err(Refusal::at(Code::TextTooLong, MAX_TEXT));
    assert_eq!(pieces.feed(b")"), told);
    assert_eq!(pieces.end().map(|_| ()), told);
    let text = "C11".to_string() + &"C".repeat(17_000);
    let told = Err(Refusal::at(Code::SelfBridge, 2));
    assert_eq!(Pieces::default().feed(text.as_bytes()), told);
    let whole = reading(text.as_bytes()).map(|_| ());
    assert_eq!(whole, Err(Refusal::at(Code::TextTooLong, MAX_TEXT)));
}

#[test]
fn what_the_calls_leave_in_tables() {
    let mut atoms = vec![7; ATOM_TABLE];
    let mut bonds = vec![7; BOND_TABLE];
    let short = Err(Code::ShortBuffer);
    assert_eq!(tables::start(&mut atoms, &mut bonds[1..]), short);
    assert!(atoms.iter().chain(&bonds).all(|&cell| cell == 7));
    assert_eq!(tables::start(&mut atoms, &mut bonds), Ok(()));
    assert!(atoms.iter().chain(&bonds).all(|&cell| cell == 0));
    let mut pieces = Pieces::default();
    let fed = tables::feed(&mut pieces, b"C1", &mut atoms, &mut []);
    assert_eq!(fed, Err(Code::ShortBuffer.into()));
    for _ in 0..2 {
        atoms[0] = 3;
        let fed = tables::feed(&mut pieces, b"C11", &mut atoms, &mut bonds);
        assert_eq!(fed, Err(Refusal::at(Code::SelfBridge, 2)));
        assert_eq!(atoms[0], 0);
    }
    atoms[0] = 3;
    let told = tables::end(&mut pieces, &mut atoms, &mut bonds);
    assert_eq!(told, Err(Refusal::at(Code::SelfBridge, 2)));
    assert_eq!(atoms[0], 0);
    atoms[0] = 3;
    let told = tables::end(&mut pieces, &mut atoms, &mut bonds);
    assert_eq!(told, Err(Code::Ended.into()));
    assert_eq!(atoms[0], 3);
}

/// A state between two pieces of a text with two atoms and a bond.
fn between() -> (State, Vec<i32>, Vec<i32>) {
    let mut atoms = vec![0; ATOM_TABLE];
    let mut bonds = vec![0; BOND_TABLE];
    tables::read(b"CC", &mut atoms, &mut bonds).unwrap();
    let state = State {
        is_over: false,
        bytes: 5,
        counts: Counts { atoms: 2, bonds: 1 },
        hub: Some(1),
        depth: 1,
        branches: vec![0],
        bridges: vec![1],
        half_read: HalfRead::Nothing,
    };
    (state, atoms, bonds)
}

#[test]
fn the_list_of_broken_states() {
    let (state, atoms, bonds) = between();
    let of = |change: fn(&mut State)| {
        let mut state = state.clone();
        change(&mut state);
        fault(&state, &atoms, &bonds)
    };
    assert_eq!(of(|_| ()), None);
    assert_eq!(of(|state| state.hub = Some(2)), Some(Fault::Hub));
    assert_eq!(of(|state| state.branches[0] = 2), Some(Fault::Branch));
    assert_eq!(of(|state| state.bridges.push(2)), Some(Fault::Bridge));
    assert_eq!(of(|state| state.depth = 64), None);
    assert_eq!(of(|state| state.depth = 65), Some(Fault::Depth));
    assert_eq!(of(|state| state.bytes = 16_384), None);
    assert_eq!(of(|state| state.bytes = 16_385), Some(Fault::Bytes));
    assert_eq!(of(|state| state.counts.bonds = 2), Some(Fault::Tables));
    let digit = |state: &mut State| state.half_read = HalfRead::Number(10);
    assert_eq!(of(digit), Some(Fault::Field));
    assert_eq!(of(|state| state.half_read = HalfRead::Number(9)), None);
    // once it is over the hub, branches and bridges are not looked at, all else is
    let over = |state: &mut State| {
        state.is_over = true;
        state.hub = Some(2);
        state.depth = 65;
        state.bridges[0] = 9;
    };
    assert_eq!(of(over), None);
    let too_many = |state: &mut State| {
        state.is_over = true;
        state.bytes = 16_385;
    };
    assert_eq!(of(too_many), Some(Fault::Bytes));
}

#[test]
fn largest_values_of_fields() {
    let (state, atoms, bonds) = between();
    let largest = Fields {
        isotope: 999,
        element: 118,
        selected: 1,
        mark: 2,
        hydrogens: 9,
        charge: -9,
        extension: 9999,
    };
    let of = |change: fn(&mut Fields)| {
        let mut fields = largest;
        change(&mut fields);
        let half_read = HalfRead::Bracket(fields);
        let state = State {
            half_read,
            ..state.clone()
        };
        fault(&state, &atoms, &bonds)
    };
    assert_eq!(of(|_| ()), None);
    assert_eq!(of(|fields| fields.charge = 9), None);
    let above: [fn(&mut Fields); 8] = [
        |fields| fields.isotope = 1000,
        |fields| fields.element = 119,
        |fields| fields.selected = 2,
        |fields| fields.mark = 3,
        |fields| fields.hydrogens = 10,
        |fields| fields.charge = 10,
        |fields| fields.charge = i32::MIN,
        |fields| fields.extension = 10_000,
    ];
    for change in above {
        assert_eq!(of(change), Some(Fault::Field));
    }
}

/// What 20 to 23 refuse is left aside: between two pieces it may yet be put right.
#[test]
fn late_refusals_are_not_on_the_list() {
    let (state, mut atoms, mut bonds) = between();
    bonds[2] = 4;
    atoms[6] = 1;
    atoms[8] = 1;
    assert_eq!(fault(&state, &atoms, &bonds), None);
    bonds[2] = 6;
    assert_eq!(fault(&state, &atoms, &bonds), Some(Fault::Tables));
}
