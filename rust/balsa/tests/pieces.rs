//! Texts in pieces: as they are read whole, from a socket too; refusals with their byte and repeated;
//! 1, 24 and 25, which change nothing.

mod graphs;

use balsa::pieces::{end, feed, start, Fed, State, BRANCHES};
use balsa::tables::{ATOM_TABLE, BOND_TABLE, TEXT};
use balsa::{Code, Molecule, PieceReader, Refusal};
use graphs::Random;
use std::io::{self, Read, Write};
use std::os::unix::net::UnixStream;
use std::thread;

const CORPUS: &str = include_str!("../../../corpus/real.smi");

/// The refused texts of the rules, and what they are refused as.
const REFUSED: [(&str, u8, usize); 12] = [
    ("C()", 3, 2),
    ("C(C", 3, 3),
    ("C%01", 3, 2),
    ("C11", 7, 2),
    ("C1C1", 8, 3),
    ("C%10C%10", 8, 5),
    ("C=1CC#1", 9, 6),
    ("C1CC", 10, 1),
    ("C=C(/F)/F", 20, 0),
    ("C/C", 21, 0),
    ("cc", 22, 0),
    ("C[S@](=O)C", 23, 0),
];

/// A text in pieces of random length, many of them empty, through a reader.
fn in_pieces(text: &[u8], random: &mut Random) -> Result<Molecule, Refusal> {
    let mut reader = PieceReader::new();
    let mut rest = text;
    while !rest.is_empty() || random.below(3) == 0 {
        let most = [1, 2, 5, 40][random.below(4)];
        let (piece, later) = rest.split_at(random.below(most + 1).min(rest.len()));
        reader.feed(piece)?;
        rest = later;
    }
    assert_eq!(reader.bytes(), text.len());
    reader.finish()
}

#[test]
fn the_corpus_in_pieces() {
    let mut random = Random::new(1);
    for text in CORPUS.lines() {
        let read = in_pieces(text.as_bytes(), &mut random);
        assert!(read == Molecule::read(text.as_bytes()), "{text}");
    }
}

#[test]
fn refused_texts_in_pieces() {
    let mut random = Random::new(2);
    for (text, number, place) in REFUSED {
        for _ in 0..40 {
            let told = in_pieces(text.as_bytes(), &mut random).err();
            let told = told.map(|refusal| (refusal.code.number(), refusal.place));
            assert_eq!(told, Some((number, place)), "{text}");
        }
    }
}

/// A socket pair: one end gets the text in chunks of random size, the other is read in chunks of random
/// size into the reader.
#[test]
fn from_a_socket() {
    let text = CORPUS.lines().max_by_key(|text| text.len()).unwrap();
    for seed in 1..40 {
        let (mut sender, mut receiver) = UnixStream::pair().unwrap();
        let sending = thread::spawn(move || {
            let mut random = Random::new(seed);
            let mut rest = text.as_bytes();
            while !rest.is_empty() {
                let (chunk, later) = rest.split_at(1 + random.below(rest.len().min(60)));
                sender.write_all(chunk).unwrap();
                if random.below(4) == 0 {
                    thread::yield_now();
                }
                rest = later;
            }
        });
        let mut random = Random::new(seed + 1000);
        let mut reader = PieceReader::new();
        let mut room = [0; 64];
        loop {
            let size = 1 + random.below(room.len());
            match receiver.read(&mut room[..size]).unwrap() {
                0 => break,
                length => reader.write_all(&room[..length]).unwrap(),
            }
        }
        sending.join().unwrap();
        assert!(reader.finish() == Molecule::read(text.as_bytes()), "{seed}");
    }
}

#[test]
fn a_refusal_is_an_error_of_writing() {
    let mut reader = PieceReader::new();
    assert_eq!(reader.write(b"").unwrap(), 0);
    assert_eq!(reader.write(b"C1").unwrap(), 2);
    for piece in [&b"1CCC"[..], b"", b"C"] {
        let error = reader.write(piece).unwrap_err();
        assert_eq!(error.kind(), io::ErrorKind::InvalidData);
        let told = error.get_ref().and_then(|error| error.downcast_ref());
        let expected = Refusal {
            code: Code::SelfBridge,
            place: 2,
        };
        assert_eq!(told, Some(&expected));
        assert_eq!(
            error.to_string(),
            "refusal 7 at byte 2: a bridge joins an atom to itself"
        );
    }
    assert_eq!(reader.bytes(), 0);
    let told = reader.finish().err();
    assert_eq!(told.map(|refusal| refusal.code), Some(Code::SelfBridge));
}

/// A state and tables as a caller keeps them.
#[derive(Clone, Debug, PartialEq, Eq)]
struct Kept {
    state: State,
    atoms: Vec<i32>,
    bonds: Vec<i32>,
}

impl Kept {
    fn new() -> Self {
        let mut atoms = vec![7; ATOM_TABLE];
        let mut bonds = vec![9; BOND_TABLE];
        let Fed { answer, state } = start(&mut atoms, &mut bonds);
        assert_eq!(answer, Ok(Default::default()));
        assert!(atoms.iter().chain(&bonds).all(|&cell| cell == 0));
        Kept {
            state,
            atoms,
            bonds,
        }
    }

    /// The number and place of what feeding answers.
    fn feed(&mut self, piece: &[u8]) -> (u8, usize) {
        let fed = feed(&self.state, piece, &mut self.atoms, &mut self.bonds);
        self.answered(fed)
    }

    fn end(&mut self) -> (u8, usize) {
        let fed = end(&self.state, &mut self.atoms, &mut self.bonds);
        self.answered(fed)
    }

    fn answered(&mut self, fed: Fed) -> (u8, usize) {
        self.state = fed.state;
        fed.answer
            .map_or_else(|no| (no.code.number(), no.place), |_| (0, 0))
    }

    /// Whether every cell of the tables is 0.
    fn is_zeroed(&self) -> bool {
        self.atoms.iter().chain(&self.bonds).all(|&cell| cell == 0)
    }
}

#[test]
fn refusals_come_with_their_byte() {
    let nested = "C".to_string() + &"(C".repeat(BRANCHES) + "(";
    let atoms = "*".to_string() + &".*".repeat(999) + ".C";
    for (text, number, place) in [
        ("CC&", 3, 2),
        ("C%10C%10", 8, 5),
        ("C%10C%1x", 3, 7),
        ("A(", 3, 1),
        (&nested, 6, nested.len() - 1),
        (&atoms, 4, atoms.len() - 1),
    ] {
        let (before, last) = text.as_bytes().split_at(text.len() - 1);
        let mut kept = Kept::new();
        assert_eq!(kept.feed(before), (0, 0), "{text}");
        assert_eq!(kept.feed(last), (number, place), "{text}");
        assert!(kept.is_zeroed());
        let refused = kept.clone();
        kept.atoms[5] = 3;
        assert_eq!(kept.feed(b""), (number, place), "{text}");
        assert_eq!(kept.feed(b"l)]"), (number, place), "{text}");
        assert!(kept == refused, "{text}");
        assert_eq!(kept.end(), (number, place), "{text}");
        assert_eq!((kept.feed(b"C"), kept.end()), ((24, 0), (24, 0)));
    }
}

#[test]
fn the_limit_of_bytes() {
    let text = "C".repeat(13) + &"-[999CoH9-9:9999]".repeat(963);
    assert_eq!(text.len(), TEXT);
    let mut kept = Kept::new();
    assert_eq!(kept.feed(text.as_bytes()), (0, 0));
    assert_eq!(kept.feed(b""), (0, 0));
    assert_eq!(kept.clone().end(), (0, 0));
    assert_eq!(kept.feed(b"]"), (2, TEXT));
    assert_eq!(kept.end(), (2, TEXT));
    // a refusal before the limit comes first, where reading whole gives 2
    let text = "C11".to_string() + &"C".repeat(17_000);
    assert_eq!(Kept::new().feed(text.as_bytes()), (7, 2));
    let whole = Molecule::read(text.as_bytes()).err();
    assert_eq!(whole.map(|refusal| refusal.code), Some(Code::LongText));
}

#[test]
fn broken_states_change_nothing() {
    let mut kept = Kept::new();
    kept.feed(b"C(C1[13C");
    type Damage = fn(&mut Kept);
    let damages: [(&str, Damage); 13] = [
        ("the hub", |kept| kept.state.hub = kept.state.atoms),
        ("a branch", |kept| kept.state.hubs[0] = 3),
        ("a bridge", |kept| kept.state.openers[98] = 4),
        ("the depth", |kept| kept.state.depth = 65),
        ("the bytes", |kept| kept.state.read = TEXT as u16 + 1),
        ("the isotope", |kept| kept.state.isotope = 1000),
        ("the element", |kept| kept.state.element = 119),
        ("the charge", |kept| kept.state.charge = -10),
        ("the extension", |kept| kept.state.extension = 10_000),
        ("the hydrogens", |kept| kept.state.hydrogens = 10),
        ("a cell", |kept| kept.atoms[0] = 119),
        ("an end", |kept| kept.bonds[1] = 3),
        ("the atoms", |kept| kept.state.atoms = 1001),
    ];
    for (name, damage) in damages {
        let mut broken = kept.clone();
        damage(&mut broken);
        let before = broken.clone();
        assert_eq!(broken.feed(b""), (25, 0), "{name}");
        assert_eq!(broken.end(), (25, 0), "{name}");
        assert!(broken == before, "{name}");
    }
    assert_eq!(kept.feed(b"])C1"), (0, 0));
    assert_eq!(kept.end(), (0, 0));
}

/// What a state says was told is repeated, whatever it is.
#[test]
fn any_number_may_be_told() {
    for number in 1..=255 {
        let mut kept = Kept::new();
        kept.feed(b"CC");
        (kept.state.told, kept.state.place) = (number, 500);
        let expected = match number {
            24 => (24, 0),
            26.. => (25, 500),
            _ => (number, 500),
        };
        assert_eq!(kept.feed(b"C"), expected);
        assert_eq!((kept.state.told, kept.state.atoms), (number, 2));
        assert!(kept.is_zeroed() == (number != 24));
    }
}

/// States that no call leaves and the list does not name are answered as if they had been left so.
#[test]
fn what_the_list_does_not_name() {
    let fed = |text: &[u8], change: fn(&mut State)| {
        let mut kept = Kept::new();
        kept.feed(text);
        change(&mut kept.state);
        kept
    };
    // a mode above the last counts as the last, a number above the dot's as the dot
    let mut kept = fed(b"[C:1", |state| state.mode = 255);
    assert_eq!((kept.feed(b"2]"), kept.end()), ((0, 0), (0, 0)));
    assert_eq!(kept.atoms[5], 12);
    let mut kept = fed(b"C=", |state| state.pending = 200);
    assert_eq!((kept.feed(b"C"), kept.state.bonds), ((0, 0), 0));
    // before the first atom the mode is not looked at
    let mut kept = fed(b"", |state| (state.mode, state.read) = (12, 9));
    assert_eq!((kept.clone().end(), kept.feed(b"]")), ((0, 0), (3, 9)));
    // no text closes the number 0; a bridge said to have opened past the limit is not seen at the end
    let mut kept = fed(b"CC", |state| (state.openers[0], state.offsets[0]) = (2, 7));
    assert_eq!(kept.end(), (10, 7));
    let mut kept = fed(b"CC1", |state| state.offsets[1] = 60_000);
    assert_eq!(kept.end(), (0, 0));
    // a field that the bracket has not come to stands in its row; an extension does not
    let mut kept = fed(b"[", |state| (state.charge, state.extension) = (3, 77));
    assert_eq!((kept.feed(b"C]"), kept.end()), ((0, 0), (0, 0)));
    assert_eq!(kept.atoms[..7], [6, 0, 0, 0, 3, 0, 0]);
    // any hub may become a chlorine, and no symbol begins with a digit
    let mut kept = fed(b"N", |state| state.mode = 2);
    assert_eq!((kept.feed(b"l"), kept.atoms[0]), ((0, 0), 17));
    let mut kept = fed(b"[C", |state| state.letter = b'7');
    assert_eq!(kept.feed(b"]"), (3, 2));
    // a kind that is none makes tables that the next call refuses
    let mut kept = fed(b"C=1CC", |state| state.symbols[1] = 9);
    assert_eq!((kept.feed(b"1"), kept.bonds[8]), ((0, 0), 9));
    assert_eq!((kept.feed(b""), kept.end()), ((25, 0), (25, 0)));
}

#[test]
fn short_tables_come_first() {
    let mut kept = Kept::new();
    kept.feed(b"CC");
    let mut broken = kept.clone();
    broken.state.hub = 2;
    for state in [&kept.state, &broken.state] {
        let mut atoms = kept.atoms.clone();
        let fed = feed(state, b"C", &mut atoms, &mut kept.bonds[..BOND_TABLE - 1]);
        assert_eq!(fed.answer, Err(Code::Short.into()));
        assert!(fed.state == *state && atoms == kept.atoms);
        let fed = end(state, &mut [], &mut kept.bonds);
        assert!(fed.answer == Err(Code::Short.into()) && fed.state == *state);
    }
    let fed = start(&mut kept.atoms[..ATOM_TABLE - 1], &mut kept.bonds);
    assert_eq!(fed.answer, Err(Code::Short.into()));
    assert!(fed.state == Kept::new().state);
    assert_eq!(kept.feed(b"O"), (0, 0));
    assert_eq!(kept.end(), (0, 0));
}
