//! Two texts of the corpus joined by a dot (request P13): the joined text is accepted, its tables
//! hold the first molecule and then the second, and its matchings are each row of the first followed
//! by each row of the second.

use balsa::tables::Counts;
use balsa::{Code, Molecule, Refusal};

const CORPUS: &str = include_str!("../../../corpus/real.smi");

const MAX_ATOMS: usize = 1000;
const MAX_BONDS: usize = 1100;
const MAX_TEXT: usize = 16_384;

/// Rows of a list that are looked at.
const ROWS: usize = 40;

fn join(first: &[u8], second: &[u8]) -> Vec<u8> {
    [first, b".", second].concat()
}

/// The bonds of a molecule with their ends moved up.
fn raised(molecule: &Molecule, atoms: usize) -> Vec<i32> {
    let row = |bond: &[i32]| [bond[0] + atoms as i32, bond[1] + atoms as i32, bond[2]];
    molecule.bonds().chunks_exact(3).flat_map(row).collect()
}

/// Each row of the first followed by each row of the second, in order.
fn followed<'a>(first: &'a Molecule, second: &'a Molecule) -> impl Iterator<Item = Vec<u8>> + 'a {
    let behind = |row: Vec<u8>| {
        second
            .matchings()
            .map(move |later| [&row[..], &later].concat())
    };
    first.matchings().flat_map(behind)
}

fn within_limits(first: &Molecule, second: &Molecule, joined: &[u8]) -> bool {
    let (one, other) = (first.counts(), second.counts());
    joined.len() <= MAX_TEXT
        && one.atoms + other.atoms <= MAX_ATOMS
        && one.bonds + other.bonds <= MAX_BONDS
}

/// Compares the join with what the law says; gives the number of matchings that were compared.
fn check(first: &[u8], second: &[u8]) -> usize {
    let text = join(first, second);
    let shown = String::from_utf8_lossy(&text).into_owned();
    let (first, second) = (read(first), read(second));
    assert!(within_limits(&first, &second, &text), "{shown}");
    let joined = read(&text);
    let (one, other) = (first.counts(), second.counts());
    let counts = Counts {
        atoms: one.atoms + other.atoms,
        bonds: one.bonds + other.bonds,
    };
    assert_eq!(joined.counts(), counts, "{shown}");
    assert_eq!(joined.overfull(), first.overfull() + second.overfull());
    assert_eq!(joined.atoms(), [first.atoms(), second.atoms()].concat());
    let bonds = [first.bonds(), &raised(&second, one.atoms)].concat();
    assert_eq!(joined.bonds(), bonds, "{shown}");
    let rows: Vec<_> = joined.matchings().take(ROWS).collect();
    let expected: Vec<_> = followed(&first, &second).take(ROWS).collect();
    assert_eq!(rows, expected, "{shown}");
    rows.len()
}

fn read(text: &[u8]) -> Molecule {
    Molecule::read(text).unwrap_or_else(|refusal| {
        panic!("{}: {refusal:?}", String::from_utf8_lossy(text));
    })
}

/// The texts of the corpus that are accepted and not empty.
fn accepted() -> Vec<&'static [u8]> {
    let texts = CORPUS.lines().map(str::as_bytes);
    let is_accepted = |text: &&[u8]| !text.is_empty() && Molecule::read(text).is_ok();
    texts.filter(is_accepted).collect()
}

/// The fields of a text's line in the report: code, atoms, bonds, over-full atoms, the first matching.
fn reported(text: &[u8]) -> Vec<String> {
    let report = balsa::report(&[text, b"\n"].concat());
    let report = String::from_utf8(report).unwrap();
    let line = report.lines().nth(1).unwrap();
    line.split(' ')
        .skip(1)
        .take(5)
        .map(str::to_string)
        .collect()
}

#[test]
fn two_benzenes() {
    let benzene = b"c1ccccc1";
    let rows: Vec<_> = read(&join(benzene, benzene)).matchings().collect();
    let expected = [
        [1, 0, 1, 0, 1, 0, 1, 0, 1, 0, 1, 0],
        [1, 0, 1, 0, 1, 0, 0, 1, 0, 1, 0, 1],
        [0, 1, 0, 1, 0, 1, 1, 0, 1, 0, 1, 0],
        [0, 1, 0, 1, 0, 1, 0, 1, 0, 1, 0, 1],
    ];
    assert_eq!(rows, expected);
}

#[test]
fn pairs_of_the_corpus() {
    let texts = accepted();
    let mut compared = 0;
    for (number, first) in texts.iter().enumerate() {
        for stride in [1, 2003] {
            compared += check(first, texts[(number + stride) % texts.len()]);
        }
    }
    assert!(compared > 4 * texts.len(), "{compared} matchings");
}

#[test]
fn reports_of_pairs() {
    let texts = accepted();
    let mut compared = 0;
    for (first, second) in texts.iter().zip(texts.iter().rev()) {
        let text = join(first, second);
        let (one, other, both) = (reported(first), reported(second), reported(&text));
        // a marked text may be refused when it is kekulized: its line has no counts
        if one[0] != "0" || other[0] != "0" {
            continue;
        }
        compared += 1;
        assert_eq!(both[0], "0");
        let sum = |field: usize| {
            let number = |line: &[String]| line[field].parse::<usize>().unwrap();
            assert_eq!(number(&one) + number(&other), number(&both));
        };
        [1, 2, 3].into_iter().for_each(sum);
        let row = |line: &[String]| line[4].replace('-', "");
        assert_eq!(row(&one) + &row(&other), row(&both));
    }
    assert!(2 * compared > texts.len(), "{compared} reports");
}

#[test]
fn up_to_the_limits() {
    // rings of 11 bonds over 10 atoms: atoms and bonds at their limits together
    let ring = b"C12CCCC1CCCCC2".as_slice();
    let rings = |count: usize| vec![ring; count].join(&b'.');
    assert_eq!(check(&rings(60), &rings(40)), 1);
    let both = read(&join(&rings(60), &rings(40)));
    assert_eq!((both.counts().atoms, both.counts().bonds), (1000, 1100));
    let refusal = |code, place| Err(Refusal { code, place });
    let over = join(&rings(100), b"C");
    assert_eq!(Molecule::read(&over), refusal(Code::ManyAtoms, 1500));
    let long = vec![b'C'; 999];
    let most = [&long[..], b".C"].concat();
    assert_eq!(read(&most).counts().atoms, 1000);
    assert_eq!(check(&long, b"C"), 1);
    let over = join(&most, b"C");
    assert_eq!(Molecule::read(&over), refusal(Code::ManyAtoms, 1002));
}
