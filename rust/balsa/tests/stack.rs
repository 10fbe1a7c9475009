//! No call needs more than 512 KiB of stack: threads that have no more make each call on what nests,
//! walks and searches deepest.

mod graphs;

use balsa::register::{MAX_BODY, REGISTER};
use balsa::tables::{self, Counts, ATOM_TABLE, BOND_TABLE, RENUMBERING, ROW, TEXT};
use balsa::{Code, Molecule, PieceReader, Refusal, Register, Withdrawn};
use graphs::{families, Graph};
use std::thread;

const STACK: usize = 512 * 1024;

/// Runs a task on a thread with little stack.
fn on_little_stack<T: Send + 'static>(task: impl FnOnce() -> T + Send + 'static) -> T {
    thread::Builder::new()
        .stack_size(STACK)
        .spawn(task)
        .expect("a thread starts")
        .join()
        .expect("the call ends")
}

/// Reads a text: the counts, or the refusal's code.
fn read(text: String) -> Result<Counts, Code> {
    let mut atoms = vec![0; ATOM_TABLE];
    let mut bonds = vec![0; BOND_TABLE];
    on_little_stack(move || tables::read(text.as_bytes(), &mut atoms, &mut bonds))
        .map(|read| read.counts)
        .map_err(|refusal| refusal.code)
}

#[test]
fn nested_branches() {
    let text = format!("C{}{}", "(C".repeat(64), ")".repeat(64));
    let counts = Counts {
        atoms: 65,
        bonds: 64,
    };
    assert_eq!(read(text), Ok(counts));
    let deeper = format!("C{}{}", "(C".repeat(65), ")".repeat(65));
    assert_eq!(read(deeper), Err(Code::DeepBranch));
}

/// Nested branches before a ring of many selected atoms, in the longest text.
#[test]
fn nested_and_long() {
    let nested = format!("C{}{}", "(C".repeat(64), ")".repeat(64));
    let text = format!("{nested}.c1{}c1", "c".repeat(932));
    let counts = Counts {
        atoms: 999,
        bonds: 998,
    };
    assert_eq!(read(text), Ok(counts));
    let chain = "C".repeat(13) + &"-[999CoH9-9:9999]".repeat(963);
    assert!(read(chain).is_ok());
}

/// The same texts from text to text in one call.
#[test]
fn standardized() {
    let nested = format!("C{}{}", "(C".repeat(64), ")".repeat(64));
    let ring = format!("{nested}.c1{}c1", "c".repeat(932));
    let chain = "C".repeat(13) + &"-[999CoH9-9:9999]".repeat(963);
    for text in [nested, ring, chain] {
        let mut molecule = Molecule::read(text.as_bytes()).expect("it is read");
        let first = molecule.matchings().next().expect("it has a matching");
        molecule.kekulize(&first).expect("it is kekulized");
        let written = molecule.write().map(|written| written.text);
        let told = on_little_stack(move || balsa::standardize(text.as_bytes()));
        assert_eq!(told, written.map_err(Refusal::from));
    }
}

/// The same in pieces of 1,000 bytes.
#[test]
fn nested_and_long_in_pieces() {
    let nested = format!("C{}{}", "(C".repeat(64), ")".repeat(64));
    let ring = format!("{nested}.c1{}c1", "c".repeat(932));
    let chain = "C".repeat(13) + &"-[999CoH9-9:9999]".repeat(963);
    for text in [ring, chain] {
        let whole = Molecule::read(text.as_bytes());
        let read = on_little_stack(move || {
            let mut reader = PieceReader::new();
            for piece in text.as_bytes().chunks(1000) {
                reader.feed(piece)?;
            }
            reader.finish()
        });
        assert!(read.is_ok() && read == whole);
    }
}

/// Whether two texts are the same compound.
fn same(one: &str, other: &str) -> bool {
    let [first, second] = [one, other].map(|text| Molecule::read(text.as_bytes()).expect(text));
    let answer = on_little_stack(move || first.same_compound(&second));
    answer.expect("few atoms").is_some()
}

#[test]
fn the_same_compound_of_64_atoms() {
    let ring = |letter: &str, bond: &str| {
        let pair = format!("{letter}{bond}{letter}");
        format!(
            "{letter}1{bond}{letter}{}{letter}{bond}{letter}1",
            pair.repeat(30)
        )
    };
    assert!(same(&ring("c", ""), &ring("C", "=")));
    assert!(same(&ring("c", ""), &ring("c", "")));
    assert!(!same(&ring("C", "="), &ring("C", "")));
    let apart = "C.".repeat(63) + "C";
    assert!(same(&apart, &apart));
}

/// The text of a graph, if it can be written, is read and has room in a register.
fn body(graph: &Graph) -> Option<String> {
    let (atoms, bonds, counts) = graph.tables();
    let mut text = vec![0; TEXT];
    let mut numbers = vec![0; RENUMBERING];
    let length = tables::write(&atoms, &bonds, counts, &mut text, &mut numbers).ok()?;
    text.truncate(length.min(MAX_BODY + 1));
    Molecule::read(&text).ok()?;
    String::from_utf8(text).ok()
}

/// Withdrawing, and asking registers of large molecules that are hard to tell apart or hard to read.
#[test]
fn withdrawn_near_the_limits() {
    let chain = "*".repeat(RENUMBERING);
    let rings = vec!["*1**1"; RENUMBERING / 3].join(".");
    let star = format!("*{}", "(*)".repeat(RENUMBERING - 1));
    let apart = vec!["*"; RENUMBERING].join(".");
    let graphs = families().into_iter();
    let mut texts: Vec<String> = graphs.filter_map(|(_, graph, _)| body(&graph)).collect();
    assert!(texts.len() > 4, "{}", texts.len());
    texts.extend([chain, rings, star, apart]);
    for text in texts {
        let mut register = Register::new(vec![0; REGISTER]);
        let said = on_little_stack(move || {
            register.empty()?;
            register.withdraw(7, b"C")?;
            register.withdraw(8, text.as_bytes())?;
            register.withdrawn(text.as_bytes())
        });
        assert!(!matches!(said, Ok(Withdrawn::Clear) | Err(_)), "{said:?}");
    }
}

/// Every call on tables, and reading what was written.
#[test]
fn all_calls_near_the_limits() {
    let one_chain = Graph::rings(&[1000]).descending();
    let graphs = families().into_iter().map(|(_, graph, _)| graph);
    for graph in graphs.chain([one_chain]) {
        on_little_stack(move || {
            let (mut atoms, mut bonds, counts) = graph.tables();
            let mut row = vec![0; ROW];
            let mut text = vec![0; TEXT];
            let mut numbers = vec![0; RENUMBERING];
            assert_eq!(tables::check(&atoms, &bonds, counts), Ok(()));
            assert!(tables::key(&atoms, &bonds, counts).is_ok());
            let written = tables::write(&atoms, &bonds, counts, &mut text, &mut numbers);
            let first = tables::first(&atoms, &bonds, counts, &mut row);
            let is_matching = tables::is_matching(&atoms, &bonds, counts, &row);
            assert_eq!(is_matching, Ok(first.is_ok()));
            let mut later = row.clone();
            assert!(tables::next(&atoms, &bonds, counts, &mut later).is_ok() == first.is_ok());
            let mut codes = [0; 2];
            let replayed = tables::replay(&[0, 1], &atoms, &bonds, counts, &mut later, &mut codes);
            assert_eq!(replayed, Ok(()));
            let kekulized = tables::kekulize(&mut atoms, &mut bonds, counts, &row);
            assert!(kekulized.is_ok() == first.is_ok());
            if let Ok(length) = written {
                let read = tables::read(&text[..length], &mut atoms, &mut bonds);
                assert!(read.is_ok() == first.is_ok());
            }
        });
    }
}
