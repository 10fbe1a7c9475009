//! Measures a text in pieces beside reading it whole, in one run: each text of the corpus in one feed,
//! with its start and its end; a long text by the byte, in one feed and in pieces; and an empty feed,
//! which is what checking a state costs. Copying the state into and out of a call is told apart: a call
//! with short tables does nothing else. CPU time, the quickest of some rounds.

#[path = "../clock.rs"]
mod clock;
#[path = "../lengths.rs"]
mod lengths;

use balsa::pieces::{self, State};
use balsa::tables::{self, ATOM_TABLE, BOND_TABLE};
use lengths::{chain_of_brackets, text_of_length};
use std::hint::black_box;

const CORPUS: &str = include_str!("../../../../corpus/real.smi");
/// The rounds, of which the quickest counts.
const ROUNDS: usize = 20;
/// The calls on one text in a round.
const CALLS: usize = 500;
/// The bytes of the long text.
const LONG: usize = 16_000;

/// The tables that the calls are lent.
struct Lent {
    atoms: Vec<i32>,
    bonds: Vec<i32>,
}

impl Lent {
    fn new() -> Self {
        Lent {
            atoms: vec![0; ATOM_TABLE],
            bonds: vec![0; BOND_TABLE],
        }
    }

    fn read(&mut self, text: &[u8]) {
        let read = tables::read(text, &mut self.atoms, &mut self.bonds);
        assert!(black_box(read).is_ok());
    }

    fn start(&mut self) -> State {
        pieces::start(&mut self.atoms, &mut self.bonds).state
    }

    fn feed(&mut self, state: &State, piece: &[u8]) -> State {
        let fed = pieces::feed(state, piece, &mut self.atoms, &mut self.bonds);
        assert!(fed.answer.is_ok());
        fed.state
    }

    fn end(&mut self, state: &State) {
        let ended = pieces::end(state, &mut self.atoms, &mut self.bonds);
        assert!(black_box(ended).answer.is_ok());
    }

    /// A text in pieces of so many bytes.
    fn in_pieces(&mut self, text: &[u8], length: usize) {
        let mut state = self.start();
        for piece in text.chunks(length) {
            state = self.feed(&state, piece);
        }
        self.end(&state);
    }
}

/// The state copied in and out, by a call that answers 1.
fn copy(state: &State) -> State {
    let fed = pieces::feed(black_box(state), b"", &mut [], &mut []);
    assert!(fed.answer.is_err());
    fed.state
}

/// The nanoseconds of a task of so many parts, by the part, in the quickest round.
fn nanoseconds(parts: usize, mut task: impl FnMut()) -> f64 {
    let times = (0..ROUNDS).map(|_| clock::time(&mut task));
    let least = times.min().unwrap_or_default();
    least.as_secs_f64() * 1e9 / parts as f64
}

fn row(name: &str, cells: &[f64]) {
    let cells: String = cells.iter().map(|cell| format!("{cell:>12.2}")).collect();
    println!("{name:<44}{cells}");
}

fn main() {
    let texts: Vec<&[u8]> = CORPUS.lines().map(str::as_bytes).collect();
    let about_40 = |text: &&[u8]| (36..=44).contains(&text.len());
    let about_40: Vec<&[u8]> = texts.iter().copied().filter(about_40).collect();
    println!("CPU time in nanoseconds, quickest of {ROUNDS} rounds");
    let copying = copying();
    row("copying the state once, in and out", &[copying]);
    in_one_feed("the corpus, a text", &texts, copying);
    in_one_feed("its texts of 36 to 44 bytes", &about_40, copying);
    long_text("pairs joined by bridges", &text_of_length(LONG), copying);
    long_text("a chain of brackets", &chain_of_brackets(LONG), copying);
    empty_feeds(copying);
}

fn copying() -> f64 {
    let mut state = Lent::new().start();
    nanoseconds(CALLS, || {
        for _ in 0..CALLS {
            state = copy(&state);
        }
    })
}

/// Each text whole, and by a start, one feed and an end: three states come out, and two go in.
fn in_one_feed(name: &str, texts: &[&[u8]], copying: f64) {
    let mut lent = Lent::new();
    let whole = nanoseconds(texts.len(), || {
        texts.iter().for_each(|text| lent.read(text));
    });
    let pieces = nanoseconds(texts.len(), || {
        texts
            .iter()
            .for_each(|text| lent.in_pieces(text, text.len().max(1)));
    });
    let apart = pieces - 2.5 * copying;
    println!("{name}: whole, in one feed, without copying, ratio, ratio without copying");
    row("", &[whole, pieces, apart, pieces / whole, apart / whole]);
}

/// A long text by the byte: whole, and in pieces.
fn long_text(name: &str, text: &[u8], copying: f64) {
    let mut lent = Lent::new();
    let bytes = text.len();
    let mut measure = |read: &mut dyn FnMut(&mut Lent)| {
        nanoseconds(CALLS * bytes, || {
            for _ in 0..CALLS {
                read(&mut lent);
            }
        })
    };
    println!("{name}, {bytes} bytes, by the byte: time, and without copying");
    row("whole", &[measure(&mut |lent| lent.read(black_box(text)))]);
    for length in [bytes, 1000, 64] {
        let time = measure(&mut |lent| lent.in_pieces(black_box(text), length));
        let copies = bytes.div_ceil(length) as f64 + 1.5;
        let name = format!("in pieces of {length}");
        row(&name, &[time, time - copies * copying / bytes as f64]);
    }
    let fed = measure(&mut |lent| {
        let state = lent.start();
        lent.feed(black_box(&state), text);
    });
    row("a start and one feed, without an end", &[fed]);
}

/// A feed of nothing after some bytes: the check of the state and the tables, and the copies.
fn empty_feeds(copying: f64) {
    println!("an empty feed after so many bytes: time, and without copying");
    let chain = "C".repeat(1000).into_bytes();
    let long = text_of_length(LONG);
    for (name, text) in [
        ("0", &b""[..]),
        ("40 (a chain)", &chain[..40]),
        ("1,000 (a chain)", &chain),
        ("16,000", &long),
    ] {
        let mut lent = Lent::new();
        let state = lent.start();
        let mut state = lent.feed(&state, text);
        let time = nanoseconds(CALLS, || {
            for _ in 0..CALLS {
                state = lent.feed(black_box(&state), b"");
            }
        });
        row(name, &[time, time - copying]);
    }
}
