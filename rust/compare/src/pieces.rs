//! A text in pieces: implementations of the calls for it, random cuts, and two implementations side by
//! side.

use crate::buffers::Buffers;
use crate::implementation::{Answer, Implementation, Reference};
use crate::random::Random;
use balsa_reference::tables::{self, Read};
use balsa_reference::{Pieces, MAX_TEXT};

/// The number of the refusal of a buffer that is too short.
const SHORT_BUFFER: u8 = 1;
/// The number of the refusal of a call after the end.
const ENDED: u8 = 24;

/// An implementation of the calls for a text in pieces. The state between two calls is its own.
pub trait InPieces {
    /// The state.
    type State: Clone + PartialEq;
    /// Begins a text.
    fn start(&self, buffers: &mut Buffers) -> (Answer, Self::State);
    /// Takes a piece.
    fn feed(
        &self,
        state: &Self::State,
        piece: &[u8],
        buffers: &mut Buffers,
    ) -> (Answer, Self::State);
    /// Takes the end.
    fn end(&self, state: &Self::State, buffers: &mut Buffers) -> (Answer, Self::State);
}

impl InPieces for Reference {
    type State = Pieces;

    fn start(&self, buffers: &mut Buffers) -> (Answer, Pieces) {
        let started = tables::start(&mut buffers.atoms, &mut buffers.bonds);
        let answer = started.map_or_else(Into::into, |()| Answer::default());
        (answer, Pieces::default())
    }

    fn feed(&self, state: &Pieces, piece: &[u8], buffers: &mut Buffers) -> (Answer, Pieces) {
        let mut state = state.clone();
        let fed = tables::feed(&mut state, piece, &mut buffers.atoms, &mut buffers.bonds);
        let answer = fed.map_or_else(Into::into, |()| Answer::default());
        (answer, state)
    }

    fn end(&self, state: &Pieces, buffers: &mut Buffers) -> (Answer, Pieces) {
        let mut state = state.clone();
        let read = tables::end(&mut state, &mut buffers.atoms, &mut buffers.bonds);
        let answer = read.map_or_else(Into::into, |Read { counts, overfull }| {
            Answer::of_read(counts.atoms, counts.bonds, overfull)
        });
        (answer, state)
    }
}

/// How many bytes the pieces of a text may have together, each counted with all that stand before it:
/// the reference looks at all of them again with each piece.
const MOST_LOOKED_AT: usize = 100_000;

/// A random cut of a text: byte by byte, in one, or in pieces of random length; some are empty.
pub fn cut<'t>(random: &mut Random, text: &'t [u8]) -> Vec<&'t [u8]> {
    let most = MOST_LOOKED_AT / text.len().max(1);
    let is_short = text.len() <= most;
    let mut pieces = Vec::new();
    let longest = match random.below(4) {
        0 if is_short => 1,
        1 if is_short => 4,
        2 => text.len(),
        _ => 1 + text.len() / most.clamp(1, 12),
    };
    let mut rest = text;
    while !rest.is_empty() {
        if random.percent(10) {
            pieces.push(&rest[..0]);
        }
        let length = random.between(1, longest.max(1)).min(rest.len());
        let (piece, later) = rest.split_at(length);
        pieces.push(piece);
        rest = later;
    }
    if random.percent(30) {
        pieces.push(rest);
    }
    pieces
}

/// An implementation, its state and its buffers.
struct Side<'a, I: InPieces> {
    implementation: &'a I,
    state: I::State,
    buffers: Buffers,
}

impl<'a, I: InPieces> Side<'a, I> {
    /// Begins a text, and gives the answer.
    fn start(implementation: &'a I, dirty: &Buffers) -> (Self, Answer) {
        let mut buffers = dirty.clone();
        let (answer, state) = implementation.start(&mut buffers);
        let side = Side {
            implementation,
            state,
            buffers,
        };
        (side, answer)
    }

    fn feed(&mut self, piece: &[u8]) -> Answer {
        let (answer, state) = self
            .implementation
            .feed(&self.state, piece, &mut self.buffers);
        self.state = state;
        answer
    }

    fn end(&mut self) -> Answer {
        let (answer, state) = self.implementation.end(&self.state, &mut self.buffers);
        self.state = state;
        answer
    }

    /// A piece or the end with a bond table that is too short.
    fn short(&mut self, is_end: bool) -> Answer {
        let rest = self.buffers.bonds.split_off(tables::BOND_TABLE - 1);
        let answer = if is_end { self.end() } else { self.feed(b"C") };
        self.buffers.bonds.extend(rest);
        answer
    }

    /// A call gives a refusal and changes nothing.
    fn unchanged(
        &mut self,
        name: &str,
        call: impl FnOnce(&mut Self) -> Answer,
        code: u8,
    ) -> Result<(), String> {
        let (state, buffers) = (self.state.clone(), self.buffers.clone());
        let answer = call(self);
        let expected = Answer {
            code,
            ..Answer::default()
        };
        expect(name, answer, expected)?;
        let is_same = self.state == state && self.buffers == buffers;
        holds(is_same, &format!("{name} changed something"))
    }
}

/// Compares an implementation with the reference on the pieces of a text: each answer, the tables where
/// the paper tells them, that 1 and 24 change nothing, and the end with the whole text. Gives the answer
/// at the end, or tells what differs.
pub fn compare_pieces<I: InPieces>(
    implementation: &I,
    random: &mut Random,
    pieces: &[&[u8]],
    dirty: &Buffers,
) -> Result<Answer, String> {
    let (mut reference, expected) = Side::start(&Reference, dirty);
    let (mut side, answer) = Side::start(implementation, dirty);
    expect("start", answer, expected)?;
    let is_equal = side.buffers == reference.buffers;
    holds(is_equal, "the start leaves something else")?;
    if answer.code == SHORT_BUFFER {
        return Ok(answer);
    }
    for (number, piece) in pieces.iter().enumerate() {
        if random.percent(3) {
            let is_end = random.percent(50);
            side.unchanged("a short table", |side| side.short(is_end), SHORT_BUFFER)?;
        }
        let expected = reference.feed(piece);
        expect(&format!("piece {number}"), side.feed(piece), expected)?;
        if !expected.is_accepted() {
            holds(is_zeroed(&side.buffers), "a refusal leaves something")?;
            side.buffers.atoms[3] = 5;
        }
    }
    let answer = reference.end();
    expect("end", side.end(), answer)?;
    let is_equal = side.buffers == reference.buffers;
    holds(is_equal, "the end leaves something else")?;
    check_after_the_end(&mut side)?;
    is_whole(&pieces.concat(), answer, &side.buffers)?;
    Ok(answer)
}

/// Whether both tables are zeroed.
fn is_zeroed(buffers: &Buffers) -> bool {
    let mut cells = buffers.atoms.iter().chain(&buffers.bonds);
    cells.all(|&cell| cell == 0)
}

fn check_after_the_end<I: InPieces>(side: &mut Side<I>) -> Result<(), String> {
    side.unchanged("nothing after the end", |side| side.feed(b""), ENDED)?;
    side.unchanged("a piece after the end", |side| side.feed(b"C"), ENDED)?;
    side.unchanged("a second end", |side| side.end(), ENDED)
}

/// The answer and the tables at the end are those of the whole text, where it is not too long.
fn is_whole(text: &[u8], answer: Answer, left: &Buffers) -> Result<(), String> {
    if text.len() > MAX_TEXT {
        return Ok(());
    }
    let mut buffers = left.clone();
    buffers.atoms.fill(7);
    buffers.bonds.fill(7);
    let whole = Reference.read(text, &mut buffers);
    expect("read whole", answer, whole)?;
    let is_equal = buffers.atoms == left.atoms && buffers.bonds == left.bonds;
    holds(is_equal, "other tables than read whole")
}

fn holds(law: bool, message: &str) -> Result<(), String> {
    law.then_some(()).ok_or_else(|| message.to_string())
}

fn expect(call: &str, answer: Answer, expected: Answer) -> Result<(), String> {
    let message = || format!("{call}: {answer:?} in place of {expected:?}");
    (answer == expected).then_some(()).ok_or_else(message)
}

/// The pieces as they are shown.
pub fn shown(pieces: &[&[u8]]) -> String {
    let pieces = pieces.iter().map(|piece| String::from_utf8_lossy(piece));
    pieces.collect::<Vec<_>>().join("|")
}
