//! What is compared: implementations of the calls on tables.

use crate::buffers::Buffers;
use balsa_reference::tables::{self, Read, Step, Tables};
use balsa_reference::{Code, Refusal};

/// The answer of a call: the paper's number of a refusal or 0, its place, and what is handed back.
#[derive(Clone, Copy, Debug, Default, PartialEq, Eq)]
pub struct Answer {
    /// The number of the refusal, 0 for none.
    pub code: u8,
    /// The place of the refusal.
    pub place: usize,
    /// Atoms, bonds and over-full atoms read; 1 for the end of a list; 1 for a matching; 1 for the same
    /// compound; the pairs forced; the length written; of a text kekulized what was read, and the length.
    pub numbers: [usize; 4],
}

impl Answer {
    /// An acceptance.
    pub fn of(number: usize) -> Self {
        Answer::of_read(number, 0, 0)
    }

    /// The acceptance of a text.
    pub fn of_read(atoms: usize, bonds: usize, overfull: usize) -> Self {
        Answer {
            numbers: [atoms, bonds, overfull, 0],
            ..Answer::default()
        }
    }

    /// The acceptance of a text that was kekulized.
    pub fn of_standard(atoms: usize, bonds: usize, overfull: usize, length: usize) -> Self {
        Answer {
            numbers: [atoms, bonds, overfull, length],
            ..Answer::default()
        }
    }

    /// Whether the call was accepted.
    pub fn is_accepted(&self) -> bool {
        self.code == 0
    }
}

impl From<Code> for Answer {
    fn from(code: Code) -> Self {
        Refusal::from(code).into()
    }
}

impl From<Refusal> for Answer {
    fn from(refusal: Refusal) -> Self {
        Answer {
            code: refusal.code.number(),
            place: refusal.place,
            ..Answer::default()
        }
    }
}

/// An implementation of the calls. Each takes what it needs from the buffers; only reading sets
/// the counts there.
pub trait Implementation {
    /// The name that is shown.
    fn name(&self) -> &str;
    /// Reads a text into the tables.
    fn read(&self, text: &[u8], buffers: &mut Buffers) -> Answer;
    /// Stores the text kekulized by the first matching.
    fn standardize(&self, text: &[u8], buffers: &mut Buffers) -> Answer;
    /// Tells whether the tables are long enough and valid.
    fn check(&self, buffers: &mut Buffers) -> Answer;
    /// Stores the first matching in the row.
    fn first(&self, buffers: &mut Buffers) -> Answer;
    /// Stores the matching after the row in the row.
    fn next(&self, buffers: &mut Buffers) -> Answer;
    /// Stores the first matching in the row, and the forced pairs in the list.
    fn first_forced(&self, buffers: &mut Buffers) -> Answer;
    /// Stores the matching after the row in the row, by the engine that forces pairs.
    fn next_forced(&self, buffers: &mut Buffers) -> Answer;
    /// Makes the list of calls on the row and stores their codes.
    fn replay(&self, buffers: &mut Buffers) -> Answer;
    /// Tells whether the row is a matching.
    fn is_matching(&self, buffers: &mut Buffers) -> Answer;
    /// Kekulizes the tables by the row.
    fn kekulize(&self, buffers: &mut Buffers) -> Answer;
    /// Stores the row of sides in the row.
    fn sides(&self, buffers: &mut Buffers) -> Answer;
    /// Tells whether two molecules are the same compound, and stores a row for each and the
    /// renumbering of the first.
    fn same(&self, first: &mut Buffers, second: &mut Buffers) -> Answer;
    /// Writes the molecule of the tables.
    fn write(&self, buffers: &mut Buffers) -> Answer;
}

/// The reference.
pub struct Reference;

fn tables_of(buffers: &Buffers) -> Tables<'_> {
    Tables {
        atoms: &buffers.atoms,
        bonds: &buffers.bonds,
        counts: buffers.counts,
    }
}

fn answer<T, E: Into<Answer>>(result: Result<T, E>, accepted: impl FnOnce(T) -> Answer) -> Answer {
    result.map_or_else(Into::into, accepted)
}

impl Implementation for Reference {
    fn name(&self) -> &str {
        "reference"
    }

    fn read(&self, text: &[u8], buffers: &mut Buffers) -> Answer {
        let read = tables::read(text, &mut buffers.atoms, &mut buffers.bonds);
        buffers.counts = read.unwrap_or_default().counts;
        answer(read, |Read { counts, overfull }| {
            Answer::of_read(counts.atoms, counts.bonds, overfull)
        })
    }

    fn standardize(&self, text: &[u8], buffers: &mut Buffers) -> Answer {
        let done = tables::standardize(text, &mut buffers.text);
        answer(done, |it| {
            Answer::of_standard(it.counts.atoms, it.counts.bonds, it.overfull, it.length)
        })
    }

    fn check(&self, buffers: &mut Buffers) -> Answer {
        answer(tables::check(tables_of(buffers)), |()| Answer::default())
    }

    fn first(&self, buffers: &mut Buffers) -> Answer {
        let mut row = std::mem::take(&mut buffers.row);
        let result = tables::first(tables_of(buffers), &mut row);
        buffers.row = row;
        answer(result, |()| Answer::default())
    }

    fn next(&self, buffers: &mut Buffers) -> Answer {
        let mut row = std::mem::take(&mut buffers.row);
        let result = tables::next(tables_of(buffers), &mut row);
        buffers.row = row;
        answer(result, |step| Answer::of(usize::from(step == Step::End)))
    }

    fn first_forced(&self, buffers: &mut Buffers) -> Answer {
        let mut row = std::mem::take(&mut buffers.row);
        let mut pairs = std::mem::take(&mut buffers.pairs);
        let result = tables::first_forced(tables_of(buffers), &mut row, &mut pairs);
        (buffers.row, buffers.pairs) = (row, pairs);
        answer(result, |forced| Answer::of(forced))
    }

    fn next_forced(&self, buffers: &mut Buffers) -> Answer {
        self.next(buffers)
    }

    fn replay(&self, buffers: &mut Buffers) -> Answer {
        let mut row = std::mem::take(&mut buffers.row);
        let mut codes = std::mem::take(&mut buffers.codes);
        let result = tables::replay(&buffers.calls, tables_of(buffers), &mut row, &mut codes);
        (buffers.row, buffers.codes) = (row, codes);
        answer(result, |()| Answer::default())
    }

    fn is_matching(&self, buffers: &mut Buffers) -> Answer {
        let result = tables::is_matching(tables_of(buffers), &buffers.row);
        answer(result, |is_matching| Answer::of(usize::from(is_matching)))
    }

    fn kekulize(&self, buffers: &mut Buffers) -> Answer {
        let (atoms, bonds) = (&mut buffers.atoms, &mut buffers.bonds);
        let result = tables::kekulize(atoms, bonds, buffers.counts, &buffers.row);
        answer(result, |()| Answer::default())
    }

    fn sides(&self, buffers: &mut Buffers) -> Answer {
        let mut row = std::mem::take(&mut buffers.row);
        let result = tables::sides(tables_of(buffers), &mut row);
        buffers.row = row;
        answer(result, |()| Answer::default())
    }

    fn same(&self, first: &mut Buffers, second: &mut Buffers) -> Answer {
        let mut row1 = std::mem::take(&mut first.row);
        let mut row2 = std::mem::take(&mut second.row);
        let mut renumbering = std::mem::take(&mut first.renumbering);
        let (one, other) = (tables_of(first), tables_of(second));
        let result = tables::same(one, other, &mut row1, &mut row2, &mut renumbering);
        (first.row, second.row, first.renumbering) = (row1, row2, renumbering);
        answer(result, |is_same| Answer::of(usize::from(is_same)))
    }

    fn write(&self, buffers: &mut Buffers) -> Answer {
        let mut text = std::mem::take(&mut buffers.text);
        let mut renumbering = std::mem::take(&mut buffers.renumbering);
        let result = tables::write(tables_of(buffers), &mut text, &mut renumbering);
        (buffers.text, buffers.renumbering) = (text, renumbering);
        answer(result, |length| Answer::of(length))
    }
}
