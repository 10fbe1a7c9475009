//! The proved library as an implementation of the calls.

use crate::buffers::Buffers;
use crate::implementation::{Answer, Implementation};
use crate::pieces::InPieces;
use balsa::pieces::{self, Fed, State};
use balsa::tables::{self, Counts, Read, Step, Tables};
use balsa::{Code, Refusal};

/// The proved library, through its Rust crate.
pub struct Proved;

impl From<Code> for Answer {
    fn from(code: Code) -> Self {
        Refusal::from(code).into()
    }
}

impl From<Refusal> for Answer {
    fn from(refusal: Refusal) -> Self {
        Answer {
            code: refusal.code.number(),
            place: refusal.place,
            ..Answer::default()
        }
    }
}

fn counts(buffers: &Buffers) -> Counts {
    Counts {
        atoms: buffers.counts.atoms,
        bonds: buffers.counts.bonds,
    }
}

fn answer<T, E: Into<Answer>>(result: Result<T, E>, accepted: impl FnOnce(T) -> Answer) -> Answer {
    result.map_or_else(Into::into, accepted)
}

impl Implementation for Proved {
    fn name(&self) -> &str {
        "proved"
    }

    fn read(&self, text: &[u8], buffers: &mut Buffers) -> Answer {
        let read = tables::read(text, &mut buffers.atoms, &mut buffers.bonds);
        let Counts { atoms, bonds } = read.unwrap_or_default().counts;
        buffers.counts = balsa_reference::tables::Counts { atoms, bonds };
        read_answer(read)
    }

    fn standardize(&self, text: &[u8], buffers: &mut Buffers) -> Answer {
        let done = balsa::standardize_into(text, &mut buffers.text);
        answer(done, |it| {
            Answer::of_standard(it.counts.atoms, it.counts.bonds, it.overfull, it.length)
        })
    }

    fn check(&self, buffers: &mut Buffers) -> Answer {
        let checked = tables::check(&buffers.atoms, &buffers.bonds, counts(buffers));
        answer(checked, |()| Answer::default())
    }

    fn first(&self, buffers: &mut Buffers) -> Answer {
        let counts = counts(buffers);
        let found = tables::first(&buffers.atoms, &buffers.bonds, counts, &mut buffers.row);
        answer(found, |()| Answer::default())
    }

    fn next(&self, buffers: &mut Buffers) -> Answer {
        let counts = counts(buffers);
        let found = tables::next(&buffers.atoms, &buffers.bonds, counts, &mut buffers.row);
        answer(found, |step| Answer::of(usize::from(step == Step::End)))
    }

    fn first_forced(&self, buffers: &mut Buffers) -> Answer {
        let counts = counts(buffers);
        let found = tables::first_forced(
            &buffers.atoms,
            &buffers.bonds,
            counts,
            &mut buffers.row,
            &mut buffers.pairs,
        );
        answer(found, |forced| Answer::of(forced))
    }

    fn next_forced(&self, buffers: &mut Buffers) -> Answer {
        let counts = counts(buffers);
        let found = tables::next_forced(&buffers.atoms, &buffers.bonds, counts, &mut buffers.row);
        answer(found, |step| Answer::of(usize::from(step == Step::End)))
    }

    fn replay(&self, buffers: &mut Buffers) -> Answer {
        let counts = counts(buffers);
        let made = tables::replay(
            &buffers.calls,
            &buffers.atoms,
            &buffers.bonds,
            counts,
            &mut buffers.row,
            &mut buffers.codes,
        );
        answer(made, |()| Answer::default())
    }

    fn is_matching(&self, buffers: &mut Buffers) -> Answer {
        let counts = counts(buffers);
        let asked = tables::is_matching(&buffers.atoms, &buffers.bonds, counts, &buffers.row);
        answer(asked, |is_matching| Answer::of(usize::from(is_matching)))
    }

    fn kekulize(&self, buffers: &mut Buffers) -> Answer {
        let counts = counts(buffers);
        let done = tables::kekulize(&mut buffers.atoms, &mut buffers.bonds, counts, &buffers.row);
        answer(done, |()| Answer::default())
    }

    fn sides(&self, buffers: &mut Buffers) -> Answer {
        let counts = counts(buffers);
        let told = tables::sides(&buffers.atoms, &buffers.bonds, counts, &mut buffers.row);
        answer(told, |()| Answer::default())
    }

    fn same(&self, first: &mut Buffers, second: &mut Buffers) -> Answer {
        let one = Tables {
            atoms: &first.atoms,
            bonds: &first.bonds,
            counts: counts(first),
        };
        let other = Tables {
            atoms: &second.atoms,
            bonds: &second.bonds,
            counts: counts(second),
        };
        let (row1, row2) = (&mut first.row, &mut second.row);
        let told = tables::same(one, other, row1, row2, &mut first.renumbering);
        answer(told, |is_same| Answer::of(usize::from(is_same)))
    }

    fn write(&self, buffers: &mut Buffers) -> Answer {
        let counts = counts(buffers);
        let written = tables::write(
            &buffers.atoms,
            &buffers.bonds,
            counts,
            &mut buffers.text,
            &mut buffers.renumbering,
        );
        answer(written, |length| Answer::of(length))
    }
}

fn read_answer(read: Result<Read, Refusal>) -> Answer {
    answer(read, |Read { counts, overfull }| {
        Answer::of_read(counts.atoms, counts.bonds, overfull)
    })
}

fn fed(Fed { answer, state }: Fed) -> (Answer, State) {
    (read_answer(answer), state)
}

impl InPieces for Proved {
    type State = State;

    fn start(&self, buffers: &mut Buffers) -> (Answer, State) {
        fed(pieces::start(&mut buffers.atoms, &mut buffers.bonds))
    }

    fn feed(&self, state: &State, piece: &[u8], buffers: &mut Buffers) -> (Answer, State) {
        let (atoms, bonds) = (&mut buffers.atoms, &mut buffers.bonds);
        fed(pieces::feed(state, piece, atoms, bonds))
    }

    fn end(&self, state: &State, buffers: &mut Buffers) -> (Answer, State) {
        fed(pieces::end(state, &mut buffers.atoms, &mut buffers.bonds))
    }
}
