//! Two implementations side by side: every call is made to both, and their answers and all
//! buffers must be equal afterwards.

use crate::buffers::Buffers;
use crate::implementation::{Answer, Implementation};

/// A call whose answers or buffers differ.
#[derive(Debug)]
pub struct Difference {
    /// The call.
    pub call: &'static str,
    /// Both answers.
    pub answers: [Answer; 2],
    /// The buffers that differ.
    pub buffers: Vec<&'static str>,
}

/// How many matchings of a molecule are asked for at most.
const MOST_MATCHINGS: usize = 40;

struct Pair<'a> {
    implementations: [&'a dyn Implementation; 2],
    buffers: [Buffers; 2],
}

impl<'a> Pair<'a> {
    fn new(one: &'a dyn Implementation, other: &'a dyn Implementation, buffers: &Buffers) -> Self {
        Pair {
            implementations: [one, other],
            buffers: [buffers.clone(), buffers.clone()],
        }
    }

    /// Makes a call to both.
    fn call(
        &mut self,
        call: &'static str,
        run: impl Fn(&dyn Implementation, &mut Buffers) -> Answer,
    ) -> Result<Answer, Difference> {
        let [one, other] = self.implementations;
        let answers = [
            run(one, &mut self.buffers[0]),
            run(other, &mut self.buffers[1]),
        ];
        if answers[0] == answers[1] && self.buffers[0] == self.buffers[1] {
            return Ok(answers[0]);
        }
        Err(Difference {
            call,
            answers,
            buffers: different(&self.buffers[0], &self.buffers[1]),
        })
    }

    /// The calls on tables: the list of matchings from the row at hand and from the first one, a
    /// list of calls at once, and the texts before and after kekulizing.
    fn calls_on_tables(&mut self) -> Result<(), Difference> {
        self.call("check", |it, buffers| it.check(buffers))?;
        self.call("is_matching", |it, buffers| it.is_matching(buffers))?;
        self.call("write", |it, buffers| it.write(buffers))?;
        let start = self.buffers.clone();
        self.call("replay", |it, buffers| it.replay(buffers))?;
        self.buffers = start.clone();
        self.call("kekulize by the row", |it, buffers| it.kekulize(buffers))?;
        self.buffers = start.clone();
        self.call("sides", |it, buffers| it.sides(buffers))?;
        self.buffers = start.clone();
        self.forced_matchings()?;
        self.buffers = start;
        self.later_matchings()?;
        self.call("first", |it, buffers| it.first(buffers))?;
        let first = self.buffers.clone();
        self.later_matchings()?;
        self.buffers = first;
        self.call("kekulize by the first", |it, buffers| it.kekulize(buffers))?;
        self.call("write kekulized", |it, buffers| it.write(buffers))?;
        self.call("sides kekulized", |it, buffers| it.sides(buffers))?;
        Ok(())
    }

    /// The calls of the engine that forces pairs: the next from the row at hand, the first with the
    /// forced list, and the next from there.
    fn forced_matchings(&mut self) -> Result<(), Difference> {
        self.call("next_forced", |it, buffers| it.next_forced(buffers))?;
        self.call("first_forced", |it, buffers| it.first_forced(buffers))?;
        for _ in 0..MOST_MATCHINGS {
            let answer = self.call("next_forced", |it, buffers| it.next_forced(buffers))?;
            if !answer.is_accepted() || answer.numbers[0] == 1 {
                break;
            }
        }
        Ok(())
    }

    fn later_matchings(&mut self) -> Result<(), Difference> {
        for _ in 0..MOST_MATCHINGS {
            let answer = self.call("next", |it, buffers| it.next(buffers))?;
            if !answer.is_accepted() || answer.numbers[0] == 1 {
                break;
            }
        }
        Ok(())
    }
}

/// The names of the buffers that differ.
fn different(one: &Buffers, other: &Buffers) -> Vec<&'static str> {
    let names = [
        ("atoms", one.atoms != other.atoms),
        ("bonds", one.bonds != other.bonds),
        ("counts", one.counts != other.counts),
        ("row", one.row != other.row),
        ("pairs", one.pairs != other.pairs),
        ("text", one.text != other.text),
        ("renumbering", one.renumbering != other.renumbering),
        ("codes", one.codes != other.codes),
    ];
    let differs = names.into_iter().filter(|(_, differs)| *differs);
    differs.map(|(name, _)| name).collect()
}

/// Compares two implementations on a text: kekulizing it in one call, reading it, and all calls on what
/// was read.
pub fn compare_text(
    one: &dyn Implementation,
    other: &dyn Implementation,
    text: &[u8],
    buffers: &Buffers,
) -> Result<(), Difference> {
    let mut pair = Pair::new(one, other, buffers);
    pair.call("standardize", |it, buffers| it.standardize(text, buffers))?;
    pair = Pair::new(one, other, buffers);
    let answer = pair.call("read", |it, buffers| it.read(text, buffers))?;
    if answer.is_accepted() {
        pair.calls_on_tables()?;
    }
    Ok(())
}

/// Compares two implementations on tables and a row.
pub fn compare_tables(
    one: &dyn Implementation,
    other: &dyn Implementation,
    buffers: &Buffers,
) -> Result<(), Difference> {
    Pair::new(one, other, buffers).calls_on_tables()
}

/// Compares two implementations on two molecules that may be the same compound; gives their answer.
pub fn compare_same(
    one: &dyn Implementation,
    other: &dyn Implementation,
    molecules: &[Buffers; 2],
) -> Result<Answer, Difference> {
    let run = |implementation: &dyn Implementation| {
        let [mut first, mut second] = molecules.clone();
        (
            implementation.same(&mut first, &mut second),
            [first, second],
        )
    };
    let ((answer, left), (answer2, left2)) = (run(one), run(other));
    if answer == answer2 && left == left2 {
        return Ok(answer);
    }
    let differing = [0, 1].map(|place| different(&left[place], &left2[place]));
    Err(Difference {
        call: "same",
        answers: [answer, answer2],
        buffers: differing.concat(),
    })
}
