//! Measures how long it takes to tell whether two molecules are the same compound, over pairs from the
//! corpus: a text against another drawing of itself with other numbers, two such drawings, and texts of
//! one formula. CPU time of each pair, the quickest of some rounds.
//! `bench-same [MOST]`: only molecules of at most so many atoms.

#[path = "../clock.rs"]
mod clock;

use balsa_reference::Molecule;
use compare::buffers::Buffers;
use compare::corpus;
use compare::drawings::other_drawing;
use compare::implementation::{Answer, Implementation, Reference};
use compare::proved::Proved;
use compare::random::Random;
use std::time::Duration;

const ROUNDS: usize = 5;
/// How many other texts of its formula each text is compared with.
const OTHERS: usize = 3;

fn main() {
    let most = std::env::args().nth(1).and_then(|word| word.parse().ok());
    let mut molecules = corpus::molecules();
    molecules.retain(|molecule| molecule.atoms.len() <= most.unwrap_or(usize::MAX));
    let mut random = Random::new(1);
    let mut drawn = || -> Vec<Molecule> {
        let other = |molecule| other_drawing(&mut random, molecule);
        molecules.iter().map(other).collect()
    };
    let (one, other) = (drawn(), drawn());
    let formulas = corpus::of_one_formula(&molecules, OTHERS);
    println!("CPU time in microseconds for a pair, quickest of {ROUNDS} rounds");
    row("", &["pairs", "same", "mean", "median", "99 %", "worst"]);
    let drawings: Vec<Pair> = molecules.iter().zip(&one).collect();
    show("a text and another drawing", &drawings);
    let drawings: Vec<Pair> = one.iter().zip(&other).collect();
    show("two other drawings", &drawings);
    let of_formula = formulas.iter().map(|&(a, b)| (&molecules[a], &one[b]));
    show("texts of one formula", &of_formula.collect::<Vec<Pair>>());
}

type Pair<'m> = (&'m Molecule, &'m Molecule);

fn row(name: &str, cells: &[&str]) {
    let cells: String = cells.iter().map(|cell| format!("{cell:>10}")).collect();
    println!("{name:<40}{cells}");
}

/// Prints how long the proved library and the reference take.
fn show(name: &str, pairs: &[Pair]) {
    for implementation in [&Proved as &dyn Implementation, &Reference] {
        let measured = pairs.iter().map(|pair| measure(implementation, pair));
        let (mut times, answers): (Vec<f64>, Vec<Answer>) = measured.unzip();
        times.sort_unstable_by(f64::total_cmp);
        let same = answers.iter().filter(|answer| **answer == Answer::of(1));
        let mean = times.iter().sum::<f64>() / times.len() as f64;
        let at = |percent: usize| times[(times.len() - 1) * percent / 100];
        let figures = [mean, at(50), at(99), at(100)].map(|time| format!("{time:.2}"));
        let counts = [pairs.len(), same.count()].map(|count| count.to_string());
        let cells: Vec<&str> = counts
            .iter()
            .chain(&figures)
            .map(|cell| &cell[..])
            .collect();
        row(&format!("{name}, {}", implementation.name()), &cells);
    }
}

/// The microseconds for a pair, in the quickest round, and the answer.
fn measure(implementation: &dyn Implementation, (one, other): &Pair) -> (f64, Answer) {
    let [mut first, mut second] = [one, other].map(|molecule| Buffers::clean(molecule));
    let mut answer = Answer::default();
    let mut least = Duration::MAX;
    for _ in 0..ROUNDS {
        let time = clock::time(|| answer = implementation.same(&mut first, &mut second));
        least = least.min(time);
    }
    (least.as_secs_f64() * 1e6, answer)
}
