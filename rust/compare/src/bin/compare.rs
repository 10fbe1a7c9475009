//! Makes the calls of every implementation on random texts, whole and in pieces, tables, pairs of
//! molecules, states of a reading and registers of withdrawn texts, checks the laws of the paper on each,
//! and compares each with the reference.

use compare::buffers::Buffers;
use compare::implementation::{Implementation, Reference};
use compare::molecules::Effort;
use compare::pair::{compare_same, compare_tables, compare_text};
use compare::pieces::{compare_pieces, cut, shown};
use compare::proved::Proved;
use compare::random::Random;
use compare::states::{check_state, damaged};
use compare::withdrawals::{check_keys, Question};
use compare::{drawings, laws, molecules, texts};
use std::process::ExitCode;

/// The implementations that are compared with the reference.
const OTHERS: [&dyn Implementation; 1] = [&Proved];

fn main() -> ExitCode {
    let arguments: Vec<String> = std::env::args().skip(1).collect();
    let numbers: Vec<u64> = arguments
        .iter()
        .take(2)
        .flat_map(|word| word.parse())
        .collect();
    let effort = match arguments.get(2).map(String::as_str) {
        None => Effort::Plain,
        Some("hard") => Effort::Hard,
        Some(_) => return usage(),
    };
    let [count, seed] = numbers[..] else {
        return usage();
    };
    let failures = (0..count).filter(|&case| !run(seed, case, effort)).count();
    println!("{count} cases from seed {seed}: {failures} failed");
    if failures == 0 {
        ExitCode::SUCCESS
    } else {
        ExitCode::FAILURE
    }
}

fn usage() -> ExitCode {
    eprintln!("usage: compare COUNT SEED [hard]");
    ExitCode::FAILURE
}

/// Runs one case: a text, whole and in pieces, tables, two molecules, a damaged state, and a question to a
/// register.
fn run(seed: u64, case: u64, effort: Effort) -> bool {
    let mut random = Random::new(seed.wrapping_mul(1 << 32).wrapping_add(case));
    let text = texts::text(&mut random, effort);
    let dirty = Buffers::dirty(&mut random);
    let buffers = Buffers::random(&mut random, effort);
    let pair = drawings::pair(&mut random, effort);
    let pair = pair.map(|molecule| Buffers::holding(&mut random, &molecule));
    let mut is_right = true;
    let mut tell = |what: &str, name: &str, message: String| {
        println!("case {case}: {what}: {name}: {message}");
        is_right = false;
    };
    for implementation in OTHERS
        .iter()
        .copied()
        .chain([&Reference as &dyn Implementation])
    {
        if let Err(message) = laws::check(implementation, &buffers) {
            tell("tables", implementation.name(), message);
        }
    }
    for other in OTHERS {
        if let Err(difference) = compare_text(&Reference, other, &text, &dirty) {
            let shown = String::from_utf8_lossy(&text);
            tell("text", other.name(), format!("{difference:?}\n{shown}"));
        }
        if let Err(difference) = compare_tables(&Reference, other, &buffers) {
            tell(
                "tables",
                other.name(),
                format!("{difference:?}\n{buffers:?}"),
            );
        }
        if let Err(message) = laws::check_same(other, &pair) {
            tell("pair", other.name(), format!("{message}\n{pair:?}"));
        }
        if let Err(difference) = compare_same(&Reference, other, &pair) {
            tell("pair", other.name(), format!("{difference:?}\n{pair:?}"));
        }
    }
    let pieces = cut(&mut random, &text);
    if let Err(message) = compare_pieces(&Proved, &mut random, &pieces, &dirty) {
        tell(
            "pieces",
            Proved.name(),
            format!("{message}\n{}", shown(&pieces)),
        );
    }
    let (state, buffers) = damaged(&mut random, &text);
    if let Err(message) = check_state(&state, &text, &buffers) {
        tell("state", Proved.name(), format!("{message}\n{state:?}"));
    }
    let question = Question::random(&mut random, effort);
    if let Err(message) = question.compare() {
        tell(
            "withdrawn",
            Proved.name(),
            format!("{message}\n{question:?}"),
        );
    }
    let molecule = molecules::molecule(&mut random, effort);
    if let Some(Err(message)) = check_keys(&mut random, &molecule) {
        tell("key", Proved.name(), message);
    }
    is_right
}
