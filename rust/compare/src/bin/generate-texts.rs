//! Prints random texts, one on a line, for comparing report programs.

use compare::molecules::Effort;
use compare::random::Random;
use compare::texts::text;
use std::io::{self, Write};
use std::process::ExitCode;

fn main() -> ExitCode {
    let arguments: Vec<String> = std::env::args().skip(1).collect();
    let (numbers, effort) = match &arguments[..] {
        [count, seed] => ((count.parse(), seed.parse()), Effort::Plain),
        [count, seed, hard] if hard == "hard" => ((count.parse(), seed.parse()), Effort::Hard),
        _ => return usage(),
    };
    let (Ok(count), Ok(seed)) = numbers else {
        return usage();
    };
    match print(count, seed, effort) {
        Ok(()) => ExitCode::SUCCESS,
        Err(error) => {
            eprintln!("{error}");
            ExitCode::FAILURE
        }
    }
}

fn usage() -> ExitCode {
    eprintln!("usage: generate-texts COUNT SEED [hard]");
    ExitCode::FAILURE
}

fn print(count: u64, seed: u64, effort: Effort) -> io::Result<()> {
    let mut output = io::BufWriter::new(io::stdout().lock());
    let mut random = Random::new(seed);
    for _ in 0..count {
        output.write_all(&text(&mut random, effort))?;
        output.write_all(b"\n")?;
    }
    output.flush()
}
