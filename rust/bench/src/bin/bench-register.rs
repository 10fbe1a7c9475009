//! Measures how many bodies a second are added to a register: in memory by the proved library and by
//! the reference (CPU time, the quickest of some rounds), and in a file with its syncs (elapsed time).
//! `bench-register FILE`: the file is made anew, and removed at the end.

#[path = "../clock.rs"]
mod clock;

use balsa::register::REGISTER;
use balsa::{FileError, Register, RegisterFile};
use balsa_reference::register;
use std::hint::black_box;
use std::time::{Duration, Instant};

const BODY: [u8; 500] = [7; 500];
/// The bodies of this length that a register has room for.
const BODIES: usize = 64;
const ROUNDS: usize = 20;
/// The registers that are filled in a round.
const REGISTERS: usize = 200;
/// The registers that are filled in the file.
const FILLED: usize = 8;

fn main() -> Result<(), FileError> {
    let Some(path) = std::env::args().nth(1) else {
        eprintln!("bench-register FILE");
        std::process::exit(2);
    };
    println!("bodies of {} bytes added per second", BODY.len());
    let mut register = Register::new(vec![0; REGISTER]);
    show(
        "in memory, proved",
        in_memory(|| fill_proved(&mut register)),
    );
    let mut bytes = vec![0; REGISTER];
    show(
        "in memory, reference",
        in_memory(|| fill_reference(&mut bytes)),
    );
    show("in a file, with its syncs", in_a_file(&path)?);
    std::fs::remove_file(&path)?;
    Ok(())
}

fn show(name: &str, second_for_each: f64) {
    println!("{name:<28}{:>12.0}", 1.0 / second_for_each);
}

fn fill_proved(register: &mut Register<Vec<u8>>) {
    register.empty().expect("it is long enough");
    for tag in 0..BODIES as u16 {
        register.add(tag, black_box(&BODY)).expect("there is room");
    }
}

fn fill_reference(bytes: &mut [u8]) {
    register::empty(bytes).expect("it is long enough");
    for tag in 0..BODIES as u16 {
        register::add(bytes, tag, black_box(&BODY)).expect("there is room");
    }
}

/// The CPU seconds for a body, in the quickest round.
fn in_memory(mut fill: impl FnMut()) -> f64 {
    let round = |_| clock::time(|| (0..REGISTERS).for_each(|_| fill()));
    let least = (0..ROUNDS).map(round).min().unwrap_or_default();
    mean(least, REGISTERS * BODIES)
}

/// The elapsed seconds for a body; emptying is not counted.
fn in_a_file(path: &str) -> Result<f64, FileError> {
    let mut file = RegisterFile::create(path)?;
    let mut elapsed = Duration::ZERO;
    for _ in 0..FILLED {
        file.empty()?;
        let start = Instant::now();
        for tag in 0..BODIES as u16 {
            file.add(tag, &BODY)?;
        }
        elapsed += start.elapsed();
    }
    Ok(mean(elapsed, FILLED * BODIES))
}

fn mean(time: Duration, bodies: usize) -> f64 {
    time.as_secs_f64() / bodies as f64
}
