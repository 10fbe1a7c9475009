//! Measures the pairs of `compare::hard`: for each family the slowest pair, in CPU time. Each pair is
//! asked in a process of its own, which is ended when it takes longer than a limit.
//! `bench-hard [SECONDS]`, `bench-hard FAMILY PAIR` for one pair, or `bench-hard texts` for the pairs as
//! texts, which `peers/peers.py` hands to other libraries.

#[path = "../clock.rs"]
mod clock;

use balsa_reference::write;
use compare::buffers::Buffers;
use compare::hard::families;
use compare::implementation::{Answer, Implementation};
use compare::proved::Proved;
use std::env;
use std::process::{Command, Stdio};
use std::thread;
use std::time::{Duration, Instant};

fn main() {
    let words: Vec<String> = env::args().skip(1).collect();
    if words == ["texts"] {
        return texts();
    }
    let numbers: Vec<usize> = words.iter().filter_map(|word| word.parse().ok()).collect();
    match numbers[..] {
        [family, pair] => one(family, pair),
        [seconds] => all(Duration::from_secs(seconds as u64)),
        _ => all(Duration::from_secs(2)),
    }
}

/// Asks one pair, and prints the milliseconds.
fn one(family: usize, pair: usize) {
    let families = families();
    let (one, other, is_same) = &families[family].pairs[pair];
    let (mut first, mut second) = (Buffers::clean(one), Buffers::clean(other));
    let mut answer = Answer::default();
    let time = clock::time(|| answer = Proved.same(&mut first, &mut second));
    assert_eq!(answer, Answer::of(usize::from(*is_same)), "a wrong answer");
    println!("{}", time.as_secs_f64() * 1e3);
}

/// Prints each pair as a line: the family, the answer and both texts. A pair that cannot be written is left out.
fn texts() {
    for family in families() {
        for (one, other, is_same) in &family.pairs {
            let answer = if *is_same { "same" } else { "different" };
            if let (Ok(one), Ok(other)) = (write(one), write(other)) {
                let [one, other] = [one, other].map(|w| String::from_utf8(w.text).expect("ASCII"));
                println!("{}\t{answer}\t{one}\t{other}", family.name);
            }
        }
    }
}

/// The slowest pairs of each family, "yes" and "no", and how many took over 50 milliseconds.
fn all(limit: Duration) {
    println!("CPU milliseconds of the slowest pair; a pair is ended after {limit:?}");
    println!(
        "{:<50}{:>6}{:>10}{:>10}{:>10}",
        "", "pairs", "same", "different", "over 50"
    );
    for (number, family) in families().iter().enumerate() {
        let mut worst = [0f64; 2];
        let mut over = Vec::new();
        for (pair, (.., is_same)) in family.pairs.iter().enumerate() {
            let time = limited(number, pair, limit);
            let slot = &mut worst[usize::from(!*is_same)];
            *slot = slot.max(time);
            if time > 50.0 {
                over.push(pair);
            }
        }
        let [same, different] = worst.map(|time| match time {
            _ if time.is_infinite() => "ended".to_string(),
            _ => format!("{time:.2}"),
        });
        println!(
            "{:<50}{:>6}{same:>10}{different:>10}{:>10}  {over:?}",
            family.name,
            family.pairs.len(),
            over.len()
        );
    }
}

/// The milliseconds for a pair, infinite if its process was ended.
fn limited(family: usize, pair: usize, limit: Duration) -> f64 {
    let program = env::current_exe().expect("the path of this program");
    let words = [family, pair].map(|number| number.to_string());
    let mut child = Command::new(program)
        .args(words)
        .stdout(Stdio::piped())
        .spawn()
        .expect("a process");
    let start = Instant::now();
    while start.elapsed() < limit {
        if child.try_wait().expect("its state").is_some() {
            let output = child.wait_with_output().expect("its output").stdout;
            let text = String::from_utf8(output).expect("digits");
            return text.trim().parse().expect("a time");
        }
        thread::sleep(Duration::from_millis(1));
    }
    child.kill().expect("its end");
    child.wait().expect("its end");
    f64::INFINITY
}
