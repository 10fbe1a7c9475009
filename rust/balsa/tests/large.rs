//! Every call but `replay` on molecules near the limits: its answer, and its time, which is printed
//! (`cargo test --release --test large -- --nocapture`).

mod graphs;

use balsa::tables::{self, Counts, ATOM_TABLE, BOND_TABLE, RENUMBERING, ROW, TEXT};
use balsa::Code;
use graphs::{families, MOST};
use std::time::{Duration, Instant};

/// The times of a call are of this many runs, of which the quickest counts.
const RUNS: usize = 3;
/// The matchings that are asked for after the first.
const NEXTS: usize = 10;

/// What a call answers, and how long it takes.
fn timed<T>(mut call: impl FnMut() -> T) -> (T, Duration) {
    let mut run = || {
        let start = Instant::now();
        (call(), start.elapsed())
    };
    let mut best = run();
    for _ in 1..RUNS {
        let other = run();
        best = if other.1 < best.1 { other } else { best };
    }
    best
}

/// Times by the name of the call.
#[derive(Default)]
struct Times(Vec<(&'static str, Duration)>);

impl Times {
    fn add<T>(&mut self, call: &'static str, (answer, time): (T, Duration)) -> T {
        self.0.push((call, time));
        answer
    }

    fn print(&self, name: &str, counts: Counts) {
        let times = self.0.iter().map(|(call, time)| {
            let milliseconds = time.as_secs_f64() * 1e3;
            format!(" {call} {milliseconds:.2}")
        });
        let times: String = times.collect();
        println!(
            "{name} ({} atoms, {} bonds), ms:{times}",
            counts.atoms, counts.bonds
        );
    }
}

/// Writes the tables, if they can be written, and reads the text.
fn write_and_read(
    atoms: &[i32],
    bonds: &[i32],
    counts: Counts,
    is_matchable: bool,
    times: &mut Times,
) {
    let mut text = vec![0; TEXT];
    let mut numbers = vec![0; RENUMBERING];
    let written = timed(|| tables::write(atoms, bonds, counts, &mut text, &mut numbers));
    match times.add("write", written) {
        Ok(length) => {
            let mut atoms = vec![0; ATOM_TABLE];
            let mut bonds = vec![0; BOND_TABLE];
            let read = timed(|| tables::read(&text[..length], &mut atoms, &mut bonds));
            match times.add("read", read) {
                Ok(read) => assert!(is_matchable && read.counts == counts),
                Err(refusal) => assert!(!is_matchable && refusal.code == Code::Unmatchable),
            }
        }
        Err(code) => assert!(matches!(code, Code::ManyBridges | Code::DeepWriting)),
    }
}

#[test]
fn families_near_the_limits() {
    for (name, graph, known) in families() {
        let (mut atoms, mut bonds, counts) = graph.tables();
        assert!(counts.atoms <= MOST.0 && counts.bonds <= MOST.1, "{name}");
        let mut times = Times::default();
        let mut row = vec![0; ROW];
        let checked = timed(|| tables::check(&atoms, &bonds, counts));
        assert_eq!(times.add("check", checked), Ok(()), "{name}");
        let first = timed(|| tables::first(&atoms, &bonds, counts, &mut row));
        let is_matchable = times.add("first", first).is_ok();
        assert!(known.is_none_or(|known| known == is_matchable), "{name}");
        let is_matching = timed(|| tables::is_matching(&atoms, &bonds, counts, &row));
        assert_eq!(times.add("is_matching", is_matching), Ok(is_matchable));
        let mut later = row.clone();
        let mut slowest = Duration::ZERO;
        for _ in 0..NEXTS {
            let before = later.clone();
            let next = timed(|| {
                later.clone_from(&before);
                tables::next(&atoms, &bonds, counts, &mut later)
            });
            slowest = slowest.max(next.1);
            if next.0 != Ok(tables::Step::Given) {
                break;
            }
        }
        times.add("slowest next", ((), slowest));
        write_and_read(&atoms, &bonds, counts, is_matchable, &mut times);
        if is_matchable {
            let start = Instant::now();
            assert_eq!(
                tables::kekulize(&mut atoms, &mut bonds, counts, &row),
                Ok(())
            );
            times.add("kekulize", ((), start.elapsed()));
            write_and_read(&atoms, &bonds, counts, true, &mut times);
        }
        times.print(&name, counts);
    }
}

/// A bridge number, as it is written.
fn bridge(number: usize) -> String {
    let percent = if number > 9 { "%" } else { "" };
    format!("{percent}{number}")
}

/// All bonds between some atoms, by bridges: each atom closes those from the atoms before it, in
/// their order, and opens those to the atoms after it.
fn complete(atoms: usize) -> String {
    let mut text = String::new();
    let mut free: Vec<usize> = (1..100).rev().collect();
    let mut open = vec![Vec::new(); atoms];
    for atom in 0..atoms {
        text += "*";
        for number in std::mem::take(&mut open[atom]) {
            text += &bridge(number);
            free.push(number);
        }
        free.sort_unstable_by(|one, other| other.cmp(one));
        for later in &mut open[(atom + 2).min(atoms)..] {
            let number = free.pop().expect("few enough bridges");
            text += &bridge(number);
            later.push(number);
        }
    }
    text
}

/// Six atoms with a hydrogen and marks in a row, each joined to the third from it.
const MARKED: &str = "[C@H]1[C@@H]2[C@@H]3[C@H]1[C@H]2[C@@H]3";

/// Texts in which each of many bridges looks at all bonds, and the longest one.
#[test]
fn texts_near_the_limits() {
    let dotted = |part: &str, count: usize| vec![part; count].join(".");
    let texts = [
        ("500 pairs joined by bridges", dotted("C1.C1", 500), 500),
        (
            "a chain joined by bridges",
            format!("C1.{}.C1", dotted("C11", 998)),
            999,
        ),
        ("5 complete graphs of 20", dotted(&complete(20), 5), 950),
        ("12 complete graphs of 14", dotted(&complete(14), 12), 1092),
        ("73 complete graphs of 6", dotted(&complete(6), 73), 1095),
        ("a chain of 1,000", "C".repeat(1000), 999),
        (
            "a text of 16,384 bytes",
            "C".repeat(13) + &"-[999CoH9-9:9999]".repeat(963),
            975,
        ),
        (
            "726 atoms with tetrahedral marks",
            format!("F{}F", MARKED.repeat(121)),
            1090,
        ),
    ];
    for (name, text, count) in texts {
        let mut times = Times::default();
        let mut atoms = vec![0; ATOM_TABLE];
        let mut bonds = vec![0; BOND_TABLE];
        let read = timed(|| tables::read(text.as_bytes(), &mut atoms, &mut bonds));
        let counts = times.add("read", read).expect(name).counts;
        assert_eq!(counts.bonds, count, "{name}");
        write_and_read(&atoms, &bonds, counts, true, &mut times);
        times.print(name, counts);
    }
}
