//! Measures the CPU time per text of reading, of finding the first matching, of kekulizing, of
//! writing, of all four and of the one call that does the same, over the corpus and over its texts of about 40 bytes; and of reading
//! texts of growing length. Each figure is that of the quickest round: what else the machine does can
//! only add to it.

mod clock;
mod lengths;
mod subject;

use balsa_reference::element::{searched, symbol_of};
use clock::time;
use compare::buffers::Buffers;
use compare::implementation::Reference;
use compare::proved::Proved;
use lengths::text_of_length;
use std::hint::black_box;
use std::time::Duration;
use subject::{Molecules, OnTables, Subject};

const CORPUS: &str = include_str!("../../../corpus/real.smi");
/// The rounds, of which the quickest counts.
const ROUNDS: usize = 20;
/// The texts whose slots are filled before the next call is measured.
const BATCH: usize = 64;
const LENGTHS: [usize; 4] = [100, 1000, 4000, 16_000];
/// The readings of each length in a round.
const READINGS: usize = 500;

/// The calls that are measured, the four of them together, and the one call that does what they do.
const CALLS: [&str; 6] = [
    "read",
    "first",
    "kekulize",
    "write",
    "all four",
    "standardize",
];

fn main() {
    let texts: Vec<&[u8]> = CORPUS.lines().map(str::as_bytes).collect();
    let about_40: Vec<&[u8]> = texts
        .iter()
        .copied()
        .filter(|text| (36..=44).contains(&text.len()))
        .collect();
    println!("CPU time in microseconds per text, quickest of {ROUNDS} rounds");
    compare_on("the corpus", &texts);
    compare_on("its texts of 36 to 44 bytes", &about_40);
    println!("reading one text {READINGS} times");
    row("", LENGTHS.map(|length| format!("{length} bytes")));
    row("reference", measure_lengths(&Molecules));
    row("reference on tables", measure_lengths(&OnTables(Reference)));
    row("proved on tables", measure_lengths(&OnTables(Proved)));
    compare_symbols();
}

/// Measures how long the symbol at two bytes takes: looked up directly, and searched in the list.
fn compare_symbols() {
    let pairs: Vec<[u8; 2]> = (1..=118)
        .map(|element| {
            let symbol = symbol_of(element).as_bytes();
            [symbol[0], symbol.get(1).copied().unwrap_or(b']')]
        })
        .collect();
    let nanoseconds = |ask: &dyn Fn(u8, u8)| {
        let mut task = || {
            for _ in 0..READINGS {
                pairs.iter().for_each(|&[first, second]| ask(first, second));
            }
        };
        let least = (0..ROUNDS).map(|_| time(&mut task)).min();
        figure(1000.0 * mean(least.unwrap_or_default(), READINGS * pairs.len()))
    };
    println!("the 118 symbols, nanoseconds for each");
    row("", ["lookup".into(), "search".into()]);
    row(
        "proved, reference",
        [
            nanoseconds(&|first, second| {
                black_box(balsa::symbol(first, Some(second)));
            }),
            nanoseconds(&|first, second| {
                black_box(searched(first, Some(second)).or_else(|| searched(first, None)));
            }),
        ],
    );
}

/// Measures the reference and the proved library on the texts, and prints the times, their ratios and
/// how many texts a second that is.
fn compare_on(name: &str, texts: &[&[u8]]) {
    let bytes: usize = texts.iter().map(|text| text.len()).sum();
    let mean = bytes as f64 / texts.len().max(1) as f64;
    println!("{name}: {} texts, {mean:.1} bytes in the mean", texts.len());
    let molecules = measure_texts(&Molecules, texts);
    let tables = measure_texts(&OnTables(Reference), texts);
    let proved = measure_texts(&OnTables(Proved), texts);
    row("", CALLS.map(String::from));
    row("reference", molecules.map(figure));
    row("reference on tables", tables.map(figure));
    row("proved on tables", proved.map(figure));
    row(
        "zeroing its buffers",
        measure_zeroing(texts.len()).map(figure),
    );
    let ratio =
        |others: [f64; 6]| [0, 1, 2, 3, 4, 5].map(|call| figure(proved[call] / others[call]));
    row("ratio to reference", ratio(molecules));
    row("ratio on tables", ratio(tables));
    row(
        "texts per second",
        proved.map(|time| format!("{:.0}", 1e6 / time)),
    );
}

fn row<const N: usize>(name: &str, cells: [String; N]) {
    let cells: String = cells.iter().map(|cell| format!("{cell:>12}")).collect();
    println!("{name:<24}{cells}");
}

/// A time or a ratio as it is shown.
fn figure(number: f64) -> String {
    format!("{number:.3}")
}

/// The mean time of a call in microseconds.
fn mean(time: Duration, calls: usize) -> f64 {
    time.as_secs_f64() * 1e6 / calls.max(1) as f64
}

/// The mean times of each call, in the quickest round of each.
fn measure_texts<S: Subject>(subject: &S, texts: &[&[u8]]) -> [f64; 6] {
    let mut slots = vec![subject.slot(); BATCH];
    let mut least = [Duration::MAX; 6];
    let mut accepted = 0;
    for _ in 0..ROUNDS {
        let mut times = [Duration::ZERO; 6];
        accepted = texts
            .chunks(BATCH)
            .map(|batch| measure_batch(subject, batch, &mut slots, &mut times))
            .sum();
        let slot = &mut slots[0];
        times[4] = time(|| texts.iter().for_each(|text| all_four(subject, text, slot)));
        times[5] = time(|| {
            texts
                .iter()
                .for_each(|text| standardize(subject, text, slot))
        });
        for (least, time) in least.iter_mut().zip(times) {
            *least = time.min(*least);
        }
    }
    let all = texts.len();
    let calls = [all, accepted, accepted, accepted, all, all];
    [0, 1, 2, 3, 4, 5].map(|call| mean(least[call], calls[call]))
}

/// The mean times of zeroing what the rules ask each call to zero or fill: both tables, the row,
/// nothing, the text with the renumbering; all of them; and the text alone. It is a part of the times of
/// the calls on tables.
fn measure_zeroing(times: usize) -> [f64; 6] {
    let mut slots = vec![OnTables(Proved).slot(); BATCH];
    let mut measure = |used: usize, zero: &dyn Fn(&mut Buffers)| {
        let mut task = || {
            for number in 0..times {
                let slot = &mut slots[number % used];
                zero(slot);
                black_box(slot);
            }
        };
        let least = (0..ROUNDS).map(|_| time(&mut task)).min();
        mean(least.unwrap_or_default(), times)
    };
    let tables = |slot: &mut Buffers| {
        slot.atoms.fill(0);
        slot.bonds.fill(0);
    };
    let row = |slot: &mut Buffers| slot.row.fill(0);
    let written = |slot: &mut Buffers| {
        slot.text.fill(0);
        slot.renumbering.fill(0);
    };
    let all = |slot: &mut Buffers| {
        tables(slot);
        row(slot);
        written(slot);
    };
    [
        measure(BATCH, &tables),
        measure(BATCH, &row),
        0.0,
        measure(BATCH, &written),
        measure(1, &all),
        measure(1, &|slot: &mut Buffers| slot.text.fill(0)),
    ]
}

/// Adds the times of each call on a batch of texts, and tells how many were accepted.
fn measure_batch<S: Subject>(
    subject: &S,
    batch: &[&[u8]],
    slots: &mut [S::Slot],
    times: &mut [Duration; 6],
) -> usize {
    let mut accepted = 0;
    times[0] += time(|| {
        for text in batch {
            accepted += usize::from(subject.read(text, &mut slots[accepted]));
        }
    });
    let slots = &mut slots[..accepted];
    times[1] += time(|| slots.iter_mut().for_each(|slot| subject.first(slot)));
    times[2] += time(|| slots.iter_mut().for_each(|slot| subject.kekulize(slot)));
    times[3] += time(|| slots.iter_mut().for_each(|slot| subject.write(slot)));
    accepted
}

fn all_four<S: Subject>(subject: &S, text: &[u8], slot: &mut S::Slot) {
    if subject.read(text, slot) {
        subject.first(slot);
        subject.kekulize(slot);
        subject.write(slot);
    }
    black_box(slot);
}

fn standardize<S: Subject>(subject: &S, text: &[u8], slot: &mut S::Slot) {
    subject.standardize(text, slot);
    black_box(slot);
}

/// The mean times of reading a text of each length, in the quickest round.
fn measure_lengths<S: Subject>(subject: &S) -> [String; 4] {
    let mut slot = subject.slot();
    LENGTHS.map(|length| {
        let text = text_of_length(length);
        assert!(
            subject.read(&text, &mut slot),
            "{length} bytes are accepted"
        );
        let mut task = || {
            for _ in 0..READINGS {
                black_box(subject.read(black_box(&text), &mut slot));
            }
        };
        let least = (0..ROUNDS).map(|_| time(&mut task)).min();
        figure(mean(least.unwrap_or_default(), READINGS))
    })
}
