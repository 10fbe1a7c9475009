//! The report as a call, as a program and of the reference: one and the same, however the input comes.

use compare::molecules::Effort;
use compare::random::Random;
use compare::texts;
use std::io::Write;
use std::process::{Command, Stdio};
use std::thread;

const CORPUS: &[u8] = include_bytes!("../../../corpus/real.smi");
const PROGRAM: &str = concat!(env!("CARGO_MANIFEST_DIR"), "/../../target/bin/report");

/// What the program writes for an input that comes in pieces of these lengths, over and over.
fn program(input: &[u8], pieces: &[usize]) -> Vec<u8> {
    let mut child = Command::new(PROGRAM)
        .stdin(Stdio::piped())
        .stdout(Stdio::piped())
        .spawn()
        .expect("`c/make-report` makes the program");
    let mut stdin = child.stdin.take().unwrap();
    thread::scope(|scope| {
        scope.spawn(move || {
            let mut rest = input;
            for &length in pieces.iter().cycle() {
                let (piece, later) = rest.split_at(length.min(rest.len()));
                stdin.write_all(piece).unwrap();
                rest = later;
                if rest.is_empty() {
                    break;
                }
            }
        });
        child.wait_with_output().unwrap().stdout
    })
}

fn compare(input: &[u8], pieces: &[usize]) {
    let call = balsa::report(input);
    let mut reference = Vec::new();
    balsa_reference::report(input, &mut reference).unwrap();
    assert_same(&call, &reference, "the reference");
    assert_same(&call, &program(input, pieces), "the program");
}

fn assert_same(call: &[u8], other: &[u8], name: &str) {
    let lines = |report: &[u8]| -> Vec<String> {
        let text = String::from_utf8_lossy(report);
        text.split_inclusive('\n').map(str::to_string).collect()
    };
    let (call, other) = (lines(call), lines(other));
    for (one, two) in call.iter().zip(&other) {
        assert_eq!(one, two, "the call and {name}");
    }
    assert_eq!(call.len(), other.len(), "the call and {name}");
}

/// Texts on lines; the last one is not finished.
fn generated(count: usize, seed: u64) -> Vec<u8> {
    let mut random = Random::new(seed);
    let texts: Vec<_> = (0..count)
        .map(|_| texts::text(&mut random, Effort::Plain))
        .collect();
    texts.join(&b'\n')
}

#[test]
fn the_sample() {
    let report = b"balsa report\n\
        1: 0 6 6 0 101010 C1=CC=CC=C1\n\
        2: 7 2\n\
        3: 0 0 0 0 - -\n\
        accepted 2 refused 1\n";
    assert_eq!(program(b"c1ccccc1\nC11\n\n", &[usize::MAX]), report);
}

#[test]
fn the_corpus() {
    compare(CORPUS, &[usize::MAX]);
}

#[test]
fn generated_texts() {
    for seed in 1..5 {
        compare(&generated(2500, seed), &[usize::MAX]);
    }
}

#[test]
fn an_input_in_pieces() {
    compare(&generated(300, 9), &[1, 2, 3, 50, 16_384]);
    compare(b"C\nCC\n\n\nc1ccccc1", &[1]);
}

#[test]
fn odd_inputs() {
    for input in [&b""[..], b"\n", b"\n\n", b"\r\n\r", b"\0\xff\n\xff", b"C"] {
        compare(input, &[usize::MAX]);
    }
    let mut long = vec![b'C'; 300_000];
    long.push(b'\n');
    long.extend([b'N'; 16_384]);
    compare(&long, &[65_536]);
    compare(&[b'\n'; 70_000], &[65_535]);
}
