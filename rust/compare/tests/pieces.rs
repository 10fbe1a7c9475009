//! Texts in pieces: the corpus; every refusal, told with its byte; damaged states by the whole list; and
//! that the comparison sees faults.

use balsa_reference::pieces_state::Fault;
use balsa_reference::{Molecule, Pieces};
use compare::buffers::Buffers;
use compare::corpus;
use compare::implementation::{Answer, Reference};
use compare::molecules::Effort;
use compare::pieces::{compare_pieces, cut, shown, InPieces};
use compare::proved::Proved;
use compare::random::Random;
use compare::states::{check_state, damaged};
use compare::texts;
use std::collections::BTreeSet;

/// Each text byte by byte and in random pieces, some of them empty.
#[test]
fn the_corpus_in_pieces() {
    let mut random = Random::new(1);
    for text in corpus::TEXTS.lines() {
        let dirty = Buffers::clean(&Molecule::default());
        let bytes: Vec<&[u8]> = text.as_bytes().chunks(1).collect();
        for pieces in [bytes, cut(&mut random, text.as_bytes())] {
            let answer = compare_pieces(&Proved, &mut random, &pieces, &dirty);
            let is_accepted = answer.as_ref().is_ok_and(Answer::is_accepted);
            assert!(is_accepted, "{answer:?} for {}", shown(&pieces));
        }
    }
}

#[test]
fn the_texts_reach_every_refusal() {
    let mut random = Random::new(4);
    let mut codes = BTreeSet::new();
    for _ in 0..4000 {
        let text = texts::text(&mut random, Effort::Plain);
        let pieces = cut(&mut random, &text);
        let dirty = Buffers::dirty(&mut random);
        let answer = compare_pieces(&Proved, &mut random, &pieces, &dirty);
        codes.insert(answer.expect(&shown(&pieces)).code);
    }
    assert_eq!(codes, (0..=11).chain(20..=23).collect());
}

/// A refusal of a long text is told by the feed of one byte that makes it known: the shortest beginning
/// that the reference refuses.
#[test]
fn a_refusal_is_told_with_its_byte() {
    let mut random = Random::new(5);
    let mut told = 0;
    while told < 12 {
        let text = texts::text(&mut random, Effort::Plain);
        if text.len() < 2000 {
            continue;
        }
        let is_refused = |length: usize| Pieces::default().feed(&text[..length]).is_err();
        let lengths: Vec<usize> = (0..=text.len()).collect();
        let first = lengths.partition_point(|&length| !is_refused(length));
        let mut buffers = Buffers::clean(&Molecule::default());
        let (_, mut state) = Proved.start(&mut buffers);
        let after = text.iter().position(|byte| {
            let (answer, fed) = Proved.feed(&state, &[*byte], &mut buffers);
            state = fed;
            !answer.is_accepted()
        });
        assert_eq!(after.map_or(text.len() + 1, |place| place + 1), first);
        told += usize::from(after.is_some());
    }
}

#[test]
fn damaged_states_by_the_list() {
    let mut random = Random::new(6);
    let mut faults = BTreeSet::new();
    let mut fine = 0;
    for _ in 0..6000 {
        let text = texts::text(&mut random, Effort::Plain);
        let (state, buffers) = damaged(&mut random, &text);
        match check_state(&state, &text, &buffers) {
            Ok(Some(fault)) => drop(faults.insert(fault)),
            Ok(None) => fine += 1,
            Err(message) => panic!("{message} of {state:?}"),
        }
    }
    assert_eq!(faults, Fault::ALL.into());
    assert!(fine > 1000, "{fine}");
}

/// The reference with one fault.
struct Faulty {
    fault: &'static str,
}

impl Faulty {
    fn has(&self, fault: &str) -> bool {
        self.fault == fault
    }
}

impl InPieces for Faulty {
    type State = Pieces;

    fn start(&self, buffers: &mut Buffers) -> (Answer, Pieces) {
        let before = buffers.clone();
        let started = Reference.start(buffers);
        if self.has("tables left at the start") {
            *buffers = before;
        }
        started
    }

    fn feed(&self, state: &Pieces, piece: &[u8], buffers: &mut Buffers) -> (Answer, Pieces) {
        let before = buffers.clone();
        let (answer, fed) = Reference.feed(state, piece, buffers);
        if self.has("told at the end") && (2..10).contains(&answer.code) {
            return (Answer::default(), fed);
        }
        if self.has("a piece's end is the text's") {
            let ended = Reference.end(state, &mut before.clone()).0;
            let answer = if piece.is_empty() { ended } else { answer };
            return (answer, fed);
        }
        if self.has("not repeated") && fed == *state && !piece.is_empty() {
            return (Answer::default(), Pieces::default());
        }
        if self.has("tables left at a refusal") && !answer.is_accepted() {
            *buffers = before;
        }
        if self.has("24 starts anew") && answer.code == 24 {
            return (answer, Pieces::default());
        }
        (answer, fed)
    }

    fn end(&self, state: &Pieces, buffers: &mut Buffers) -> (Answer, Pieces) {
        let (answer, ended) = Reference.end(state, buffers);
        if self.has("not ended after a refusal") && !answer.is_accepted() {
            return (answer, state.clone());
        }
        if self.has("the rest left") && answer.is_accepted() {
            *buffers.atoms.last_mut().unwrap() = 1;
        }
        (answer, ended)
    }
}

/// The number of texts in which a fault is seen.
fn seen(fault: &'static str) -> usize {
    let mut random = Random::new(8);
    let mut differences = 0;
    for _ in 0..300 {
        let text = texts::text(&mut random, Effort::Plain);
        let pieces = cut(&mut random, &text);
        let dirty = Buffers::dirty(&mut random);
        let compared = compare_pieces(&Faulty { fault }, &mut random, &pieces, &dirty);
        differences += usize::from(compared.is_err());
    }
    differences
}

#[test]
fn faults_are_seen() {
    assert_eq!(seen("none"), 0);
    for fault in [
        "tables left at the start",
        "told at the end",
        "a piece's end is the text's",
        "not repeated",
        "tables left at a refusal",
        "24 starts anew",
        "not ended after a refusal",
        "the rest left",
    ] {
        assert!(seen(fault) > 0, "{fault}");
    }
}
