//! The proved register beside the reference's, on random registers and lists of calls, with every cut of an add.

use balsa::Register;
use balsa_reference::register::{self, MAX_BODY, MAX_ENTRIES, REGISTER};
use compare::random::Random;
use compare::registers::{self, listed, Call};
use std::collections::BTreeSet;

fn emptied() -> Vec<u8> {
    let mut bytes = vec![0xAA; REGISTER];
    Register::new(&mut bytes).empty().unwrap();
    bytes
}

/// Whatever is called, both tell and leave the same; an add that was cut counts as made or as not made.
#[test]
fn lists_of_calls() {
    let mut random = Random::new(1);
    let mut told = BTreeSet::new();
    for _ in 0..4000 {
        let mut bytes = registers::register(&mut random);
        for _ in 0..random.between(1, 25) {
            let call = Call::random(&mut random);
            let mut expected = bytes.clone();
            let answer = call.proved(&mut bytes);
            let made = listed(&bytes) != listed(&expected);
            assert_eq!(answer, call.reference(&mut expected, made), "{call:?}");
            assert_eq!(listed(&bytes), listed(&expected), "{call:?}");
            if let Call::Cut(..) = call {
                expected.clone_from(&bytes);
            }
            assert!(bytes == expected, "{call:?}");
            let kind = std::mem::discriminant(&call);
            told.insert((format!("{kind:?}"), answer.number, answer.entry.is_some()));
        }
    }
    // emptying 0, 1; adding and a cut 0, 1, 17, 18; reading 0 with and without an entry, 1, 17
    assert_eq!(told.len(), 2 + 4 + 4 + 4, "{told:?}");
}

/// After each step of each add: at most one byte changed, which is byte 1, of the new entry or of its
/// body; what is listed is old or new; and the last step leaves what adding leaves.
#[test]
fn every_cut_of_every_add() {
    let mut random = Random::new(2);
    let mut adds = 0;
    while adds < 150 {
        let mut bytes = registers::register(&mut random);
        let (tag, body) = (random.number() as u16, registers::body(&mut random));
        let mut whole = bytes.clone();
        if register::add(&mut whole, tag, &body).is_err() {
            continue;
        }
        adds += 1;
        let (old, new) = (register::entries(&bytes), register::entries(&whole));
        let added = *new.as_ref().unwrap().last().unwrap();
        let line = 2 + 6 * old.as_ref().unwrap().len();
        let last = body.len() + 6;
        for k in 0..=last {
            let before = bytes.clone();
            Register::new(&mut bytes).step(tag, &body, k).unwrap();
            let places = 0..bytes.len();
            let changed: Vec<usize> = places.filter(|&i| before[i] != bytes[i]).collect();
            let is_ours = |&place: &usize| {
                let from_body = usize::wrapping_sub(place, added.start);
                let from_line = usize::wrapping_sub(place, line);
                place == 1 || from_body < added.length || from_line < 6
            };
            assert!(
                changed.len() <= 1 && changed.iter().all(is_ours),
                "step {k}"
            );
            let expected = if k < last { &old } else { &new };
            assert_eq!(&register::entries(&bytes), expected, "step {k} of {last}");
        }
        assert!(bytes == whole);
    }
}

/// Steps past the last one change nothing.
#[test]
fn past_the_last_step() {
    let mut bytes = emptied();
    (0..8).for_each(|k| Register::new(&mut bytes).step(9, b"x", k).unwrap());
    let left = bytes.clone();
    for k in [8, 9, 4102, 4103, usize::MAX] {
        assert_eq!(Register::new(&mut bytes).step(9, b"x", k), Ok(()));
    }
    assert!(bytes == left);
    assert_eq!(listed(&bytes), Ok(vec![(9, b"x".to_vec())]));
}

/// Each byte of the table of contents, changed in each of some ways: both judge alike, and where it is
/// refused there are words for it.
#[test]
fn every_byte_damaged() {
    let mut random = Random::new(3);
    let mut bytes = emptied();
    for _ in 0..40 {
        let body = registers::body(&mut random);
        let _ = register::add(&mut bytes, random.number() as u16, &body);
    }
    let mut refused = 0;
    for place in 0..400 {
        for value in [0, 1, 64, 65, 128, 255, bytes[place] ^ 1, bytes[place] ^ 16] {
            let before = std::mem::replace(&mut bytes[place], value);
            let register = Register::new(&bytes[..]);
            let found = register.entry(0).map_err(|code| code.number());
            let expected = listed(&bytes).map(|entries| entries.into_iter().next());
            let found = found.map(|entry| entry.map(|(tag, body)| (tag, body.to_vec())));
            assert_eq!(found, expected, "byte {place} is {value}");
            let words = register.damage().map(|damage| damage.code().number());
            assert_eq!(words, expected.err(), "byte {place} is {value}");
            refused += usize::from(words.is_some());
            bytes[place] = before;
        }
    }
    assert!(refused > 500, "{refused}");
}

/// There are words for whatever is refused, and for nothing else.
#[test]
fn words_for_every_damage() {
    let mut random = Random::new(4);
    for _ in 0..20_000 {
        let bytes = registers::register(&mut random);
        let register = Register::new(&bytes[..]);
        let refused = register.entry(0).err();
        assert_eq!(register.damage().map(|damage| damage.code()), refused);
    }
}

/// A walk hands out what is listed, each entry once and in order, and says the end for ever after;
/// what refuses the entries refuses the walk.
#[test]
fn walks() {
    let mut random = Random::new(5);
    for _ in 0..4000 {
        let bytes = registers::register(&mut random);
        let register = Register::new(&bytes[..]);
        let mut entries = match (register.entries(), listed(&bytes)) {
            (Ok(entries), Ok(expected)) => {
                let walked: Vec<_> = entries.clone().map(|(tag, b)| (tag, b.to_vec())).collect();
                assert_eq!(walked, expected);
                entries
            }
            (entries, expected) => {
                assert_eq!(entries.err().map(|code| code.number()), expected.err());
                continue;
            }
        };
        let past = usize::from(bytes[1]);
        assert_eq!(entries.nth(past), None);
        assert_eq!((entries.next(), entries.next()), (None, None));
    }
}

#[test]
fn sixty_four_entries() {
    let mut bytes = emptied();
    for place in 0..MAX_ENTRIES {
        assert_eq!(register::add(&mut bytes.clone(), 3, b""), Ok(()));
        assert_eq!(Register::new(&mut bytes).add(3, &[place as u8]), Ok(()));
    }
    let full = Register::new(&mut bytes).add(3, b"").unwrap_err();
    assert_eq!(full.number(), 18);
    assert_eq!(listed(&bytes).unwrap()[63], (3, vec![63]));
}

#[test]
fn up_to_the_last_byte() {
    let mut bytes = emptied();
    let mut register = Register::new(&mut bytes);
    assert_eq!(
        register.add(1, &[7; MAX_BODY + 1]).unwrap_err().number(),
        18
    );
    for _ in 0..7 {
        assert_eq!(register.add(1, &[7; MAX_BODY]), Ok(()));
    }
    assert_eq!(register.add(2, &[8; 3711]).unwrap_err().number(), 18);
    assert_eq!(register.add(2, &[8; 3710]), Ok(()));
    assert_eq!(register.add(2, &[8]).unwrap_err().number(), 18);
    assert_eq!(register.add(4, b""), Ok(()));
    assert_eq!(register.entry(8), Ok(Some((4, &b""[..]))));
    assert_eq!(bytes[2 + 6 * 8..][..6], [0, 128, 0, 0, 4, 0]);
}
