//! Random registers and lists of calls on them, run by the proved library and by the reference.

use crate::random::Random;
use balsa::{Code, Register};
use balsa_reference::register::{self, MAX_BODY, MAX_ENTRIES, REGISTER};

/// A call on a register.
#[derive(Clone, Debug)]
pub enum Call {
    /// Emptying.
    Empty,
    /// Adding.
    Add(u16, Vec<u8>),
    /// Adding, with the power gone after so many steps.
    Cut(u16, Vec<u8>, usize),
    /// Reading the entry at a place.
    Entry(usize),
}

/// What a call tells: its number, and for a reading the entry.
#[derive(Clone, Debug, PartialEq, Eq)]
pub struct Told {
    /// 0 or the number of the refusal.
    pub number: u8,
    /// The tag and the body.
    pub entry: Option<(u16, Vec<u8>)>,
}

impl Call {
    /// A random call, with bodies that fill a register in some steps.
    pub fn random(random: &mut Random) -> Call {
        let tag = random.number() as u16;
        match random.below(20) {
            0 => Call::Empty,
            1..9 => Call::Add(tag, body(random)),
            9..12 => {
                let body = body(random);
                let steps = random.below(body.len() + 8);
                Call::Cut(tag, body, steps)
            }
            12 => Call::Entry(*random.pick(&[63, 64, 255, 1 << 32, usize::MAX])),
            _ => Call::Entry(random.below(12)),
        }
    }

    /// Runs the call by the proved library.
    pub fn proved(&self, bytes: &mut [u8]) -> Told {
        let mut register = Register::new(bytes);
        let done = match self {
            Call::Empty => register.empty(),
            Call::Add(tag, body) => register.add(*tag, body),
            Call::Cut(tag, body, steps) => {
                (0..*steps).try_for_each(|k| register.step(*tag, body, k))
            }
            Call::Entry(place) => {
                return match register.entry(*place) {
                    Ok(entry) => told(Ok(()), entry.map(|(tag, body)| (tag, body.to_vec()))),
                    Err(code) => told(Err(code.number()), None),
                };
            }
        };
        told(done.map_err(Code::number), None)
    }

    /// Runs the call by the reference; a cut add is made whole or not at all, as `made` says.
    pub fn reference(&self, bytes: &mut [u8], made: bool) -> Told {
        let done = match self {
            Call::Empty => register::empty(bytes),
            Call::Add(tag, body) => register::add(bytes, *tag, body),
            Call::Cut(_, _, 0) => Ok(()),
            Call::Cut(tag, body, _) => {
                let mut whole = bytes.to_vec();
                let done = register::add(&mut whole, *tag, body);
                if made {
                    bytes.copy_from_slice(&whole);
                }
                done
            }
            Call::Entry(place) => {
                return match register::entry(bytes, *place) {
                    Ok(entry) => told(Ok(()), entry.map(|entry| with_body(bytes, entry))),
                    Err(code) => told(Err(code.number()), None),
                };
            }
        };
        told(done.map_err(|code| code.number()), None)
    }
}

fn told(done: Result<(), u8>, entry: Option<(u16, Vec<u8>)>) -> Told {
    let number = done.err().unwrap_or(0);
    Told { number, entry }
}

fn with_body(bytes: &[u8], entry: register::Entry) -> (u16, Vec<u8>) {
    let body = &bytes[entry.start..entry.start + entry.length];
    (entry.tag, body.to_vec())
}

/// What the reference lists in a register, or the number of its refusal.
pub fn listed(bytes: &[u8]) -> Result<Vec<(u16, Vec<u8>)>, u8> {
    let entries = register::entries(bytes).map_err(|code| code.number())?;
    let with_body = |entry| with_body(bytes, entry);
    Ok(entries.into_iter().map(with_body).collect())
}

/// The body that goes with a tag in the tests of files.
pub fn body_of_tag(tag: u16) -> Vec<u8> {
    let mut random = Random::new(tag.into());
    let longest = if tag.is_multiple_of(8) { 2000 } else { 100 };
    let length = random.below(longest);
    bytes(&mut random, length)
}

/// A random body, sometimes of no bytes, at the limit or over it.
pub fn body(random: &mut Random) -> Vec<u8> {
    let length = match random.below(20) {
        0 => 0,
        1 => MAX_BODY,
        2 => MAX_BODY + 1,
        3..6 => random.below(MAX_BODY),
        _ => random.below(60),
    };
    bytes(random, length)
}

fn bytes(random: &mut Random, length: usize) -> Vec<u8> {
    let mut bytes: Vec<u8> = Vec::with_capacity(length + 8);
    while bytes.len() < length {
        bytes.extend(random.number().to_le_bytes());
    }
    bytes.truncate(length);
    bytes
}

/// A random register: mostly valid, else damaged, rubbish or too short; sometimes longer than need be.
pub fn register(random: &mut Random) -> Vec<u8> {
    let kind = random.below(10);
    if kind == 0 {
        let length = *random.pick(&[0, 1, 2, 385, 386, REGISTER - 1]);
        return bytes(random, length);
    }
    let longer = [0, 0, 0, 1, 40][random.below(5)];
    let mut register = bytes(random, REGISTER + longer);
    if kind == 1 {
        register[0] = random.below(3) as u8;
        return register;
    }
    fill(random, &mut register);
    if kind < 5 {
        damage(random, &mut register);
    }
    register
}

/// Empties a register of full length and adds entries: some, up to the last one, or up to the last byte.
fn fill(random: &mut Random, bytes: &mut [u8]) {
    register::empty(bytes).expect("it is long enough");
    let (count, longest) = match random.below(6) {
        0 => (MAX_ENTRIES, 8),
        1 => (MAX_ENTRIES - 1, 500),
        2 => (MAX_ENTRIES, MAX_BODY),
        _ => (random.below(10), 300),
    };
    for _ in 0..count {
        let body = self::bytes(random, random.clone().below(longest + 1));
        let _ = register::add(bytes, random.number() as u16, &body);
    }
    if random.percent(20) {
        let used = register::entries(bytes).expect("it is valid");
        let end = used.last().map_or(386, |last| last.start + last.length);
        let rest = (REGISTER - end).min(MAX_BODY);
        let body = self::bytes(random, rest);
        let _ = register::add(bytes, 1, &body);
    }
}

/// Changes some bytes, mostly of the contents in use.
pub fn damage(random: &mut Random, register: &mut [u8]) {
    for _ in 0..random.between(1, 3) {
        let used = 2 + 6 * usize::from(register[1]).min(MAX_ENTRIES);
        let place = match random.below(8) {
            0 => 0,
            1 => 1,
            2 => random.below(register.len()),
            _ => random.below(used),
        };
        register[place] = match random.below(4) {
            0 => register[place].wrapping_add(1),
            1 => register[place].wrapping_sub(1),
            2 => register[place] ^ (1 << random.below(8)),
            _ => random.number() as u8,
        };
    }
}
