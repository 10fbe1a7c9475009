//! Random texts: in order, damaged and at the limits.

use crate::limits;
use crate::molecules::{self, Effort};
use crate::random::Random;
use crate::spelling;
use balsa_reference::{write, MAX_TEXT};

/// A random text. It has no byte 10, so that it can stand on a line.
pub fn text(random: &mut Random, effort: Effort) -> Vec<u8> {
    let mut text = match random.below(20) {
        0..8 => spelled(random, effort),
        8..14 => damaged(random, effort),
        14..17 => of_tokens(random),
        17..19 => at_a_limit(random),
        _ => of_bytes(random),
    };
    text.retain(|&byte| byte != b'\n');
    text
}

fn spelled(random: &mut Random, effort: Effort) -> Vec<u8> {
    let molecule = molecules::molecule(random, effort);
    spelling::text(random, &molecule)
}

/// A text with one or a few edits.
fn damaged(random: &mut Random, effort: Effort) -> Vec<u8> {
    let mut text = spelled(random, effort);
    for _ in 0..*random.pick(&[1, 1, 1, 2, 3, 6]) {
        damage(random, &mut text);
    }
    text
}

fn damage(random: &mut Random, text: &mut Vec<u8>) {
    let place = random.below(text.len() + 1);
    let end = random.between(place, text.len().min(place + 8));
    match random.below(9) {
        0 => text.truncate(place),
        1 => drop(text.drain(place..end)),
        2 => text.insert(place, byte(random)),
        3 => {
            let token = *random.pick(&TOKENS);
            text.splice(place..place, token.bytes());
        }
        4 => text.extend_from_within(place..end),
        5 if place < text.len() => text[place] = byte(random),
        6 if place + 1 < text.len() => text.swap(place, place + 1),
        7 => {
            let digits = text.iter().skip(place).position(u8::is_ascii_digit);
            text.insert(place + digits.unwrap_or(0), *random.pick(b"-=#/\\"));
        }
        8 => {
            let fields = text
                .iter()
                .skip(place)
                .position(|byte| b"H]@".contains(byte));
            text.insert(place + fields.unwrap_or(0), b'@');
        }
        _ => drop(text.drain(..place)),
    }
}

/// A byte that has a meaning, or any other.
fn byte(random: &mut Random) -> u8 {
    if random.percent(10) {
        random.below(256) as u8
    } else {
        *random.pick(b"()[]-=#.%:+*0123456789ABCFHINOPSTacdehilnoprstu$/\\@")
    }
}

const TOKENS: [&str; 80] = [
    "C", "C", "C", "c", "c", "n", "o", "s", "p", "N", "O", "S", "P", "F", "I", "B", "Cl", "Br",
    "At", "Ts", "*", "(", "(", ")", ")", "(=", "(.", ".", "-", "=", "#", "1", "1", "2", "2", "3",
    "%10", "%11", "=1", "-2", "#%10", "[", "]", "[C", "H", "H2", "+", "-2", ":1", "[nH]", "[O-]",
    "[13C]", "[Cu+2]", "[*:9999]", "[H]", "[HH]", "[cH-]", "%", "0", "[Sc]", "/", "\\", "/C",
    "\\C", "(/", "(\\", "/1", "\\1", "@", "@@", "[C@", "[C@@", "[C@]", "[C@@]", "[C@H]", "[C@@H]",
    "[C@H](F)", "[N@@+]", "[Si@]12", "(.[C@H]",
];

/// Tokens in any order.
fn of_tokens(random: &mut Random) -> Vec<u8> {
    let count = *random.pick(&[2, 4, 8, 16, 40]);
    let tokens: Vec<&str> = (0..random.below(count))
        .map(|_| *random.pick(&TOKENS))
        .collect();
    tokens.concat().into_bytes()
}

fn of_bytes(random: &mut Random) -> Vec<u8> {
    let length = match random.below(50) {
        0..40 => random.below(40),
        40..49 => random.between(MAX_TEXT - 6, MAX_TEXT + 4),
        _ => random.between(MAX_TEXT - 6, 70_000),
    };
    let is_plain = random.percent(20);
    let mut byte = || if is_plain { b'C' } else { byte(random) };
    (0..length).map(|_| byte()).collect()
}

/// A text with a number of atoms, bonds, branches, bridges or bytes at a limit, with a random tail.
fn at_a_limit(random: &mut Random) -> Vec<u8> {
    let mut text = match random.below(9) {
        0 => atoms(random).into_bytes(),
        1 => bonds(random).into_bytes(),
        2 => branches(random).into_bytes(),
        3 => bridges(random).into_bytes(),
        4 => bytes(random),
        5 => fan(random).into_bytes(),
        6 => spine(random).into_bytes(),
        7 => return spelled_limit(random),
        _ => return written_limit(random),
    };
    if random.percent(50) {
        text.extend(of_tokens(random));
    }
    text
}

fn atoms(random: &mut Random) -> String {
    let atom = *random.pick(&["C", "Cl", "[CH4]", ".C", "=C", "(C)"]);
    let first = atom.trim_matches(['.', '=', '(', ')']);
    first.to_string() + &atom.repeat(random.between(996, 1000))
}

/// A chain whose atoms are joined to the next but one by bridges: about 1,100 bonds.
fn bonds(random: &mut Random) -> String {
    let extra = random.between(106, 110);
    let numbers = random.pick(&[["1", "2", "3"], ["%10", "=2", "3"]]);
    let number = |atom: usize| numbers[atom % 3];
    let mut text = String::new();
    for atom in 0..992 {
        text += "C";
        if (2..extra + 2).contains(&atom) {
            text += number(atom - 2);
        }
        if atom < extra {
            text += number(atom);
        }
    }
    text
}

fn branches(random: &mut Random) -> String {
    let opening = *random.pick(&["C(", "N(=", "C(.", "[C]("]);
    let depth = random.between(62, 66);
    let closings = if random.percent(70) {
        depth
    } else {
        random.below(depth)
    };
    opening.repeat(depth) + "C" + &")".repeat(closings)
}

/// All bridge numbers, opened and closed in random order.
fn bridges(random: &mut Random) -> String {
    let mut numbers: Vec<usize> = (1..100).collect();
    let mut text = String::from("C");
    for separator in [".C", "CC"] {
        random.shuffle(&mut numbers);
        let count = random.between(96, 99);
        for &number in &numbers[..count] {
            let percent = if number > 9 { "%" } else { "" };
            text += &format!(
                "{percent}{number}{}",
                if random.percent(90) { separator } else { "" }
            );
        }
    }
    text
}

/// About 16,384 bytes: long atoms in pairs, perhaps delocalized ones.
fn bytes(random: &mut Random) -> Vec<u8> {
    let length = random.between(MAX_TEXT - 6, MAX_TEXT + 3);
    let pairs = [
        "[999CoH9-9:9999]=%10.[999CoH9-9:9999]%10.",
        "[999n+9:9999][999n+9:9999].",
    ];
    let mut text = String::new();
    while text.len() + 60 < length {
        text += *random.pick(&pairs);
    }
    let rest = length - text.len() - 1;
    text += "C";
    text += &"%12".repeat(rest / 3);
    text += &"=".repeat(rest % 3);
    text.into_bytes()
}

/// A hub with children, each joined to the one before: the walk goes from child to child, and
/// all but one of the hub's bonds become bridges.
fn fan(random: &mut Random) -> String {
    let children = random.between(98, 103);
    let between: String = (2..children).map(|n| ["(C12)", "(C21)"][n % 2]).collect();
    let last = if children.is_multiple_of(2) { "1" } else { "2" };
    format!("[*](C1){between}C{last}")
}

/// A spine whose leaves come after it: the walk puts each part of the spine in a branch.
fn spine(random: &mut Random) -> String {
    let depth = random.between(62, 67);
    let spine: String = (0..depth).map(|n| format!("C%{}", 10 + n)).collect();
    let leaves: String = (0..depth).map(|n| format!(".C%{}", 10 + n)).collect();
    spine + "C" + &leaves
}

fn spelled_limit(random: &mut Random) -> Vec<u8> {
    let molecule = limits::molecule(random);
    spelling::text(random, &molecule)
}

/// A text as it is written, which can be too long once it is kekulized.
fn written_limit(random: &mut Random) -> Vec<u8> {
    let mut molecule = limits::longest(random);
    while write(&molecule).is_err() {
        let number = random.below(molecule.atoms.len());
        molecule.atoms[number].extension /= 10;
    }
    let mut text = write(&molecule).map_or(Vec::new(), |written| written.text);
    text.truncate(MAX_TEXT);
    text
}
