//! States of a reading in pieces as no call leaves them: damaged ones, against the reference's list of
//! those that are refused as 25.

use crate::buffers::Buffers;
use crate::implementation::Answer;
use crate::pieces::InPieces;
use crate::proved::Proved;
use crate::random::Random;
use balsa::pieces::{State, BRIDGES};
use balsa_reference::pieces_state::{self, fault, Fault, Fields, HalfRead};
use balsa_reference::tables::Counts;

/// The number of the refusal of a broken state.
const BROKEN_STATE: u8 = 25;
/// The number of the refusal of a call after the end.
const ENDED: u8 = 24;
/// Where the machine stands between the digits of a bridge's number, and from where on in a bracket.
const IN_NUMBER: u8 = 7;
const IN_BRACKET: u8 = 10;

/// What a state says, in the paper's words.
pub fn said_by(state: &State) -> pieces_state::State {
    let depth = usize::from(state.depth);
    let openers = state.openers.iter().filter(|&&opener| opener > 0);
    let has_hub = state.atoms > 0 || state.hub > 0;
    pieces_state::State {
        is_over: state.told != 0,
        bytes: state.read.into(),
        counts: Counts {
            atoms: state.atoms.into(),
            bonds: state.bonds.into(),
        },
        hub: has_hub.then_some(state.hub.into()),
        depth,
        branches: state
            .hubs
            .iter()
            .take(depth)
            .map(|&hub| hub.into())
            .collect(),
        bridges: openers.map(|&opener| usize::from(opener) - 1).collect(),
        half_read: match state.mode {
            IN_NUMBER => HalfRead::Number(state.tens.into()),
            IN_BRACKET.. => HalfRead::Bracket(fields(state)),
            _ => HalfRead::Nothing,
        },
    }
}

fn fields(state: &State) -> Fields {
    Fields {
        isotope: state.isotope.into(),
        element: state.element.into(),
        selected: state.selected.into(),
        mark: state.mark.into(),
        hydrogens: state.hydrogens.into(),
        charge: state.charge,
        extension: state.extension.into(),
    }
}

/// A state that was left by pieces of a text, with the buffers, and then damaged.
pub fn damaged(random: &mut Random, text: &[u8]) -> (State, Buffers) {
    let mut buffers = Buffers::dirty(random);
    let (_, mut state) = Proved.start(&mut buffers);
    for _ in 0..random.below(3) {
        let (_, fed) = Proved.feed(&state, &text[..random.below(text.len() + 1)], &mut buffers);
        state = fed;
    }
    if random.percent(20) {
        let (_, ended) = Proved.end(&state, &mut buffers);
        state = ended;
    }
    for _ in 0..random.below(4) {
        damage(random, &mut state);
    }
    buffers.counts = said_by(&state).counts;
    if random.percent(20) {
        buffers.damage(random);
        (state.atoms, state.bonds) = (
            buffers.counts.atoms.min(65_535) as u16,
            buffers.counts.bonds.min(65_535) as u16,
        );
    }
    (state, buffers)
}

/// A number at the limit of a field, above it, small or any.
fn number(random: &mut Random, limit: u16) -> u16 {
    match random.below(5) {
        0 => limit,
        1 => limit.saturating_add(1),
        2 => limit.saturating_sub(1),
        3 => random.below(usize::from(limit) + 2) as u16,
        _ => random.number() as u16,
    }
}

fn byte(random: &mut Random, limit: u16) -> u8 {
    number(random, limit) as u8
}

/// Changes a cell of a state.
fn damage(random: &mut Random, state: &mut State) {
    match random.below(3) {
        0 => damage_steering(random, state),
        1 => damage_half_read(random, state),
        _ => damage_array(random, state),
    }
}

/// What was told, the bytes read, the hub or a count.
fn damage_steering(random: &mut Random, state: &mut State) {
    let State {
        atoms,
        bonds,
        depth,
        ..
    } = *state;
    let limits = [16_384, 1000, 1100, 64, 0, atoms, bonds, depth];
    let limit = *random.pick(&limits);
    match random.below(7) {
        0 => state.told = *random.pick(&[0, 1, 2, 3, 7, 9, 10, 23, 24, 25, 77, 255]),
        1 => state.place = number(random, 16_384),
        2 => state.read = number(random, 16_384),
        3 => state.hub = number(random, atoms.saturating_sub(1)),
        4 => state.atoms = number(random, limit),
        5 => state.bonds = number(random, limit),
        _ => state.depth = number(random, limit),
    }
}

/// Where the machine stands, what is pending or a field that is half read.
fn damage_half_read(random: &mut Random, state: &mut State) {
    match random.below(12) {
        0 => state.mode = byte(random, 19),
        1 => state.mode = *random.pick(&[IN_NUMBER, IN_BRACKET, 11, 19, 20, 255]),
        2 => state.letter = byte(random, 122),
        3 => state.pending = byte(random, 7),
        4 => state.tens = byte(random, 9),
        5 => state.element = number(random, 118),
        6 => state.selected = number(random, 1),
        7 => state.isotope = number(random, 999),
        8 => state.hydrogens = number(random, 9),
        9 => state.charge = charge(random),
        10 => state.extension = number(random, 9999),
        _ => state.mark = number(random, 2),
    }
}

/// A cell of an array, or many branches.
fn damage_array(random: &mut Random, state: &mut State) {
    let atoms = state.atoms;
    match random.below(7) {
        0 => cell(random, &mut state.hubs, atoms.saturating_sub(1)),
        1 => cell(random, &mut state.openers, atoms),
        2 => cell(random, &mut state.offsets, 16_384),
        3 => cell(random, &mut state.keys, 16_384),
        4 => state.symbols[random.below(BRIDGES)] = byte(random, 5),
        5 => state.outsides[random.below(12)] = byte(random, 1),
        _ => {
            state.depth = number(random, 64);
            state.hubs = std::array::from_fn(|_| random.below(usize::from(atoms) + 1) as u16);
        }
    }
}

/// Changes one of the first cells of an array, or any.
fn cell(random: &mut Random, cells: &mut [u16], limit: u16) {
    let room = *random.pick(&[2, 12, cells.len()]);
    cells[random.below(room)] = number(random, limit);
}

fn charge(random: &mut Random) -> i32 {
    match random.below(4) {
        0 => random.number() as i32,
        _ => *random.pick(&[-10, -9, 9, 10, i32::MIN, i32::MAX, 0]),
    }
}

/// What the call for a piece or the end must give of a state: its refusal where that is known by the
/// list alone, and the fault that it has.
fn expected(state: &State, buffers: &Buffers) -> (Option<Answer>, Option<Fault>) {
    let refused = |code: u8, place: u16| Answer {
        code,
        place: place.into(),
        ..Answer::default()
    };
    if buffers.are_short() {
        return (Some(refused(1, 0)), None);
    }
    let fault = fault(&said_by(state), &buffers.atoms, &buffers.bonds);
    let answer = match (fault, state.told) {
        (Some(_), _) => Some(refused(BROKEN_STATE, 0)),
        (None, 0) => None,
        (None, ENDED) => Some(refused(ENDED, 0)),
        (None, told @ 1..=BROKEN_STATE) => Some(refused(told, state.place)),
        // no number of the rules
        (None, _) => Some(refused(BROKEN_STATE, state.place)),
    };
    (answer, fault)
}

/// Makes both calls on a state and compares their answers with the list; gives the fault that the state
/// has, or tells what is wrong.
pub fn check_state(
    state: &State,
    piece: &[u8],
    buffers: &Buffers,
) -> Result<Option<Fault>, String> {
    let (known, fault) = expected(state, buffers);
    for is_end in [false, true] {
        let mut left = buffers.clone();
        let (answer, after) = if is_end {
            Proved.end(state, &mut left)
        } else {
            Proved.feed(state, piece, &mut left)
        };
        let call = if is_end { "end" } else { "feed" };
        let is_right = match known {
            Some(known) => answer == known,
            None => answer.code != 1 && answer.code != ENDED && answer.code != BROKEN_STATE,
        };
        if !is_right {
            return Err(format!("{call}: {answer:?}, by the list {known:?}"));
        }
        check_left(state, (answer, &after), buffers, &left, is_end)
            .map_err(|message| format!("{call}: {answer:?}: {message}"))?;
    }
    Ok(fault)
}

/// What a call leaves: nothing changes where tables are short, the state is broken or the text has
/// ended; a refusal zeroes the tables, and leaves a state that holds no more than what was told.
fn check_left(
    state: &State,
    (answer, after): (Answer, &State),
    buffers: &Buffers,
    left: &Buffers,
    is_end: bool,
) -> Result<(), String> {
    let is_zeroed = left.atoms.iter().chain(&left.bonds).all(|&cell| cell == 0);
    let is_same = after == state && left == buffers;
    let (known, fault) = expected(state, buffers);
    let stays = buffers.are_short() || fault.is_some() || known.is_some_and(|it| it.code == ENDED);
    if stays {
        return holds(is_same, "something changed");
    }
    holds(
        answer.is_accepted() || is_zeroed,
        "a refusal left something",
    )?;
    let told = match (is_end, known) {
        (true, _) => ENDED,
        (false, Some(_)) => return holds(after == state, "a refused state changed"),
        (false, None) => answer.code,
    };
    holds(after.told == told, "another number is told")?;
    let is_blank = after.read == 0 && after.atoms == 0 && after.depth == 0 && after.mode == 0;
    holds(
        told == 0 || is_blank,
        "a state that is over holds something",
    )
}

fn holds(law: bool, message: &str) -> Result<(), String> {
    law.then_some(()).ok_or_else(|| message.to_string())
}
