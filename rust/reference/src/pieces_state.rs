//! The state of a reading in pieces, as a caller hands it in, and which states are refused as 25: the
//! paper's list, item by item.

use crate::element::MAX_ELEMENT;
use crate::tables::{is_valid, Counts, Tables};
use crate::tetrahedral::Mark;
use crate::{MAX_BRANCHES, MAX_TEXT};

/// What a state says.
#[derive(Clone, Debug, PartialEq, Eq)]
pub struct State {
    /// Whether a refusal was told or the text has ended: then there is no hub, branch or bridge.
    pub is_over: bool,
    /// The bytes read.
    pub bytes: usize,
    /// The used rows of the tables.
    pub counts: Counts,
    /// The hub, if there is one.
    pub hub: Option<usize>,
    /// How many branches are open.
    pub depth: usize,
    /// The atoms of the open branches, as far as they are told.
    pub branches: Vec<usize>,
    /// The atoms of the open bridges.
    pub bridges: Vec<usize>,
    /// What is half read.
    pub half_read: HalfRead,
}

/// What is half read at the end of a piece.
#[derive(Clone, Debug, PartialEq, Eq)]
pub enum HalfRead {
    /// No number.
    Nothing,
    /// The number of a bridge, of which this is the first digit.
    Number(u32),
    /// A bracket.
    Bracket(Fields),
}

/// The fields of a bracket so far.
#[derive(Clone, Copy, Debug, Default, PartialEq, Eq)]
pub struct Fields {
    /// The isotope.
    pub isotope: u32,
    /// The atomic number.
    pub element: u32,
    /// 1 for a selected letter.
    pub selected: u32,
    /// The number of the tetrahedral mark.
    pub mark: u32,
    /// The hydrogens.
    pub hydrogens: u32,
    /// The charge.
    pub charge: i32,
    /// The extension.
    pub extension: u32,
}

/// An item of the list.
#[derive(Clone, Copy, Debug, PartialEq, Eq, PartialOrd, Ord)]
pub enum Fault {
    /// The tables and counts are not sound, leaving aside what 20 to 23 refuse.
    Tables,
    /// The hub is not below the atom count, or there is one before the first atom.
    Hub,
    /// The atom of an open branch is not below the atom count.
    Branch,
    /// The atom of an open bridge is not below the atom count.
    Bridge,
    /// Too many branches are open.
    Depth,
    /// More bytes are said to be read than a text may have.
    Bytes,
    /// A half-read field is above its largest value.
    Field,
}

impl Fault {
    /// The list, in its order.
    pub const ALL: [Fault; 7] = [
        Fault::Tables,
        Fault::Hub,
        Fault::Branch,
        Fault::Bridge,
        Fault::Depth,
        Fault::Bytes,
        Fault::Field,
    ];

    /// Whether a state, with tables that are long enough, has this fault.
    fn is_in(self, state: &State, atoms: &[i32], bonds: &[i32]) -> bool {
        let count = state.counts.atoms;
        let is_no_atom = |&atom: &usize| atom >= count;
        match self {
            Fault::Tables => !is_valid(Tables {
                atoms,
                bonds,
                counts: state.counts,
            }),
            Fault::Hub => !state.is_over && state.hub.as_ref().is_some_and(is_no_atom),
            Fault::Branch => !state.is_over && state.branches.iter().any(is_no_atom),
            Fault::Bridge => !state.is_over && state.bridges.iter().any(is_no_atom),
            Fault::Depth => !state.is_over && state.depth > MAX_BRANCHES,
            Fault::Bytes => state.bytes > MAX_TEXT,
            Fault::Field => state.half_read.is_above(),
        }
    }
}

impl HalfRead {
    /// Whether a number is above the largest value that it may have.
    fn is_above(&self) -> bool {
        match self {
            HalfRead::Nothing => false,
            HalfRead::Number(digit) => *digit > 9,
            HalfRead::Bracket(fields) => fields.is_above(),
        }
    }
}

impl Fields {
    fn is_above(&self) -> bool {
        self.isotope > 999
            || self.element > MAX_ELEMENT.into()
            || self.selected > 1
            || self.mark > Mark::Clockwise as u32
            || self.hydrogens > 9
            || self.charge.unsigned_abs() > 9
            || self.extension > 9999
    }
}

/// The first item of the list that a state has, with tables that are long enough; none if it is not
/// refused as 25.
pub fn fault(state: &State, atoms: &[i32], bonds: &[i32]) -> Option<Fault> {
    let mut faults = Fault::ALL.into_iter();
    faults.find(|fault| fault.is_in(state, atoms, bonds))
}
