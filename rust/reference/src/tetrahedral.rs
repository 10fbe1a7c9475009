//! The marks `@` and `@@`: orders of neighbours, and whether an odd number of swaps lies between them.

use crate::molecule::Atom;

/// The tetrahedral mark of an atom, under its number in a table.
#[derive(Clone, Copy, Debug, Default, PartialEq, Eq)]
#[repr(u8)]
pub enum Mark {
    /// None.
    #[default]
    None = 0,
    /// `@`: seen from the first neighbour, the others stand counterclockwise.
    Counterclockwise = 1,
    /// `@@`: seen from the first neighbour, the others stand clockwise.
    Clockwise = 2,
}

impl Mark {
    /// How the mark is written.
    pub fn symbol(self) -> &'static str {
        match self {
            Mark::None => "",
            Mark::Counterclockwise => "@",
            Mark::Clockwise => "@@",
        }
    }

    /// The other mark.
    pub fn turned(self) -> Self {
        match self {
            Mark::None => Mark::None,
            Mark::Counterclockwise => Mark::Clockwise,
            Mark::Clockwise => Mark::Counterclockwise,
        }
    }

    /// The mark that says of one order of the neighbours what this one says of another.
    pub fn between<T: PartialEq + Clone>(self, order: &[T], other: &[T]) -> Self {
        if swaps(order, other) % 2 == 1 {
            self.turned()
        } else {
            self
        }
    }
}

/// How many swaps of two places make one order into another order of the same items.
fn swaps<T: PartialEq + Clone>(order: &[T], other: &[T]) -> usize {
    let mut order = order.to_vec();
    let mut swaps = 0;
    for (place, item) in other.iter().enumerate() {
        if order[place] != *item {
            let rest = &order[place..];
            let later = rest.iter().position(|found| found == item);
            order.swap(
                place,
                place + later.expect("the orders have the same items"),
            );
            swaps += 1;
        }
    }
    swaps
}

/// A neighbour of a marked atom.
#[derive(Clone, Copy, Debug, PartialEq, Eq)]
pub enum Seat {
    /// The virtual hydrogen.
    Hydrogen,
    /// The other end of the bond of this number.
    Bond(usize),
}

/// The virtual hydrogen of an atom, if it has one.
fn hydrogen(atom: &Atom) -> Option<Seat> {
    (atom.hydrogens == 1).then_some(Seat::Hydrogen)
}

/// The order to which a stored mark refers: the hydrogen, then the bonds by ascending number.
pub fn stored_order(atom: &Atom, mut bonds: Vec<usize>) -> Vec<Seat> {
    bonds.sort_unstable();
    let bonds = bonds.into_iter().map(Seat::Bond);
    hydrogen(atom).into_iter().chain(bonds).collect()
}

/// Where the bonds of an atom stand in a text.
#[derive(Clone, Debug, Default)]
pub struct InText {
    /// The bond to the preceding atom, if there is one.
    pub preceding: Option<usize>,
    /// The bonds of the bridges, as their digits stand.
    pub bridges: Vec<usize>,
    /// The bonds to the children, as they begin.
    pub children: Vec<usize>,
}

impl InText {
    /// The order to which a mark in the text refers: the preceding atom, the hydrogen, the bridges,
    /// the children.
    pub fn order(&self, atom: &Atom) -> Vec<Seat> {
        let preceding = self.preceding.map(Seat::Bond).into_iter();
        let others = self.bridges.iter().chain(&self.children).copied();
        preceding
            .chain(hydrogen(atom))
            .chain(others.map(Seat::Bond))
            .collect()
    }

    /// The bonds, in no particular order.
    pub fn bonds(&self) -> Vec<usize> {
        let others = self.bridges.iter().chain(&self.children).copied();
        self.preceding.into_iter().chain(others).collect()
    }
}

/// Whether an atom with this number of bonds is marked and has not four neighbours, or more than one
/// hydrogen among them.
pub fn is_unfit(atom: &Atom, degree: usize) -> bool {
    let neighbours = degree + usize::from(atom.hydrogens);
    atom.mark != Mark::None && (neighbours != 4 || atom.hydrogens > 1)
}
