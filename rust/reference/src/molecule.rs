//! Molecules: atoms and bonds.

use crate::conformation::marks;
use crate::refusal::Code;
use crate::tetrahedral::{is_unfit, Mark};

/// An atom.
#[derive(Clone, Copy, Debug, Default, PartialEq, Eq)]
pub struct Atom {
    /// The atomic number, 0 for `*`.
    pub element: u8,
    /// Whether the atom is selected.
    pub selected: bool,
    /// The isotope, 0 for none.
    pub isotope: u16,
    /// The hydrogens.
    pub hydrogens: u8,
    /// The charge.
    pub charge: i8,
    /// The extension, 0 for none.
    pub extension: u16,
    /// The tetrahedral mark, which refers to the hydrogen and then the bonds by ascending number.
    pub mark: Mark,
}

/// The kind of a bond, under its number in a table.
#[derive(Clone, Copy, Debug, PartialEq, Eq)]
#[repr(u8)]
pub enum Kind {
    /// Written without a symbol.
    Elided = 0,
    /// `-`
    Single = 1,
    /// `=`
    Double = 2,
    /// `#`
    Triple = 3,
    /// `/`, seen from the lower-numbered end
    Up = 4,
    /// `\`, seen from the lower-numbered end
    Down = 5,
}

impl Kind {
    /// What a bond of this kind adds to a bond sum.
    pub fn order(self) -> u32 {
        match self {
            Kind::Double => 2,
            Kind::Triple => 3,
            _ => 1,
        }
    }

    /// The kind of a bond symbol.
    pub fn of_symbol(byte: u8) -> Option<Self> {
        match byte {
            b'-' => Some(Kind::Single),
            b'=' => Some(Kind::Double),
            b'#' => Some(Kind::Triple),
            b'/' => Some(Kind::Up),
            b'\\' => Some(Kind::Down),
            _ => None,
        }
    }

    /// The symbol that is written.
    pub fn symbol(self) -> Option<u8> {
        match self {
            Kind::Elided => None,
            Kind::Single => Some(b'-'),
            Kind::Double => Some(b'='),
            Kind::Triple => Some(b'#'),
            Kind::Up => Some(b'/'),
            Kind::Down => Some(b'\\'),
        }
    }

    /// Whether this is a mark.
    pub fn is_mark(self) -> bool {
        matches!(self, Kind::Up | Kind::Down)
    }

    /// The kind as seen from the other end of the bond.
    pub fn turned(self) -> Self {
        match self {
            Kind::Up => Kind::Down,
            Kind::Down => Kind::Up,
            other => other,
        }
    }
}

/// A bond between two atoms, given by their numbers, the lower one first.
#[derive(Clone, Copy, Debug, PartialEq, Eq)]
pub struct Bond {
    /// The lower atom number.
    pub first: usize,
    /// The higher atom number.
    pub second: usize,
    /// The kind.
    pub kind: Kind,
}

impl Bond {
    /// The bond between two atoms in any order, of a kind as seen from the first of them.
    pub fn between(one: usize, other: usize, kind: Kind) -> Self {
        Bond {
            first: one.min(other),
            second: one.max(other),
            kind: if one < other { kind } else { kind.turned() },
        }
    }

    /// The kind as seen from one of the ends.
    pub fn kind_from(&self, atom: usize) -> Kind {
        if atom == self.first {
            self.kind
        } else {
            self.kind.turned()
        }
    }

    /// The two atoms.
    pub fn ends(&self) -> (usize, usize) {
        (self.first, self.second)
    }
}

/// A molecule. The functions of this crate expect what [`crate::read`] and
/// [`crate::tables::molecule`] give: values and counts within the limits, bond ends in order and
/// below the number of atoms, and no two bonds between the same two atoms.
#[derive(Clone, Debug, Default, PartialEq, Eq)]
pub struct Molecule {
    /// The atoms.
    pub atoms: Vec<Atom>,
    /// The bonds.
    pub bonds: Vec<Bond>,
}

impl Molecule {
    /// Each atom's sum of bond orders.
    pub fn bond_sums(&self) -> Vec<u32> {
        let mut sums = vec![0; self.atoms.len()];
        for bond in &self.bonds {
            sums[bond.first] += bond.kind.order();
            sums[bond.second] += bond.kind.order();
        }
        sums
    }

    /// Each atom's number of bonds.
    pub fn degrees(&self) -> Vec<usize> {
        let mut degrees = vec![0; self.atoms.len()];
        for bond in &self.bonds {
            degrees[bond.first] += 1;
            degrees[bond.second] += 1;
        }
        degrees
    }

    /// The first check that the molecule fails among those after an open bridge and before the
    /// matching: they also belong to soundness.
    pub fn late_refusal(&self) -> Option<Code> {
        if let Err(code) = marks(self) {
            return Some(code);
        }
        let degrees = self.degrees();
        let mut atoms = self.atoms.iter().zip(&degrees);
        if atoms.any(|(atom, &degree)| atom.selected && degree < 2) {
            return Some(Code::LooseSelected);
        }
        let mut atoms = self.atoms.iter().zip(&degrees);
        let has_unfit = atoms.any(|(atom, &degree)| is_unfit(atom, degree));
        has_unfit.then_some(Code::UnfitMark)
    }

    /// Each atom's neighbours.
    pub fn neighbours(&self) -> Neighbours {
        Neighbours::new(self.atoms.len(), self.bonds.iter().map(Bond::ends))
    }
}

/// A neighbour of an atom, and the bond to it.
#[derive(Clone, Copy, Debug, Default, PartialEq, Eq)]
pub struct Neighbour {
    /// The atom at the other end.
    pub atom: usize,
    /// The bond.
    pub bond: usize,
}

/// The neighbours of every atom, by ascending bond number, in one list.
#[derive(Clone, Debug)]
pub struct Neighbours {
    starts: Vec<usize>,
    list: Vec<Neighbour>,
}

impl Neighbours {
    /// The neighbours in a graph of `count` vertices with edges between these ends.
    pub fn new<E>(count: usize, ends: E) -> Self
    where
        E: ExactSizeIterator<Item = (usize, usize)> + DoubleEndedIterator + Clone,
    {
        let mut starts = vec![0; count + 1];
        for (one, other) in ends.clone() {
            starts[one] += 1;
            starts[other] += 1;
        }
        let mut total = 0;
        for start in &mut starts {
            total += *start;
            *start = total;
        }
        let mut list = vec![Neighbour::default(); total];
        for (bond, (one, other)) in ends.enumerate().rev() {
            starts[one] -= 1;
            list[starts[one]] = Neighbour { atom: other, bond };
            starts[other] -= 1;
            list[starts[other]] = Neighbour { atom: one, bond };
        }
        Neighbours { starts, list }
    }

    /// The neighbours of one atom.
    pub fn of(&self, atom: usize) -> &[Neighbour] {
        &self.list[self.starts[atom]..self.starts[atom + 1]]
    }
}
