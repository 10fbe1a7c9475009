//! Reading a text.

use crate::element::{begins_symbol, number_of};
use crate::matching::has_matching;
use crate::molecule::{Atom, Bond, Kind, Molecule};
use crate::refusal::{Code, Refusal};
use crate::tetrahedral::{stored_order, InText, Mark};
use crate::valence::{implied_hydrogens, reached, Reached};
use crate::{MAX_ATOMS, MAX_BONDS, MAX_BRANCHES, MAX_BRIDGES, MAX_TEXT};

/// A molecule that was read, and how many of its atoms outside brackets are over-full.
#[derive(Clone, Debug, Default, PartialEq, Eq)]
pub struct Reading {
    /// The molecule.
    pub molecule: Molecule,
    /// The number of over-full atoms.
    pub overfull: usize,
}

/// Reads a text, or tells the first refusal in the paper's order.
pub fn reading(text: &[u8]) -> Result<Reading, Refusal> {
    if text.len() > MAX_TEXT {
        return Err(Refusal::at(Code::TextTooLong, MAX_TEXT));
    }
    let mut reader = Reader::new(text);
    reader.text()?;
    let reading = reader.finish()?;
    if let Some(code) = reading.molecule.late_refusal() {
        return Err(code.into());
    }
    if has_matching(&reading.molecule) {
        Ok(reading)
    } else {
        Err(Code::Unmatchable.into())
    }
}

/// The refusal of every text that begins with these bytes, if a byte of them is known to be refused.
pub fn known_refusal(bytes: &[u8]) -> Option<Refusal> {
    let refusal = Reader::new(bytes).text().err()?;
    let is_at_the_end = refusal == Refusal::at(Code::Grammar, bytes.len());
    (!is_at_the_end).then_some(refusal)
}

/// The molecule of a text, or the first refusal in the paper's order.
pub fn read(text: &[u8]) -> Result<Molecule, Refusal> {
    reading(text).map(|reading| reading.molecule)
}

/// How an atom hangs on the one before it.
#[derive(Clone, Copy)]
enum Link {
    /// Not at all: at the start and after a dot.
    Gap,
    /// By a bond.
    Bond(Kind),
}

/// The open end of a bridge.
#[derive(Clone, Copy)]
struct Opening {
    atom: usize,
    kind: Kind,
    place: usize,
    /// How many bridges stand before it at the atom, where the atom is marked.
    before: usize,
}

/// The reading so far.
struct Reader<'t> {
    text: &'t [u8],
    at: usize,
    atoms: Vec<Atom>,
    bonds: Vec<Bond>,
    /// The atoms outside brackets, whose hydrogens are counted at the end.
    shorthands: Vec<usize>,
    /// For each marked atom its bonds as they stand in the text.
    in_text: Vec<Option<Box<InText>>>,
    /// The atom to which the next one is joined.
    hub: usize,
    /// The hub to return to, for each open branch.
    branches: Vec<usize>,
    bridges: [Option<Opening>; MAX_BRIDGES + 1],
}

impl<'t> Reader<'t> {
    fn new(text: &'t [u8]) -> Self {
        let atoms = text.len().min(MAX_ATOMS);
        Reader {
            text,
            at: 0,
            atoms: Vec::with_capacity(atoms),
            bonds: Vec::with_capacity(atoms),
            shorthands: Vec::with_capacity(atoms),
            in_text: Vec::with_capacity(atoms),
            hub: 0,
            branches: Vec::new(),
            bridges: [None; MAX_BRIDGES + 1],
        }
    }

    /// The next byte, which stays unread.
    fn peek(&self) -> Option<u8> {
        self.text.get(self.at).copied()
    }

    /// Reads the next byte if it is this one.
    fn eat(&mut self, byte: u8) -> bool {
        let found = self.peek() == Some(byte);
        self.at += usize::from(found);
        found
    }

    /// The refusal of the next byte, or of the end of the text, by the grammar.
    fn grammar<T>(&self) -> Result<T, Refusal> {
        Err(Refusal::at(Code::Grammar, self.at))
    }

    /// The whole text: nothing, or a sequence.
    fn text(&mut self) -> Result<(), Refusal> {
        if self.text.is_empty() {
            return Ok(());
        }
        self.atom(Link::Gap)?;
        while let Some(byte) = self.peek() {
            match byte {
                b'(' => self.open_branch()?,
                b')' => self.close_branch()?,
                b'.' => {
                    self.at += 1;
                    self.atom(Link::Gap)?;
                }
                _ => self.union()?,
            }
        }
        if self.branches.is_empty() {
            Ok(())
        } else {
            self.grammar()
        }
    }

    /// `(`, perhaps a bond symbol or a dot, and an atom.
    fn open_branch(&mut self) -> Result<(), Refusal> {
        if self.branches.len() == MAX_BRANCHES {
            return Err(Refusal::at(Code::BranchesTooDeep, self.at));
        }
        self.at += 1;
        self.branches.push(self.hub);
        let link = if self.eat(b'.') {
            Link::Gap
        } else {
            Link::Bond(self.bond_symbol())
        };
        self.atom(link)
    }

    /// `)`: the hub is again what it was before the branch.
    fn close_branch(&mut self) -> Result<(), Refusal> {
        match self.branches.pop() {
            Some(hub) => self.hub = hub,
            None => return self.grammar(),
        }
        self.at += 1;
        Ok(())
    }

    /// Perhaps a bond symbol, then a bridge or an atom.
    fn union(&mut self) -> Result<(), Refusal> {
        let kind = self.bond_symbol();
        match self.peek() {
            Some(b'1'..=b'9' | b'%') => self.bridge(kind),
            _ => self.atom(Link::Bond(kind)),
        }
    }

    /// Perhaps a bond symbol.
    fn bond_symbol(&mut self) -> Kind {
        match self.peek().and_then(Kind::of_symbol) {
            Some(kind) => {
                self.at += 1;
                kind
            }
            None => Kind::Elided,
        }
    }

    /// A bridge: its number opens, or joins the atom where it is open to the hub.
    fn bridge(&mut self, kind: Kind) -> Result<(), Refusal> {
        let place = self.at;
        let number = self.bridge_number()?;
        match self.bridges[number].take() {
            None => {
                let opening = Opening {
                    atom: self.hub,
                    kind,
                    place,
                    before: self.stand_bridge(usize::MAX),
                };
                self.bridges[number] = Some(opening);
            }
            Some(opening) => {
                let bond = self.join(opening, kind);
                let bond = bond.map_err(|code| Refusal::at(code, place))?;
                self.stand_bridge(self.bonds.len());
                if let Some(in_text) = &mut self.in_text[opening.atom] {
                    in_text.bridges[opening.before] = self.bonds.len();
                }
                self.bonds.push(bond);
            }
        }
        Ok(())
    }

    /// Notes that a bridge of a bond stands at the hub, if that is marked; how many stood there.
    fn stand_bridge(&mut self, bond: usize) -> usize {
        let Some(in_text) = &mut self.in_text[self.hub] else {
            return 0;
        };
        in_text.bridges.push(bond);
        in_text.bridges.len() - 1
    }

    /// One digit, or `%` and two, neither with a leading zero.
    fn bridge_number(&mut self) -> Result<usize, Refusal> {
        let (digits, least) = if self.eat(b'%') { (2, 10) } else { (1, 1) };
        let number = usize::from(self.number(digits));
        if number >= least {
            Ok(number)
        } else {
            self.grammar()
        }
    }

    /// The bond of a bridge that closes at the hub.
    fn join(&self, opening: Opening, closing: Kind) -> Result<Bond, Code> {
        let kind = if closing == Kind::Elided {
            opening.kind
        } else {
            closing.turned()
        };
        let bond = Bond::between(opening.atom, self.hub, kind);
        if self.bonds.len() == MAX_BONDS {
            Err(Code::TooManyBonds)
        } else if bond.first == bond.second {
            Err(Code::SelfBridge)
        } else if self.bonds.iter().any(|other| other.ends() == bond.ends()) {
            Err(Code::RepeatedBond)
        } else if opening.kind != Kind::Elided && opening.kind != kind {
            Err(Code::UnequalSymbols)
        } else {
            Ok(bond)
        }
    }

    /// An atom, which becomes the hub.
    fn atom(&mut self, link: Link) -> Result<(), Refusal> {
        let Some(byte) = self.peek().filter(|&byte| begins_atom(byte)) else {
            return self.grammar();
        };
        if self.atoms.len() == MAX_ATOMS {
            return Err(Refusal::at(Code::TooManyAtoms, self.at));
        }
        let number = self.atoms.len();
        let mut preceding = None;
        if let Link::Bond(kind) = link {
            if self.bonds.len() == MAX_BONDS {
                return Err(Refusal::at(Code::TooManyBonds, self.at));
            }
            if let Some(in_text) = &mut self.in_text[self.hub] {
                in_text.children.push(self.bonds.len());
            }
            preceding = Some(self.bonds.len());
            self.bonds.push(Bond::between(self.hub, number, kind));
        }
        self.at += 1;
        let atom = if byte == b'[' {
            self.bracket()?
        } else {
            self.shorthands.push(number);
            self.shorthand(byte)?
        };
        self.in_text.push((atom.mark != Mark::None).then(|| {
            Box::new(InText {
                preceding,
                ..InText::default()
            })
        }));
        self.atoms.push(atom);
        self.hub = number;
        Ok(())
    }

    /// The rest of an atom outside brackets.
    fn shorthand(&mut self, byte: u8) -> Result<Atom, Refusal> {
        let two_letters = match byte {
            b'C' => self.eat(b'l').then_some(17),
            b'B' => self.eat(b'r').then_some(35),
            b'A' if self.eat(b't') => Some(85),
            b'T' if self.eat(b's') => Some(117),
            b'A' | b'T' => return self.grammar(),
            _ => None,
        };
        Ok(match two_letters {
            Some(element) => Atom {
                element,
                ..Atom::default()
            },
            None => one_letter(byte),
        })
    }

    /// The rest of an atom in brackets.
    fn bracket(&mut self) -> Result<Atom, Refusal> {
        let isotope = self.number(3);
        let symbol = self.bracket_symbol()?;
        let mark = self.mark();
        let hydrogens = if self.eat(b'H') { self.count() } else { 0 };
        let charge = self.charge();
        let extension = self.extension()?;
        if !self.eat(b']') {
            return self.grammar();
        }
        Ok(Atom {
            isotope,
            hydrogens,
            charge,
            extension,
            mark,
            ..symbol
        })
    }

    /// Perhaps a tetrahedral mark.
    fn mark(&mut self) -> Mark {
        match (self.eat(b'@'), self.eat(b'@')) {
            (false, _) => Mark::None,
            (true, false) => Mark::Counterclockwise,
            (true, true) => Mark::Clockwise,
        }
    }

    /// The symbol in a bracket, as an atom without any other field.
    fn bracket_symbol(&mut self) -> Result<Atom, Refusal> {
        let Some(first) = self.peek() else {
            return self.grammar();
        };
        if matches!(first, b'*' | b'c' | b'n' | b'o' | b'p' | b's') {
            self.at += 1;
            return Ok(one_letter(first));
        }
        if !begins_symbol(first) {
            return self.grammar();
        }
        self.at += 1;
        let two_letters = self
            .peek()
            .and_then(|second| number_of(first, Some(second)));
        self.at += usize::from(two_letters.is_some());
        match two_letters.or_else(|| number_of(first, None)) {
            Some(element) => Ok(Atom {
                element,
                ..Atom::default()
            }),
            None => self.grammar(),
        }
    }

    /// Perhaps a charge.
    fn charge(&mut self) -> i8 {
        if self.eat(b'+') {
            self.count() as i8
        } else if self.eat(b'-') {
            -(self.count() as i8)
        } else {
            0
        }
    }

    /// Perhaps an extension.
    fn extension(&mut self) -> Result<u16, Refusal> {
        if !self.eat(b':') {
            return Ok(0);
        }
        match self.number(4) {
            0 => self.grammar(),
            extension => Ok(extension),
        }
    }

    /// A digit from 2 to 9, or 1 if there is none.
    fn count(&mut self) -> u8 {
        match self.peek() {
            Some(digit @ b'2'..=b'9') => {
                self.at += 1;
                digit - b'0'
            }
            _ => 1,
        }
    }

    /// A number of at most `digits` digits without a leading zero, or 0 if there is none.
    fn number(&mut self, digits: usize) -> u16 {
        let mut value = 0;
        for _ in 0..digits {
            match self.peek() {
                Some(digit @ b'0'..=b'9') if value > 0 || digit > b'0' => {
                    value = 10 * value + u16::from(digit - b'0');
                    self.at += 1;
                }
                _ => break,
            }
        }
        value
    }

    /// The molecule at the end of the text, with the hydrogens of the atoms outside brackets.
    fn finish(self) -> Result<Reading, Refusal> {
        let openings = self.bridges.iter().flatten();
        if let Some(place) = openings.map(|opening| opening.place).min() {
            return Err(Refusal::at(Code::OpenBridge, place));
        }
        let mut molecule = Molecule {
            atoms: self.atoms,
            bonds: self.bonds,
        };
        let sums = molecule.bond_sums();
        let mut overfull = 0;
        for number in self.shorthands {
            let (atom, sum) = (&mut molecule.atoms[number], sums[number]);
            atom.hydrogens = implied_hydrogens(atom.element, atom.selected, sum);
            let reached = reached(atom.element, atom.selected, sum);
            overfull += usize::from(reached == Reached::AboveAll);
        }
        for (atom, in_text) in molecule.atoms.iter_mut().zip(self.in_text) {
            if let Some(in_text) = in_text {
                let stored = stored_order(atom, in_text.bonds());
                atom.mark = atom.mark.between(&in_text.order(atom), &stored);
            }
        }
        Ok(Reading { molecule, overfull })
    }
}

/// Whether an atom outside brackets, or a bracket, begins with this byte.
fn begins_atom(byte: u8) -> bool {
    matches!(
        byte,
        b'*' | b'['
            | b'A'
            | b'B'
            | b'C'
            | b'F'
            | b'I'
            | b'N'
            | b'O'
            | b'P'
            | b'S'
            | b'T'
            | b'c'
            | b'n'
            | b'o'
            | b'p'
            | b's'
    )
}

/// The atom of a symbol of one letter that may stand outside brackets.
fn one_letter(byte: u8) -> Atom {
    let element = number_of(byte.to_ascii_uppercase(), None).unwrap_or(0);
    Atom {
        element,
        selected: byte.is_ascii_lowercase(),
        ..Atom::default()
    }
}
