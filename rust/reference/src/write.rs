//! Writing a molecule.

use crate::element::symbol_of;
use crate::molecule::{Atom, Molecule, Neighbour, Neighbours};
use crate::refusal::Code;
use crate::tetrahedral::{stored_order, InText, Mark};
use crate::valence::{implied_hydrogens, is_shorthand};
use crate::{MAX_BRANCHES, MAX_BRIDGES, MAX_TEXT};

/// A written text.
#[derive(Clone, Debug, PartialEq, Eq)]
pub struct Written {
    /// The text.
    pub text: Vec<u8>,
    /// Each atom's number in the text.
    pub renumbering: Vec<u16>,
}

/// Writes a molecule, or tells which limit its text would break.
pub fn write(molecule: &Molecule) -> Result<Written, Code> {
    let walk = Walk::of(molecule);
    let mut writer = Writer::new(molecule, &walk);
    for (piece, &root) in walk.roots.iter().enumerate() {
        if piece > 0 {
            writer.text.push(b'.');
        }
        writer.part(root, 0);
    }
    if writer.most_open > MAX_BRIDGES {
        Err(Code::TooManyBridges)
    } else if writer.deepest > MAX_BRANCHES {
        Err(Code::WrittenTooDeep)
    } else if writer.text.len() > MAX_TEXT {
        Err(Code::WrittenTooLong)
    } else {
        Ok(Written {
            text: writer.text,
            renumbering: walk.number.iter().map(|&number| number as u16).collect(),
        })
    }
}

const NONE: usize = usize::MAX;

/// The depth-first walk over a molecule.
struct Walk {
    neighbours: Neighbours,
    /// The atoms at which the walk begins.
    roots: Vec<usize>,
    /// Each atom's place in the walk.
    number: Vec<usize>,
    /// Whether the walk goes along a bond.
    is_walked: Vec<bool>,
}

impl Walk {
    fn of(molecule: &Molecule) -> Self {
        let mut walk = Walk {
            neighbours: molecule.neighbours(),
            roots: Vec::new(),
            number: vec![NONE; molecule.atoms.len()],
            is_walked: vec![false; molecule.bonds.len()],
        };
        let mut visited = 0;
        for root in 0..molecule.atoms.len() {
            if walk.number[root] == NONE {
                walk.roots.push(root);
                walk.visit(root, &mut visited);
            }
        }
        walk
    }

    fn visit(&mut self, atom: usize, visited: &mut usize) {
        self.number[atom] = *visited;
        *visited += 1;
        for index in 0..self.neighbours.of(atom).len() {
            let to = self.neighbours.of(atom)[index];
            if self.number[to.atom] == NONE {
                self.is_walked[to.bond] = true;
                self.visit(to.atom, visited);
            }
        }
    }

    fn is_before(&self, one: usize, other: usize) -> bool {
        self.number[one] < self.number[other]
    }

    /// The atoms to which the walk goes from this one.
    fn children(&self, atom: usize) -> impl DoubleEndedIterator<Item = Neighbour> + '_ {
        let neighbours = self.neighbours.of(atom).iter().copied();
        neighbours.filter(move |to| self.is_walked[to.bond] && self.is_before(atom, to.atom))
    }

    /// The other ends of the bonds at this atom that become bridges, as the walk visits them.
    fn bridges(&self, atom: usize) -> Vec<Neighbour> {
        let neighbours = self.neighbours.of(atom).iter().copied();
        let mut ends: Vec<_> = neighbours.filter(|to| !self.is_walked[to.bond]).collect();
        ends.sort_unstable_by_key(|to| self.number[to.atom]);
        ends
    }

    /// The bonds of an atom as they stand in the text.
    fn in_text(&self, atom: usize) -> InText {
        let is_parent = |to: &&Neighbour| self.is_walked[to.bond] && self.is_before(to.atom, atom);
        let parent = self.neighbours.of(atom).iter().find(is_parent);
        InText {
            preceding: parent.map(|to| to.bond),
            bridges: self.bridges(atom).iter().map(|to| to.bond).collect(),
            children: self.children(atom).map(|to| to.bond).collect(),
        }
    }

    /// The mark of an atom as it is written.
    fn mark(&self, number: usize, atom: &Atom) -> Mark {
        let in_text = self.in_text(number);
        let stored = stored_order(atom, in_text.bonds());
        atom.mark.between(&stored, &in_text.order(atom))
    }
}

/// The text so far.
struct Writer<'m> {
    molecule: &'m Molecule,
    walk: &'m Walk,
    bond_sums: Vec<u32>,
    /// The bridge number of each open bridge's bond.
    bridge_of: Vec<usize>,
    /// Which bridge numbers, less 1, are open.
    open: Vec<bool>,
    /// The most bridges open at once: the highest number used.
    most_open: usize,
    /// The deepest nesting of branches.
    deepest: usize,
    text: Vec<u8>,
}

impl<'m> Writer<'m> {
    fn new(molecule: &'m Molecule, walk: &'m Walk) -> Self {
        Writer {
            molecule,
            walk,
            bond_sums: molecule.bond_sums(),
            bridge_of: vec![NONE; molecule.bonds.len()],
            open: Vec::new(),
            most_open: 0,
            deepest: 0,
            text: Vec::with_capacity(4 * molecule.atoms.len()),
        }
    }

    /// Writes the part of the walk that begins at an atom, inside `depth` branches.
    fn part(&mut self, atom: usize, depth: usize) {
        self.deepest = self.deepest.max(depth);
        self.atom(atom);
        self.bridges(atom);
        let mut children = self.walk.children(atom);
        let last = children.next_back();
        for child in children {
            self.text.push(b'(');
            self.symbol(child.bond, atom);
            self.part(child.atom, depth + 1);
            self.text.push(b')');
        }
        if let Some(child) = last {
            self.symbol(child.bond, atom);
            self.part(child.atom, depth);
        }
    }

    /// Writes the bridges at an atom: those that close, then those that open.
    fn bridges(&mut self, atom: usize) {
        for end in self.walk.bridges(atom) {
            if self.walk.is_before(end.atom, atom) {
                self.close_bridge(end.bond);
            } else {
                self.open_bridge(end.bond, atom);
            }
        }
    }

    fn close_bridge(&mut self, bond: usize) {
        let number = self.bridge_of[bond];
        self.open[number - 1] = false;
        self.bridge_number(number);
    }

    fn open_bridge(&mut self, bond: usize, atom: usize) {
        let free = self.open.iter().position(|&is_open| !is_open);
        let index = free.unwrap_or_else(|| {
            self.open.push(false);
            self.open.len() - 1
        });
        self.open[index] = true;
        self.bridge_of[bond] = index + 1;
        self.most_open = self.most_open.max(index + 1);
        self.symbol(bond, atom);
        self.bridge_number(index + 1);
    }

    fn bridge_number(&mut self, number: usize) {
        if number > 9 {
            self.text.push(b'%');
        }
        push_number(&mut self.text, number);
    }

    /// The symbol of a bond, as seen from the atom that it follows.
    fn symbol(&mut self, bond: usize, atom: usize) {
        let kind = self.molecule.bonds[bond].kind_from(atom);
        self.text.extend(kind.symbol());
    }

    fn atom(&mut self, number: usize) {
        let atom = &self.molecule.atoms[number];
        if needs_bracket(atom, self.bond_sums[number]) {
            let mark = match atom.mark {
                Mark::None => Mark::None,
                _ => self.walk.mark(number, atom),
            };
            push_bracket(&mut self.text, atom, mark);
        } else {
            push_symbol(&mut self.text, atom);
        }
    }
}

/// Whether an atom with this bond sum, read outside brackets, would be another one.
fn needs_bracket(atom: &Atom, bond_sum: u32) -> bool {
    let has_fields = atom.isotope != 0 || atom.charge != 0 || atom.extension != 0;
    has_fields
        || atom.mark != Mark::None
        || !is_shorthand(atom.element)
        || atom.hydrogens != implied_hydrogens(atom.element, atom.selected, bond_sum)
}

/// An atom in brackets, with its mark as it is written.
fn push_bracket(text: &mut Vec<u8>, atom: &Atom, mark: Mark) {
    text.push(b'[');
    if atom.isotope > 0 {
        push_number(text, atom.isotope.into());
    }
    push_symbol(text, atom);
    text.extend(mark.symbol().bytes());
    if atom.hydrogens > 0 {
        text.push(b'H');
        push_count(text, atom.hydrogens);
    }
    if atom.charge != 0 {
        text.push(if atom.charge > 0 { b'+' } else { b'-' });
        push_count(text, atom.charge.unsigned_abs());
    }
    if atom.extension > 0 {
        text.push(b':');
        push_number(text, atom.extension.into());
    }
    text.push(b']');
}

fn push_symbol(text: &mut Vec<u8>, atom: &Atom) {
    let symbol = symbol_of(atom.element).as_bytes();
    if atom.selected {
        text.push(symbol[0].to_ascii_lowercase());
    } else {
        text.extend_from_slice(symbol);
    }
}

/// A digit, left out for 1.
fn push_count(text: &mut Vec<u8>, count: u8) {
    if count > 1 {
        text.push(b'0' + count);
    }
}

fn push_number(text: &mut Vec<u8>, number: usize) {
    if number > 9 {
        push_number(text, number / 10);
    }
    text.push(b'0' + (number % 10) as u8);
}
