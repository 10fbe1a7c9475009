//! Molecules in random spellings: any root, any order of pieces, any bridge numbers.

use crate::random::Random;
use balsa_reference::{
    implied_hydrogens, is_shorthand, symbol_of, Atom, Mark, Molecule, Neighbour, Neighbours,
    MAX_BRIDGES,
};

/// A text of the molecule, if not a limit or the lack of a matching stands against it.
pub fn text(random: &mut Random, molecule: &Molecule) -> Vec<u8> {
    let mut roots = Vec::new();
    let mut speller = Speller::new(random, molecule);
    let mut atoms: Vec<usize> = (0..molecule.atoms.len()).collect();
    if speller.random.percent(70) {
        speller.random.shuffle(&mut atoms);
    }
    for atom in atoms {
        if !speller.is_reached[atom] {
            roots.push(atom);
            speller.reach(atom);
        }
    }
    speller.is_reached.fill(false);
    roots.reverse();
    let mut is_first = true;
    while let Some(root) = roots.pop() {
        if !is_first {
            speller.text.push(b'.');
        }
        is_first = false;
        speller.sequence(root, None, &mut roots);
    }
    speller.text
}

/// Where a bridge's bond symbol stands.
#[derive(Clone, Copy)]
enum Ends {
    Opening,
    Closing,
    Both,
}

struct Speller<'a> {
    random: &'a mut Random,
    molecule: &'a Molecule,
    neighbours: Neighbours,
    bond_sums: Vec<u32>,
    /// Which bonds are bridges.
    is_bridge: Vec<bool>,
    is_reached: Vec<bool>,
    /// The bond of each open bridge number, and where its symbol stands.
    open: [Option<(usize, Ends)>; MAX_BRIDGES + 1],
    text: Vec<u8>,
}

impl<'a> Speller<'a> {
    fn new(random: &'a mut Random, molecule: &'a Molecule) -> Self {
        Speller {
            is_bridge: bridges(random, molecule),
            random,
            molecule,
            neighbours: molecule.neighbours(),
            bond_sums: molecule.bond_sums(),
            is_reached: vec![false; molecule.atoms.len()],
            open: [None; MAX_BRIDGES + 1],
            text: Vec::new(),
        }
    }

    /// Marks what hangs together with an atom without bridges.
    fn reach(&mut self, atom: usize) {
        self.is_reached[atom] = true;
        for child in self.children(atom) {
            self.reach(child.atom);
        }
    }

    fn children(&self, atom: usize) -> Vec<Neighbour> {
        let neighbours = self.neighbours.of(atom).iter().copied();
        let is_child = |to: &Neighbour| !self.is_bridge[to.bond] && !self.is_reached[to.atom];
        neighbours.filter(is_child).collect()
    }

    /// Writes an atom, which hangs on another one by the bond `preceding`, and all that hangs on it;
    /// atoms of `roots` may come in as parts of their own.
    fn sequence(&mut self, atom: usize, preceding: Option<usize>, roots: &mut Vec<usize>) {
        self.is_reached[atom] = true;
        let neighbours = self.neighbours.of(atom).to_vec();
        let is_bridge = |to: &&Neighbour| self.is_bridge[to.bond];
        let bridges: Vec<_> = neighbours.iter().filter(is_bridge).copied().collect();
        let mut pieces: Vec<_> = bridges.iter().map(|to| (true, *to)).collect();
        let mut children: Vec<_> = self.children(atom).iter().map(|to| (false, *to)).collect();
        if self.random.percent(50) {
            self.random.shuffle(&mut children);
        }
        pieces.extend(children);
        if self.random.percent(15) {
            self.random.shuffle(&mut pieces);
        }
        let mark = self.mark(atom, preceding, &pieces);
        self.atom(atom, mark);
        for (index, &(is_bridge, to)) in pieces.iter().enumerate() {
            let is_last = index + 1 == pieces.len();
            if self.random.percent(5) {
                self.part_of_its_own(roots);
            }
            if is_bridge {
                self.bridge(to.bond, atom);
            } else if is_last && self.random.percent(92) {
                self.symbol(to.bond, atom);
                self.sequence(to.atom, Some(to.bond), roots);
            } else {
                self.text.push(b'(');
                self.symbol(to.bond, atom);
                self.sequence(to.atom, Some(to.bond), roots);
                self.text.push(b')');
            }
        }
    }

    fn part_of_its_own(&mut self, roots: &mut Vec<usize>) {
        if let Some(root) = roots.pop() {
            self.text.extend(b"(.");
            self.sequence(root, None, roots);
            self.text.push(b')');
        }
    }

    /// Writes the symbol of a bond as seen from an atom.
    fn symbol(&mut self, bond: usize, atom: usize) {
        let kind = self.molecule.bonds[bond].kind_from(atom);
        self.text.extend(kind.symbol());
    }

    /// Writes the end of a bridge at an atom.
    fn bridge(&mut self, bond: usize, atom: usize) {
        let is_its_number = |open: &Option<(usize, Ends)>| open.is_some_and(|(of, _)| of == bond);
        if let Some(number) = self.open.iter().position(is_its_number) {
            let opened = self.open[number].take();
            let is_told = !matches!(opened, Some((_, Ends::Opening)));
            self.bridge_end(bond, atom, number, is_told);
        } else {
            let number = self.free_number();
            let ends = *self
                .random
                .pick(&[Ends::Opening, Ends::Closing, Ends::Both]);
            self.open[number] = Some((bond, ends));
            self.bridge_end(bond, atom, number, !matches!(ends, Ends::Closing));
        }
    }

    fn bridge_end(&mut self, bond: usize, atom: usize, number: usize, has_symbol: bool) {
        if has_symbol {
            self.symbol(bond, atom);
        }
        let percent = if number > 9 { "%" } else { "" };
        self.text.extend(format!("{percent}{number}").bytes());
    }

    /// A bridge number that is not open, or the last one if all are.
    fn free_number(&mut self) -> usize {
        let chosen = self.random.between(1, MAX_BRIDGES);
        if self.random.percent(20) && self.open[chosen].is_none() {
            return chosen;
        }
        let lowest = (1..=MAX_BRIDGES).find(|&number| self.open[number].is_none());
        lowest.unwrap_or(MAX_BRIDGES)
    }

    /// The mark of an atom as the text puts its neighbours: the preceding atom, the hydrogen, the
    /// bridges, the children.
    fn mark(&self, number: usize, preceding: Option<usize>, pieces: &[(bool, Neighbour)]) -> Mark {
        let atom = self.molecule.atoms[number];
        let hydrogen = (atom.hydrogens == 1).then_some(None);
        let those = |bridges: bool| {
            let pieces = pieces.iter().filter(move |piece| piece.0 == bridges);
            pieces.map(|(_, to)| Some(to.bond))
        };
        let before = preceding.map(Some).into_iter().chain(hydrogen);
        let in_text: Vec<_> = before.chain(those(true)).chain(those(false)).collect();
        let bonds = self.neighbours.of(number).iter().map(|to| Some(to.bond));
        let stored: Vec<_> = hydrogen.into_iter().chain(bonds).collect();
        atom.mark.between(&stored, &in_text)
    }

    fn atom(&mut self, number: usize, mark: Mark) {
        let atom = self.molecule.atoms[number];
        let implied = |atom: &Atom, sum| implied_hydrogens(atom.element, atom.selected, sum);
        let has_fields = atom.isotope != 0 || atom.charge != 0 || atom.extension != 0;
        let is_short = !has_fields
            && mark == Mark::None
            && is_shorthand(atom.element)
            && atom.hydrogens == implied(&atom, self.bond_sums[number]);
        if is_short && self.random.percent(95) {
            self.text.extend(symbol(&atom).bytes());
        } else {
            self.text.extend(bracket(&atom, mark).bytes());
        }
    }
}

/// Which bonds are bridges: what a random forest leaves out, and some more.
fn bridges(random: &mut Random, molecule: &Molecule) -> Vec<bool> {
    let count = molecule.bonds.len();
    let mut order: Vec<usize> = (0..count).collect();
    if random.percent(50) {
        random.shuffle(&mut order);
    }
    let chance = *random.pick(&[0, 0, 0, 3, 20]);
    let mut is_bridge = vec![true; count];
    let mut group: Vec<usize> = (0..molecule.atoms.len()).collect();
    for bond in order {
        let (one, other) = molecule.bonds[bond].ends();
        if group[one] != group[other] && !random.percent(chance) {
            is_bridge[bond] = false;
            let (from, to) = (group[one], group[other]);
            for member in &mut group {
                if *member == from {
                    *member = to;
                }
            }
        }
    }
    is_bridge
}

fn symbol(atom: &Atom) -> String {
    let symbol = symbol_of(atom.element);
    if atom.selected {
        symbol.to_ascii_lowercase()
    } else {
        symbol.to_string()
    }
}

fn bracket(atom: &Atom, mark: Mark) -> String {
    let or_nothing = |number: u16| match number {
        0 => String::new(),
        number => number.to_string(),
    };
    let counted = |sign: &str, count: u8| match count {
        0 => String::new(),
        1 => sign.to_string(),
        count => format!("{sign}{count}"),
    };
    let sign = if atom.charge < 0 { "-" } else { "+" };
    let colon = if atom.extension > 0 { ":" } else { "" };
    [
        "[",
        &or_nothing(atom.isotope),
        &symbol(atom),
        mark.symbol(),
        &counted("H", atom.hydrogens),
        &counted(sign, atom.charge.unsigned_abs()),
        colon,
        &or_nothing(atom.extension),
        "]",
    ]
    .concat()
}
