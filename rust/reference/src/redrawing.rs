//! The search for a renumbering that shows two molecules to be the same compound.
//!
//! Atoms of both molecules get colours that every renumbering keeps. Where colours leave a choice, an
//! atom is placed on each atom of its colour in turn. The rows come bond by bond: a bond is double if
//! some renumbering still fits then; so does the renumbering, atom by atom.

use crate::matching::first_of;
use crate::molecule::{Bond, Kind, Molecule, Neighbour, Neighbours};
use crate::same::{cells, Cells, Sameness};
use crate::search::Graph;
use crate::valence::delocalized;
use std::cmp::Reverse;

/// The first rows and the smallest renumbering that show two molecules to be the same.
pub(crate) fn search(one: &Molecule, other: &Molecule) -> Option<Sameness> {
    let counts = |molecule: &Molecule| (molecule.atoms.len(), molecule.bonds.len());
    if counts(one) != counts(other) {
        return None;
    }
    let mut first = Drawing::new(one);
    let mut second = Drawing::new(other);
    let found = Search::new(&first, &second).run()?;
    let found = decide(&mut first, &second, found).exchanged(&first, &second);
    let found = decide(&mut second, &first, found).exchanged(&second, &first);
    let images = smallest(&first, &second, found);
    Some(Sameness {
        row1: first.row(),
        row2: second.row(),
        renumbering: images.into_iter().map(|image| image as u16).collect(),
    })
}

/// A molecule of which some induced bonds are decided.
#[derive(Clone)]
struct Drawing<'m> {
    molecule: &'m Molecule,
    neighbours: Neighbours,
    delocalized: Vec<bool>,
    /// The order of each bond; none for an induced bond that is not decided.
    orders: Vec<Option<u32>>,
}

impl<'m> Drawing<'m> {
    fn new(molecule: &'m Molecule) -> Self {
        let mut drawing = Drawing {
            molecule,
            neighbours: molecule.neighbours(),
            delocalized: delocalized(molecule),
            orders: Vec::new(),
        };
        let bonds = 0..molecule.bonds.len();
        let order = |bond| match drawing.is_induced(bond) {
            true => None,
            false => Some(molecule.bonds[bond].kind.order()),
        };
        drawing.orders = bonds.map(order).collect();
        drawing
    }

    fn is_induced(&self, bond: usize) -> bool {
        let bond = self.molecule.bonds[bond];
        let is_elided = bond.kind == Kind::Elided;
        is_elided && self.delocalized[bond.first] && self.delocalized[bond.second]
    }

    /// The row of a drawing whose bonds are all decided.
    fn row(&self) -> Vec<u8> {
        let bonds = self.orders.iter().enumerate();
        let is_chosen =
            |(bond, order): (usize, &Option<u32>)| self.is_induced(bond) && *order == Some(2);
        bonds.map(|bond| u8::from(is_chosen(bond))).collect()
    }

    /// Decides that a bond is double; the other induced bonds at its ends are then single.
    fn make_double(&mut self, bond: usize) {
        self.orders[bond] = Some(2);
        let (one, other) = self.molecule.bonds[bond].ends();
        for end in [one, other] {
            for to in self.neighbours.of(end) {
                self.orders[to.bond].get_or_insert(1);
            }
        }
    }

    /// The bond between two atoms.
    fn between(&self, one: usize, other: usize) -> Option<usize> {
        let to = self.neighbours.of(one).iter().find(|to| to.atom == other)?;
        Some(to.bond)
    }

    /// For each atom whether one of its bonds is not decided.
    fn open_atoms(&self) -> Vec<bool> {
        let mut is_open = vec![false; self.molecule.atoms.len()];
        for (bond, order) in self.molecule.bonds.iter().zip(&self.orders) {
            if order.is_none() {
                is_open[bond.first] = true;
                is_open[bond.second] = true;
            }
        }
        is_open
    }

    /// The orders of all bonds, if the undecided ones among these can be decided so that each
    /// delocalized atom has one double bond among the induced ones.
    fn completed(&self, orders: &[Option<u32>]) -> Option<Vec<u32>> {
        let mut is_free = self.delocalized.clone();
        for (bond, order) in orders.iter().enumerate() {
            if *order == Some(2) && self.is_induced(bond) {
                let (one, other) = self.molecule.bonds[bond].ends();
                let was_free = is_free[one] && is_free[other];
                (is_free[one], is_free[other]) = (false, false);
                if !was_free {
                    return None;
                }
            }
        }
        let chosen = self.matching(orders, &is_free)?;
        let mut all: Vec<u32> = orders.iter().map(|order| order.unwrap_or(1)).collect();
        for bond in chosen {
            all[bond] = 2;
        }
        Some(all)
    }

    /// Undecided bonds that cover each of these atoms once.
    fn matching(&self, orders: &[Option<u32>], is_free: &[bool]) -> Option<Vec<usize>> {
        let mut graph = Graph::default();
        let mut number = vec![0; is_free.len()];
        for (atom, _) in is_free.iter().enumerate().filter(|(_, is_free)| **is_free) {
            number[atom] = graph.vertices;
            graph.vertices += 1;
        }
        let mut bonds = Vec::new();
        for (bond, order) in orders.iter().enumerate() {
            let (one, other) = self.molecule.bonds[bond].ends();
            if order.is_none() && is_free[one] && is_free[other] {
                graph.edges.push((number[one], number[other]));
                bonds.push(bond);
            }
        }
        let edges = first_of(&graph)?;
        Some(edges.into_iter().map(|edge| bonds[edge]).collect())
    }
}

/// A renumbering that fits: the image of each atom of the first drawing, and the orders of its bonds.
struct Found {
    images: Vec<usize>,
    orders: Vec<u32>,
}

impl Found {
    /// The same with the two drawings exchanged.
    fn exchanged(self, first: &Drawing, second: &Drawing) -> Found {
        let mut images = vec![0; self.images.len()];
        for (atom, &image) in self.images.iter().enumerate() {
            images[image] = atom;
        }
        let order = |bond: &Bond| {
            let bond = first.between(images[bond.first], images[bond.second]);
            self.orders[bond.expect("a renumbering that fits keeps bonds")]
        };
        let orders = second.molecule.bonds.iter().map(order).collect();
        Found { images, orders }
    }
}

/// Decides each bond of the first drawing in turn: double if some renumbering still fits then.
fn decide(first: &mut Drawing, second: &Drawing, mut found: Found) -> Found {
    for bond in 0..first.orders.len() {
        if first.orders[bond].is_some() {
            continue;
        }
        let mut doubled = first.clone();
        doubled.make_double(bond);
        if found.orders[bond] != 2 {
            match Search::new(&doubled, second).run() {
                Some(better) => found = better,
                None => {
                    first.orders[bond] = Some(1);
                    continue;
                }
            }
        }
        *first = doubled;
    }
    found
}

/// The smallest renumbering between drawings whose bonds are all decided.
fn smallest(first: &Drawing, second: &Drawing, mut found: Found) -> Vec<usize> {
    let search = Search::new(first, second);
    let mut colours = search.labels();
    for atom in 0..found.images.len() {
        colours = search.refined(colours).expect("a renumbering fits");
        for image in 0..found.images[atom] {
            if colours.second[image] != colours.first[atom] {
                continue;
            }
            if let Some(better) = search.extend(colours.with(atom, image)) {
                found = better;
                break;
            }
        }
        colours = colours.with(atom, found.images[atom]);
    }
    found.images
}

/// The colours of the atoms of both drawings. An atom goes to atoms of its colour only.
#[derive(Clone, Debug)]
pub(crate) struct Colours {
    pub(crate) first: Vec<usize>,
    pub(crate) second: Vec<usize>,
}

impl Colours {
    /// Numbers whatever the atoms of both drawings are told apart by; none where they do not have
    /// the same ones equally often.
    pub(crate) fn numbered<T: Ord>(first: Vec<T>, second: Vec<T>) -> Option<Colours> {
        let mut kinds: Vec<&T> = first.iter().chain(&second).collect();
        kinds.sort_unstable();
        kinds.dedup();
        let number = |kind: &T| kinds.binary_search(&kind).expect("it is listed");
        let colours = Colours {
            first: first.iter().map(number).collect(),
            second: second.iter().map(number).collect(),
        };
        let is_fair = colours.sizes() == sizes(&colours.second, kinds.len());
        is_fair.then_some(colours)
    }

    /// How many atoms of the first drawing have each colour.
    pub(crate) fn sizes(&self) -> Vec<usize> {
        let colours = self.first.iter().chain(&self.second).max();
        sizes(&self.first, colours.map_or(0, |last| last + 1))
    }

    /// How many colours there are.
    pub(crate) fn count(&self) -> usize {
        self.sizes().iter().filter(|&&size| size > 0).count()
    }

    /// These colours, with a new one for an atom and its image.
    pub(crate) fn with(&self, atom: usize, image: usize) -> Colours {
        let mut colours = self.clone();
        let new = colours.sizes().len();
        colours.first[atom] = new;
        colours.second[image] = new;
        colours
    }

    /// The image of each atom that is the only one of its colour.
    pub(crate) fn placed(&self) -> Vec<Option<usize>> {
        let sizes = self.sizes();
        let mut atom_of = vec![None; sizes.len()];
        for (atom, &colour) in self.second.iter().enumerate() {
            atom_of[colour] = Some(atom);
        }
        let image = |&colour: &usize| atom_of[colour].filter(|_| sizes[colour] == 1);
        self.first.iter().map(image).collect()
    }
}

fn sizes(colours: &[usize], count: usize) -> Vec<usize> {
    let mut sizes = vec![0; count];
    for &colour in colours {
        sizes[colour] += 1;
    }
    sizes
}

/// A search for a renumbering from one drawing to another.
struct Search<'d, 'm> {
    first: &'d Drawing<'m>,
    second: &'d Drawing<'m>,
    /// For each atom of both whether one of its bonds is not decided.
    open1: Vec<bool>,
    open2: Vec<bool>,
}

impl<'d, 'm> Search<'d, 'm> {
    fn new(first: &'d Drawing<'m>, second: &'d Drawing<'m>) -> Self {
        Search {
            first,
            second,
            open1: first.open_atoms(),
            open2: second.open_atoms(),
        }
    }

    /// A renumbering that fits.
    fn run(&self) -> Option<Found> {
        let labels = Colours::numbered(labels(self.first), labels(self.second))?;
        self.extend(labels)
    }

    /// The colours of drawings that some renumbering fits.
    fn labels(&self) -> Colours {
        let labels = Colours::numbered(labels(self.first), labels(self.second));
        labels.expect("a renumbering fits")
    }

    /// A renumbering that fits and keeps these colours.
    fn extend(&self, colours: Colours) -> Option<Found> {
        let colours = self.refined(colours)?;
        let placed = colours.placed();
        let orders = self.first.completed(&self.joined(&placed)?)?;
        let Some(atom) = self.choice(&colours) else {
            let images = placed.into_iter().flatten().collect();
            return Some(Found { images, orders });
        };
        let images = 0..colours.second.len();
        let mut images = images.filter(|&image| colours.second[image] == colours.first[atom]);
        images.find_map(|image| self.extend(colours.with(atom, image)))
    }

    /// The atom that is placed next: one of those with undecided bonds, of the fewest of a colour.
    fn choice(&self, colours: &Colours) -> Option<usize> {
        let sizes = colours.sizes();
        let mut is_open = vec![false; sizes.len()];
        for (colour, _) in colours
            .first
            .iter()
            .zip(&self.open1)
            .filter(|(_, open)| **open)
        {
            is_open[*colour] = true;
        }
        for (colour, _) in colours
            .second
            .iter()
            .zip(&self.open2)
            .filter(|(_, open)| **open)
        {
            is_open[*colour] = true;
        }
        let atoms = 0..colours.first.len();
        let unplaced = atoms.filter(|&atom| sizes[colours.first[atom]] > 1);
        unplaced.min_by_key(|&atom| {
            let colour = colours.first[atom];
            (Reverse(is_open[colour]), sizes[colour])
        })
    }

    /// The orders of the first drawing's bonds, joined with those of their images where both ends
    /// are placed; none where they do not go together.
    fn joined(&self, placed: &[Option<usize>]) -> Option<Vec<Option<u32>>> {
        let mut joined = self.first.orders.clone();
        for (order, bond) in joined.iter_mut().zip(&self.first.molecule.bonds) {
            if let (Some(one), Some(other)) = (placed[bond.first], placed[bond.second]) {
                let image = self.second.orders[self.second.between(one, other)?];
                *order = match (*order, image) {
                    (Some(one), Some(other)) if one == other => Some(one),
                    (None, None) => None,
                    (Some(order @ 1..=2), None) | (None, Some(order @ 1..=2)) => Some(order),
                    _ => return None,
                };
            }
        }
        Some(joined)
    }

    /// Finer colours, by those of the neighbours, until they tell no more atoms apart; none where no
    /// renumbering keeps them.
    fn refined(&self, mut colours: Colours) -> Option<Colours> {
        let mut count = colours.count();
        loop {
            let sizes = colours.sizes();
            let is_strict = self.is_strict(&colours, &sizes);
            let around =
                |drawing: &Drawing, own: &[usize]| surroundings(drawing, own, &sizes, is_strict);
            let first = around(self.first, &colours.first);
            let second = around(self.second, &colours.second);
            colours = Colours::numbered(first, second)?;
            let finer = colours.count();
            if finer == count {
                return Some(colours);
            }
            count = finer;
        }
    }

    /// Whether all atoms with undecided bonds are placed, so that all other bonds are compared by
    /// their orders.
    fn is_strict(&self, colours: &Colours, sizes: &[usize]) -> bool {
        let are_placed = |own: &[usize], open: &[bool]| {
            let mut atoms = own.iter().zip(open);
            atoms.all(|(&colour, &is_open)| !is_open || sizes[colour] == 1)
        };
        are_placed(&colours.first, &self.open1) && are_placed(&colours.second, &self.open2)
    }
}

/// What tells the atoms of a drawing apart at first: cells, and the bond sum that each has after
/// kekulizing, whatever the matching.
fn labels(drawing: &Drawing) -> Vec<(Cells, u32)> {
    let molecule = drawing.molecule;
    let sums = molecule.bond_sums().into_iter().zip(&drawing.delocalized);
    let sums = sums.map(|(sum, &is_delocalized)| sum + u32::from(is_delocalized));
    molecule.atoms.iter().map(cells).zip(sums).collect()
}

/// The colour of each atom with those of its neighbours and what is known of the bonds to them: the
/// order, or only whether it is 3. Bonds between placed atoms are compared elsewhere.
fn surroundings(
    drawing: &Drawing,
    colours: &[usize],
    sizes: &[usize],
    is_strict: bool,
) -> Vec<(usize, Vec<(u32, usize)>)> {
    let is_placed = |atom: usize| sizes[colours[atom]] == 1;
    let around = |atom: usize| {
        let seen = |to: &Neighbour| {
            let known = match drawing.orders[to.bond] {
                _ if is_placed(atom) && is_placed(to.atom) => 0,
                Some(3) => 3,
                Some(order) if is_strict => order,
                _ => 0,
            };
            (known, colours[to.atom])
        };
        let mut neighbours: Vec<_> = drawing.neighbours.of(atom).iter().map(seen).collect();
        neighbours.sort_unstable();
        (colours[atom], neighbours)
    };
    (0..colours.len()).map(around).collect()
}
