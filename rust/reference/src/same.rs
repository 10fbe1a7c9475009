//! The same compound, drawn differently: whether some matching of one molecule and some matching of
//! another kekulize to the same molecule under some renumbering.
//!
//! Atoms are compared by their cells, bonds by their orders; marks are left aside. Where several
//! answers fit, the first row of the first molecule decides, then the first of the second, then the
//! renumbering that is smallest at the first atom that differs.

use crate::matching::is_matching;
use crate::molecule::{Atom, Molecule};
use crate::redrawing;
use crate::refusal::Code;
use crate::MAX_COMPARED;

/// What shows that two molecules are the same compound.
#[derive(Clone, Debug, PartialEq, Eq)]
pub struct Sameness {
    /// The matching of the first molecule.
    pub row1: Vec<u8>,
    /// The matching of the second molecule.
    pub row2: Vec<u8>,
    /// For each atom of the first molecule its number in the second.
    pub renumbering: Vec<u16>,
}

/// The most atoms for which every renumbering is tried.
const TRIED: usize = 6;

/// Whether two molecules are the same compound, and what shows it.
pub fn same(one: &Molecule, other: &Molecule) -> Result<Option<Sameness>, Code> {
    let atoms = one.atoms.len().max(other.atoms.len());
    match atoms {
        0..=TRIED => Ok(same_by_trying(one, other)),
        0..=MAX_COMPARED => Ok(same_by_search(one, other)),
        _ => Err(Code::TooLarge),
    }
}

/// As [`same`], by trying all rows of both molecules and all renumberings, in their order.
pub fn same_by_trying(one: &Molecule, other: &Molecule) -> Option<Sameness> {
    let renumberings = renumberings(one.atoms.len());
    let rows2 = matchings(other);
    for row1 in matchings(one) {
        let first = Kekulized::new(one, &row1);
        for row2 in &rows2 {
            let second = Kekulized::new(other, row2);
            let fits = |renumbering: &&Vec<u16>| first.goes_to(&second, renumbering);
            if let Some(renumbering) = renumberings.iter().find(fits) {
                return Some(Sameness {
                    row1,
                    row2: row2.clone(),
                    renumbering: renumbering.clone(),
                });
            }
        }
    }
    None
}

/// As [`same`], by a search that decides bond after bond and atom after atom.
pub fn same_by_search(one: &Molecule, other: &Molecule) -> Option<Sameness> {
    let found = redrawing::search(one, other)?;
    assert!(shows(one, other, &found), "{found:?} shows nothing");
    Some(found)
}

/// Whether the rows are matchings that kekulize the molecules to the same one under the
/// renumbering.
pub fn shows(one: &Molecule, other: &Molecule, sameness: &Sameness) -> bool {
    let Sameness {
        row1,
        row2,
        renumbering,
    } = sameness;
    is_matching(one, row1)
        && is_matching(other, row2)
        && is_renumbering(renumbering, one.atoms.len())
        && Kekulized::new(one, row1).goes_to(&Kekulized::new(other, row2), renumbering)
}

/// What is compared of a molecule kekulized by a row.
struct Kekulized {
    atoms: Vec<Cells>,
    /// The order between any two atoms, 0 where there is no bond.
    orders: Vec<Vec<u32>>,
}

impl Kekulized {
    fn new(molecule: &Molecule, row: &[u8]) -> Self {
        let atoms = molecule.atoms.len();
        let mut orders = vec![vec![0; atoms]; atoms];
        for (bond, &cell) in molecule.bonds.iter().zip(row) {
            let order = if cell == 1 { 2 } else { bond.kind.order() };
            orders[bond.first][bond.second] = order;
            orders[bond.second][bond.first] = order;
        }
        Kekulized {
            atoms: molecule.atoms.iter().map(cells).collect(),
            orders,
        }
    }

    /// Whether this molecule under a renumbering is another one.
    fn goes_to(&self, other: &Kekulized, renumbering: &[u16]) -> bool {
        let image = |atom: usize| usize::from(renumbering[atom]);
        let all = 0..self.atoms.len();
        let same_order = |a: usize, b: usize| self.orders[a][b] == other.orders[image(a)][image(b)];
        self.atoms.len() == other.atoms.len()
            && all.clone().all(|a| self.atoms[a] == other.atoms[image(a)])
            && all.clone().all(|a| all.clone().all(|b| same_order(a, b)))
    }
}

/// What is compared of an atom: element, isotope, hydrogens, charge and extension.
pub(crate) type Cells = (u8, u16, u8, i8, u16);

/// Kekulizing leaves no atom selected, and marks are left aside, so that all other cells are compared.
pub(crate) fn cells(atom: &Atom) -> Cells {
    let Atom {
        element,
        selected: _,
        isotope,
        hydrogens,
        charge,
        extension,
        mark: _,
    } = *atom;
    (element, isotope, hydrogens, charge, extension)
}

fn is_renumbering(renumbering: &[u16], atoms: usize) -> bool {
    let mut sorted = renumbering.to_vec();
    sorted.sort_unstable();
    sorted.into_iter().map(usize::from).eq(0..atoms)
}

/// All rows that are matchings, the one with 1 at the first difference first.
fn matchings(molecule: &Molecule) -> Vec<Vec<u8>> {
    let mut rows = vec![Vec::new()];
    for _ in &molecule.bonds {
        let longer = |row: Vec<u8>| [1, 0].map(|cell| [&row[..], &[cell]].concat());
        rows = rows.into_iter().flat_map(longer).collect();
    }
    rows.retain(|row| is_matching(molecule, row));
    rows
}

/// All orders of the numbers below a count, the one that is smaller at the first difference first.
fn renumberings(count: usize) -> Vec<Vec<u16>> {
    let mut lists = vec![Vec::new()];
    for _ in 0..count {
        let longer = |list: Vec<u16>| -> Vec<Vec<u16>> {
            let free = (0..count as u16).filter(|number| !list.contains(number));
            free.map(|number| [&list[..], &[number]].concat()).collect()
        };
        lists = lists.into_iter().flat_map(longer).collect();
    }
    lists
}
