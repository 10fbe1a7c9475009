//! Families of molecules whose matchings are hard or many: fused hexagons, fullerenes, random graphs.

use balsa::tables::{Counts, ATOM_CELLS, ATOM_TABLE, BOND_CELLS, BOND_TABLE, RENUMBERING, ROW};
use std::collections::{BTreeMap, BTreeSet};

/// The most atoms of a molecule.
const MOST_ATOMS: usize = RENUMBERING;
/// The most bonds of a molecule.
const MOST_BONDS: usize = ROW;

/// Selected carbons, each with the hydrogens that make it want one partner.
pub struct Graph {
    /// The family and the size.
    pub name: String,
    /// The number of atoms.
    pub atoms: usize,
    /// The ends of the bonds, the lower first.
    pub bonds: Vec<(usize, usize)>,
}

/// The tables of a molecule.
pub struct Tables {
    /// The table of atoms.
    pub atoms: Vec<i32>,
    /// The table of bonds.
    pub bonds: Vec<i32>,
    /// Their used rows.
    pub counts: Counts,
}

impl Graph {
    fn new(name: String, atoms: usize, ends: impl IntoIterator<Item = (usize, usize)>) -> Self {
        let ordered = ends.into_iter().map(|(a, b)| (a.min(b), a.max(b)));
        let bonds: BTreeSet<_> = ordered.collect();
        Graph {
            name,
            atoms,
            bonds: bonds.into_iter().collect(),
        }
    }

    /// Whether the molecule is within the limits.
    fn fits(&self) -> bool {
        self.atoms <= MOST_ATOMS && self.bonds.len() <= MOST_BONDS
    }

    /// The molecule as tables.
    pub fn tables(&self) -> Tables {
        let mut degrees = vec![0; self.atoms];
        let mut bonds = vec![0; BOND_TABLE];
        for (row, &(a, b)) in bonds.chunks_exact_mut(BOND_CELLS).zip(&self.bonds) {
            row[..2].copy_from_slice(&[a as i32, b as i32]);
            degrees[a] += 1;
            degrees[b] += 1;
        }
        let mut atoms = vec![0; ATOM_TABLE];
        for (row, degree) in atoms.chunks_exact_mut(ATOM_CELLS).zip(&degrees) {
            row[..4].copy_from_slice(&[6, 1, 0, (3 - degree).max(0)]);
        }
        let counts = Counts {
            atoms: self.atoms,
            bonds: self.bonds.len(),
        };
        Tables {
            atoms,
            bonds,
            counts,
        }
    }
}

/// The corners of a hexagon of a skewed lattice; rolled up at a width, if any.
fn hexagons(
    name: String,
    cells: impl IntoIterator<Item = (usize, usize)>,
    width: Option<usize>,
) -> Graph {
    let corner = |x: usize, y: usize, side: usize| (width.map_or(x, |w| x % w), y, side);
    let mut edges = BTreeSet::new();
    for (x, y) in cells {
        let around = [
            corner(x + 1, y, 0),
            corner(x + 1, y, 1),
            corner(x + 1, y + 1, 0),
            corner(x, y + 1, 1),
            corner(x, y + 1, 0),
            corner(x, y, 1),
        ];
        for i in 0..6 {
            let (one, other) = (around[i], around[(i + 1) % 6]);
            edges.insert((one.min(other), one.max(other)));
        }
    }
    let corners: BTreeSet<_> = edges.iter().flat_map(|&(a, b)| [a, b]).collect();
    let numbers: BTreeMap<_, _> = corners.into_iter().zip(0..).collect();
    let ends: Vec<_> = edges
        .iter()
        .map(|(a, b)| (numbers[a], numbers[b]))
        .collect();
    Graph::new(name, numbers.len(), ends)
}

/// Hexagons in a row, each fused to the one before opposite it, or always at the same side.
fn fused(name: String, rings: usize, turning: bool) -> Graph {
    let mut ends = Vec::new();
    let (mut one, mut other, mut atoms) = (0, 1, 2);
    ends.push((0, 1));
    for _ in 0..rings {
        let ring = [one, atoms, atoms + 1, atoms + 2, atoms + 3, other];
        ends.extend(ring.windows(2).map(|pair| (pair[0], pair[1])));
        (one, other) = if turning {
            (ring[1], ring[2])
        } else {
            (ring[2], ring[3])
        };
        atoms += 4;
    }
    Graph::new(name, atoms, ends)
}

/// A fullerene by the sizes of its faces along a spiral: 5 at these faces, 6 elsewhere.
fn fullerene(name: String, faces: usize, pentagons: [usize; 12]) -> Graph {
    let size = |face: usize| if pentagons.contains(&face) { 5 } else { 6 };
    let mut joined = BTreeSet::from([(0, 1)]);
    let mut rim = std::collections::VecDeque::from([(0, size(0) - 1), (1, size(1) - 1)]);
    for face in 2..faces - 1 {
        let mut left = size(face);
        let mut join = |rim: &mut std::collections::VecDeque<(usize, usize)>, at: usize| {
            joined.insert((rim[at].0, face));
            rim[at].1 -= 1;
            left -= 1;
        };
        let last = rim.len() - 1;
        join(&mut rim, last);
        join(&mut rim, 0);
        while rim[0].1 == 0 {
            rim.pop_front();
            join(&mut rim, 0);
        }
        while rim[rim.len() - 1].1 == 0 {
            rim.pop_back();
            let last = rim.len() - 1;
            join(&mut rim, last);
        }
        rim.push_back((face, left));
    }
    joined.extend(rim.iter().map(|&(face, _)| (face, faces - 1)));
    // an atom where three faces meet, a bond where two atoms share two faces
    let mut corners = Vec::new();
    for &(a, b) in &joined {
        let meets = |&c: &usize| joined.contains(&(a, c)) && joined.contains(&(b, c));
        corners.extend((b + 1..faces).filter(meets).map(|c| [a, b, c]));
    }
    let shared = |x: &[usize; 3], y: &[usize; 3]| x.iter().filter(|face| y.contains(face)).count();
    let mut ends = Vec::new();
    for (i, corner) in corners.iter().enumerate() {
        let later = corners.iter().enumerate().skip(i + 1);
        ends.extend(
            later
                .filter(|(_, to)| shared(corner, to) == 2)
                .map(|(j, _)| (i, j)),
        );
    }
    Graph::new(name, corners.len(), ends)
}

/// A random graph in which each atom has two or three bonds: rings of so many atoms (the last may be
/// longer), and further bonds between any two atoms.
pub fn random(atoms: usize, bonds: usize, ring: usize, seed: u64) -> Graph {
    let mut state = seed;
    let mut below = |bound: usize| {
        state ^= state << 13;
        state ^= state >> 7;
        state ^= state << 17;
        (state % bound as u64) as usize
    };
    let mut order: Vec<usize> = (0..atoms).collect();
    (1..atoms).rev().for_each(|i| order.swap(i, below(i + 1)));
    let mut ends = BTreeSet::new();
    let mut rest = &order[..];
    while !rest.is_empty() {
        let size = if rest.len() < 2 * ring {
            rest.len()
        } else {
            ring
        };
        let (around, left) = rest.split_at(size);
        for (i, &atom) in around.iter().enumerate() {
            let to = around[(i + 1) % size];
            ends.insert((atom.min(to), atom.max(to)));
        }
        rest = left;
    }
    let mut third = vec![false; atoms];
    for _ in 0..1000 * bonds {
        let (a, b) = (below(atoms), below(atoms));
        let is_free = a != b && !third[a] && !third[b];
        if ends.len() < bonds && is_free && ends.insert((a.min(b), a.max(b))) {
            (third[a], third[b]) = (true, true);
        }
    }
    Graph::new(
        format!("random {atoms}, rings of {ring}, {seed}"),
        atoms,
        ends,
    )
}

/// The largest of a family that is within the limits, of sizes that ascend.
fn largest(sizes: impl Iterator<Item = usize>, make: impl Fn(usize) -> Graph) -> Option<Graph> {
    sizes.map(make).take_while(Graph::fits).last()
}

/// All families: small ones, and the largest within the limits.
pub fn all() -> Vec<Graph> {
    let acene = |rings| fused(format!("acene {rings}"), rings, false);
    let helicene = |rings| fused(format!("helicene {rings}"), rings, true);
    let flake = |side| {
        let cells = (0..side).flat_map(move |y| (0..side).map(move |x| (x, y)));
        hexagons(format!("flake {side} by {side}"), cells, None)
    };
    let tube = |long| {
        let cells = (0..long).flat_map(|y| (0..8).map(move |x| (x, y)));
        hexagons(format!("tube 8 by {long}"), cells, Some(8))
    };
    let triangulene = |side| {
        let cells = (0..side).flat_map(move |y| (0..side - y).map(move |x| (x, y)));
        hexagons(format!("triangulene {side}"), cells, None)
    };
    let goblet = |side: usize| {
        let triangle = (0..side).flat_map(move |y| (0..side - y).map(move |x| (x, y)));
        let cells = triangle.flat_map(move |(x, y)| [(side + x, side + y), (side - x, side - y)]);
        hexagons(format!("goblet {side}"), cells, None)
    };
    let mut all = vec![
        acene(1),
        acene(5),
        helicene(6),
        flake(4),
        tube(3),
        triangulene(3),
        goblet(3),
    ];
    all.push(fullerene(
        "C60".into(),
        32,
        [0, 6, 8, 10, 12, 14, 17, 19, 21, 23, 25, 31],
    ));
    all.push(fullerene(
        "C70".into(),
        37,
        [0, 6, 8, 10, 12, 14, 26, 28, 30, 32, 34, 36],
    ));
    all.extend(largest(1..400, acene));
    all.extend(largest(1..400, helicene));
    all.extend(largest(1..40, flake));
    all.extend(largest(1..80, tube));
    all.extend(largest(1..40, triangulene));
    all.extend(largest(1..40, goblet));
    let cubic = MOST_BONDS / 3 * 2;
    for (atoms, bonds) in [(200, 250), (1000, 1100), (cubic, MOST_BONDS)] {
        for ring in [5, 6, atoms] {
            all.extend((1..4).map(|seed| random(atoms, bonds, ring, seed)));
        }
    }
    all.retain(Graph::fits);
    all
}
