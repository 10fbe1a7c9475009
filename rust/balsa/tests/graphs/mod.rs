//! Graphs of selected carbons for the tests, up to the limits.

// each test program uses a part of them
#![allow(dead_code)]

use balsa::tables::{Counts, ATOM_CELLS, ATOM_TABLE, BOND_CELLS, BOND_TABLE, RENUMBERING, ROW};
use std::collections::BTreeSet;

/// The most atoms and the most bonds.
pub const MOST: (usize, usize) = (RENUMBERING, ROW);

/// A graph of selected carbons, each with the hydrogens that make it want one partner.
#[derive(Clone)]
pub struct Graph {
    pub atoms: usize,
    pub bonds: Vec<(usize, usize)>,
}

/// Numbers that look random.
pub struct Random(u64);

impl Random {
    pub fn new(seed: u64) -> Self {
        Random(seed.wrapping_mul(0x9e37_79b9_7f4a_7c15) | 1)
    }

    pub fn below(&mut self, bound: usize) -> usize {
        self.0 ^= self.0 << 13;
        self.0 ^= self.0 >> 7;
        self.0 ^= self.0 << 17;
        (self.0 % bound as u64) as usize
    }

    pub fn shuffle<T>(&mut self, items: &mut [T]) {
        for last in (1..items.len()).rev() {
            items.swap(last, self.below(last + 1));
        }
    }
}

impl Graph {
    /// Hexagons on a lattice, given by their cells in a skewed grid; rolled up at a width, if any.
    pub fn hexagons(cells: impl Iterator<Item = (usize, usize)>, width: Option<usize>) -> Self {
        let corner = |x: usize, y: usize, side: usize| (width.map_or(x, |w| x % w), y, side);
        let mut edges = BTreeSet::new();
        for (x, y) in cells {
            let order = [
                corner(x + 1, y, 0),
                corner(x + 1, y, 1),
                corner(x + 1, y + 1, 0),
                corner(x, y + 1, 1),
                corner(x, y + 1, 0),
                corner(x, y, 1),
            ];
            for i in 0..6 {
                let (one, other) = (order[i], order[(i + 1) % 6]);
                edges.insert((one.min(other), one.max(other)));
            }
        }
        let corners: BTreeSet<_> = edges.iter().flat_map(|&(a, b)| [a, b]).collect();
        let corners: Vec<_> = corners.into_iter().collect();
        let number = |corner| corners.binary_search(&corner).unwrap();
        Graph {
            atoms: corners.len(),
            bonds: edges.iter().map(|&(a, b)| (number(a), number(b))).collect(),
        }
    }

    /// A parallelogram of hexagons.
    pub fn flake(wide: usize, high: usize) -> Self {
        let cells = (0..high).flat_map(|y| (0..wide).map(move |x| (x, y)));
        Graph::hexagons(cells, None)
    }

    /// A tube of hexagons.
    pub fn tube(round: usize, long: usize) -> Self {
        let cells = (0..long).flat_map(|y| (0..round).map(move |x| (x, y)));
        Graph::hexagons(cells, Some(round))
    }

    /// A triangle of hexagons, which has no matching.
    pub fn triangulene(size: usize) -> Self {
        let cells = (0..size).flat_map(|y| (0..size - y).map(move |x| (x, y)));
        Graph::hexagons(cells, None)
    }

    /// Rings of these sizes, side by side.
    pub fn rings(sizes: &[usize]) -> Self {
        let mut graph = Graph {
            atoms: 0,
            bonds: Vec::new(),
        };
        for &size in sizes {
            let first = graph.atoms;
            let last = first + size - 1;
            graph.bonds.extend((first..last).map(|a| (a, a + 1)));
            graph.bonds.push((first, last));
            graph.atoms += size;
        }
        graph
    }

    /// As many atoms and bonds as there may be: rings of these sizes at most, of even size if they
    /// are to have a matching, joined at random; numbered at random.
    pub fn random(seed: u64, most: usize, is_even: bool) -> Self {
        let mut random = Random::new(seed);
        let (atoms, bonds) = MOST;
        let mut sizes = Vec::new();
        let mut left = atoms;
        while left > 0 {
            let size = 4 + random.below(most - 3);
            let size = if is_even { size & !1 } else { size };
            let size = if left < size + 4 { left } else { size };
            sizes.push(size);
            left -= size;
        }
        let mut graph = Graph::rings(&sizes);
        let mut joined: BTreeSet<_> = graph.bonds.iter().copied().collect();
        let mut degrees = vec![2; atoms];
        while joined.len() < bonds {
            let (a, b) = (random.below(atoms), random.below(atoms));
            if a < b && degrees[a] < 3 && degrees[b] < 3 && joined.insert((a, b)) {
                degrees[a] += 1;
                degrees[b] += 1;
                graph.bonds.push((a, b));
            }
        }
        let mut numbers: Vec<usize> = (0..atoms).collect();
        random.shuffle(&mut numbers);
        for bond in &mut graph.bonds {
            let (a, b) = (numbers[bond.0], numbers[bond.1]);
            *bond = (a.min(b), a.max(b));
        }
        random.shuffle(&mut graph.bonds);
        graph
    }

    /// The same with the bonds from the last one to the first.
    pub fn descending(mut self) -> Self {
        self.bonds.sort_unstable_by(|one, other| other.cmp(one));
        self
    }

    pub fn tables(&self) -> (Vec<i32>, Vec<i32>, Counts) {
        let mut degrees = vec![0; self.atoms];
        let mut bonds = vec![0; BOND_TABLE];
        for (row, &(a, b)) in bonds.chunks_exact_mut(BOND_CELLS).zip(&self.bonds) {
            row[..2].copy_from_slice(&[a.min(b) as i32, a.max(b) as i32]);
            degrees[a] += 1;
            degrees[b] += 1;
        }
        let mut atoms = vec![0; ATOM_TABLE];
        for (row, degree) in atoms.chunks_exact_mut(ATOM_CELLS).zip(&degrees) {
            row[..4].copy_from_slice(&[6, 1, 0, (3 - degree).max(0)]);
        }
        let counts = Counts {
            atoms: self.atoms,
            bonds: self.bonds.len(),
        };
        (atoms, bonds, counts)
    }
}

/// Graphs near the limits by name, with whether they have a matching, if that is known.
pub fn families() -> Vec<(String, Graph, Option<bool>)> {
    let mut benzenes = vec![6; 166];
    let mixture = Graph::rings(&benzenes);
    benzenes[165] = 5;
    let mut families = vec![
        ("acene of 219 rings", Graph::flake(219, 1), Some(true)),
        ("flake of 18 by 19", Graph::flake(18, 19), Some(true)),
        (
            "flake, descending",
            Graph::flake(18, 19).descending(),
            Some(true),
        ),
        ("triangulene of 25", Graph::triangulene(25), Some(false)),
        ("tube of 10 by 34", Graph::tube(10, 34), Some(true)),
        ("tube of 30 by 11", Graph::tube(30, 11), Some(true)),
        ("166 benzenes", mixture.clone(), Some(true)),
        ("benzenes, descending", mixture.descending(), Some(true)),
        (
            "165 benzenes and a ring of 5",
            Graph::rings(&benzenes),
            Some(false),
        ),
        ("ring of 1,000", Graph::rings(&[1000]), Some(true)),
    ]
    .into_iter()
    .map(|(name, graph, known)| (name.to_string(), graph, known))
    .collect::<Vec<_>>();
    for seed in 1..=4 {
        for (most, is_even) in [
            (20, true),
            (60, true),
            (1000, true),
            (20, false),
            (60, false),
        ] {
            let known = is_even.then_some(true);
            let kind = if is_even { "even" } else { "any" };
            let name = format!("random {seed}, {kind} rings up to {most}");
            families.push((name, Graph::random(seed, most, is_even), known));
        }
    }
    families
}
