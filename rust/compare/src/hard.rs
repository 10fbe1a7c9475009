//! Pairs of molecules on which a comparison has much to search: graphs that colour refinement does not
//! tell apart, many equal parts, and many matchings. All have at most 64 atoms.

use crate::drawings::{other_drawing, renumbered};
use crate::random::Random;
use balsa_reference::{first, read, Atom, Bond, Kind, Molecule};

/// Pairs of one kind, and whether each is the same compound.
pub struct Family {
    /// What they have in common.
    pub name: &'static str,
    /// The pairs, with the answer.
    pub pairs: Vec<(Molecule, Molecule, bool)>,
}

/// A graph: the number of its vertices, and its edges.
#[derive(Clone)]
struct Graph {
    order: usize,
    edges: Vec<(usize, usize)>,
}

impl Graph {
    /// The graph on so many vertices whose edges join those that a test names, the lower one first.
    fn by(order: usize, joined: impl Fn(usize, usize) -> bool) -> Self {
        let pairs = (0..order).flat_map(|b| (0..b).map(move |a| (a, b)));
        let edges = pairs.filter(|&(a, b)| joined(a, b)).collect();
        Graph { order, edges }
    }

    fn ring(order: usize) -> Self {
        Graph::by(order, |a, b| b == a + 1 || (a == 0 && b + 1 == order))
    }

    /// Both side by side.
    fn and(mut self, other: &Graph) -> Self {
        let shift = self.order;
        self.edges
            .extend(other.edges.iter().map(|&(a, b)| (a + shift, b + shift)));
        self.order += other.order;
        self
    }

    /// So many copies side by side.
    fn times(&self, count: usize) -> Self {
        let none = Graph::by(0, |_, _| false);
        (0..count).fold(none, |all, _| all.and(self))
    }

    /// One more vertex, joined to all.
    fn hub(mut self) -> Self {
        let hub = self.order;
        self.edges.extend((0..hub).map(|a| (a, hub)));
        self.order += 1;
        self
    }

    /// Each vertex `*`, each edge a single bond.
    fn plain(&self) -> Molecule {
        self.molecule(vec![Atom::default(); self.order], Kind::Single)
    }

    /// Each vertex a delocalized nitrogen atom with a charge of two less than its degree.
    fn kept(&self) -> Molecule {
        let mut atoms = vec![Atom::default(); self.order];
        for (number, atom) in atoms.iter_mut().enumerate() {
            let degree = self.edges.iter().filter(|e| e.0 == number || e.1 == number);
            atom.element = 7;
            atom.selected = true;
            atom.charge = degree.count() as i8 - 2;
        }
        self.molecule(atoms, Kind::Elided)
    }

    fn molecule(&self, atoms: Vec<Atom>, kind: Kind) -> Molecule {
        let bond = |&(a, b): &(usize, usize)| Bond::between(a, b, kind);
        let bonds = self.edges.iter().map(bond).collect();
        Molecule { atoms, bonds }
    }
}

/// The graph of a Latin square: cells that share a row, a column or a symbol are joined.
fn latin(order: usize, symbol: impl Fn(usize, usize) -> usize) -> Graph {
    Graph::by(order * order, |a, b| {
        let (i, j, k, l) = (a / order, a % order, b / order, b % order);
        i == k || j == l || symbol(i, j) == symbol(k, l)
    })
}

fn cyclic(order: usize) -> Graph {
    latin(order, |i, j| (i + j) % order)
}

/// The quaternion group's table, as numbers below 8: four times the sign, and the unit.
fn quaternion(a: usize, b: usize) -> usize {
    const UNIT: [[usize; 4]; 4] = [[0, 1, 2, 3], [1, 4, 3, 6], [2, 7, 4, 1], [3, 2, 5, 4]];
    (UNIT[a % 4][b % 4] + 4 * (a / 4 + b / 4)) % 8
}

/// Two symmetries of a polygon, one after the other: a turn, and as many more for a mirror.
fn product(turns: usize, a: usize, b: usize) -> usize {
    let turn = if a < turns {
        a + b % turns
    } else {
        a + turns - b % turns
    };
    turn % turns + turns * ((a / turns + b / turns) % 2)
}

/// The lines of a plane over the numbers below a prime, and its points: joined where they meet.
fn plane(prime: usize) -> Graph {
    let mut points = vec![[1, 0, 0]];
    points.extend((0..prime).map(|a| [a, 1, 0]));
    points.extend((0..prime * prime).map(|a| [a / prime, a % prime, 1]));
    let count = points.len();
    Graph::by(2 * count, |a, b| {
        a < count && b >= count && {
            let (p, q) = (points[a], points[b - count]);
            (p[0] * q[0] + p[1] * q[1] + p[2] * q[2]) % prime == 0
        }
    })
}

/// Points and blocks of a random Steiner triple system on 15 points, by hill climbing.
fn triples(random: &mut Random, points: usize) -> Graph {
    let mut blocks: Vec<[usize; 3]> = Vec::new();
    while 6 * blocks.len() < points * (points - 1) {
        let has = |blocks: &Vec<[usize; 3]>, a: usize, b: usize| {
            blocks.iter().position(|t| t.contains(&a) && t.contains(&b))
        };
        let a = random.below(points);
        let free: Vec<usize> = (0..points)
            .filter(|&b| b != a && has(&blocks, a, b).is_none())
            .collect();
        if free.len() < 2 {
            continue;
        }
        let (b, c) = (*random.pick(&free), *random.pick(&free));
        if b == c {
            continue;
        }
        if let Some(met) = has(&blocks, b, c) {
            blocks.swap_remove(met);
        }
        blocks.push([a, b, c]);
    }
    Graph::by(points + blocks.len(), |a, b| {
        a < points && b >= points && blocks[b - points].contains(&a)
    })
}

/// The graph of Cai, Fürer and Immerman over a graph: for each vertex the even sets of its edges, joined
/// along an edge where both have it or neither has it; the other way along the first edge if twisted.
fn furer(base: &Graph, twisted: bool) -> Graph {
    let mut vertices: Vec<(usize, Vec<usize>)> = Vec::new();
    for vertex in 0..base.order {
        let own: Vec<usize> = (0..base.edges.len())
            .filter(|&e| base.edges[e].0 == vertex || base.edges[e].1 == vertex)
            .collect();
        for set in 0..1usize << own.len() {
            if set.count_ones() % 2 == 0 {
                let members = (0..own.len()).filter(|i| set >> i & 1 == 1);
                vertices.push((vertex, members.map(|i| own[i]).collect()));
            }
        }
    }
    Graph::by(vertices.len(), |a, b| {
        let ((v, s), (w, t)) = (&vertices[a], &vertices[b]);
        let edge = base
            .edges
            .iter()
            .position(|&(p, q)| (p, q) == (*v.min(w), *v.max(w)));
        edge.is_some_and(|e| (s.contains(&e) == t.contains(&e)) != (twisted && e == 0))
    })
}

/// The generalized Petersen graph of two rings of so many vertices and a step.
fn petersen(order: usize, step: usize) -> Graph {
    Graph::by(2 * order, |a, b| match (a < order, b < order) {
        (true, true) => b - a == 1 || b - a == order - 1,
        (true, false) => b - order == a,
        (false, _) => (b - a) % order == step || (b - a) % order == order - step,
    })
}

/// Vertices that are triples of bits or more, joined where one bit differs.
fn cube(dimensions: usize) -> Graph {
    Graph::by(1 << dimensions, |a, b| (a ^ b).count_ones() == 1)
}

/// A torus of squares, rows and columns of the given numbers, shifted where the rows close.
fn squares(rows: usize, columns: usize, shift: usize) -> Graph {
    let at = |i: usize, j: usize| i % rows * columns + j % columns;
    let mut edges = Vec::new();
    for i in 0..rows {
        for j in 0..columns {
            let down = if i + 1 == rows {
                at(0, j + shift)
            } else {
                at(i + 1, j)
            };
            edges.push((at(i, j), at(i, j + 1)));
            edges.push((at(i, j), down));
        }
    }
    of_edges(rows * columns, edges)
}

/// A torus of hexagons.
fn hexagons(rows: usize, columns: usize, shift: usize) -> Graph {
    let at = |i: usize, j: usize| i % rows * columns + j % columns;
    let mut edges = Vec::new();
    for i in 0..rows {
        for j in 0..columns {
            let down = if i + 1 == rows {
                at(0, j + shift)
            } else {
                at(i + 1, j)
            };
            edges.push((at(i, j), at(i, j + 1)));
            if (i + j) % 2 == 0 {
                edges.push((at(i, j), down));
            }
        }
    }
    of_edges(rows * columns, edges)
}

fn of_edges(order: usize, edges: Vec<(usize, usize)>) -> Graph {
    let mut edges: Vec<_> = edges
        .into_iter()
        .map(|(a, b)| (a.min(b), a.max(b)))
        .collect();
    edges.sort_unstable();
    edges.dedup();
    Graph { order, edges }
}

/// A random graph in which each vertex has so many edges.
fn regular(random: &mut Random, order: usize, degree: usize) -> Graph {
    'again: loop {
        let mut ends: Vec<usize> = (0..order * degree).map(|end| end / degree).collect();
        random.shuffle(&mut ends);
        let mut edges: Vec<(usize, usize)> = Vec::new();
        for pair in ends.chunks(2) {
            let edge = (pair[0].min(pair[1]), pair[0].max(pair[1]));
            if edge.0 == edge.1 || edges.contains(&edge) {
                continue 'again;
            }
            edges.push(edge);
        }
        return of_edges(order, edges);
    }
}

/// The rook's graph on a board of four rows and columns, and Shrikhande's.
fn rook() -> Graph {
    Graph::by(16, |a, b| a / 4 == b / 4 || a % 4 == b % 4)
}

fn shrikhande() -> Graph {
    Graph::by(16, |a, b| {
        let (i, j) = ((b / 4 + 4 - a / 4) % 4, (b % 4 + 4 - a % 4) % 4);
        [(0, 1), (0, 3), (1, 0), (3, 0), (1, 1), (3, 3)].contains(&(i, j))
    })
}

/// The pairs of eight things, joined where they share one; switched at so many pairs that share none.
fn triangular(switched: &[(usize, usize)]) -> Graph {
    let pairs: Vec<(usize, usize)> = (0..8).flat_map(|b| (0..b).map(move |a| (a, b))).collect();
    let is_switched = |p: &(usize, usize)| switched.contains(p);
    Graph::by(pairs.len(), |a, b| {
        let ((i, j), (k, l)) = (pairs[a], pairs[b]);
        let share = i == k || i == l || j == k || j == l;
        share != (is_switched(&pairs[a]) != is_switched(&pairs[b]))
    })
}

/// Each vertex doubled.
fn doubled(graph: &Graph) -> Graph {
    let joined = |a: usize, b: usize| {
        let (a, b) = (a / 2, b / 2);
        graph.edges.contains(&(a.min(b), a.max(b)))
    };
    Graph::by(2 * graph.order, joined)
}

const FULLERENE: &str =
    "c12c3c4c5c1c1c6c7c2c2c8c3c3c9c4c4c%10c5c5c1c1c6c6c%11c7c2c2c7c8c3c3c8c9c4c4c9\
     c%10c5c5c1c1c6c6c%11c2c2c7c3c3c8c4c4c9c5c1c1c6c2c3c41";

fn molecule(text: &str) -> Molecule {
    read(text.as_bytes()).expect(text)
}

/// Collects the pairs of a family.
struct Pairs {
    random: Random,
    pairs: Vec<(Molecule, Molecule, bool)>,
}

impl Pairs {
    /// A molecule against itself with other numbers, twice.
    fn yes(&mut self, molecule: &Molecule) {
        for _ in 0..2 {
            let other = renumbered(&mut self.random, molecule);
            self.pairs.push((molecule.clone(), other, true));
        }
        let [one, other] = [0; 2].map(|_| renumbered(&mut self.random, molecule));
        self.pairs.push((one, other, true));
    }

    /// Two molecules that are not the same, in both orders.
    fn no(&mut self, one: &Molecule, other: &Molecule) {
        let shuffled = renumbered(&mut self.random, other);
        self.pairs.push((one.clone(), shuffled, false));
        let shuffled = renumbered(&mut self.random, one);
        self.pairs
            .push((renumbered(&mut self.random, other), shuffled, false));
    }

    /// A molecule with delocalized atoms: itself, and drawings of it.
    fn drawn(&mut self, molecule: &Molecule) {
        self.yes(molecule);
        let drawn = other_drawing(&mut self.random, molecule);
        self.pairs.push((molecule.clone(), drawn.clone(), true));
        let shuffled = renumbered(&mut self.random, molecule);
        self.pairs.push((drawn.clone(), shuffled, true));
        self.yes(&drawn);
    }

    /// So many rings, each open or drawn in one of two ways, against as many: the same where each way is drawn on
    /// no more rings than are drawn so or open on the other side.
    fn mixed(&mut self, [open, one, other]: [&str; 3], rings: usize) {
        let counts = [0; 2].map(|_| {
            let opened = self.random.below(rings / 2 + 1);
            let drawn = self.random.below(rings - opened + 1);
            [opened, drawn, rings - opened - drawn]
        });
        let is_same = [1, 2].map(|way| counts[0][way] <= counts[1][way] + counts[1][0]);
        let [first, second] = counts.map(|[a, b, c]| {
            let parts = [vec![open; a], vec![one; b], vec![other; c]].concat();
            renumbered(&mut self.random, &molecule(&parts.join(".")))
        });
        self.pairs.push((first, second, is_same == [true; 2]));
    }

    /// A molecule with some double bonds of its first matching drawn against itself with others of them drawn.
    fn part_drawn(&mut self, molecule: &Molecule) {
        let [one, other] = [0; 2].map(|_| {
            let count = self.random.below(molecule.atoms.len() / 2);
            let drawn = part_drawn(&mut self.random, molecule, count);
            renumbered(&mut self.random, &drawn)
        });
        self.pairs.push((one, other, true));
    }

    /// Two graphs that are not the same: `*` atoms, and delocalized atoms where these can be.
    fn told(&mut self, one: &Graph, other: &Graph) {
        self.yes(&one.plain());
        self.yes(&other.plain());
        self.no(&one.plain(), &other.plain());
    }

    /// The same of delocalized atoms.
    fn told_kept(&mut self, one: &Graph, other: &Graph) {
        self.drawn(&one.kept());
        self.drawn(&other.kept());
        self.no(&one.kept(), &other.kept());
    }
}

fn family(name: &'static str, fill: impl FnOnce(&mut Pairs)) -> Family {
    let mut pairs = Pairs {
        random: Random::new(28),
        pairs: Vec::new(),
    };
    fill(&mut pairs);
    Family {
        name,
        pairs: pairs.pairs,
    }
}

/// All families.
pub fn families() -> Vec<Family> {
    let mut all = mixtures();
    all.extend(graphs());
    all.extend(delocalized());
    all
}

/// Parts that are alike, and atoms joined to none.
fn mixtures() -> Vec<Family> {
    let rings = |count: usize| {
        Graph::ring(6)
            .times(count - 1)
            .and(&Graph::ring(3).times(2))
    };
    let alike =
        |text: &str, count: usize| format!("{}{text}", format!("{text}.").repeat(count - 1));
    vec![
        family("isolated atoms between ring atoms", |all| {
            for count in [8, 11, 20, 60] {
                let stars = ".*".repeat(count - 1);
                let (one, other) = (format!("C1({stars})=PC=C1"), format!("C1({stars})P=CC=1"));
                all.yes(&molecule(&one));
                all.pairs.push((molecule(&one), molecule(&other), true));
            }
        }),
        family("like atoms and short chains", |all| {
            all.yes(&molecule(&alike("C", 64)));
            all.yes(&molecule(&alike("CC", 32)));
            all.yes(&molecule(&alike("CCC", 21)));
            let star = format!("*{}*", "(*)".repeat(62));
            all.yes(&molecule(&star));
            all.no(
                &molecule(&star),
                &molecule(&star.replacen("(*)", "([*+])", 1)),
            );
        }),
        family("rings of 6 against rings of 6 and 3", |all| {
            for count in [4, 5, 6, 8, 10] {
                all.told(&Graph::ring(6).times(count), &rings(count));
            }
        }),
        family("the same joined to one atom", |all| {
            for count in [4, 6, 8, 10] {
                all.told(&Graph::ring(6).times(count).hub(), &rings(count).hub());
            }
        }),
        family("rings of many sizes", |all| {
            let one = [3, 5, 8, 6, 4, 6].map(Graph::ring);
            let other = [4, 4, 4, 7, 6, 7].map(Graph::ring);
            let sum = |parts: &[Graph]| parts.iter().fold(Graph::by(0, |_, _| false), Graph::and);
            all.told(&sum(&one).times(2), &sum(&other).times(2));
            all.told(&sum(&one).times(2), &sum(&one).and(&sum(&other)));
        }),
        family("cubic parts of 8 atoms", |all| {
            let (cubes, mobius) = (cube(3), Graph::by(8, |a, b| [1, 4, 7].contains(&(b - a))));
            all.told(&cubes.times(8), &cubes.times(7).and(&mobius));
            all.told(&cubes.times(7).hub(), &cubes.times(6).and(&mobius).hub());
            all.told(
                &cubes.times(4).and(&mobius.times(4)),
                &cubes.times(5).and(&mobius.times(3)),
            );
        }),
        family("strongly regular parts", |all| {
            let (one, other) = (rook(), shrikhande());
            all.told(&one.times(4), &one.times(3).and(&other));
            all.told(
                &one.times(2).and(&other.times(2)),
                &one.times(3).and(&other),
            );
            all.told(&one.times(3).hub(), &one.times(2).and(&other).hub());
        }),
        family("squares of labelled atoms, part drawn", |all| {
            let open = "[13cH]1[13cH]cc1";
            let [one, other] = ["[13CH]=1[13CH]=CC1", "[13CH]1=[13CH]C=C1"];
            let mix = |a: usize, b: usize, c: usize| {
                let parts = [vec![open; a], vec![one; b], vec![other; c]].concat();
                molecule(&parts.join("."))
            };
            all.yes(&mix(4, 6, 6));
            for (x, y) in [(mix(1, 1, 4), mix(1, 4, 1)), (mix(4, 6, 6), mix(3, 2, 11))] {
                all.no(&x, &y);
            }
            all.pairs.push((mix(2, 3, 3), mix(3, 2, 3), true));
            all.pairs.push((mix(4, 6, 6), mix(5, 5, 6), true));
        }),
        family("labelled rings, open and drawn at random", |all| {
            let squares = [
                "[13cH]1[13cH]cc1",
                "[13CH]=1[13CH]=CC1",
                "[13CH]1=[13CH]C=C1",
            ];
            let hexagons = [
                "[13cH]1[13cH]cccc1",
                "[13CH]=1[13CH]=CC=CC1",
                "[13CH]1=[13CH]C=CC=C1",
            ];
            let xylenes = ["Cc1c(C)cccc1", "CC=1C(C)=CC=CC1", "CC1=C(C)C=CC=C1"];
            for _ in 0..20 {
                all.mixed(squares, 16);
                all.mixed(hexagons, 10);
                all.mixed(xylenes, 8);
            }
        }),
    ]
}

/// Graphs of `*` atoms in one part.
fn graphs() -> Vec<Family> {
    let mut random = Random::new(7);
    vec![
        family("strongly regular graphs", |all| {
            all.told(&rook(), &shrikhande());
            all.told(
                &triangular(&[]),
                &triangular(&[(0, 1), (2, 3), (4, 5), (6, 7)]),
            );
            let path = [
                (0, 1),
                (1, 2),
                (2, 3),
                (3, 4),
                (4, 5),
                (5, 6),
                (6, 7),
                (0, 7),
            ];
            all.told(
                &triangular(&[(0, 1), (2, 3), (4, 5), (6, 7)]),
                &triangular(&path),
            );
        }),
        family("graphs of Latin squares", |all| {
            let klein = latin(4, |i, j| i ^ j);
            all.told(&cyclic(4), &klein);
            let dihedral = |turns: usize| move |i, j| product(turns, i, j);
            all.told(&cyclic(6), &latin(6, dihedral(3)));
            let eight = [
                cyclic(8),
                latin(8, |i, j| i ^ j),
                latin(8, quaternion),
                latin(8, dihedral(4)),
            ];
            for pair in eight.windows(2) {
                all.told(&pair[0], &pair[1]);
            }
        }),
        family("projective planes and triple systems", |all| {
            for prime in [2, 3, 5] {
                all.yes(&plane(prime).plain());
            }
            for points in [13, 15] {
                let [one, other] = [0; 2].map(|_| triples(&mut random, points));
                all.yes(&one.plain());
                all.yes(&other.plain());
            }
        }),
        family("Cai, Fürer and Immerman's graphs", |all| {
            for base in furer_bases() {
                all.told(&furer(&base, false), &furer(&base, true));
            }
        }),
        family("tori, cubes and random regular graphs", |all| {
            all.told(&squares(8, 8, 0), &squares(8, 8, 2));
            all.told(&squares(8, 8, 4), &squares(8, 8, 2));
            all.told(&hexagons(8, 8, 0), &hexagons(8, 8, 2));
            all.yes(&cube(6).plain());
            all.yes(&doubled(&Graph::ring(32)).plain());
            for degree in [3, 4, 6] {
                let [one, other] = [0; 2].map(|_| regular(&mut random, 64, degree));
                all.told(&one, &other);
            }
        }),
    ]
}

/// Cubic graphs of 4 to 16 vertices.
fn furer_bases() -> Vec<Graph> {
    vec![
        Graph::by(4, |_, _| true),
        Graph::by(6, |a, b| a < 3 && b >= 3),
        cube(3),
        petersen(5, 2),
        petersen(8, 3),
    ]
}

/// The molecule with so many double bonds of its first matching drawn, and the others left open.
fn part_drawn(random: &mut Random, molecule: &Molecule, count: usize) -> Molecule {
    let row = first(molecule).expect("a matching");
    let mut chosen: Vec<usize> = (0..row.len()).filter(|&bond| row[bond] == 1).collect();
    random.shuffle(&mut chosen);
    let mut drawn = molecule.clone();
    for &number in &chosen[..count] {
        let bond = &mut drawn.bonds[number];
        bond.kind = Kind::Double;
        drawn.atoms[bond.first].selected = false;
        drawn.atoms[bond.second].selected = false;
    }
    drawn
}

/// Two drawings of one small graph of delocalized atoms, or of two: each whole, in part, or drawn.
pub fn many_rows(random: &mut Random) -> [Molecule; 2] {
    let order = 2 * random.between(4, 7);
    let [one, other] = [0; 2].map(|_| regular(random, order, 3).kept());
    let other = if random.percent(70) {
        one.clone()
    } else {
        other
    };
    [one, other].map(|whole| {
        let drawn = match random.below(3) {
            _ if first(&whole).is_none() => whole,
            0 => whole,
            1 => {
                let count = random.below(order / 2);
                part_drawn(random, &whole, count)
            }
            _ => other_drawing(random, &whole),
        };
        renumbered(random, &drawn)
    })
}

/// Delocalized atoms, with many matchings.
fn delocalized() -> Vec<Family> {
    let mut random = Random::new(9);
    vec![
        family("C60, delocalized and drawn", |all| {
            all.drawn(&molecule(FULLERENE))
        }),
        family("C60, part drawn", |all| {
            let fullerene = molecule(FULLERENE);
            for count in [1, 4, 12, 25] {
                let one = part_drawn(&mut random, &fullerene, count);
                let other = part_drawn(&mut random, &fullerene, count);
                all.yes(&one);
                let other = renumbered(&mut random, &other);
                all.pairs.push((one, other, true));
            }
        }),
        family("hexagons on a torus, delocalized", |all| {
            all.told_kept(&hexagons(4, 6, 0), &hexagons(4, 6, 2));
            all.told_kept(&hexagons(8, 8, 0), &hexagons(8, 8, 2));
        }),
        family("squares on a torus, delocalized", |all| {
            all.told_kept(&squares(4, 6, 0), &squares(4, 6, 2));
            all.told_kept(&squares(8, 8, 0), &squares(8, 8, 2));
        }),
        family("random cubic graphs, delocalized", |all| {
            for order in [20, 40, 64] {
                let [one, other] = [0; 2].map(|_| regular(&mut random, order, 3));
                all.told_kept(&one, &other);
            }
        }),
        family("cubes, delocalized", |all| {
            for dimensions in 3..=6 {
                all.drawn(&cube(dimensions).kept());
            }
        }),
        family("doubled ring, delocalized", |all| {
            for order in [8, 16, 32] {
                all.drawn(&doubled(&Graph::ring(order)).kept());
            }
        }),
        family("planes, delocalized", |all| {
            for prime in [2, 3, 5] {
                all.drawn(&plane(prime).kept());
            }
        }),
        family("Cai, Fürer and Immerman's graphs, delocalized", |all| {
            for base in furer_bases() {
                all.told_kept(&furer(&base, false), &furer(&base, true));
            }
        }),
        family("strongly regular graphs, delocalized", |all| {
            all.told_kept(&rook(), &shrikhande());
            all.told_kept(&rook().times(4), &rook().times(3).and(&shrikhande()));
        }),
        family("cubes, part drawn", |all| {
            for dimensions in [5, 6] {
                let whole = cube(dimensions).kept();
                (0..20).for_each(|_| all.part_drawn(&whole));
            }
        }),
        family("squares on a torus, part drawn", |all| {
            for (rows, columns) in [(6, 6), (6, 8), (8, 8), (4, 16)] {
                let whole = squares(rows, columns, 0).kept();
                (0..5).for_each(|_| all.part_drawn(&whole));
            }
        }),
        family("delocalized rings", |all| {
            let rings = |count: usize, size: usize| Graph::ring(size).times(count);
            all.told_kept(&rings(10, 6), &rings(6, 6).and(&rings(3, 8)));
            all.told_kept(
                &rings(6, 10),
                &rings(4, 10).and(&rings(2, 4)).and(&rings(2, 6)),
            );
        }),
    ]
}
