//! Measures how long it takes to tell whether a text is withdrawn: real texts against registers of 64 real
//! texts, the key of a real text, and registers and questions that are made to take long. CPU time, the
//! quickest of some rounds. `bench-withdrawn [STRIDE]`: every so many texts of the corpus only.

#[path = "../clock.rs"]
mod clock;
#[allow(dead_code)]
#[path = "../families.rs"]
mod families;

use balsa::register::{MAX_BODY, MAX_ENTRIES, REGISTER};
use balsa::tables::{self, Counts, ATOM_TABLE, BOND_TABLE};
use balsa::{Register, Withdrawn};
use balsa_reference::{read, write, Atom, Bond, Kind, Molecule};
use compare::corpus;
use compare::drawings::{redrawing, renumbered};
use compare::random::Random;
use compare::spelling;
use families::{random, Graph};
use std::collections::BTreeMap;
use std::hint::black_box;
use std::time::Duration;

const ROUNDS: usize = 5;

fn main() {
    let stride = std::env::args().nth(1).and_then(|word| word.parse().ok());
    let texts: Vec<&[u8]> = corpus::TEXTS.lines().map(str::as_bytes).collect();
    let texts: Vec<&[u8]> = texts.into_iter().step_by(stride.unwrap_or(1)).collect();
    println!("CPU time in microseconds for a question, quickest of {ROUNDS} rounds");
    let cells = [
        "questions",
        "withdrawn",
        "undecided",
        "mean",
        "median",
        "99 %",
        "worst",
    ];
    row("", &cells.map(String::from));
    real(&texts);
    keys(&texts);
    println!("\nMade to take long: CPU time in milliseconds");
    row(
        "",
        &["entries", "bytes", "answer", "time"].map(String::from),
    );
    let mut slowest = (0.0, String::new());
    for (name, bodies, query) in adversaries() {
        let (time, bodies) = hard(&name, &bodies, &query);
        if time > slowest.0 {
            slowest = (time, format!("{name}, {bodies} bodies"));
        }
    }
    println!("slowest: {:.2} milliseconds: {}", slowest.0, slowest.1);
}

fn row(name: &str, cells: &[String]) {
    let cells: String = cells.iter().map(|cell| format!("{cell:>11}")).collect();
    println!("{name:<44}{cells}");
}

/// A register with as many of the bodies as there is room for, and how many these are.
fn register_of<'b>(bodies: impl IntoIterator<Item = &'b [u8]>) -> (Register<Vec<u8>>, usize) {
    let mut register = Register::new(vec![0; REGISTER]);
    register.empty().expect("it is long enough");
    let mut count = 0;
    for body in bodies {
        if register.withdraw(count as u16, body).is_err() {
            break;
        }
        count += 1;
    }
    (register, count)
}

/// The microseconds of a question, in the quickest round, and the answer.
fn ask(register: &Register<Vec<u8>>, query: &[u8], rounds: usize) -> (f64, Withdrawn) {
    let mut answer = Withdrawn::Clear;
    let mut least = Duration::MAX;
    for _ in 0..rounds {
        let time = clock::time(|| {
            let said = register.withdrawn(black_box(query));
            answer = said.expect("a text that is read");
        });
        least = least.min(time);
    }
    (least.as_secs_f64() * 1e6, answer)
}

/// Texts of the corpus against registers of 64 texts of it, as they follow one another and of one formula.
fn real(texts: &[&[u8]]) {
    let mut random = Random::new(1);
    let groups: Vec<&[&[u8]]> = texts.chunks(MAX_ENTRIES).collect();
    let registers = groups
        .iter()
        .map(|group| register_of(group.iter().copied()).0);
    let registers: Vec<Register<Vec<u8>>> = registers.collect();
    let place = |text: usize| text / MAX_ENTRIES;
    let other = |text: usize| (place(text) + 1 + text % (registers.len() - 1)) % registers.len();
    let questions = 0..texts.len();
    let away = questions
        .clone()
        .map(|text| (&registers[other(text)], texts[text].to_vec()));
    show("a text against texts of the corpus", away);
    let drawn = questions.filter_map(|text| {
        let drawn = redrawing(&mut random, &read(texts[text]).ok()?);
        let query = spelling::text(&mut random, &drawn);
        read(&query).ok()?;
        Some((&registers[place(text)], query))
    });
    show("a redrawing of a listed text", drawn);
    let molecules = corpus::molecules();
    let mut groups: BTreeMap<_, Vec<Vec<u8>>> = BTreeMap::new();
    for (one, other) in corpus::of_one_formula(&molecules, MAX_ENTRIES) {
        let text = write(&molecules[other]).expect("a text").text;
        groups.entry(one).or_default().push(text);
    }
    let of_formula: Vec<(Register<Vec<u8>>, Vec<u8>)> = groups
        .iter()
        .map(|(&one, others)| {
            let (register, _) = register_of(others.iter().map(Vec::as_slice));
            (register, write(&molecules[one]).expect("a text").text)
        })
        .collect();
    let of_formula = of_formula.iter().map(|(it, query)| (it, query.clone()));
    show("a text against texts of its formula", of_formula);
}

/// Prints how long questions take.
fn show<'r>(name: &str, questions: impl Iterator<Item = (&'r Register<Vec<u8>>, Vec<u8>)>) {
    let asked = questions.map(|(register, query)| ask(register, &query, ROUNDS));
    let (mut times, answers): (Vec<f64>, Vec<Withdrawn>) = asked.unzip();
    times.sort_unstable_by(f64::total_cmp);
    let count = |is_it: fn(&Withdrawn) -> bool| answers.iter().filter(|it| is_it(it)).count();
    let withdrawn = count(|answer| matches!(answer, Withdrawn::Withdrawn { .. }));
    let undecided = count(|answer| matches!(answer, Withdrawn::Undecided { .. }));
    let mean = times.iter().sum::<f64>() / times.len() as f64;
    let at = |percent: usize| times[(times.len() - 1) * percent / 100];
    let counts = [times.len(), withdrawn, undecided].map(|count| count.to_string());
    let figures = [mean, at(50), at(99), at(100)].map(|time| format!("{time:.1}"));
    row(name, &[&counts[..], &figures[..]].concat());
}

/// The key of each text of the corpus, in its tables.
fn keys(texts: &[&[u8]]) {
    const CALLS: usize = 50;
    let mut times = Vec::new();
    let (mut atoms, mut bonds) = (vec![0; ATOM_TABLE], vec![0; BOND_TABLE]);
    for text in texts {
        let read = tables::read(text, &mut atoms, &mut bonds).expect("a text");
        let key = |counts: Counts| tables::key(black_box(&atoms), &bonds, counts);
        let round = || {
            clock::time(|| {
                for _ in 0..CALLS {
                    let _ = black_box(key(read.counts));
                }
            })
        };
        let least = (0..ROUNDS).map(|_| round()).min().unwrap_or_default();
        times.push(least.as_secs_f64() * 1e6 / CALLS as f64);
    }
    times.sort_unstable_by(f64::total_cmp);
    let mean = times.iter().sum::<f64>() / times.len() as f64;
    let at = |percent: usize| times[(times.len() - 1) * percent / 100];
    println!(
        "the key of a text: mean {mean:.2}, median {:.2}, 99 % {:.2}, worst {:.2}",
        at(50),
        at(99),
        at(100)
    );
}

/// Prints how long a question takes that is made to take long: its milliseconds, and the entries.
fn hard(name: &str, bodies: &[Vec<u8>], query: &[u8]) -> (f64, usize) {
    let (register, entries) = register_of(bodies.iter().map(Vec::as_slice));
    let (time, answer) = ask(&register, query, 3);
    let bytes: usize = bodies.iter().take(entries).map(Vec::len).sum();
    let time = time / 1e3;
    let cells = [
        entries.to_string(),
        bytes.to_string(),
        answer.to_string().replace(", ", ","),
        format!("{time:.2}"),
    ];
    let cells: String = cells.iter().map(|cell| format!("  {cell:>9}")).collect();
    println!("{name:<44}{cells}");
    (time, entries)
}

/// A name, bodies and a question.
type Hard = (String, Vec<Vec<u8>>, Vec<u8>);

/// Registers and questions whose atoms are hard to tell apart, or whose bodies are slow to read.
fn adversaries() -> Vec<Hard> {
    let mut random = Random::new(2);
    let mut all = Vec::new();
    for atoms in [60, 240, 490, 1000] {
        let bodies = (0..MAX_ENTRIES).map(|i| rings(atoms, 1 + i % 12));
        all.extend(of_graphs(
            &mut random,
            &format!("rings, {atoms} atoms"),
            bodies,
            &rings(atoms, 0),
        ));
    }
    for atoms in [60, 140, 300, 700] {
        let bodies = (0..MAX_ENTRIES).map(|i| ladder(atoms, i + 1));
        let name = format!("ladders, {atoms} atoms");
        all.extend(of_graphs(&mut random, &name, bodies, &ladder(atoms, 0)));
        let name = format!("the same ladder, {atoms} atoms");
        let bodies = (0..MAX_ENTRIES).map(|_| ladder(atoms, 3));
        all.extend(of_graphs(&mut random, &name, bodies, &ladder(atoms, 3)));
    }
    for copies in [1, 5, 22] {
        let bodies = (0..MAX_ENTRIES).map(|i| strongly_regular(copies, 1 + i % copies));
        let name = format!("strongly regular, {copies} of 16 atoms");
        all.extend(of_graphs(
            &mut random,
            &name,
            bodies,
            &strongly_regular(copies, 0),
        ));
    }
    for copies in [1, 4, 9] {
        let bodies = (0..MAX_ENTRIES).map(|i| gadgets(copies, 1 + i % copies));
        let name = format!("Cai, Fürer, Immerman, {copies} over 8 atoms");
        all.extend(of_graphs(&mut random, &name, bodies, &gadgets(copies, 0)));
    }
    for half in [8, 10, 12, 14, 16] {
        let kinds = lengths(half, 2);
        let others = kinds[1..].iter().cycle().take(MAX_ENTRIES);
        let bodies = others.map(|lengths| dense(half, lengths));
        let name = format!("dense, {} atoms of {} bonds", 2 * half, half - 2);
        all.extend(of_graphs(
            &mut random,
            &name,
            bodies,
            &dense(half, &kinds[0]),
        ));
    }
    for leaves in [100, 300, 920] {
        let bodies = (0..MAX_ENTRIES).map(|_| hub(leaves, [35, 35]));
        let name = format!("a hub with {leaves} leaves and two rings");
        all.extend(of_graphs(
            &mut random,
            &name,
            bodies,
            &hub(leaves, [33, 37]),
        ));
    }
    for (name, graph) in [
        ("single atoms", Plain::new(1000, [])),
        ("a star", Plain::new(1000, (1..1000).map(|leaf| (0, leaf)))),
        (
            "stars of 5",
            Plain::new(
                1000,
                (0..1000).filter(|a| a % 5 > 0).map(|a| (a - a % 5, a)),
            ),
        ),
        (
            "a tree of pairs",
            Plain::new(1000, (1..1000).map(|a| ((a - 1) / 2, a))),
        ),
        ("a hypercube", hypercube(6)),
        ("a chain", Plain::new(1000, (1..1000).map(|a| (a - 1, a)))),
    ] {
        let bodies = std::iter::repeat_n(graph.clone(), MAX_ENTRIES);
        all.extend(of_graphs(&mut random, name, bodies, &graph));
    }
    all.extend(slow_to_read());
    all
}

/// A graph of `*`.
#[derive(Clone)]
struct Plain {
    atoms: usize,
    ends: Vec<(usize, usize)>,
}

impl Plain {
    fn new(atoms: usize, ends: impl IntoIterator<Item = (usize, usize)>) -> Self {
        let ends = ends.into_iter().collect();
        Plain { atoms, ends }
    }

    fn molecule(&self) -> Molecule {
        let bond = |&(one, other): &(usize, usize)| Bond::between(one, other, Kind::Elided);
        Molecule {
            atoms: vec![Atom::default(); self.atoms],
            bonds: self.ends.iter().map(bond).collect(),
        }
    }

    /// This graph beside itself.
    fn beside(mut self, other: Plain) -> Plain {
        let moved = |(one, two)| (one + self.atoms, two + self.atoms);
        self.ends.extend(other.ends.into_iter().map(moved));
        self.atoms += other.atoms;
        self
    }
}

/// Texts of graphs with other numbers each, as short as they are found; those over a body are left out. None
/// where the question cannot be written.
fn of_graphs(
    random: &mut Random,
    name: &str,
    bodies: impl Iterator<Item = Plain>,
    query: &Plain,
) -> Option<Hard> {
    let mut text = |graph: &Plain| {
        let molecule = graph.molecule();
        let tries = (0..6).map(|i| match i {
            0 => molecule.clone(),
            _ => renumbered(random, &molecule),
        });
        let texts = tries.filter_map(|molecule| Some(write(&molecule).ok()?.text));
        texts.min_by_key(Vec::len)
    };
    let bodies: Vec<Vec<u8>> = bodies.filter_map(|graph| text(&graph)).collect();
    let query = text(query)?;
    let bodies = bodies.into_iter().filter(|body| body.len() <= MAX_BODY);
    Some((name.into(), bodies.collect(), query))
}

/// Rings of so many atoms together; each choice has other sizes.
fn rings(atoms: usize, choice: usize) -> Plain {
    let size = 3 + choice % 13;
    let mut ends = Vec::new();
    let mut start = 0;
    while start < atoms {
        let left = atoms - start;
        let around = if left < size + 3 { left } else { size };
        ends.extend((0..around).map(|i| (start + i, start + (i + 1) % around)));
        start += around;
    }
    Plain::new(atoms, ends)
}

/// Two rings joined rung by rung, cut up in parts: each atom has three bonds; each choice has other parts.
fn ladder(atoms: usize, choice: usize) -> Plain {
    let (mut made, mut left) = (Plain::new(0, []), atoms / 2);
    let size = 4 + choice;
    while left > 0 {
        let rungs = if left < size + 4 { left } else { size };
        left -= rungs;
        let is_twisted = choice % 2 == 1;
        let along = (0..rungs).flat_map(|i| {
            let (a, b) = (2 * i, 2 * i + 1);
            let (c, d) = (2 * ((i + 1) % rungs), 2 * ((i + 1) % rungs) + 1);
            let twists = is_twisted && i + 1 == rungs;
            let [c, d] = if twists { [d, c] } else { [c, d] };
            [(a, b), (a, c), (b, d)]
        });
        made = made.beside(Plain::new(2 * rungs, along.collect::<Vec<_>>()));
    }
    made
}

/// Copies of the two strongly regular graphs of 16 atoms with six bonds each, so many of the second.
fn strongly_regular(copies: usize, second: usize) -> Plain {
    let graph = |steps: &[(usize, usize)]| {
        let ends = (0..16).flat_map(|a| {
            let to = move |&(x, y): &(usize, usize)| ((a / 4 + x) % 4) * 4 + (a % 4 + y) % 4;
            steps.iter().map(move |step| (a, to(step)))
        });
        let ends = ends.map(|(a, b)| (a.min(b), a.max(b)));
        let ends: std::collections::BTreeSet<_> = ends.collect();
        Plain::new(16, ends)
    };
    let rook = graph(&[(0, 1), (0, 2), (0, 3), (1, 0), (2, 0), (3, 0)]);
    let shrikhande = graph(&[(0, 1), (0, 3), (1, 0), (3, 0), (1, 1), (3, 3)]);
    let copies = (0..copies).map(|i| if i < second { &shrikhande } else { &rook });
    copies.fold(Plain::new(0, []), |all, graph| all.beside(graph.clone()))
}

/// Copies of the graphs of Cai, Fürer and Immerman over a cube, so many of them twisted.
fn gadgets(copies: usize, twisted: usize) -> Plain {
    let cube = hypercube(3);
    let one = |is_twisted: bool| {
        // for each end of a bond of the cube two atoms; for each atom of the cube four, one for each even set
        let mut number = BTreeMap::new();
        let mut ends = Vec::new();
        let mut atoms = 0;
        let mut atom = |key: (usize, usize, usize)| {
            *number.entry(key).or_insert_with(|| {
                atoms += 1;
                atoms - 1
            })
        };
        for a in 0..8 {
            let around: Vec<usize> = (0..3).map(|bit| a ^ (1 << bit)).collect();
            for set in [0b000, 0b011, 0b101, 0b110] {
                let inner = atom((a, 100, set));
                for (bit, &to) in around.iter().enumerate() {
                    ends.push((inner, atom((a, to, set >> bit & 1))));
                }
            }
        }
        for (i, &(a, b)) in cube.ends.iter().enumerate() {
            let turn = usize::from(is_twisted && i == 0);
            for side in 0..2 {
                ends.push((atom((a, b, side)), atom((b, a, side ^ turn))));
            }
        }
        Plain::new(atoms, ends)
    };
    let (plain, turned) = (one(false), one(true));
    let copies = (0..copies).map(|i| if i < twisted { &turned } else { &plain });
    copies.fold(Plain::new(0, []), |all, graph| all.beside(graph.clone()))
}

/// The ways to write a number as a sum of ascending numbers, each at least so large.
fn lengths(sum: usize, least: usize) -> Vec<Vec<usize>> {
    let mut all: Vec<Vec<usize>> = (least..=sum / 2)
        .flat_map(|first| {
            let rest = lengths(sum - first, first).into_iter();
            rest.map(move |rest| [&[first], &rest[..]].concat())
        })
        .collect();
    all.insert(0, vec![sum]);
    all
}

/// Two halves, each atom of one joined to all of the other but two; what is not joined would be rings of
/// twice these lengths.
fn dense(half: usize, lengths: &[usize]) -> Plain {
    let mut next = Vec::new();
    for length in lengths {
        let start = next.len();
        next.extend((0..*length).map(|i| start + (i + 1) % length));
    }
    let pairs = (0..half).flat_map(|a| (0..half).map(move |b| (a, b)));
    let joined = pairs.filter(|&(a, b)| a != b && next[a] != b);
    Plain::new(2 * half, joined.map(|(a, b)| (a, half + b)))
}

/// An atom with leaves and two rings.
fn hub(leaves: usize, rings: [usize; 2]) -> Plain {
    let mut ends: Vec<(usize, usize)> = Vec::new();
    let mut atoms = 1;
    for size in rings {
        ends.push((0, atoms));
        ends.extend((0..size).map(|i| (atoms + i, atoms + (i + 1) % size)));
        atoms += size;
    }
    ends.extend((0..leaves).map(|leaf| (0, atoms + leaf)));
    Plain::new(atoms + leaves, ends)
}

fn hypercube(dimensions: usize) -> Plain {
    let atoms = 1 << dimensions;
    let ends = (0..atoms).flat_map(|a| (0..dimensions).map(move |bit| (a, a ^ (1 << bit))));
    Plain::new(atoms, ends.filter(|(a, b)| a < b))
}

/// Bodies of selected atoms in which it takes long to find a matching: as many as there is room for.
fn slow_to_read() -> Vec<Hard> {
    let large = [30, 40, 50].into_iter();
    let large = large.flat_map(|ring| (1..4).map(move |seed| random(1000, 1100, ring, seed)));
    let few = (1..4).map(|seed| random(120, 150, 5, seed));
    let graphs = families::all().into_iter().chain(large).chain(few);
    let texts = graphs.filter_map(|graph: Graph| {
        let tables = graph.tables();
        let mut text = vec![0; tables::TEXT];
        let mut numbers = vec![0; tables::RENUMBERING];
        let length = tables::write(
            &tables.atoms,
            &tables.bonds,
            tables.counts,
            &mut text,
            &mut numbers,
        );
        text.truncate(length.ok()?);
        read(&text).ok()?;
        (text.len() <= MAX_BODY).then_some((graph.name, text))
    });
    let of = |(name, text): (String, Vec<u8>)| {
        (
            format!("slow to read: {name}"),
            vec![text; MAX_ENTRIES],
            b"C".to_vec(),
        )
    };
    texts.map(of).collect()
}
