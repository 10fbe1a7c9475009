//! Measures four searches for matchings: a straightforward one in Rust, the plain engine, the engine of
//! the public calls and the one that forces pairs. CPU microseconds for a call, the quickest of some
//! rounds: the first matching, the one after it, and that none follows the last, over the corpus and over families of molecules.

#[path = "../clock.rs"]
mod clock;
#[path = "../families.rs"]
mod families;
#[path = "../plain.rs"]
mod plain;
#[path = "../straight.rs"]
mod straight;

use balsa::tables::{self, Step, ATOM_TABLE, BOND_TABLE, ROW};
use balsa::Code;
use balsa_reference::{Bond, Kind};
use families::{Graph, Tables};
use std::hint::black_box;
use std::time::Duration;
use straight::{Search, TooLong};

const CORPUS: &str = include_str!("../../../../corpus/real.smi");
/// The rounds, of which the quickest counts.
const ROUNDS: usize = 20;
/// A call is repeated in a round until this much time has passed.
const ROUND: Duration = Duration::from_micros(200);
/// The steps after which the straightforward search, and with it the plain engine, is left out.
const STEPS: usize = 20_000_000;
/// The matchings over which the slowest call of the forced engine is looked for.
const FOLLOWED: usize = 400;
/// What a call of the forced engine may take.
const LIMIT: Duration = Duration::from_millis(50);

/// The calls that are measured: the first matching, the next from there, and the next from the last.
const CALLS: [&str; 3] = ["first", "next", "end"];

/// An engine behind the calls on tables.
#[derive(Clone, Copy)]
enum Engine {
    Plain,
    Public,
    Forced,
}

const ENGINES: [Engine; 3] = [Engine::Plain, Engine::Public, Engine::Forced];

/// The buffers of the calls, and a matching to go on from.
struct Slot {
    tables: Tables,
    row: Vec<u8>,
    pairs: Vec<u16>,
    first: Vec<u8>,
}

impl Slot {
    fn new(tables: Tables) -> Self {
        Slot {
            tables,
            row: vec![0; ROW],
            pairs: vec![0; ROW],
            first: vec![0; ROW],
        }
    }

    fn first(&mut self, engine: Engine) -> Result<usize, Code> {
        let Tables {
            atoms,
            bonds,
            counts,
        } = &self.tables;
        let row = &mut self.row;
        match engine {
            Engine::Plain => plain::first(atoms, bonds, *counts, row).map(|()| 0),
            Engine::Public => tables::first(atoms, bonds, *counts, row).map(|()| 0),
            Engine::Forced => tables::first_forced(atoms, bonds, *counts, row, &mut self.pairs),
        }
    }

    fn next(&mut self, engine: Engine) -> Result<Step, Code> {
        let Tables {
            atoms,
            bonds,
            counts,
        } = &self.tables;
        self.row.copy_from_slice(&self.first);
        let row = &mut self.row;
        match engine {
            Engine::Plain => plain::next(atoms, bonds, *counts, row),
            Engine::Public => tables::next(atoms, bonds, *counts, row),
            Engine::Forced => tables::next_forced(atoms, bonds, *counts, row),
        }
    }

    /// The slowest call of the forced engine: the first, and the next from one matching to another.
    fn slowest(&mut self) -> Duration {
        let mut is_given = false;
        let mut slowest = clock::time(|| is_given = self.first(Engine::Forced).is_ok());
        for _ in 0..FOLLOWED {
            if !is_given {
                break;
            }
            self.first.copy_from_slice(&self.row);
            let time = clock::time(|| is_given = self.next(Engine::Forced) == Ok(Step::Given));
            slowest = slowest.max(time);
        }
        slowest
    }
}

fn main() {
    println!("CPU microseconds for a call, the quickest of {ROUNDS} rounds; `over`: more than {STEPS} steps.");
    let mut measured = vec![corpus()];
    measured.extend(families::all().iter().map(family));
    for (call, title) in CALLS.iter().enumerate() {
        println!("\n| {title} | atoms | bonds | straightforward | plain | public | forced | forced / public | public / straightforward |");
        println!("|---|---|---|---|---|---|---|---|---|");
        for line in measured.iter().filter(|line| !line.calls[call].is_empty()) {
            println!("{}", line.row(call));
        }
    }
    println!("\nPairs forced before any choice, and the slowest call of the forced engine over the first {FOLLOWED} matchings, in milliseconds:");
    for line in &measured {
        let slow = if line.slowest > LIMIT {
            ", over 50 ms"
        } else {
            ""
        };
        println!(
            "- {}: {}; {:.2}{slow}",
            line.name,
            line.forced,
            line.slowest.as_secs_f64() * 1e3
        );
    }
}

/// What was measured of a molecule, or of the corpus.
struct Line {
    name: String,
    size: String,
    /// The times of the calls in the order of `CALLS`: straightforward, plain, public, forced.
    calls: [Vec<Option<f64>>; 3],
    forced: String,
    slowest: Duration,
}

impl Line {
    /// The line of one of the two tables.
    fn row(&self, call: usize) -> String {
        let times = &self.calls[call];
        let cell = |time: &Option<f64>| time.map_or("over".into(), |time| format!("{time:.2}"));
        let ratio = |one: Option<f64>, other: Option<f64>| match (one, other) {
            (Some(one), Some(other)) => format!("{:.2}", one / other),
            _ => "-".into(),
        };
        let cells: Vec<String> = times.iter().map(cell).collect();
        let forced = ratio(times[3], times[2]);
        let public = ratio(times[2], times[0]);
        format!(
            "| {} | {} | {} | {forced} | {public} |",
            self.name,
            self.size,
            cells.join(" | ")
        )
    }
}

/// The mean time of a call over the texts of the corpus that are accepted.
fn corpus() -> Line {
    let mut slots: Vec<Slot> = CORPUS.lines().filter_map(read).collect();
    let graphs: Vec<Induced> = CORPUS.lines().filter_map(induced).collect();
    let mut firsts = vec![least(|| {
        for graph in &graphs {
            black_box(graph.search().first()).ok();
        }
    })];
    let first = |graph: &Induced| graph.search().first().ok().flatten();
    let rows: Option<Vec<_>> = graphs.iter().map(first).collect();
    let rows = rows.expect("a text that is read has a matching");
    let mut nexts = vec![least(|| {
        for (graph, row) in graphs.iter().zip(&rows) {
            black_box(graph.search().next(row)).ok();
        }
    })];
    for engine in ENGINES {
        firsts.push(least(|| {
            for slot in &mut slots {
                black_box(slot.first(engine)).ok();
            }
        }));
        for slot in &mut slots {
            slot.first(engine)
                .expect("a text that is read has a matching");
            slot.first.copy_from_slice(&slot.row);
        }
        nexts.push(least(|| {
            for slot in &mut slots {
                black_box(slot.next(engine)).ok();
            }
        }));
    }
    let mean = |times: Vec<f64>| {
        times
            .iter()
            .map(|time| Some(time / slots.len() as f64))
            .collect()
    };
    let calls = [mean(firsts), mean(nexts), Vec::new()];
    let forced: usize = slots
        .iter_mut()
        .map(|slot| slot.first(Engine::Forced).unwrap_or(0))
        .sum();
    Line {
        name: format!("corpus, mean of {} texts", slots.len()),
        size: "- | -".into(),
        calls,
        forced: forced.to_string(),
        slowest: slots
            .iter_mut()
            .map(Slot::slowest)
            .max()
            .unwrap_or_default(),
    }
}

/// The delocalized atoms of a molecule and its induced bonds.
struct Induced {
    wants: Vec<bool>,
    bonds: Vec<(usize, usize)>,
}

impl Induced {
    fn search(&self) -> Search<'_> {
        Search::new(&self.wants, &self.bonds, STEPS)
    }
}

fn induced(text: &str) -> Option<Induced> {
    let molecule = balsa_reference::read(text.as_bytes()).ok()?;
    let wants = balsa_reference::delocalized(&molecule);
    let is_induced =
        |bond: &&Bond| bond.kind == Kind::Elided && wants[bond.first] && wants[bond.second];
    let chosen = molecule.bonds.iter().filter(is_induced);
    let bonds = chosen.map(|bond| (bond.first, bond.second)).collect();
    Some(Induced { wants, bonds })
}

fn read(text: &str) -> Option<Slot> {
    let mut atoms = vec![0; ATOM_TABLE];
    let mut bonds = vec![0; BOND_TABLE];
    let read = tables::read(text.as_bytes(), &mut atoms, &mut bonds).ok()?;
    Some(Slot::new(Tables {
        atoms,
        bonds,
        counts: read.counts,
    }))
}

/// The times of one molecule; an engine that would be over the steps is left out.
fn family(graph: &Graph) -> Line {
    let mut slot = Slot::new(graph.tables());
    let answer = slot.first(Engine::Forced);
    slot.first.copy_from_slice(&slot.row);
    let found = slot.first[..graph.bonds.len()].to_vec();
    let wants = vec![true; graph.atoms];
    let search = || Search::new(&wants, &graph.bonds, STEPS);
    let straight = search().first();
    if let Ok(first) = &straight {
        assert_eq!(
            first.as_deref(),
            answer.is_ok().then_some(&found[..]),
            "{}",
            graph.name
        );
    }
    let mut firsts = vec![time_unless(straight.is_err(), || {
        black_box(search().first()).ok();
    })];
    for engine in ENGINES {
        let is_long = matches!(engine, Engine::Plain) && straight.is_err();
        firsts.push(time_unless(is_long, || {
            black_box(slot.first(engine)).ok();
        }));
    }
    let mut later = [Vec::new(), Vec::new()];
    if answer.is_ok() {
        later[0] = nexts(graph, &mut slot);
        slot.first = last(graph.tables());
        later[1] = nexts(graph, &mut slot);
    }
    let [next, end] = later;
    Line {
        name: graph.name.clone(),
        size: format!("{} | {}", graph.atoms, graph.bonds.len()),
        calls: [firsts, next, end],
        forced: answer.map_or_else(|_| "no matching".into(), |forced| forced.to_string()),
        slowest: slot.slowest(),
    }
}

/// The times of the call for the next from the matching at hand.
fn nexts(graph: &Graph, slot: &mut Slot) -> Vec<Option<f64>> {
    let wants = vec![true; graph.atoms];
    let from = slot.first[..graph.bonds.len()].to_vec();
    let search = || Search::new(&wants, &graph.bonds, STEPS).next(&from);
    let is_over = search() == Err(TooLong);
    let mut times = vec![time_unless(is_over, || {
        black_box(search()).ok();
    })];
    for engine in ENGINES {
        let is_long = matches!(engine, Engine::Plain) && is_over;
        times.push(time_unless(is_long, || {
            black_box(slot.next(engine)).ok();
        }));
    }
    times
}

/// The last matching: each bond in turn is made single where a matching is left without it.
fn last(tables: Tables) -> Vec<u8> {
    let mut slot = Slot::new(tables);
    let kind = |bond: usize| (bond + 1) * (BOND_TABLE / ROW) - 1;
    for bond in 0..slot.tables.counts.bonds {
        slot.tables.bonds[kind(bond)] = 1;
        if slot.first(Engine::Public).is_err() {
            slot.tables.bonds[kind(bond)] = 0;
        }
    }
    slot.first(Engine::Public).expect("a matching is left");
    slot.row
}

/// The microseconds of a task, unless it takes too long.
fn time_unless(is_long: bool, task: impl FnMut()) -> Option<f64> {
    (!is_long).then(|| least(task))
}

/// The microseconds of a task in its quickest round.
fn least(mut task: impl FnMut()) -> f64 {
    let once = clock::time(&mut task).max(Duration::from_nanos(20));
    let calls = (ROUND.as_secs_f64() / once.as_secs_f64()).clamp(1.0, 5000.0) as usize;
    let rounds = if once > Duration::from_millis(200) {
        1
    } else {
        ROUNDS
    };
    let round = |_| clock::time(|| (0..calls).for_each(|_| task()));
    let best = (0..rounds).map(round).min().unwrap_or_default();
    best.as_secs_f64() * 1e6 / calls as f64
}
