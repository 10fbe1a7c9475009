//! Legal molecules on which a plain search would not end in a lifetime, with their answers.

mod graphs;

use balsa::tables::{self, Step, ROW};
use balsa::{Code, Molecule};
use graphs::{Graph, MOST};

/// The first matching, which is one.
fn first(graph: &Graph) -> Result<Vec<u8>, Code> {
    let (atoms, bonds, counts) = graph.tables();
    let mut row = vec![1; ROW];
    tables::first(&atoms, &bonds, counts, &mut row)?;
    assert_eq!(tables::is_matching(&atoms, &bonds, counts, &row), Ok(true));
    Ok(row)
}

#[test]
fn a_lone_ring_behind_32_benzenes() {
    let text = "c1ccccc1.".repeat(32) + "c1ccnc1";
    let refusal = Molecule::read(text.as_bytes()).unwrap_err();
    assert_eq!(refusal.code, Code::Unmatchable);
}

#[test]
fn two_bonds_far_apart() {
    let text = format!("c%10c%11.{}c%10C.c%11C", "c1ccccc1.".repeat(31));
    let molecule = Molecule::read(text.as_bytes()).unwrap();
    let first = molecule.matchings().next().unwrap();
    assert_eq!(first[0], 0);
    assert_eq!(first.iter().filter(|&&x| x == 1).count(), 3 * 31 + 2);
    assert_eq!(molecule.matchings().take(1000).count(), 1000);
}

#[test]
fn an_odd_atom_behind_32_benzenes() {
    let text = "c1ccccc1.".repeat(32) + "CcC";
    let refusal = Molecule::read(text.as_bytes()).unwrap_err();
    assert_eq!(refusal.code, Code::Unmatchable);
}

#[test]
fn triangulenes_have_no_matching() {
    for size in 2..=25 {
        let graph = Graph::triangulene(size);
        assert_eq!(graph.atoms, size * size + 4 * size + 1);
        assert_eq!(first(&graph), Err(Code::Unmatchable), "size {size}");
    }
}

#[test]
fn flakes_have_matchings() {
    for (wide, high) in [(1, 1), (5, 5), (7, 8), (2, 24), (8, 8), (2, 130), (18, 19)] {
        let graph = Graph::flake(wide, high);
        assert!(graph.bonds.len() <= MOST.1);
        assert!(first(&graph).is_ok(), "{wide} by {high}");
    }
}

#[test]
fn tubes_have_matchings() {
    for (round, long) in [(4, 5), (6, 10), (8, 9), (10, 34)] {
        let graph = Graph::tube(round, long);
        assert!(graph.bonds.len() <= MOST.1);
        let row = first(&graph).unwrap();
        let (atoms, bonds, counts) = graph.tables();
        let mut next = row.clone();
        assert_eq!(
            tables::next(&atoms, &bonds, counts, &mut next),
            Ok(Step::Given)
        );
        assert_ne!(next, row);
    }
}

/// Rings of even size have a matching, whatever joins them; of others some have one.
#[test]
fn random_graphs_at_the_limits() {
    let mut given = 0;
    for seed in 0..100 {
        assert!(first(&Graph::random(seed, 60, true)).is_ok(), "{seed}");
        given += usize::from(first(&Graph::random(seed, 60, false)).is_ok());
    }
    assert!((1..100).contains(&given), "{given}");
}
