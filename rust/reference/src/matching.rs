//! Perfect matchings of the delocalization subgraph (in the paper: placements).
//!
//! A row has a 1 at each bond of the matching and a 0 at each other bond. Of two rows the one
//! with 1 at the first bond where they differ comes first.

use crate::conformation::is_crowded;
use crate::molecule::{Kind, Molecule};
use crate::refusal::Code;
use crate::search::{Found, Graph};
use crate::valence::delocalized;
use crate::{blossom, search};

/// The steps that the plain search may take before Edmonds' algorithm takes over.
const STEPS: usize = 4000;

/// The delocalized atoms and the induced bonds between them, numbered anew.
struct Subgraph {
    graph: Graph,
    /// The bond of each edge.
    bonds: Vec<usize>,
}

impl Subgraph {
    fn of(molecule: &Molecule) -> Self {
        let mut vertex_of = vec![None; molecule.atoms.len()];
        let mut graph = Graph::default();
        for (atom, is_delocalized) in delocalized(molecule).into_iter().enumerate() {
            if is_delocalized {
                vertex_of[atom] = Some(graph.vertices);
                graph.vertices += 1;
            }
        }
        let mut bonds = Vec::new();
        for (number, bond) in molecule.bonds.iter().enumerate() {
            let ends = (vertex_of[bond.first], vertex_of[bond.second]);
            if let (Kind::Elided, (Some(one), Some(other))) = (bond.kind, ends) {
                graph.edges.push((one, other));
                bonds.push(number);
            }
        }
        Subgraph { graph, bonds }
    }

    /// The row of a matching that is given by its edges.
    fn row(&self, molecule: &Molecule, matching: &[usize]) -> Vec<u8> {
        let mut row = vec![0; molecule.bonds.len()];
        for &edge in matching {
            row[self.bonds[edge]] = 1;
        }
        row
    }

    /// The edges of a row, if it is a matching.
    fn matching(&self, row: &[u8]) -> Option<Vec<usize>> {
        let mut covered = vec![false; self.graph.vertices];
        let mut matching = Vec::with_capacity(self.graph.vertices / 2);
        for (edge, &bond) in self.bonds.iter().enumerate() {
            if row[bond] == 1 {
                let (one, other) = self.graph.edges[edge];
                if covered[one] || covered[other] {
                    return None;
                }
                covered[one] = true;
                covered[other] = true;
                matching.push(edge);
            }
        }
        let marks = row.iter().filter(|&&cell| cell != 0).count();
        (marks == matching.len() && 2 * marks == self.graph.vertices).then_some(matching)
    }
}

/// Whether the molecule has a matching.
pub fn has_matching(molecule: &Molecule) -> bool {
    let graph = Subgraph::of(molecule).graph;
    match search::first(&graph, STEPS) {
        Ok(matching) => matching.is_some(),
        Err(search::OutOfSteps) => blossom::exists(&graph),
    }
}

/// The first matching, if there is one.
pub fn first(molecule: &Molecule) -> Option<Vec<u8>> {
    let subgraph = Subgraph::of(molecule);
    let matching = first_of(&subgraph.graph)?;
    Some(subgraph.row(molecule, &matching))
}

/// The edges of the first perfect matching of a graph, if there is one.
pub(crate) fn first_of(graph: &Graph) -> Option<Vec<usize>> {
    either(search::first(graph, STEPS), || blossom::first(graph))
}

/// The matching after a row that is a matching, `Some(None)` after the last one, and `None` if
/// the row is no matching. The row has a cell for each bond.
pub fn next(molecule: &Molecule, row: &[u8]) -> Option<Option<Vec<u8>>> {
    let subgraph = Subgraph::of(molecule);
    let graph = &subgraph.graph;
    let matching = subgraph.matching(row)?;
    let found = search::next(graph, &matching, STEPS);
    let later = either(found, || blossom::next(graph, &matching));
    Some(later.map(|later| subgraph.row(molecule, &later)))
}

/// What the plain search found, or what the other one finds if the steps were too few.
fn either(found: Found, other: impl FnOnce() -> Option<Vec<usize>>) -> Option<Vec<usize>> {
    found.unwrap_or_else(|search::OutOfSteps| other())
}

/// Whether a row, with a cell for each bond, is a matching.
pub fn is_matching(molecule: &Molecule, row: &[u8]) -> bool {
    Subgraph::of(molecule).matching(row).is_some()
}

/// Makes the bonds of a matching double and every atom unselected (in the paper: settling). If the
/// row is no matching, or marks would crowd an end of a new double bond, the molecule stays as it
/// was.
pub fn kekulize(molecule: &mut Molecule, row: &[u8]) -> Result<(), Code> {
    if !is_matching(molecule, row) {
        return Err(Code::NotAMatching);
    }
    let mut kekulized = molecule.clone();
    for (bond, &cell) in kekulized.bonds.iter_mut().zip(row) {
        if cell == 1 {
            bond.kind = Kind::Double;
        }
    }
    for atom in &mut kekulized.atoms {
        atom.selected = false;
    }
    if is_crowded(&kekulized) {
        return Err(Code::CrowdedEnd);
    }
    *molecule = kekulized;
    Ok(())
}
