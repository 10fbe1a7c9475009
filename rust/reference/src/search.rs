//! The plain search for a perfect matching: one edge after the other, taken if it can be, and
//! given up again at a dead end.

/// A graph by the ends of its edges.
#[derive(Clone, Debug, Default)]
pub(crate) struct Graph {
    pub vertices: usize,
    pub edges: Vec<(usize, usize)>,
}

/// The search ran out of steps.
#[derive(Debug, PartialEq, Eq)]
pub(crate) struct OutOfSteps;

/// What a search finds: the edges of a matching in ascending order, or that there is none.
pub(crate) type Found = Result<Option<Vec<usize>>, OutOfSteps>;

/// The first perfect matching in the order of the paper.
pub(crate) fn first(graph: &Graph, steps: usize) -> Found {
    let mut search = Search::new(graph, steps);
    let has_lone_vertex = search.last.contains(&NONE);
    if has_lone_vertex || !graph.vertices.is_multiple_of(2) {
        return Ok(None);
    }
    search.forward(0)
}

/// The perfect matching after this one.
pub(crate) fn next(graph: &Graph, matching: &[usize], steps: usize) -> Found {
    let mut search = Search::new(graph, steps);
    for &edge in matching {
        search.take(edge);
    }
    match search.give_up() {
        Some(edge) => search.forward(edge),
        None => Ok(None),
    }
}

const NONE: usize = usize::MAX;

struct Search<'g> {
    graph: &'g Graph,
    /// The last edge of each vertex.
    last: Vec<usize>,
    covered: Vec<bool>,
    taken: Vec<usize>,
    steps: usize,
}

impl<'g> Search<'g> {
    fn new(graph: &'g Graph, steps: usize) -> Self {
        let mut last = vec![NONE; graph.vertices];
        for (edge, &(one, other)) in graph.edges.iter().enumerate() {
            last[one] = edge;
            last[other] = edge;
        }
        Search {
            graph,
            last,
            covered: vec![false; graph.vertices],
            taken: Vec::with_capacity(graph.vertices / 2),
            steps,
        }
    }

    /// Goes on from an edge to the first matching that agrees with the choices before it.
    fn forward(&mut self, from: usize) -> Found {
        let mut edge = from;
        while edge < self.graph.edges.len() {
            self.steps = self.steps.checked_sub(1).ok_or(OutOfSteps)?;
            let (one, other) = self.graph.edges[edge];
            if !self.covered[one] && !self.covered[other] {
                self.take(edge);
                edge += 1;
            } else if !self.is_dead_end(edge) {
                edge += 1;
            } else if let Some(later) = self.give_up() {
                edge = later;
            } else {
                return Ok(None);
            }
        }
        Ok(Some(std::mem::take(&mut self.taken)))
    }

    fn take(&mut self, edge: usize) {
        let (one, other) = self.graph.edges[edge];
        self.covered[one] = true;
        self.covered[other] = true;
        self.taken.push(edge);
    }

    /// Whether an end of this edge, left out, can no longer be covered.
    fn is_dead_end(&self, edge: usize) -> bool {
        let (one, other) = self.graph.edges[edge];
        let is_lost = |vertex: usize| !self.covered[vertex] && self.last[vertex] == edge;
        is_lost(one) || is_lost(other)
    }

    /// Leaves out the last edge taken that can be left out, and tells where to go on.
    fn give_up(&mut self) -> Option<usize> {
        while let Some(edge) = self.taken.pop() {
            let (one, other) = self.graph.edges[edge];
            self.covered[one] = false;
            self.covered[other] = false;
            if !self.is_dead_end(edge) {
                return Some(edge + 1);
            }
        }
        None
    }
}
