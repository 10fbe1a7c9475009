//! Perfect matchings in order by Edmonds' algorithm, in polynomial time for every graph.

use crate::molecule::Neighbours;
use crate::search::Graph;
use std::collections::VecDeque;

/// The first perfect matching in the order of the paper, by its edges.
pub(crate) fn first(graph: &Graph) -> Option<Vec<usize>> {
    let mut matcher = Matcher::new(graph);
    matcher.complete(0).then(|| matcher.first_from(0))
}

/// The perfect matching after this one.
pub(crate) fn next(graph: &Graph, matching: &[usize]) -> Option<Vec<usize>> {
    for (kept, &given_up) in matching.iter().enumerate().rev() {
        let mut matcher = Matcher::new(graph);
        for &edge in &matching[..kept] {
            matcher.settle(edge);
        }
        for &edge in &matching[kept + 1..] {
            let (one, other) = graph.edges[edge];
            matcher.pair(one, other);
        }
        if matcher.complete(given_up + 1) {
            return Some(matcher.first_from(given_up + 1));
        }
    }
    None
}

/// Whether a perfect matching exists.
pub(crate) fn exists(graph: &Graph) -> bool {
    Matcher::new(graph).complete(0)
}

const NONE: usize = usize::MAX;

struct Matcher<'g> {
    graph: &'g Graph,
    neighbours: Neighbours,
    /// Each vertex' partner.
    mate: Vec<usize>,
    /// Whether a vertex' partner is settled for good.
    settled: Vec<bool>,
    /// The edges settled.
    taken: Vec<usize>,
    /// In the search for a path: the vertex before an inner one.
    parent: Vec<usize>,
    /// The base of each vertex' blossom.
    base: Vec<usize>,
    /// Whether a vertex is an outer one.
    outer: Vec<bool>,
    queue: VecDeque<usize>,
}

impl<'g> Matcher<'g> {
    fn new(graph: &'g Graph) -> Self {
        let count = graph.vertices;
        Matcher {
            graph,
            neighbours: Neighbours::new(count, graph.edges.iter().copied()),
            mate: vec![NONE; count],
            settled: vec![false; count],
            taken: Vec::new(),
            parent: vec![NONE; count],
            base: vec![0; count],
            outer: vec![false; count],
            queue: VecDeque::new(),
        }
    }

    fn pair(&mut self, one: usize, other: usize) {
        self.mate[one] = other;
        self.mate[other] = one;
    }

    fn set_settled(&mut self, edge: usize, settled: bool) {
        let (one, other) = self.graph.edges[edge];
        self.settled[one] = settled;
        self.settled[other] = settled;
    }

    /// Takes an edge for good.
    fn settle(&mut self, edge: usize) {
        let (one, other) = self.graph.edges[edge];
        self.pair(one, other);
        self.set_settled(edge, true);
        self.taken.push(edge);
    }

    /// Pairs all vertices that are not yet paired, along edges from this one on.
    fn complete(&mut self, from: usize) -> bool {
        (0..self.graph.vertices)
            .all(|vertex| self.mate[vertex] != NONE || self.augment(vertex, from))
    }

    /// Turns the perfect matching at hand, which has no unsettled edge before `from`, into the
    /// first one with the same settled edges, and gives its edges.
    fn first_from(mut self, from: usize) -> Vec<usize> {
        for edge in from..self.graph.edges.len() {
            let (one, other) = self.graph.edges[edge];
            if !self.settled[one] && !self.settled[other] && self.force(edge) {
                self.settle(edge);
            }
        }
        self.taken
    }

    /// Brings an edge into the matching, with edges after it only, if that can be done.
    fn force(&mut self, edge: usize) -> bool {
        let (one, other) = self.graph.edges[edge];
        if self.mate[one] == other {
            return true;
        }
        let (mate_of_one, mate_of_other) = (self.mate[one], self.mate[other]);
        self.mate[mate_of_one] = NONE;
        self.mate[mate_of_other] = NONE;
        self.set_settled(edge, true);
        if self.augment(mate_of_one, edge + 1) {
            return true;
        }
        self.set_settled(edge, false);
        self.pair(one, mate_of_one);
        self.pair(other, mate_of_other);
        false
    }

    /// Looks for an alternating path from an unpaired vertex to another one, along edges from
    /// `from` on between vertices that are not settled, and swaps the pairs along it.
    fn augment(&mut self, root: usize, from: usize) -> bool {
        match self.path_end(root, from) {
            Some(end) => {
                self.swap_along(end);
                true
            }
            None => false,
        }
    }

    fn path_end(&mut self, root: usize, from: usize) -> Option<usize> {
        self.parent.fill(NONE);
        self.outer.fill(false);
        for (vertex, base) in self.base.iter_mut().enumerate() {
            *base = vertex;
        }
        self.outer[root] = true;
        self.queue.clear();
        self.queue.push_back(root);
        while let Some(vertex) = self.queue.pop_front() {
            for index in 0..self.neighbours.of(vertex).len() {
                let edge = self.neighbours.of(vertex)[index];
                let to = edge.atom;
                let is_usable = edge.bond >= from && !self.settled[to] && self.mate[vertex] != to;
                if !is_usable || self.base[vertex] == self.base[to] {
                    continue;
                }
                if self.outer[to] {
                    self.shrink(vertex, to);
                } else if self.parent[to] == NONE {
                    self.parent[to] = vertex;
                    match self.mate[to] {
                        NONE => return Some(to),
                        mate => self.reach(mate),
                    }
                }
            }
        }
        None
    }

    /// Marks a vertex as an outer one.
    fn reach(&mut self, vertex: usize) {
        if !self.outer[vertex] {
            self.outer[vertex] = true;
            self.queue.push_back(vertex);
        }
    }

    /// Shrinks the blossom that an edge between two outer vertices closes.
    fn shrink(&mut self, one: usize, other: usize) {
        let base = self.common_base(one, other);
        let mut in_blossom = vec![false; self.graph.vertices];
        self.mark_path(one, base, other, &mut in_blossom);
        self.mark_path(other, base, one, &mut in_blossom);
        for vertex in 0..self.graph.vertices {
            if in_blossom[self.base[vertex]] {
                self.base[vertex] = base;
                self.reach(vertex);
            }
        }
    }

    /// The base at which the ways of two outer vertices to the root meet.
    fn common_base(&self, one: usize, other: usize) -> usize {
        let mut on_way = vec![false; self.graph.vertices];
        let mut vertex = self.base[one];
        on_way[vertex] = true;
        while self.mate[vertex] != NONE {
            vertex = self.base[self.parent[self.mate[vertex]]];
            on_way[vertex] = true;
        }
        vertex = self.base[other];
        while !on_way[vertex] {
            vertex = self.base[self.parent[self.mate[vertex]]];
        }
        vertex
    }

    /// Marks the way from an outer vertex to the base, and hangs it on the blossom's other side.
    fn mark_path(&mut self, from: usize, base: usize, side: usize, in_blossom: &mut [bool]) {
        let (mut vertex, mut child) = (from, side);
        while self.base[vertex] != base {
            let mate = self.mate[vertex];
            in_blossom[self.base[vertex]] = true;
            in_blossom[self.base[mate]] = true;
            self.parent[vertex] = child;
            child = mate;
            vertex = self.parent[mate];
        }
    }

    fn swap_along(&mut self, end: usize) {
        let mut vertex = end;
        while vertex != NONE {
            let before = self.parent[vertex];
            let after = self.mate[before];
            self.pair(vertex, before);
            vertex = after;
        }
    }
}

#[cfg(test)]
mod tests {
    use super::*;
    use crate::search;

    /// A graph with random edges, from a small generator of numbers.
    fn random_graph(seed: u64) -> Graph {
        let mut state = seed.wrapping_mul(0x9E37_79B9_7F4A_7C15) | 1;
        let mut below = move |limit: usize| {
            state ^= state << 13;
            state ^= state >> 7;
            state ^= state << 17;
            (state >> 33) as usize % limit
        };
        let vertices = 2 + below(11);
        let mut edges = Vec::new();
        for _ in 0..below(8 * vertices) {
            let (one, other) = (below(vertices), below(vertices));
            if one < other && !edges.contains(&(one, other)) {
                edges.push((one, other));
            }
        }
        Graph { vertices, edges }
    }

    #[test]
    fn both_searches_list_the_same_matchings() {
        let mut matchings = 0;
        for seed in 0..20_000 {
            let graph = random_graph(seed);
            let mut found = first(&graph);
            assert_eq!(exists(&graph), found.is_some());
            assert_eq!(search::first(&graph, usize::MAX), Ok(found.clone()));
            while let Some(matching) = found {
                matchings += 1;
                found = next(&graph, &matching);
                let plain = search::next(&graph, &matching, usize::MAX);
                assert_eq!(plain, Ok(found.clone()));
            }
        }
        assert!(matchings > 20_000, "{matchings}");
    }

    /// Rings of five along a chain, and a vertex too many at its end: no perfect matching, and
    /// very many ways to find that out too late.
    #[test]
    fn hard_graphs_are_answered() {
        let mut edges: Vec<_> = (0..99).map(|v| (v, v + 1)).collect();
        edges.extend((0..75).map(|v| (v, v + 5)));
        edges.extend([(100, 99), (101, 99), (102, 99), (103, 99)].map(|(one, other)| (other, one)));
        let graph = Graph {
            vertices: 104,
            edges,
        };
        assert_eq!(search::first(&graph, 100_000), Err(search::OutOfSteps));
        assert_eq!(first(&graph), None);
    }
}
