//! Edges between transactions, cycles of them, and the serial order.

use crate::conflict::conflict;
use crate::record::Event;

/// Which transactions have an edge to which, within a prefix.
#[derive(Clone, Debug)]
pub struct Edges {
    successors: Vec<Vec<usize>>,
    there: Vec<Vec<bool>>,
}

impl Edges {
    /// No edges yet, between this many transactions.
    pub(crate) fn none(transactions: usize) -> Edges {
        Edges {
            successors: vec![Vec::new(); transactions],
            there: vec![vec![false; transactions]; transactions],
        }
    }

    pub fn has(&self, from: usize, to: usize) -> bool {
        self.there[from][to]
    }

    fn add(&mut self, from: usize, to: usize) {
        if !self.there[from][to] {
            self.there[from][to] = true;
            self.successors[from].push(to);
        }
    }

    /// Brings in the record at `place`: an edge from each other transaction with an operation
    /// before it that conflicts with it. Says whether there was a new edge.
    pub(crate) fn extend(&mut self, events: &[Event], numbers: &[usize], place: usize) -> bool {
        let mut new = false;
        for earlier in 0..place {
            let (from, to) = (numbers[earlier], numbers[place]);
            if from != to && conflict(&events[earlier], &events[place]) && !self.has(from, to) {
                self.add(from, to);
                new = true;
            }
        }
        new
    }

    /// Whether bringing in the record at `place` would close a cycle, where there is none yet. It
    /// would go from that record's transaction to another, and back by an edge that the record makes.
    pub(crate) fn would_close_a_cycle(
        &self,
        events: &[Event],
        numbers: &[usize],
        place: usize,
    ) -> bool {
        let to = numbers[place];
        let reached = self.with_a_path_from(to);
        (0..place).any(|earlier| {
            let from = numbers[earlier];
            from != to && reached[from] && conflict(&events[earlier], &events[place])
        })
    }

    /// For each transaction, whether there is a path to it from `start`.
    fn with_a_path_from(&self, start: usize) -> Vec<bool> {
        let mut found = vec![false; self.successors.len()];
        let mut to_visit = vec![start];
        while let Some(at) = to_visit.pop() {
            for next in &self.successors[at] {
                if !found[*next] {
                    found[*next] = true;
                    to_visit.push(*next);
                }
            }
        }
        found
    }

    /// A plain search in depth, from every transaction in turn.
    fn have_a_cycle(&self) -> bool {
        let mut finished = vec![false; self.successors.len()];
        let mut on_the_way = vec![false; self.successors.len()];
        (0..self.successors.len())
            .any(|from| self.meets_itself(from, &mut finished, &mut on_the_way))
    }

    fn meets_itself(&self, at: usize, finished: &mut [bool], on_the_way: &mut [bool]) -> bool {
        if on_the_way[at] {
            return true;
        }
        if finished[at] {
            return false;
        }
        on_the_way[at] = true;
        for next in &self.successors[at] {
            if self.meets_itself(*next, finished, on_the_way) {
                return true;
            }
        }
        on_the_way[at] = false;
        finished[at] = true;
        false
    }

    /// For each transaction, whether it has a path to `target`: it has an edge to it, or to one
    /// that has such a path. Tried again until nothing new is found.
    fn with_a_path_to(&self, target: usize) -> Vec<bool> {
        let mut found = vec![false; self.successors.len()];
        loop {
            let before = found.clone();
            for from in (0..found.len()).rev() {
                if self.successors[from].iter().any(|next| *next == target || found[*next]) {
                    found[from] = true;
                }
            }
            if found == before {
                return found;
            }
        }
    }
}

/// The edges of a whole history.
pub fn edges(events: &[Event], numbers: &[usize]) -> Edges {
    let mut edges = Edges::none(crate::transactions::count(numbers));
    for place in 0..events.len() {
        edges.extend(events, numbers, place);
    }
    edges
}

/// The record that ends the shortest prefix with a cycle, and the edges of that prefix.
/// Every prefix is searched, save that one without a new edge has the last one's answer.
pub fn first_cycle(events: &[Event], numbers: &[usize]) -> Option<(usize, Edges)> {
    let mut edges = Edges::none(crate::transactions::count(numbers));
    for place in 0..events.len() {
        let new = edges.extend(events, numbers, place);
        if new && edges.have_a_cycle() {
            return Some((place, edges));
        }
    }
    None
}

/// The reported cycle: it starts at `start`. From another that has an edge to `start`, it closes.
/// Otherwise it goes on to the lowest-numbered other than `start` with an edge from here and a
/// path back.
pub fn reported_cycle(edges: &Edges, start: usize) -> Vec<usize> {
    let path_back = edges.with_a_path_to(start);
    let mut cycle = vec![start];
    let mut at = start;
    while at == start || !edges.has(at, start) {
        at = (0..path_back.len())
            .find(|next| *next != start && edges.has(at, *next) && path_back[*next])
            .expect("the prefix has a cycle, and it goes through its last record's transaction");
        cycle.push(at);
        assert!(cycle.len() <= path_back.len(), "a cycle meets each transaction once");
    }
    cycle
}

/// Again and again, among the transactions whose predecessors have all been taken, the one with
/// the lowest thread number.
pub fn serial_order(edges: &Edges, threads: &[u8]) -> Vec<usize> {
    let all = threads.len();
    let mut taken = vec![false; all];
    let mut order = Vec::new();
    while order.len() < all {
        let available = |t: usize| !taken[t] && (0..all).all(|p| taken[p] || !edges.has(p, t));
        let next = (0..all)
            .filter(|t| available(*t))
            .min_by_key(|t| threads[*t])
            .expect("without a cycle some transaction is always available");
        taken[next] = true;
        order.push(next);
    }
    order
}
