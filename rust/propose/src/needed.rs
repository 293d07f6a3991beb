//! Which steps a shorter list needs. A step needs those that made what it takes, and any set of steps that has with each step the ones it needs is a script.
//! Of all these sets, the one is wanted that makes the list cheapest, and has few steps: a closure of greatest profit, by a cut of least capacity.

use crate::work::{Done, NO};
use std::collections::{HashMap, VecDeque};

const UNBOUNDED: i64 = i64::MAX / 4;

struct Edge {
    to: usize,
    room: i64,
}

/// A network for the least cut. The edge after an even one is its way back.
struct Network {
    edges: Vec<Edge>,
    out: Vec<Vec<usize>>,
    level: Vec<usize>,
    next: Vec<usize>,
}

impl Network {
    fn new(nodes: usize) -> Network {
        Network { edges: Vec::new(), out: vec![Vec::new(); nodes], level: Vec::new(), next: Vec::new() }
    }

    fn add(&mut self, from: usize, to: usize, room: i64) {
        self.out[from].push(self.edges.len());
        self.edges.push(Edge { to, room });
        self.out[to].push(self.edges.len());
        self.edges.push(Edge { to: from, room: 0 });
    }

    /// How far each node is from the source, where there is room.
    fn levels(&mut self, source: usize) {
        self.level = vec![usize::MAX; self.out.len()];
        self.level[source] = 0;
        let mut queue = VecDeque::from([source]);
        while let Some(node) = queue.pop_front() {
            for &edge in &self.out[node] {
                let Edge { to, room } = self.edges[edge];
                if room > 0 && self.level[to] == usize::MAX {
                    self.level[to] = self.level[node] + 1;
                    queue.push_back(to);
                }
            }
        }
    }

    /// Pushes along one way from the source to the sink, level by level; whether there was one.
    fn push(&mut self, source: usize, sink: usize) -> bool {
        let mut way: Vec<usize> = Vec::new();
        let mut node = source;
        while node != sink {
            if let Some(&edge) = self.out[node].get(self.next[node]) {
                let Edge { to, room } = self.edges[edge];
                if room > 0 && self.level[to] == self.level[node] + 1 {
                    way.push(edge);
                    node = to;
                } else {
                    self.next[node] += 1;
                }
            } else {
                let Some(edge) = way.pop() else { return false };
                node = self.edges[edge ^ 1].to;
                self.next[node] += 1;
            }
        }
        let room = way.iter().map(|&edge| self.edges[edge].room).min().unwrap_or(0);
        for edge in way {
            self.edges[edge].room -= room;
            self.edges[edge ^ 1].room += room;
        }
        true
    }

    /// Whether each node is on the source's side of a least cut.
    fn cut(&mut self, source: usize, sink: usize) -> Vec<bool> {
        loop {
            self.levels(source);
            if self.level[sink] == usize::MAX {
                return self.level.iter().map(|&level| level != usize::MAX).collect();
            }
            self.next = vec![0; self.out.len()];
            while self.push(source, sink) {}
        }
    }
}

/// Whether each step is needed. What no step makes is there from the beginning.
pub fn needed(log: &[Done]) -> Vec<bool> {
    let (source, sink) = (log.len(), log.len() + 1);
    let mut network = Network::new(log.len() + 2);
    let mut makers: HashMap<u32, usize> = HashMap::new();
    for (step, done) in log.iter().enumerate() {
        let profit = -done.price - 1;
        if profit > 0 {
            network.add(source, step, profit);
        } else {
            network.add(step, sink, -profit);
        }
        for maker in done.took.iter().filter_map(|took| makers.get(took)) {
            network.add(step, *maker, UNBOUNDED);
        }
        makers.extend(done.made.into_iter().filter(|&made| made != NO).map(|made| (made, step)));
    }
    let mut kept = network.cut(source, sink);
    kept.truncate(log.len());
    kept
}
