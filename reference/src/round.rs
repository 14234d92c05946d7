//! A round: edges, merging, removal and selection.

use crate::facts::{solve, Live};
use crate::nodes::NodeSet;
use crate::registers::RegisterFile;
use crate::rewrite::Working;
use crate::source::Opcode;

#[derive(Clone, Copy, Debug, PartialEq, Eq)]
pub enum Mark {
    Tested,
    Hoped,
}

/// What a round gives, by variable or temporary; members of one node agree.
pub struct Colouring {
    /// The node of each variable: its lowest member.
    pub node: Vec<usize>,
    /// By node: the register, or nothing if it is spilled.
    pub register: Vec<Option<usize>>,
    /// By node.
    pub mark: Vec<Mark>,
    pub spilled: NodeSet,
}

/// The graph while nodes merge and are removed.
struct Graph<'a> {
    file: &'a RegisterFile,
    working: &'a Working,
    node: Vec<usize>,
    /// Neighbours by node, the removed ones included.
    edges: Vec<NodeSet>,
    hard: Vec<NodeSet>,
    present: NodeSet,
    /// By node, over the neighbours that are present.
    pressure: Vec<u32>,
    cost: Vec<u64>,
}

pub fn round(working: &Working, file: &RegisterFile) -> Colouring {
    let mut graph = Graph::new(working, file);
    while graph.merge_first() {}
    let removed = graph.remove_all();
    graph.select(&removed)
}

impl<'a> Graph<'a> {
    fn new(working: &'a Working, file: &'a RegisterFile) -> Self {
        let count = working.classes.len();
        let mut edges = vec![NodeSet::EMPTY; count];
        let mut hard = vec![NodeSet::EMPTY; count];
        let mut cost = vec![0u64; count];
        let live = solve(&Live, &working.rows);
        for (row, live) in working.rows.iter().zip(&live) {
            for place in row.reads().chain(row.writes()) {
                cost[place] += 10u64.pow(row.weight.into());
            }
            let Some(d) = row.writes() else { continue };
            for other in live.iter().filter(|&v| v != d) {
                edges[d].insert(other);
                edges[other].insert(d);
                if row.op != Opcode::Copy || other != row.a as usize {
                    hard[d].insert(other);
                    hard[other].insert(d);
                }
            }
        }
        let mut graph = Graph {
            file,
            working,
            node: (0..count).collect(),
            edges,
            hard,
            present: working.nodes(),
            pressure: vec![0; count],
            cost,
        };
        for node in 0..count {
            graph.pressure[node] = graph.pressure_of(node);
        }
        graph
    }

    /// q(class of `node`, class of `other`).
    fn q(&self, node: usize, other: usize) -> u32 {
        self.file.q[self.class(node)][self.class(other)]
    }

    fn p(&self, node: usize) -> u32 {
        self.file.p[self.class(node)]
    }

    fn class(&self, node: usize) -> usize {
        self.working.classes[node] as usize
    }

    fn pressure_of(&self, node: usize) -> u32 {
        let near = self.edges[node].intersection(&self.present);
        near.iter().map(|other| self.q(node, other)).sum()
    }

    /// Merges the first copy that may be merged; false if there is none.
    fn merge_first(&mut self) -> bool {
        let source = self.working.source_variables;
        let ends = (self.working.rows.iter())
            .filter(|row| row.op == Opcode::Copy)
            .map(|row| (row.d as usize, row.a as usize))
            .filter(|&(d, a)| d < source && a < source)
            .map(|(d, a)| (self.node[d], self.node[a]))
            .find(|&(one, other)| self.may_merge(one, other));
        if let Some((one, other)) = ends {
            self.merge(one.min(other), one.max(other));
        }
        ends.is_some()
    }

    fn may_merge(&self, one: usize, other: usize) -> bool {
        if one == other || self.hard[one].contains(other) {
            return false;
        }
        let both = self.edges[one].intersection(&self.edges[other]);
        let mut near = self.edges[one].union(&self.edges[other]);
        near.remove(one);
        near.remove(other);
        let fails = |m: usize| {
            // A neighbour of both ends counts the pair once.
            let twice = if both.contains(m) { self.q(m, one) } else { 0 };
            self.pressure[m] - twice >= self.p(m)
        };
        let pressure: u32 = near.iter().filter(|&m| fails(m)).map(|m| self.q(one, m)).sum();
        pressure < self.p(one)
    }

    /// Merges the node `gone` into the lower node `kept`.
    fn merge(&mut self, kept: usize, gone: usize) {
        for list in [&mut self.edges, &mut self.hard] {
            let gone_near = list[gone];
            for m in gone_near.iter() {
                list[m].remove(gone);
                list[m].insert(kept);
            }
            list[kept] = list[kept].union(&gone_near);
            list[kept].remove(kept);
            list[kept].remove(gone);
            list[gone] = NodeSet::EMPTY;
        }
        for node in &mut self.node {
            if *node == gone {
                *node = kept;
            }
        }
        self.present.remove(gone);
        self.cost[kept] += self.cost[gone];
        let near = self.edges[kept];
        for m in near.iter().chain([kept]) {
            self.pressure[m] = self.pressure_of(m);
        }
    }

    /// Takes all nodes out; answers them in order, with their marks.
    fn remove_all(&mut self) -> Vec<(usize, Mark)> {
        let mut removed = Vec::new();
        loop {
            let passing = self.present.iter().find(|&n| self.pressure[n] < self.p(n));
            let choice = passing
                .map(|node| (node, Mark::Tested))
                .or_else(|| self.cheapest().map(|node| (node, Mark::Hoped)));
            let Some((node, mark)) = choice else {
                return removed;
            };
            removed.push((node, mark));
            self.present.remove(node);
            for m in self.edges[node].intersection(&self.present).iter() {
                self.pressure[m] -= self.q(m, node);
            }
        }
    }

    /// The node of source variables with the least cost over pressure, when no
    /// node passes; every pressure is then above 0.
    fn cheapest(&self) -> Option<usize> {
        let dearer = |n: usize, m: usize| {
            self.cost[n] * u64::from(self.pressure[m]) > self.cost[m] * u64::from(self.pressure[n])
        };
        (self.present.iter())
            .take_while(|&n| n < self.working.source_variables)
            .reduce(|best, n| if dearer(best, n) { n } else { best })
    }

    fn select(self, removed: &[(usize, Mark)]) -> Colouring {
        let mut register = vec![None; self.node.len()];
        let mut mark = vec![Mark::Tested; self.node.len()];
        let mut spilled = NodeSet::EMPTY;
        for &(node, node_mark) in removed.iter().rev() {
            mark[node] = node_mark;
            let blocked = (self.edges[node].iter())
                .filter_map(|m| register[m])
                .fold(0, |set, r: usize| set | self.file.overlapping[r]);
            let free = self.file.of_class[self.class(node)] & !blocked;
            if free == 0 {
                spilled.insert(node);
            } else {
                register[node] = Some(free.trailing_zeros() as usize);
            }
        }
        Colouring { node: self.node, register, mark, spilled }
    }
}
