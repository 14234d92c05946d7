//! One solver for every kind of fact.

use crate::nodes::NodeSet;
use crate::source::Row;

#[derive(Clone, Copy, PartialEq, Eq)]
pub enum Direction {
    /// A row hands what it yields to its successors.
    Forward,
    /// A row hands what it yields to its predecessors.
    Backward,
}

pub trait Kind {
    type Fact: Copy + PartialEq;
    const DIRECTION: Direction;

    fn least(&self) -> Self::Fact;

    /// The least fact above both.
    fn join(&self, one: Self::Fact, other: Self::Fact) -> Self::Fact;

    /// What comes to row 0 from outside.
    fn entry(&self) -> Self::Fact;

    /// What a row yields from what it is handed.
    fn step(&self, row: &Row, handed: Self::Fact) -> Self::Fact;
}

/// The least solution: for each row the fact that it is handed, so the one
/// before it when facts go forward and the one after it when they go backward.
pub fn solve<K: Kind>(kind: &K, rows: &[Row]) -> Vec<K::Fact> {
    let mut handed = vec![kind.least(); rows.len()];
    handed[0] = kind.join(kind.least(), kind.entry());
    loop {
        let mut changed = false;
        let mut flow = |from: usize, to: usize| {
            let joined = kind.join(handed[to], kind.step(&rows[from], handed[from]));
            changed |= joined != handed[to];
            handed[to] = joined;
        };
        match K::DIRECTION {
            Direction::Forward => {
                for (place, row) in rows.iter().enumerate() {
                    row.successors(place).for_each(|next| flow(place, next));
                }
            }
            Direction::Backward => {
                for (place, row) in rows.iter().enumerate().rev() {
                    row.successors(place).for_each(|next| flow(next, place));
                }
            }
        }
        if !changed {
            return handed;
        }
    }
}

/// Whether a row can be reached from row 0.
pub struct Reach;

impl Kind for Reach {
    type Fact = bool;
    const DIRECTION: Direction = Direction::Forward;

    fn least(&self) -> bool {
        false
    }

    fn join(&self, one: bool, other: bool) -> bool {
        one || other
    }

    fn entry(&self) -> bool {
        true
    }

    fn step(&self, _: &Row, handed: bool) -> bool {
        handed
    }
}

/// The source variables surely written before a row, as bits. The smaller set
/// is the greater fact, so the least one is the set of all.
pub struct Initialised;

impl Kind for Initialised {
    type Fact = u64;
    const DIRECTION: Direction = Direction::Forward;

    fn least(&self) -> u64 {
        u64::MAX
    }

    fn join(&self, one: u64, other: u64) -> u64 {
        one & other
    }

    fn entry(&self) -> u64 {
        0
    }

    fn step(&self, row: &Row, handed: u64) -> u64 {
        row.writes().map_or(handed, |d| handed | 1 << d)
    }
}

/// The variables live after a row.
pub struct Live;

impl Kind for Live {
    type Fact = NodeSet;
    const DIRECTION: Direction = Direction::Backward;

    fn least(&self) -> NodeSet {
        NodeSet::EMPTY
    }

    fn join(&self, one: NodeSet, other: NodeSet) -> NodeSet {
        one.union(&other)
    }

    fn entry(&self) -> NodeSet {
        NodeSet::EMPTY
    }

    fn step(&self, row: &Row, handed: NodeSet) -> NodeSet {
        let mut before = handed;
        if let Some(d) = row.writes() {
            before.remove(d);
        }
        row.reads().for_each(|v| before.insert(v));
        before
    }
}
