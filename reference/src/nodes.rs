//! Sets of node numbers below 448.

pub const NODES: usize = 448;
const WORDS: usize = NODES / 64;

#[derive(Clone, Copy, Debug, PartialEq, Eq)]
pub struct NodeSet([u64; WORDS]);

impl NodeSet {
    pub const EMPTY: NodeSet = NodeSet([0; WORDS]);

    pub fn insert(&mut self, node: usize) {
        self.0[node / 64] |= 1 << (node % 64);
    }

    pub fn remove(&mut self, node: usize) {
        self.0[node / 64] &= !(1 << (node % 64));
    }

    pub fn contains(&self, node: usize) -> bool {
        self.0[node / 64] >> (node % 64) & 1 == 1
    }

    pub fn union(&self, other: &NodeSet) -> NodeSet {
        self.zip(other, |one, two| one | two)
    }

    pub fn intersection(&self, other: &NodeSet) -> NodeSet {
        self.zip(other, |one, two| one & two)
    }

    fn zip(&self, other: &NodeSet, f: impl Fn(u64, u64) -> u64) -> NodeSet {
        NodeSet(std::array::from_fn(|i| f(self.0[i], other.0[i])))
    }

    /// The members in rising order.
    pub fn iter(&self) -> impl Iterator<Item = usize> + '_ {
        self.0.iter().enumerate().flat_map(|(i, &word)| {
            let rest = move |word: &u64| Some(word & (word - 1)).filter(|&w| w != 0);
            std::iter::successors(Some(word).filter(|&w| w != 0), rest)
                .map(move |word| 64 * i + word.trailing_zeros() as usize)
        })
    }
}
