//! Random programs that are admitted, from numbers that a seed repeats.

use crate::draft::{constant, row, Draft, END};

/// SplitMix64.
pub struct Random(u64);

impl Random {
    pub fn new(seed: u64) -> Self {
        Random(seed)
    }

    pub fn number(&mut self) -> u64 {
        self.0 = self.0.wrapping_add(0x9e37_79b9_7f4a_7c15);
        let mut z = self.0;
        z = (z ^ z >> 30).wrapping_mul(0xbf58_476d_1ce4_e5b9);
        z = (z ^ z >> 27).wrapping_mul(0x94d0_49bb_1331_11eb);
        z ^ z >> 31
    }

    /// A number below `bound`, which is not 0.
    pub fn below(&mut self, bound: usize) -> usize {
        (self.number() % bound as u64) as usize
    }

    /// A number from `low` to `high`, both included.
    pub fn between(&mut self, low: usize, high: usize) -> usize {
        low + self.below(high - low + 1)
    }

    pub fn chance(&mut self, percent: usize) -> bool {
        self.below(100) < percent
    }

    pub fn pick<T: Copy>(&mut self, items: &[T]) -> T {
        items[self.below(items.len())]
    }

    /// One of the bits of a set that is not empty.
    fn member(&mut self, set: u64) -> u32 {
        let mut set = set;
        for _ in 0..self.below(set.count_ones() as usize) {
            set &= set - 1;
        }
        set.trailing_zeros()
    }
}

/// What a random program is like.
#[derive(Clone, Copy, Debug)]
pub struct Shape {
    pub variables: usize,
    pub rows: usize,
    /// Shares of bytes, halves and words.
    pub mix: [usize; 3],
    /// How many of the first rows only write variables.
    pub prelude: usize,
    /// How many of the last rows only put variables out.
    pub outputs: usize,
    /// Shares of copies, of conversions, of inputs, of outputs, of rows that
    /// compare; the other rows calculate.
    pub copies: usize,
    pub conversions: usize,
    pub inputs: usize,
    pub puts: usize,
    pub branches: usize,
    /// Percentage of comparisons and of the last row that go backward.
    pub backward: usize,
    /// Whether weights vary.
    pub weights: bool,
}

impl Shape {
    pub fn any(random: &mut Random, variables: usize, rows: usize) -> Self {
        let mixes = [
            [1, 1, 1],
            [1, 0, 0],
            [0, 1, 0],
            [0, 0, 1],
            [2, 1, 0],
            [1, 2, 3],
            [3, 1, 1],
            [0, 1, 2],
        ];
        Shape {
            variables,
            rows,
            mix: random.pick(&mixes),
            prelude: if random.chance(60) { variables.min(rows / 2) } else { rows.min(2) },
            outputs: random.below(rows / 3 + 1),
            copies: random.pick(&[0, 5, 15, 15, 40, 70]),
            conversions: random.pick(&[0, 5, 15]),
            inputs: random.pick(&[0, 3, 10]),
            puts: random.pick(&[0, 5, 20]),
            branches: random.pick(&[0, 0, 5, 12, 25]),
            backward: random.pick(&[0, 30, 50, 80]),
            weights: random.chance(70),
        }
    }
}

/// A program of this shape. Which variables are surely written is followed
/// row by row, so that every row is reached and reads only what is written:
/// a jump backward is made only to a row before which no more is written.
pub fn program(random: &mut Random, shape: &Shape) -> Draft {
    let mut classes: Vec<u8> = Vec::new();
    let shares: usize = shape.mix.iter().sum();
    for _ in 0..shape.variables {
        let mut share = random.below(shares);
        let mut class = 0;
        while share >= shape.mix[class] {
            share -= shape.mix[class];
            class += 1;
        }
        classes.push(class as u8);
    }
    let of_class = |class: u8| -> u64 {
        (0..classes.len()).filter(|&v| classes[v] == class).fold(0, |set, v| set | 1 << v)
    };
    let of_class = [of_class(0), of_class(1), of_class(2)];
    let all: u64 = of_class[0] | of_class[1] | of_class[2];

    let last = shape.rows - 1;
    let mut rows = Vec::new();
    let mut before: Vec<u64> = Vec::new();
    let mut pending: Vec<Option<u64>> = vec![None; shape.rows];
    let mut through: Option<u64> = Some(0);
    for i in 0..shape.rows {
        let written = match (through, pending[i]) {
            (Some(one), Some(other)) => one & other,
            (one, other) => one.or(other).expect("every row is reached"),
        };
        before.push(written);
        through = Some(written);
        let weight = if shape.weights { random.below(4) as u32 } else { 0 };
        let backward: Vec<u32> =
            (0..=i as u32).filter(|&t| before[t as usize] & !written == 0).collect();
        if i == last {
            let jumps = random.chance(shape.backward / 2);
            rows.push(if jumps {
                row(11, weight, 0, 0, 0, random.pick(&backward))
            } else {
                END | weight << 26
            });
            break;
        }
        // Where the next row is reached in another way, this one may leave.
        if pending[i + 1].is_some() && random.chance(40) {
            through = None;
            if random.chance(8) {
                rows.push(END | weight << 26);
            } else if random.chance(shape.backward) {
                rows.push(row(11, weight, 0, 0, 0, random.pick(&backward)));
            } else {
                let target = random.between(i + 1, last.min(i + 12));
                pending[target] = Some(pending[target].map_or(written, |set| set & written));
                rows.push(row(11, weight, 0, 0, 0, target as u32));
            }
            continue;
        }
        if all == 0 {
            let target = i + 1;
            pending[target] = Some(written);
            rows.push(row(11, weight, 0, 0, 0, target as u32));
            continue;
        }
        let unwritten = all & !written;
        let fresh = if unwritten != 0 { unwritten } else { all };
        let make = |random: &mut Random, d: u32| {
            if random.chance(40) {
                row(9, weight, d, 0, 0, 0)
            } else {
                let small = random.below(10) as u32;
                let value = random.pick(&[small, small, 0xffff, 0x100, 0x8000, 0x7f, 0xff]);
                constant(weight, d, value)
            }
        };
        if i < shape.prelude || written == 0 {
            let d = random.member(fresh);
            rows.push(make(random, d));
            through = Some(written | 1 << d);
            continue;
        }
        if i + shape.outputs >= last {
            rows.push(row(10, weight, 0, random.member(written), 0, 0));
            continue;
        }
        let a = random.member(written);
        let class = classes[a as usize] as usize;
        let peer = of_class[class];
        let mut share = random.below(100);
        let mut chosen = |percent: usize| {
            let yes = share < percent;
            share = if yes { usize::MAX } else { share - percent };
            yes
        };
        let (new, d) = if chosen(shape.copies) {
            let d = random.member(peer);
            (row(2, weight, d, a, 0, 0), Some(d))
        } else if chosen(shape.conversions) {
            let above: u64 = (class + 1..3).fold(0, |set, c| set | of_class[c]);
            let below: u64 = (0..class).fold(0, |set, c| set | of_class[c]);
            match above | below {
                0 => {
                    let d = random.member(all);
                    (make(random, d), Some(d))
                }
                other => {
                    let d = random.member(other);
                    let opcode = if above >> d & 1 == 1 { 7 } else { 8 };
                    (row(opcode, weight, d, a, 0, 0), Some(d))
                }
            }
        } else if chosen(shape.inputs) {
            let d = random.member(all);
            (make(random, d), Some(d))
        } else if chosen(shape.puts) {
            (row(10, weight, 0, a, 0, 0), None)
        } else if chosen(shape.branches) {
            let b = random.member(written & peer);
            let target = if random.chance(shape.backward) {
                random.pick(&backward)
            } else {
                let target = random.between(i + 1, last.min(i + 20));
                pending[target] = Some(pending[target].map_or(written, |set| set & written));
                target as u32
            };
            (row(12, weight, 0, a, b, target), None)
        } else {
            let d = random.member(peer);
            let b = random.member(written & peer);
            (row(random.between(3, 6) as u32, weight, d, a, b, 0), Some(d))
        };
        rows.push(new);
        through = Some(d.map_or(written, |d| written | 1 << d));
    }
    Draft { classes, rows }
}
