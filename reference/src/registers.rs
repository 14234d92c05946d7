//! The register files of the two chips, and their banks.

use crate::source::Class;

/// Where a register lies in the chip's storage of 32-bit words, and its classes.
#[derive(Clone, Copy)]
struct Register {
    word: usize,
    shift: u32,
    width: u32,
    classes: &'static [Class],
}

impl Register {
    fn overlaps(&self, other: &Register) -> bool {
        self.word == other.word
            && self.shift < other.shift + other.width
            && other.shift < self.shift + self.width
    }

    fn mask(&self) -> u32 {
        u32::MAX >> (32 - self.width)
    }
}

/// A register file; sets of registers are bits, lowest register first.
pub struct RegisterFile {
    registers: Vec<Register>,
    /// The registers of each class.
    pub of_class: [u64; 3],
    /// The registers that each register overlaps, itself included.
    pub overlapping: Vec<u64>,
    /// `p[C]`: how many registers class C has.
    pub p: [u32; 3],
    /// `q[B][C]`: how many registers of class B one of class C overlaps at most.
    pub q: [[u32; 3]; 3],
}

impl RegisterFile {
    /// Four words with their lower halves and the two bytes of these.
    pub fn nested() -> Self {
        let family = |shift, width, classes| {
            (0..4).map(move |word| Register { word, shift, width, classes })
        };
        Self::new(
            family(0, 32, &[2][..])
                .chain(family(0, 16, &[1]))
                .chain(family(0, 8, &[0]))
                .chain(family(8, 8, &[0]))
                .collect(),
        )
    }

    /// Six singles, each two of which make up a word, the even one above.
    pub fn paired() -> Self {
        let single = |s: usize| Register {
            word: s / 2,
            shift: if s.is_multiple_of(2) { 16 } else { 0 },
            width: 16,
            classes: &[0, 1],
        };
        let word = |word| Register { word, shift: 0, width: 32, classes: &[2] };
        Self::new((0..6).map(single).chain((0..3).map(word)).collect())
    }

    fn new(registers: Vec<Register>) -> Self {
        let bits = |keep: &dyn Fn(&Register) -> bool| {
            (registers.iter().enumerate()).fold(0u64, |set, (r, x)| set | u64::from(keep(x)) << r)
        };
        let of_class = [0, 1, 2].map(|class| bits(&|r| r.classes.contains(&class)));
        let overlapping: Vec<u64> =
            (registers.iter()).map(|one| bits(&|other| one.overlaps(other))).collect();
        let p = of_class.map(u64::count_ones);
        let blocked = |b: usize, c: usize| {
            (overlapping.iter().enumerate())
                .filter(|&(r, _)| of_class[c] >> r & 1 == 1)
                .map(|(_, set)| (set & of_class[b]).count_ones())
                .max()
                .unwrap_or(0)
        };
        let q = [0, 1, 2].map(|b| [0, 1, 2].map(|c| blocked(b, c)));
        RegisterFile { registers, of_class, overlapping, p, q }
    }

    pub fn count(&self) -> usize {
        self.registers.len()
    }
}

/// The contents of a register file.
pub struct Bank<'a> {
    file: &'a RegisterFile,
    words: [u32; 4],
}

impl<'a> Bank<'a> {
    pub fn new(file: &'a RegisterFile) -> Self {
        Bank { file, words: [0; 4] }
    }

    pub fn read(&self, register: usize) -> u32 {
        (self.file.registers.get(register)).map_or(0, |r| self.words[r.word] >> r.shift & r.mask())
    }

    pub fn write(&mut self, register: usize, value: u32) {
        if let Some(r) = self.file.registers.get(register) {
            let word = &mut self.words[r.word];
            *word = *word & !(r.mask() << r.shift) | (value & r.mask()) << r.shift;
        }
    }

    pub fn contents(&self) -> impl Iterator<Item = u32> + '_ {
        (0..self.file.count()).map(|r| self.read(r))
    }
}
