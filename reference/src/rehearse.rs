//! Rehearsals: a source player and a code player side by side.

use crate::compile::{with_classes, CodeRow, Compiled};
use crate::fault::Fault;
use crate::registers::{Bank, RegisterFile};
use crate::source::{reduce, Opcode, Program};

pub const SLOTS: usize = 64;
/// The most numbers that an input or an output holds.
pub const NUMBERS: usize = 256;
/// The most rows that one play may ask for.
pub const MOST_ROWS: u32 = 65_535;

#[derive(Clone, Copy, Debug, PartialEq, Eq)]
pub enum Outcome {
    Running = 0,
    AtEnd = 1,
    NoInput = 2,
    OutputFull = 3,
}

/// What the numbers in d, a and b of a row stand for.
trait Cells {
    fn read(&self, cell: u16) -> u32;
    fn write(&mut self, cell: u16, value: u32);
}

impl Cells for [u32; 64] {
    fn read(&self, cell: u16) -> u32 {
        self[cell as usize]
    }

    fn write(&mut self, cell: u16, value: u32) {
        self[cell as usize] = value;
    }
}

impl Cells for Bank<'_> {
    fn read(&self, cell: u16) -> u32 {
        Bank::read(self, cell.into())
    }

    fn write(&mut self, cell: u16, value: u32) {
        Bank::write(self, cell.into(), value);
    }
}

pub struct Player {
    rows: Vec<CodeRow>,
    position: usize,
    pub outcome: Outcome,
    input: Vec<u32>,
    taken: usize,
    pub output: Vec<u32>,
}

impl Player {
    fn new(rows: Vec<CodeRow>) -> Self {
        let (input, output) = (Vec::new(), Vec::new());
        Player { rows, position: 0, outcome: Outcome::Running, input, taken: 0, output }
    }

    fn restart(&mut self, input: &[u32]) {
        self.position = 0;
        self.outcome = Outcome::Running;
        self.input = input.to_vec();
        self.taken = 0;
        self.output.clear();
    }

    /// Plays `asked` rows or as many as there are until one ends the player;
    /// answers how many.
    fn play(&mut self, asked: u32, cells: &mut impl Cells, slots: &mut [u32; SLOTS]) -> u32 {
        let mut played = 0;
        while played < asked && self.outcome == Outcome::Running {
            played += 1;
            self.step(cells, slots);
        }
        played
    }

    fn step(&mut self, cells: &mut impl Cells, slots: &mut [u32; SLOTS]) {
        let CodeRow { row, d_class, .. } = self.rows[self.position];
        let read = |cell: u16| cells.read(cell);
        let mut next = self.position + 1;
        let result = match row.op {
            Opcode::End => {
                self.outcome = Outcome::AtEnd;
                return;
            }
            Opcode::Const => row.x.into(),
            Opcode::Copy | Opcode::Widen | Opcode::Narrow => read(row.a),
            Opcode::Add => read(row.a).wrapping_add(read(row.b)),
            Opcode::Sub => read(row.a).wrapping_sub(read(row.b)),
            Opcode::And => read(row.a) & read(row.b),
            Opcode::Xor => read(row.a) ^ read(row.b),
            Opcode::Input => {
                let Some(&number) = self.input.get(self.taken) else {
                    self.outcome = Outcome::NoInput;
                    return;
                };
                self.taken += 1;
                number
            }
            Opcode::Load => slots[row.x as usize],
            Opcode::Output => {
                if self.output.len() == NUMBERS {
                    self.outcome = Outcome::OutputFull;
                    return;
                }
                self.output.push(read(row.a));
                0
            }
            Opcode::Jump => {
                next = row.x.into();
                0
            }
            Opcode::Less => {
                if read(row.a) < read(row.b) {
                    next = row.x.into();
                }
                0
            }
            Opcode::Store => {
                slots[row.x as usize] = read(row.a);
                0
            }
        };
        if row.op.writes_d() {
            cells.write(row.d, reduce(result, d_class));
        }
        self.position = next;
    }
}

pub struct Rehearsal<'a> {
    pub source: Player,
    pub code: Player,
    variables: [u32; 64],
    pub bank: Bank<'a>,
    pub slots: [u32; SLOTS],
}

impl<'a> Rehearsal<'a> {
    pub fn open(
        program: &Program,
        compiled: &Compiled,
        bank: Bank<'a>,
        slots: [u32; SLOTS],
    ) -> Self {
        let source = program.rows.iter().map(|&row| with_classes(row, &program.classes)).collect();
        Rehearsal {
            source: Player::new(source),
            code: Player::new(compiled.code.clone()),
            variables: [0; 64],
            bank,
            slots,
        }
    }

    pub fn restart(&mut self, input: &[u32]) -> Result<(), Fault> {
        if input.len() > NUMBERS {
            return Err(Fault::new(16, 0));
        }
        self.source.restart(input);
        self.code.restart(input);
        self.variables = [0; 64];
        Ok(())
    }

    pub fn play_source(&mut self, asked: u32) -> Result<(u32, Outcome), Fault> {
        if asked > MOST_ROWS {
            return Err(Fault::new(17, 0));
        }
        // A source program has no loads and stores: it gets slots of no use.
        let played = self.source.play(asked, &mut self.variables, &mut [0; SLOTS]);
        Ok((played, self.source.outcome))
    }

    pub fn play_code(&mut self, asked: u32) -> Result<(u32, Outcome), Fault> {
        if asked > MOST_ROWS {
            return Err(Fault::new(17, 0));
        }
        let played = self.code.play(asked, &mut self.bank, &mut self.slots);
        Ok((played, self.code.outcome))
    }
}

/// A bank with a number in every register that no row put there.
pub fn filled_bank(file: &RegisterFile) -> Bank<'_> {
    let mut bank = Bank::new(file);
    for r in 0..file.count() {
        bank.write(r, (r as u32).wrapping_mul(2_654_435_761).wrapping_add(12_345));
    }
    bank
}

/// Slots with a number in each that no row put there.
pub fn filled_slots() -> [u32; SLOTS] {
    std::array::from_fn(|i| (i as u32).wrapping_mul(40_503).wrapping_add(7))
}
