//! Source files: classes, opcodes, rows, and admission.

use crate::facts::{solve, Initialised, Reach};
use crate::fault::Fault;

/// The number of a class: 0 byte, 1 half, 2 word.
pub type Class = u8;

/// `value` modulo 2 to the bits of `class`.
pub fn reduce(value: u32, class: Class) -> u32 {
    match class {
        0 => value & 0xff,
        1 => value & 0xffff,
        _ => value,
    }
}

#[derive(Clone, Copy, Debug, PartialEq, Eq)]
pub enum Opcode {
    End = 0,
    Const = 1,
    Copy = 2,
    Add = 3,
    Sub = 4,
    And = 5,
    Xor = 6,
    Widen = 7,
    Narrow = 8,
    Input = 9,
    Output = 10,
    Jump = 11,
    Less = 12,
    /// Only in working programs and code: a slot into d.
    Load = 14,
    /// Only in working programs and code: a into a slot.
    Store = 15,
}

/// The opcodes of a source file, by number.
pub const SOURCE_OPCODES: [Opcode; 13] = [
    Opcode::End,
    Opcode::Const,
    Opcode::Copy,
    Opcode::Add,
    Opcode::Sub,
    Opcode::And,
    Opcode::Xor,
    Opcode::Widen,
    Opcode::Narrow,
    Opcode::Input,
    Opcode::Output,
    Opcode::Jump,
    Opcode::Less,
];

impl Opcode {
    pub fn writes_d(self) -> bool {
        use Opcode::*;
        matches!(self, Const | Copy | Add | Sub | And | Xor | Widen | Narrow | Input | Load)
    }

    pub fn reads_a(self) -> bool {
        use Opcode::*;
        matches!(self, Copy | Add | Sub | And | Xor | Widen | Narrow | Output | Less | Store)
    }

    pub fn reads_b(self) -> bool {
        use Opcode::*;
        matches!(self, Add | Sub | And | Xor | Less)
    }

    pub fn has_target(self) -> bool {
        matches!(self, Opcode::Jump | Opcode::Less)
    }

    pub fn has_slot(self) -> bool {
        matches!(self, Opcode::Load | Opcode::Store)
    }

    /// Whether the row behind this one is a successor.
    pub fn falls_through(self) -> bool {
        !matches!(self, Opcode::End | Opcode::Jump)
    }
}

/// A row of a source or working program. `x` is the constant, target or slot;
/// fields that the opcode does not use are 0.
#[derive(Clone, Copy, Debug, PartialEq, Eq)]
pub struct Row {
    pub op: Opcode,
    pub weight: u8,
    pub d: u16,
    pub a: u16,
    pub b: u16,
    pub x: u16,
}

impl Row {
    /// The variables in the places a and b, as far as the row reads them.
    pub fn reads(&self) -> impl Iterator<Item = usize> {
        let a = self.op.reads_a().then_some(self.a as usize);
        let b = self.op.reads_b().then_some(self.b as usize);
        a.into_iter().chain(b)
    }

    pub fn writes(&self) -> Option<usize> {
        self.op.writes_d().then_some(self.d as usize)
    }

    /// The successors of this row when it stands at `place`.
    pub fn successors(&self, place: usize) -> impl Iterator<Item = usize> {
        let next = self.op.falls_through().then_some(place + 1);
        let target = self.op.has_target().then_some(self.x as usize);
        next.into_iter().chain(target)
    }
}

/// A program that was admitted.
#[derive(Clone, Debug, PartialEq, Eq)]
pub struct Program {
    pub classes: Vec<Class>,
    pub rows: Vec<Row>,
}

/// Reads a file and checks everything that a program must keep.
pub fn admit(file: &[u8]) -> Result<Program, Fault> {
    let program = read(file)?;
    let reached = solve(&Reach, &program.rows);
    if let Some(row) = reached.iter().position(|&yes| !yes) {
        return Err(Fault::new(13, row));
    }
    let written = solve(&Initialised, &program.rows);
    let unsure = |(row, written): (&Row, &u64)| row.reads().any(|v| written >> v & 1 == 0);
    match program.rows.iter().zip(&written).position(unsure) {
        Some(row) => Err(Fault::new(14, row)),
        None => Ok(program),
    }
}

/// Reads a file and checks all that needs no facts: faults 1 to 12.
fn read(file: &[u8]) -> Result<Program, Fault> {
    let &[variables, rows, ref body @ ..] = file else {
        return Err(Fault::new(1, 0));
    };
    let (variables, rows) = (variables as usize, rows as usize);
    if variables > 64 {
        return Err(Fault::new(3, 0));
    }
    if rows == 0 || rows > 128 {
        return Err(Fault::new(4, 0));
    }
    let class_bytes = variables.div_ceil(4);
    let expected = class_bytes + 4 * rows;
    if body.len() < expected {
        return Err(Fault::new(1, 0));
    }
    if body.len() > expected {
        return Err(Fault::new(2, 0));
    }

    let (class_part, row_part) = body.split_at(class_bytes);
    let mut pairs =
        class_part.iter().flat_map(|byte| [byte >> 6, byte >> 4 & 3, byte >> 2 & 3, byte & 3]);
    let classes: Vec<Class> = pairs.by_ref().take(variables).collect();
    if let Some(variable) = classes.iter().position(|&class| class == 3) {
        return Err(Fault::new(5, variable));
    }
    if pairs.any(|fill| fill != 0) {
        return Err(Fault::new(6, 0));
    }

    let rows = row_part
        .chunks_exact(4)
        .enumerate()
        .map(|(place, bytes)| {
            let bits = u32::from_be_bytes([bytes[0], bytes[1], bytes[2], bytes[3]]);
            read_row(bits, &classes, rows).map_err(|number| Fault::new(number, place))
        })
        .collect::<Result<Vec<Row>, Fault>>()?;
    let last = rows.len() - 1;
    if rows[last].op.falls_through() {
        return Err(Fault::new(12, last));
    }
    Ok(Program { classes, rows })
}

/// Reads one row of a program with these classes and that many rows; a
/// refusal is the fault's number.
fn read_row(bits: u32, classes: &[Class], rows: usize) -> Result<Row, u32> {
    let field = |low: u32, width: u32| (bits >> low & ((1 << width) - 1)) as u16;
    let op = *SOURCE_OPCODES.get(field(28, 4) as usize).ok_or(7u32)?;
    let weight = field(26, 2) as u8;
    let d = field(20, 6);
    if op == Opcode::Const {
        if field(0, 4) != 0 {
            return Err(8);
        }
        if d as usize >= classes.len() {
            return Err(9);
        }
        let x = field(4, 16);
        return Ok(Row { op, weight, d, a: 0, b: 0, x });
    }

    let (a, b, x) = (field(14, 6), field(8, 6), field(0, 8));
    let fields = [(op.writes_d(), d), (op.reads_a(), a), (op.reads_b(), b)];
    if fields.iter().any(|&(used, value)| !used && value != 0) || !op.has_target() && x != 0 {
        return Err(8);
    }
    if fields.iter().any(|&(used, value)| used && value as usize >= classes.len()) {
        return Err(9);
    }
    let class = |variable: u16| classes[variable as usize];
    let fits = match op {
        Opcode::Copy => class(d) == class(a),
        Opcode::Add | Opcode::Sub | Opcode::And | Opcode::Xor => {
            class(d) == class(a) && class(a) == class(b)
        }
        Opcode::Widen => class(d) > class(a),
        Opcode::Narrow => class(d) < class(a),
        Opcode::Less => class(a) == class(b),
        _ => true,
    };
    if !fits {
        return Err(10);
    }
    if op.has_target() && x as usize >= rows {
        return Err(11);
    }
    Ok(Row { op, weight, d, a, b, x })
}
