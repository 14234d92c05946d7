//! Compilation: rounds until nothing is spilled, then code.

use crate::nodes::NodeSet;
use crate::registers::RegisterFile;
use crate::rewrite::Working;
use crate::round::{round, Colouring, Mark};
use crate::source::{Class, Opcode, Program, Row};

#[derive(Clone, Copy, Debug, PartialEq, Eq)]
pub enum Place {
    Register(usize),
    Slot(usize),
}

/// What the report says of one source variable.
#[derive(Clone, Copy, Debug, PartialEq, Eq)]
pub struct Assignment {
    pub place: Place,
    pub round: usize,
    pub mark: Mark,
}

/// A row that a player plays; d, a and b name registers in code and variables
/// in a source program.
#[derive(Clone, Copy, Debug, PartialEq, Eq)]
pub struct CodeRow {
    pub row: Row,
    pub d_class: Class,
    pub a_class: Class,
}

#[derive(Clone, Debug)]
pub struct Compiled {
    pub rounds: usize,
    pub slots: usize,
    pub report: Vec<Assignment>,
    pub code: Vec<CodeRow>,
}

/// A row with the classes of its variables.
pub fn with_classes(row: Row, classes: &[Class]) -> CodeRow {
    let class = |used: bool, v: u16| if used { classes[v as usize] } else { 0 };
    CodeRow {
        row,
        d_class: class(row.op.writes_d(), row.d),
        a_class: class(row.op.reads_a(), row.a),
    }
}

pub fn compile(program: &Program, file: &RegisterFile) -> Compiled {
    let mut working = Working::new(program);
    let mut report = vec![None; program.classes.len()];
    for rounds in 1.. {
        let colouring = round(&working, file);
        let done = colouring.spilled == NodeSet::EMPTY;
        if !done {
            working.rewrite(&colouring);
        }
        for (v, entry) in report.iter_mut().enumerate().filter(|(_, entry)| entry.is_none()) {
            let node = colouring.node[v];
            let place = match working.slot[v] {
                Some(slot) => Place::Slot(slot.into()),
                None if done => Place::Register(colouring.register[node].expect("coloured")),
                None => continue,
            };
            *entry = Some(Assignment { place, round: rounds, mark: colouring.mark[node] });
        }
        if done {
            return Compiled {
                rounds,
                slots: working.slots.into(),
                report: report.into_iter().flatten().collect(),
                code: emit(&working, &colouring),
            };
        }
    }
    unreachable!("each round that spills takes a source variable away")
}

/// Puts registers in place of variables and drops copies within one register.
fn emit(working: &Working, colouring: &Colouring) -> Vec<CodeRow> {
    let register = |used: bool, v: u16| {
        let node = || colouring.node[v as usize];
        if used {
            colouring.register[node()].expect("coloured") as u16
        } else {
            0
        }
    };
    let mut code = Vec::with_capacity(working.rows.len());
    let mut first = Vec::with_capacity(working.rows.len());
    for &row in &working.rows {
        first.push(code.len());
        let mut coded = with_classes(row, &working.classes);
        coded.row.d = register(row.op.writes_d(), row.d);
        coded.row.a = register(row.op.reads_a(), row.a);
        coded.row.b = register(row.op.reads_b(), row.b);
        if row.op != Opcode::Copy || coded.row.d != coded.row.a {
            code.push(coded);
        }
    }
    for row in code.iter_mut().map(|coded| &mut coded.row).filter(|row| row.op.has_target()) {
        row.x = first[row.x as usize] as u16;
    }
    code
}
