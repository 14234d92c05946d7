//! The working program, and how spilled nodes are rewritten.

use crate::nodes::NodeSet;
use crate::round::Colouring;
use crate::source::{Class, Opcode, Program, Row};

/// The rows between two rounds.
pub struct Working {
    pub rows: Vec<Row>,
    /// By variable, then by temporary.
    pub classes: Vec<Class>,
    /// The number of source variables; temporaries are numbered from it on.
    pub source_variables: usize,
    /// The slot of each source variable that was spilled.
    pub slot: Vec<Option<u16>>,
    pub slots: u16,
}

impl Working {
    pub fn new(program: &Program) -> Self {
        Working {
            rows: program.rows.clone(),
            classes: program.classes.clone(),
            source_variables: program.classes.len(),
            slot: vec![None; program.classes.len()],
            slots: 0,
        }
    }

    /// The source variables not yet spilled, and all temporaries.
    pub fn nodes(&self) -> NodeSet {
        let mut nodes = NodeSet::EMPTY;
        (0..self.classes.len())
            .filter(|&v| self.slot_of(v as u16).is_none())
            .for_each(|v| nodes.insert(v));
        nodes
    }

    fn slot_of(&self, variable: u16) -> Option<u16> {
        self.slot.get(variable as usize).copied().flatten()
    }

    fn temporary(&mut self, class: Class) -> u16 {
        self.classes.push(class);
        (self.classes.len() - 1) as u16
    }

    /// Gives slots to the spilled nodes and puts loads and stores around the
    /// rows that name them.
    pub fn rewrite(&mut self, colouring: &Colouring) {
        for node in colouring.spilled.iter() {
            for v in 0..self.source_variables {
                if colouring.node[v] == node {
                    self.slot[v] = Some(self.slots);
                }
            }
            self.slots += 1;
        }

        let old = std::mem::take(&mut self.rows);
        let mut rows = Vec::with_capacity(2 * old.len());
        let mut first = Vec::with_capacity(old.len());
        for mut row in old {
            first.push(rows.len());
            let slot_d = row.op.writes_d().then(|| self.slot_of(row.d)).flatten();
            let slot_a = row.op.reads_a().then(|| self.slot_of(row.a)).flatten();
            let slot_b = row.op.reads_b().then(|| self.slot_of(row.b)).flatten();
            if row.op == Opcode::Copy && slot_d.is_some() && slot_d == slot_a {
                continue;
            }
            let weight = row.weight;
            if let Some(x) = slot_a {
                row.a = self.temporary(self.classes[row.a as usize]);
                rows.push(Row { op: Opcode::Load, weight, d: row.a, a: 0, b: 0, x });
            }
            if let Some(x) = slot_b {
                row.b = self.temporary(self.classes[row.b as usize]);
                rows.push(Row { op: Opcode::Load, weight, d: row.b, a: 0, b: 0, x });
            }
            if let Some(x) = slot_d {
                row.d = self.temporary(self.classes[row.d as usize]);
                rows.push(row);
                rows.push(Row { op: Opcode::Store, weight, d: 0, a: row.d, b: 0, x });
            } else {
                rows.push(row);
            }
        }
        for row in rows.iter_mut().filter(|row| row.op.has_target()) {
            row.x = first[row.x as usize] as u16;
        }
        self.rows = rows;
    }
}
