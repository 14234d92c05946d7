//! Random files.

use reference::compile::{compile, Compiled};
use reference::draft::{hex, Draft};
use reference::random::{program, Random, Shape};
use reference::registers::RegisterFile;
use reference::source::{admit, Opcode};

/// A random program, most often small.
pub fn draft(random: &mut Random) -> Draft {
    let (variables, rows) = match random.below(10) {
        0 => (random.below(3), random.between(1, 6)),
        1..=5 => (random.between(1, 10), random.between(2, 24)),
        6 | 7 => (random.between(4, 24), random.between(10, 60)),
        _ => (random.between(20, 64), random.between(60, 128)),
    };
    let shape = Shape::any(random, variables, rows);
    program(random, &shape)
}

/// A file of any kind: whole, with a small wrong, or of rows at random.
pub fn any(random: &mut Random, _: usize) -> String {
    let draft = draft(random);
    let file = match random.below(12) {
        0 | 1 => draft.bytes(),
        2 | 3 => scattered(random),
        4 => {
            // Rows in another order: reach and initialisation suffer.
            let mut draft = draft;
            for _ in 0..random.between(1, 3) {
                let (i, j) = (random.below(draft.rows.len()), random.below(draft.rows.len()));
                draft.rows.swap(i, j);
            }
            draft.bytes()
        }
        5 | 6 => {
            // A row goes or comes twice; targets stay.
            let mut draft = draft;
            let i = random.below(draft.rows.len());
            if draft.rows.len() > 1 && random.chance(60) {
                draft.rows.remove(i);
            } else if draft.rows.len() < 128 {
                draft.rows.insert(i, draft.rows[i]);
            }
            draft.bytes()
        }
        7 => {
            let mut draft = draft;
            if !draft.classes.is_empty() {
                let v = random.below(draft.classes.len());
                draft.classes[v] = random.below(4) as u8;
            }
            draft.bytes()
        }
        8 => {
            let mut file = draft.bytes();
            match random.below(4) {
                0 => file.truncate(random.below(file.len())),
                1 => {
                    for _ in 0..random.between(1, 5) {
                        file.push(random.below(256) as u8);
                    }
                }
                2 => file[0] = random.below(80) as u8,
                _ => file[1] = random.below(160) as u8,
            }
            file
        }
        _ => {
            let mut file = draft.bytes();
            for _ in 0..random.between(1, 2) {
                let i = random.below(file.len());
                file[i] ^= 1 << random.below(8);
            }
            file
        }
    };
    hex(&file)
}

/// Rows whose fields are right one by one, in no order.
fn scattered(random: &mut Random) -> Vec<u8> {
    let variables = random.between(1, 6);
    let rows = random.between(1, 10);
    let class = random.below(3) as u8;
    let mut draft = Draft { classes: vec![class; variables], rows: Vec::new() };
    for i in 0..rows {
        let mut field = || random.below(variables) as u32;
        let (d, a, b) = (field(), field(), field());
        let target = random.below(rows) as u32;
        let row = match random.pick(&[1, 1, 9, 2, 3, 6, 10, 11, 12, 12]) {
            _ if i == rows - 1 => random.pick(&[0, 0xb000_0000 | target]),
            1 => reference::draft::constant(0, d, target),
            2 => reference::draft::row(2, 1, d, a, 0, 0),
            9 => reference::draft::row(9, 2, d, 0, 0, 0),
            10 => reference::draft::row(10, 3, 0, a, 0, 0),
            11 => reference::draft::row(11, 0, 0, 0, 0, target),
            12 => reference::draft::row(12, 0, 0, a, b, target),
            opcode => reference::draft::row(opcode, 0, d, a, b, 0),
        };
        draft.rows.push(row);
    }
    draft.bytes()
}

fn with_chip(random: &mut Random, draft: &Draft) -> String {
    format!("{} {}", hex(&draft.bytes()), random.below(2))
}

pub fn compile_any(random: &mut Random, _: usize) -> String {
    let draft = draft(random);
    with_chip(random, &draft)
}

pub fn compile_small(random: &mut Random, _: usize) -> String {
    let (variables, rows) = (random.below(11), random.between(1, 24));
    let shape = Shape::any(random, variables, rows);
    let draft = program(random, &shape);
    with_chip(random, &draft)
}

pub fn compile_full(random: &mut Random, _: usize) -> String {
    let shape = Shape::any(random, 64, 128);
    let draft = program(random, &shape);
    with_chip(random, &draft)
}

/// The best of some hundred programs by what this case looks for.
pub fn extreme(random: &mut Random, i: usize) -> String {
    let chips = [RegisterFile::nested(), RegisterFile::paired()];
    let kind = i % 6;
    let mut best: Option<(usize, String)> = None;
    for _ in 0..if kind == 0 { 10_000 } else { 300 } {
        let (variables, rows) = match kind {
            0 => (random.between(4, 9), random.between(10, 32)),
            1 | 2 => (64, 128),
            3 => (random.between(10, 40), random.between(30, 90)),
            _ => (random.between(6, 20), random.between(20, 60)),
        };
        let mut shape = Shape::any(random, variables, rows);
        if kind == 2 {
            shape = Shape { copies: 5, conversions: 0, puts: 0, branches: 0, outputs: 0, ..shape };
        }
        if kind >= 4 {
            shape.copies = random.between(30, 70);
        }
        let draft = program(random, &shape);
        let chip = random.below(2);
        let source = admit(&draft.bytes()).expect("made to be admitted");
        let compiled = compile(&source, &chips[chip]);
        let Compiled { rounds, slots, ref code, .. } = compiled;
        let copies = source.rows.iter().filter(|row| row.op == Opcode::Copy).count();
        let kept = code.iter().filter(|coded| coded.row.op == Opcode::Copy).count();
        let score = match kind {
            0 => 1000 * rounds - 50 * variables,
            1 => slots,
            2 => code.len(),
            3 => 100 * rounds + slots,
            4 => copies.saturating_sub(kept) * (1 + rounds),
            _ => kept * (1 + slots),
        };
        if best.as_ref().is_none_or(|(most, _)| score > *most) {
            best = Some((score, format!("{} {chip}", hex(&draft.bytes()))));
        }
    }
    best.expect("some were made").1
}

/// An admitted file of exactly this size, by turns nearly straight and with
/// many jumps.
pub fn sized(random: &mut Random, i: usize, variables: usize, rows: usize) -> String {
    let base = Shape {
        variables,
        rows,
        mix: [1, 1, 1],
        prelude: rows / 4,
        outputs: rows / 8,
        copies: 20,
        conversions: 12,
        inputs: 6,
        puts: 6,
        branches: 1,
        backward: 30,
        weights: true,
    };
    let shape =
        if i.is_multiple_of(2) { base } else { Shape { branches: 16, backward: 50, ..base } };
    let file = program(random, &shape).bytes();
    admit(&file).expect("made to be admitted");
    hex(&file)
}
