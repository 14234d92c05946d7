//! Files at every edge of the table of refusals, on both sides of it.

use std::collections::HashSet;

use reference::draft::{constant, hex, row, Draft, END};

/// Three variables of each class: v0 to v2 bytes, v3 to v5 halves, v6 to v8 words.
const NINE: [u8; 9] = [0, 0, 0, 1, 1, 1, 2, 2, 2];
const BYTE: u32 = 0;
const HALF: u32 = 3;
const WORD: u32 = 6;

/// The fields of each source opcode: d, a, b, target in use.
const USES: [[bool; 4]; 13] = [
    [false, false, false, false],
    [true, false, false, false],
    [true, true, false, false],
    [true, true, true, false],
    [true, true, true, false],
    [true, true, true, false],
    [true, true, true, false],
    [true, true, false, false],
    [true, true, false, false],
    [true, false, false, false],
    [false, true, false, false],
    [false, false, false, true],
    [false, true, true, true],
];
/// Lowest bit and size of d, a, b and target in a row.
const FIELDS: [(u32, u32); 4] = [(20, 6), (14, 6), (8, 6), (0, 8)];

struct Cases {
    lines: Vec<String>,
    seen: HashSet<String>,
}

impl Cases {
    fn bytes(&mut self, bytes: &[u8]) {
        let line = hex(bytes);
        if self.seen.insert(line.clone()) {
            self.lines.push(line);
        }
    }

    fn file(&mut self, classes: &[u8], rows: &[u32]) {
        self.bytes(&Draft::new(classes, rows).bytes());
    }

    /// A program that writes all nine variables, plays these rows and ends.
    fn middle(&mut self, rows: &[u32]) {
        self.bytes(&around(rows).bytes());
    }
}

fn inputs() -> Vec<u32> {
    (0..9).map(|v| row(9, 0, v, 0, 0, 0)).collect()
}

fn around(rows: &[u32]) -> Draft {
    let mut all = inputs();
    all.extend(rows);
    all.push(END);
    Draft::new(&NINE, &all)
}

/// A right row of this opcode for a program over `NINE`, with this target.
fn right(opcode: u32, target: u32) -> u32 {
    match opcode {
        1 => constant(0, BYTE, 5),
        7 => row(7, 0, WORD, BYTE, 0, 0),
        8 => row(8, 0, BYTE, HALF, 0, 0),
        9 => row(9, 0, HALF, 0, 0, 0),
        _ => {
            let [d, a, b, t] = USES[opcode as usize];
            let field = |used: bool, value: u32| if used { value } else { 0 };
            row(opcode, 0, field(d, WORD), field(a, WORD + 1), field(b, WORD + 2), field(t, target))
        }
    }
}

pub fn all() -> Vec<String> {
    let mut cases = Cases { lines: Vec::new(), seen: HashSet::new() };
    lengths(&mut cases);
    heads(&mut cases);
    classes_and_fill(&mut cases);
    opcodes(&mut cases);
    unused_fields(&mut cases);
    variables(&mut cases);
    class_fits(&mut cases);
    targets(&mut cases);
    last_rows(&mut cases);
    reached(&mut cases);
    written(&mut cases);
    two_in_rows(&mut cases);
    two_layers(&mut cases);
    cases.lines
}

/// Files cut short at every length, and with bytes left over.
fn lengths(cases: &mut Cases) {
    let smallest = Draft::new(&[], &[END]).bytes();
    let copying = Draft::new(
        &[2, 2],
        &[constant(0, 0, 7), row(2, 0, 1, 0, 0, 0), row(10, 0, 0, 1, 0, 0), END],
    )
    .bytes();
    let five = Draft::new(&[0, 1, 2, 1, 0], &[constant(3, 4, 0xffff), END]).bytes();
    for file in [&smallest, &copying, &five] {
        for length in 0..=file.len() {
            cases.bytes(&file[..length]);
        }
        for more in 1..=5 {
            for fill in [0, 0xff] {
                let mut longer = file.clone();
                longer.resize(file.len() + more, fill);
                cases.bytes(&longer);
            }
        }
    }
    let full = largest().bytes();
    for length in [2, 3, 17, 18, 19, 21, 22, 526, 528, 529, 530] {
        cases.bytes(&full[..length]);
    }
    for more in [1, 2, 4, 500] {
        let mut longer = full.clone();
        longer.resize(530 + more, 0);
        cases.bytes(&longer);
    }
    for byte in 0..=66 {
        if byte != 58 && byte != 59 && byte != 60 {
            cases.bytes(&[byte]);
        }
    }
}

/// 64 variables and 128 rows, admitted.
fn largest() -> Draft {
    let classes: Vec<u8> = (0..64).map(|v| v % 3).collect();
    let mut rows: Vec<u32> = (0..64).map(|v| constant(v & 3, v, 1000 * v)).collect();
    rows.extend((0..63).map(|v| row(10, 0, 0, 63 - v, 0, 0)));
    rows.push(row(11, 0, 0, 0, 0, 127));
    Draft { classes, rows }
}

/// V and N around their bounds, alone and together, with the right length and others.
fn heads(cases: &mut Cases) {
    let head = |v: u8, n: u8, rest: usize| {
        let mut file = vec![v, n];
        file.resize(2 + rest, 0);
        file
    };
    for v in
        [0u8, 1, 2, 3, 4, 5, 31, 32, 33, 62, 63, 64, 65, 66, 67, 68, 127, 128, 129, 192, 254, 255]
    {
        for n in [0u8, 1, 127, 128, 129, 130, 255] {
            let exact = usize::from(v).div_ceil(4) + 4 * usize::from(n);
            cases.bytes(&head(v, n, 0));
            if n <= 1 || n == 128 && (v == 64 || v == 65) || n == 129 && [0, 64, 65].contains(&v) {
                cases.bytes(&head(v, n, exact));
                cases.bytes(&head(v, n, exact + 1));
                cases.bytes(&head(v, n, exact.saturating_sub(1)));
            }
        }
        // A right program of this many variables where there may be one.
        if v <= 65 {
            cases.file(&vec![1; v.into()], &[END]);
        }
    }
    for n in [1usize, 2, 3, 126, 127, 128, 129] {
        let mut rows = vec![row(9, 1, 0, 0, 0, 0); n - 1];
        rows.push(END);
        cases.file(&[0], &rows);
        rows[n - 1] = row(11, 2, 0, 0, 0, n as u32 - 1);
        cases.file(&[2], &rows);
    }
    cases.bytes(&largest().bytes());
    let mut more = largest();
    more.classes.push(0);
    cases.bytes(&more.bytes());
    let mut more = largest();
    more.rows.push(END);
    cases.bytes(&more.bytes());
    more.classes.push(3);
    cases.bytes(&more.bytes());
}

/// A class of 3 at many variables, every fill bit, both at once.
fn classes_and_fill(cases: &mut Cases) {
    for v in (1..=9).chain([16, 31, 32, 61, 62, 63, 64]) {
        let good: Vec<u8> = (0..v).map(|i| (i % 3) as u8).collect();
        cases.file(&good, &[END]);
        for at in [0, 1, 2, 3, v / 2, v - 2, v - 1] {
            if at < v {
                let mut bad = good.clone();
                bad[at] = 3;
                cases.file(&bad, &[END]);
                cases.file(&bad, &[0xd000_0000]);
                bad[v - 1] = 3;
                cases.file(&bad, &[END]);
            }
        }
        let used = 2 * (v % 4);
        if used == 0 {
            continue;
        }
        let last = 2 + v / 4;
        for fill in (0..8 - used).map(|bit| 1u8 << bit).chain([0xff >> used]) {
            let mut file = Draft::new(&good, &[END]).bytes();
            file[last] |= fill;
            cases.bytes(&file);
            // 6 before any row fault, behind 5, 2 and 1.
            let mut wrong_row = file.clone();
            wrong_row[last + 1] = 0xf0;
            cases.bytes(&wrong_row);
            let mut bad_class = file.clone();
            bad_class[2] |= 0xc0;
            cases.bytes(&bad_class);
            let mut longer = file.clone();
            longer.push(0);
            cases.bytes(&longer);
            file.pop();
            cases.bytes(&file);
        }
    }
}

/// Opcodes above 12, and every right opcode with every weight.
fn opcodes(cases: &mut Cases) {
    for opcode in 13..16 {
        for weight in 0..4 {
            let wrong = row(opcode, weight, 0, 0, 0, 0);
            cases.file(&[], &[wrong]);
            cases.middle(&[wrong]);
            cases.file(&[1], &[END, wrong]);
            cases.file(&[1], &[wrong, END]);
            cases.middle(&[row(opcode, weight, 63, 63, 63, 255)]);
        }
        let mut full = largest();
        full.rows[127] = row(opcode, 0, 0, 0, 0, 0);
        cases.bytes(&full.bytes());
    }
    for opcode in 0..13 {
        for weight in 0..4 {
            let fine = right(opcode, 10) | weight << 26;
            cases.middle(&[fine]);
        }
    }
    for weight in 0..4 {
        cases.file(&[], &[weight << 26]);
        cases.file(&[], &[row(11, weight, 0, 0, 0, 0)]);
    }
}

/// Each bit of each unused field, in every opcode, at the first, a middle and the last row.
fn unused_fields(cases: &mut Cases) {
    for opcode in 0..13u32 {
        let unused: Vec<u32> = if opcode == 1 {
            (0..4).map(|bit| 1 << bit).chain([0xf]).collect()
        } else {
            let mut masks = Vec::new();
            for (used, (low, width)) in USES[opcode as usize].into_iter().zip(FIELDS) {
                if !used {
                    masks.extend((0..width).map(|bit| 1 << (low + bit)));
                    masks.push(((1 << width) - 1) << low);
                }
            }
            masks
        };
        for &mask in &unused {
            cases.middle(&[right(opcode, 10) | mask]);
        }
        for &mask in unused.iter().step_by(5) {
            let mut first = around(&[]);
            first.rows[0] = right(opcode, 1) | mask;
            cases.bytes(&first.bytes());
            let mut last = around(&[]);
            last.rows[9] = right(opcode, 1) | mask;
            cases.bytes(&last.bytes());
            // 8 before 9: the variables in use are wrong too.
            let high = if opcode == 1 {
                63 << 20
            } else {
                (0..3)
                    .filter(|&f| USES[opcode as usize][f])
                    .fold(0, |bits, f| bits | 63 << FIELDS[f].0)
            };
            cases.middle(&[right(opcode, 10) | mask | high]);
        }
    }
}

/// Every variable field in use at V − 1, V and 63, in every opcode.
fn variables(cases: &mut Cases) {
    for opcode in 1..13u32 {
        for field in 0..3 {
            if !USES[opcode as usize][field] {
                continue;
            }
            let (low, _) = FIELDS[field];
            for value in [8, 9, 10, 31, 32, 63] {
                let changed = right(opcode, 10) & !(63 << low) | value << low;
                cases.middle(&[changed]);
                let mut first = around(&[]);
                first.rows[0] = changed;
                cases.bytes(&first.bytes());
                let mut last = around(&[]);
                last.rows[9] = changed;
                cases.bytes(&last.bytes());
            }
        }
        // No variable at all.
        let only_target = |target| if USES[opcode as usize][3] { target } else { 0 };
        cases.file(&[], &[row(opcode, 0, 0, 0, 0, only_target(1)), END]);
    }
    for v in [1u8, 63, 64] {
        for d in [0u32, 62, 63] {
            cases.file(&vec![2; v.into()], &[constant(0, d, 1), row(10, 0, 0, d, 0, 0), END]);
        }
    }
}

/// All classes of d, a and b, in every opcode, with equal and different variables.
fn class_fits(cases: &mut Cases) {
    for opcode in 1..13u32 {
        let [uses_d, uses_a, uses_b, has_target] = USES[opcode as usize];
        let range = |used: bool| if used { 0..3u32 } else { 0..1 };
        for d in range(uses_d) {
            for a in range(uses_a) {
                for b in range(uses_b) {
                    let variable =
                        |used: bool, class: u32, k: u32| if used { 3 * class + k } else { 0 };
                    let target = if has_target { 10 } else { 0 };
                    let made = |k: u32| {
                        let d = variable(uses_d, d, 0);
                        if opcode == 1 {
                            constant(1, d, 0x8001)
                        } else {
                            row(
                                opcode,
                                1,
                                d,
                                variable(uses_a, a, k),
                                variable(uses_b, b, 2 * k),
                                target,
                            )
                        }
                    };
                    cases.middle(&[made(0)]);
                    cases.middle(&[made(1)]);
                    // 10 before 11, behind 8 and 9.
                    if has_target {
                        cases.middle(&[made(1) | 0xff]);
                    }
                }
            }
        }
    }
    // A mismatch at the first and at the last row.
    let wrong =
        [row(2, 0, BYTE, WORD, 0, 0), row(3, 0, WORD, WORD, HALF, 0), row(12, 0, 0, HALF, BYTE, 0)];
    for bad in wrong {
        let mut draft = around(&[]);
        draft.rows[0] = bad;
        cases.bytes(&draft.bytes());
        let mut draft = around(&[]);
        draft.rows[9] = bad;
        cases.bytes(&draft.bytes());
    }
}

/// Targets at 0, itself, N − 1, N and above.
fn targets(cases: &mut Cases) {
    for n in [1u32, 2, 3, 17, 127, 128] {
        for target in [0, n / 2, n - 1, n, n + 1, 128, 254, 255] {
            let mut rows = vec![row(9, 0, 0, 0, 0, 0); n as usize];
            rows[n as usize - 1] = row(11, 0, 0, 0, 0, target);
            cases.file(&[1], &rows);
            if n > 1 {
                rows[0] = row(12, 0, 0, 0, 0, target);
                cases.file(&[1], &rows);
                rows[0] = row(9, 0, 0, 0, 0, 0);
            }
            if n > 2 {
                rows[n as usize - 2] = row(12, 3, 0, 0, 0, target);
                rows[n as usize - 1] = END;
                cases.file(&[1], &rows);
            }
        }
    }
    for target in [0, 9, 10, 11, 12, 255] {
        cases.middle(&[row(11, 0, 0, 0, 0, target)]);
        cases.middle(&[row(12, 0, 0, HALF, HALF + 1, target)]);
    }
}

/// Every opcode in the last row.
fn last_rows(cases: &mut Cases) {
    for opcode in 0..13u32 {
        for weight in [0, 3] {
            let mut draft = around(&[]);
            draft.rows[9] = right(opcode, 9) | weight << 26;
            cases.bytes(&draft.bytes());
            cases.file(&NINE, &[right(opcode, 0) | weight << 26]);
        }
        let mut full = largest();
        full.rows[127] = row(opcode, 0, 0, 0, 0, 0);
        cases.bytes(&full.bytes());
        // Behind an unreached row and an unwritten read: 12 is told first.
        cases.file(&NINE, &[END, row(10, 0, 0, 0, 0, 0), right(opcode, 2)]);
        cases.file(&NINE, &[row(10, 0, 0, 0, 0, 0), right(opcode, 0)]);
    }
}

/// Rows that are reached, and rows that are not.
fn reached(cases: &mut Cases) {
    let jump = |target| row(11, 0, 0, 0, 0, target);
    let less = |target| row(12, 0, 0, 0, 0, target);
    let input = row(9, 0, 0, 0, 0, 0);
    let programs: &[&[u32]] = &[
        &[jump(0)],
        &[END, END],
        &[END, jump(0)],
        &[jump(1), END],
        &[jump(1), jump(0)],
        &[jump(0), END],
        &[jump(2), END, END],
        &[jump(2), END, jump(1)],
        &[jump(2), jump(1), END],
        &[jump(2), jump(2), END],
        &[jump(3), jump(2), jump(1), END],
        &[jump(3), END, jump(1), jump(2)],
        &[jump(3), jump(2), END, jump(1)],
        &[jump(4), END, jump(1), jump(2), jump(3)],
        &[jump(1), jump(2), jump(3), jump(4), jump(0)],
        &[jump(1), jump(2), jump(4), END, jump(0)],
        &[input, END, END],
        &[input, END, input, END],
        &[input, less(3), END, END],
        &[input, less(2), END],
        &[input, less(1), END],
        &[input, less(0), END],
        &[input, less(4), jump(0), END, jump(3)],
        &[input, less(4), jump(0), END, END],
        &[input, less(4), jump(2), END, jump(3)],
        &[input, less(5), END, input, jump(3), END],
        &[input, jump(4), input, END, input, jump(2)],
        &[input, jump(4), input, END, input, jump(3)],
        &[input, jump(4), input, END, input, END],
        &[END, input, END],
        &[END, END, END, END],
    ];
    for rows in programs {
        cases.file(&[1], rows);
    }
    for gone in [1, 2, 63, 126, 127] {
        let mut rows = vec![input; 128];
        rows[gone - 1] = END;
        rows[127] = END;
        cases.file(&[0], &rows);
        rows[gone - 1] = jump(127);
        cases.file(&[0], &rows);
    }
    // Every row is reached only backward: 127, 126, .. 1.
    for n in [2u32, 3, 16, 127, 128] {
        let mut rows = vec![jump(n - 1), END];
        rows.extend((2..n).map(|i| jump(i - 1)));
        cases.file(&[], &rows);
        rows[n as usize / 2] = END;
        cases.file(&[], &rows);
    }
}

/// Reads that are surely written before, and reads that are not.
fn written(cases: &mut Cases) {
    let jump = |target| row(11, 0, 0, 0, 0, target);
    let less = |a, b, target| row(12, 0, 0, a, b, target);
    let set = |d| constant(0, d, d + 1);
    let input = |d| row(9, 0, d, 0, 0, 0);
    let put = |a| row(10, 0, 0, a, 0, 0);
    let add = |d, a, b| row(3, 0, d, a, b, 0);
    let copy = |d, a| row(2, 0, d, a, 0, 0);
    let programs: &[&[u32]] = &[
        &[put(0), END],
        &[set(0), put(0), END],
        &[set(0), put(1), END],
        &[set(1), put(0), END],
        &[add(0, 0, 0), END],
        &[set(0), add(0, 0, 0), END],
        &[set(0), add(1, 0, 1), END],
        &[set(0), add(1, 1, 0), END],
        &[set(0), add(1, 0, 0), put(1), END],
        &[copy(0, 0), END],
        &[copy(1, 0), END],
        &[set(0), copy(1, 0), put(1), END],
        &[set(0), copy(1, 1), END],
        &[less(0, 0, 1), END],
        &[set(0), less(0, 1, 2), END],
        &[set(0), less(1, 0, 2), END],
        // Written on one way only, on the other only, on both.
        &[set(0), less(0, 0, 3), set(1), put(1), END],
        &[set(0), less(0, 0, 4), set(1), jump(5), put(0), put(1), END],
        &[set(0), less(0, 0, 4), put(0), jump(5), set(1), put(1), END],
        &[set(0), less(0, 0, 4), set(1), jump(5), set(1), put(1), END],
        &[set(0), less(0, 0, 4), set(1), jump(5), set(2), put(1), put(2), END],
        &[set(0), less(0, 0, 5), set(1), set(2), jump(6), set(2), put(2), put(1), END],
        // Loops.
        &[set(0), put(0), less(0, 0, 1), END],
        &[set(0), put(1), set(1), jump(1)],
        &[set(0), less(0, 0, 4), set(1), jump(1), put(1), END],
        &[set(0), set(1), less(0, 0, 5), set(2), jump(2), put(1), put(2), END],
        &[jump(3), put(0), END, set(0), jump(1)],
        &[jump(3), put(0), jump(3), set(0), jump(1)],
        &[jump(3), put(1), jump(3), set(0), jump(1)],
        // Row 0 has predecessors: nothing is written before it all the same.
        &[put(0), set(0), jump(0)],
        &[copy(1, 0), set(0), jump(0)],
        &[set(0), put(0), jump(0)],
        &[less(0, 0, 2), set(0), jump(0)],
        &[set(0), less(0, 1, 0), set(1), jump(1)],
        // A jump to itself.
        &[set(0), less(0, 0, 1), put(0), END],
        &[set(0), less(0, 1, 1), put(0), END],
        &[less(0, 0, 0), END],
        &[input(0), jump(1)],
        // Two at once: the lower row is told.
        &[put(0), put(1), END],
        &[set(0), put(2), put(1), END],
        &[jump(3), put(1), END, put(0), jump(1)],
    ];
    for rows in programs {
        cases.file(&[1, 1, 1], rows);
    }
    // Every opcode that reads: a unwritten, b unwritten, both.
    for opcode in [2u32, 3, 4, 5, 6, 7, 8, 10, 12] {
        let reading = right(opcode, 2);
        let (a, b) = (reading >> 14 & 63, reading >> 8 & 63);
        let two = USES[opcode as usize][2];
        cases.file(&NINE, &[input(1), reading, END]);
        cases.file(&NINE, &[input(a), reading, END]);
        if two {
            cases.file(&NINE, &[input(b), reading, END]);
            cases.file(
                &NINE,
                &[
                    input(a),
                    input(b),
                    if USES[opcode as usize][3] { reading + 1 } else { reading },
                    END,
                ],
            );
        }
    }
    // Late in a full program, and a write that comes a row late.
    for v in [0u32, 1, 31, 62, 63] {
        let mut draft = largest();
        draft.rows[v as usize] = row(9, 0, (v + 1) % 64, 0, 0, 0);
        cases.bytes(&draft.bytes());
        let mut draft = largest();
        draft.rows.swap(63, 64);
        draft.rows[64] = constant(0, 63, v);
        cases.bytes(&draft.bytes());
    }
    // A long chain in which each step of a loop takes one variable away.
    for n in [3u32, 8, 20] {
        let mut rows: Vec<u32> = (0..n).map(set).collect();
        let start = rows.len() as u32;
        for v in 0..n {
            rows.push(less(v, v, start + 2 * v + 2));
            rows.push(put(n - 1 - v));
        }
        rows.push(jump(start));
        cases.file(&vec![0; n as usize], &rows);
        cases.file(&vec![0; n as usize + 1], &{
            let mut more = rows.clone();
            more.insert(start as usize, put(n));
            more
        });
    }
}

/// Two row faults at once: in two rows in both orders, and in one row.
fn two_in_rows(cases: &mut Cases) {
    // One row for each of 7, 8, 9, 10 and 11.
    let faults = [
        row(13, 0, 0, 0, 0, 0),
        row(0, 0, 1, 0, 0, 0),
        row(9, 0, 9, 0, 0, 0),
        row(2, 0, BYTE, WORD, 0, 0),
        row(11, 0, 0, 0, 0, 200),
    ];
    for one in faults {
        for other in faults {
            cases.middle(&[one, other]);
            cases.middle(&[one, right(3, 0), other]);
            let mut spread = around(&[]);
            spread.rows[0] = one;
            spread.rows[9] = other;
            cases.bytes(&spread.bytes());
        }
        // With the last row neither end nor jump, with unreached rows, with unwritten reads.
        let mut open = around(&[one]);
        open.rows[10] = right(3, 0);
        cases.bytes(&open.bytes());
        cases.file(&NINE, &[END, one, END]);
        cases.file(&NINE, &[row(10, 0, 0, 0, 0, 0), one, END]);
        cases.file(&NINE, &[one, row(10, 0, 0, 0, 0, 0), END]);
        cases.file(&NINE, &[row(10, 0, 0, 0, 0, 0), END, one]);
        for last in [1, 63, 126, 127] {
            let mut full = largest();
            full.rows[last] = one;
            cases.bytes(&full.bytes());
        }
    }
    let in_one = [
        row(13, 0, 1, 63, 63, 255),
        row(15, 3, 63, 63, 63, 255),
        row(12, 0, 1, 63, 0, 10),
        row(12, 0, 1, HALF, BYTE, 10),
        row(12, 0, 1, HALF, HALF, 255),
        row(12, 0, 0, 63, BYTE, 255),
        row(12, 0, 0, BYTE, 63, 255),
        row(12, 0, 0, HALF, BYTE, 255),
        row(12, 0, 1, 63, BYTE, 255),
        row(11, 0, 1, 0, 0, 255),
        row(11, 0, 0, 0, 63, 255),
        row(2, 0, 63, BYTE, 0, 1),
        row(2, 0, WORD, BYTE, 0, 1),
        row(2, 0, 63, WORD, 0, 0),
        row(3, 0, BYTE, WORD, 63, 0),
        row(3, 0, BYTE, WORD, HALF, 1),
        row(7, 0, BYTE, WORD, 1, 0),
        row(7, 0, BYTE, 9, 0, 0),
        row(8, 0, WORD, BYTE, 0, 128),
        row(8, 0, 9, BYTE, 0, 0),
        row(9, 0, 9, 1, 0, 0),
        row(10, 0, 1, 9, 0, 0),
        constant(0, 9, 0) | 1,
        constant(0, 63, 0xffff) | 15,
    ];
    for bad in in_one {
        cases.middle(&[bad]);
        let mut last = around(&[]);
        last.rows[9] = bad;
        cases.bytes(&last.bytes());
    }
}

/// Two faults of different layers at once.
fn two_layers(cases: &mut Cases) {
    let put = row(10, 0, 0, 0, 0, 0);
    // 13 and 14 in both orders of rows.
    cases.file(&[1], &[put, END, END]);
    cases.file(&[1], &[END, put, END]);
    cases.file(&[1], &[row(11, 0, 0, 0, 0, 2), END, put, END]);
    cases.file(&[1], &[put, row(11, 0, 0, 0, 0, 3), END, put, END]);
    // 12 with 13, with 14, with both.
    cases.file(&[1], &[END, row(9, 0, 0, 0, 0, 0)]);
    cases.file(&[1], &[put, put]);
    cases.file(&[1], &[put, END, put]);
    // Bits against rows and against program.
    let bad_rows: [&[u32]; 5] = [
        &[row(14, 0, 0, 0, 0, 0)],
        &[row(0, 0, 0, 0, 0, 1)],
        &[row(9, 0, 0, 0, 0, 0)],
        &[END, END],
        &[put, END],
    ];
    for rows in bad_rows {
        let draft = Draft::new(&[1, 2], rows);
        let file = draft.bytes();
        cases.bytes(&file);
        let mut class = draft.clone();
        class.classes[1] = 3;
        cases.bytes(&class.bytes());
        let mut fill = file.clone();
        fill[2] |= 1;
        cases.bytes(&fill);
        let mut both = class.bytes();
        both[2] |= 8;
        cases.bytes(&both);
        for other in [both, class.bytes(), fill, file] {
            cases.bytes(&other[..other.len() - 1]);
            cases.bytes(&[&other[..], &[0]].concat());
            let mut head = other.clone();
            head[0] = 65;
            cases.bytes(&head);
            head[1] = 0;
            cases.bytes(&head);
            let mut head = other.clone();
            head[1] = 129;
            cases.bytes(&head);
            head[0] = 64;
            cases.bytes(&head);
        }
    }
}
