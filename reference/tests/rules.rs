//! Expected values from the rules under docs/, not from this implementation.

use reference::compile::{compile, Compiled, Place};
use reference::draft::{constant, row, Draft, END};
use reference::facts::{solve, Live};
use reference::fault::Fault;
use reference::random::{program, Random, Shape};
use reference::registers::RegisterFile;
use reference::rehearse::{filled_bank, filled_slots, Outcome, Rehearsal};
use reference::round::Mark;
use reference::source::{admit, Opcode, Program, Row};

fn put(a: u32) -> u32 {
    row(10, 0, 0, a, 0, 0)
}

fn copy(d: u32, a: u32) -> u32 {
    row(2, 0, d, a, 0, 0)
}

fn compiled(classes: &[u8], rows: &[u32], file: &RegisterFile) -> Compiled {
    compile(&admit(&Draft::new(classes, rows).bytes()).unwrap(), file)
}

fn places(compiled: &Compiled) -> Vec<Place> {
    compiled.report.iter().map(|given| given.place).collect()
}

/// Opcode, d, a and x of each code row.
fn code(compiled: &Compiled) -> Vec<(Opcode, u16, u16, u16)> {
    compiled.code.iter().map(|c| (c.row.op, c.row.d, c.row.a, c.row.x)).collect()
}

fn refusal(file: &[u8]) -> (u32, usize, &'static str) {
    let fault: Fault = admit(file).unwrap_err();
    (fault.number, fault.place, fault.layer())
}

#[test]
fn chips_answer_their_tables() {
    let nested = RegisterFile::nested();
    assert_eq!(nested.count(), 16);
    assert_eq!(nested.p, [8, 4, 4]);
    assert_eq!(nested.q, [[1, 2, 2], [1, 1, 1], [1, 1, 1]]);
    let paired = RegisterFile::paired();
    assert_eq!(paired.count(), 9);
    assert_eq!(paired.p, [6, 6, 3]);
    assert_eq!(paired.q, [[1, 1, 2], [1, 1, 2], [1, 1, 1]]);
}

#[test]
fn overlapping_registers_share_their_bits() {
    let nested = RegisterFile::nested();
    let mut bank = filled_bank(&nested);
    bank.write(1, 0x1234_5678);
    assert_eq!([1, 5, 9, 13].map(|r| bank.read(r)), [0x1234_5678, 0x5678, 0x78, 0x56]);
    bank.write(13, 0x1ab);
    assert_eq!([1, 5, 9, 13].map(|r| bank.read(r)), [0x1234_ab78, 0xab78, 0x78, 0xab]);
    let paired = RegisterFile::paired();
    let mut bank = filled_bank(&paired);
    bank.write(7, 0x1234_5678);
    assert_eq!([2, 3].map(|r| bank.read(r)), [0x1234, 0x5678]);
    assert_eq!(bank.read(9), 0);
}

#[test]
fn smallest_file() {
    let program = admit(&[0, 1, 0, 0, 0, 0]).unwrap();
    let result = compile(&program, &RegisterFile::nested());
    assert_eq!((result.rounds, result.slots, result.code.len()), (1, 0, 1));
    assert_eq!(result.code[0].row.op, Opcode::End);
}

#[test]
fn a_copy_is_merged_away() {
    let file = [
        0x02, 0x04, 0xa0, 0x10, 0x00, 0x00, 0x70, 0x20, 0x10, 0x00, 0x00, 0xa0, 0x00, 0x40, 0x00,
        0x00, 0x00, 0x00, 0x00,
    ];
    let program = admit(&file).unwrap();
    for (chip, register) in [(RegisterFile::nested(), 0), (RegisterFile::paired(), 6)] {
        let result = compile(&program, &chip);
        assert_eq!(result.slots, 0);
        let expected = [
            (Opcode::Const, register, 0, 7),
            (Opcode::Output, 0, register, 0),
            (Opcode::End, 0, 0, 0),
        ];
        assert_eq!(code(&result), expected);
    }
}

#[test]
fn five_words_take_three_rounds() {
    let rows: Vec<u32> =
        (0..5).map(|v| constant(0, v, v)).chain((0..5).map(put)).chain([END]).collect();
    let result = compiled(&[2; 5], &rows, &RegisterFile::nested());
    assert_eq!((result.rounds, result.code.len()), (3, 15));
    let expected = [
        Place::Slot(0),
        Place::Slot(1),
        Place::Register(3),
        Place::Register(2),
        Place::Register(1),
    ];
    assert_eq!(places(&result), expected);
    let given: Vec<(usize, Mark)> = result.report.iter().map(|g| (g.round, g.mark)).collect();
    let (hoped, tested) = (Mark::Hoped, Mark::Tested);
    assert_eq!(given, [(1, hoped), (2, hoped), (3, tested), (3, tested), (3, tested)]);
}

#[test]
fn a_hard_edge_keeps_a_copy() {
    let rows = [constant(0, 0, 7), copy(1, 0), row(3, 0, 0, 0, 0, 0), put(1), put(0), END];
    let program = admit(&Draft::new(&[2, 2], &rows).bytes()).unwrap();
    for chip in [RegisterFile::nested(), RegisterFile::paired()] {
        let result = compile(&program, &chip);
        assert_eq!(result.code.len(), 6);
        let mut rehearsal = Rehearsal::open(&program, &result, filled_bank(&chip), filled_slots());
        assert_eq!(rehearsal.play_source(65_535), Ok((6, Outcome::AtEnd)));
        assert_eq!(rehearsal.play_code(65_535), Ok((6, Outcome::AtEnd)));
        assert_eq!(rehearsal.source.output, [7, 14]);
        assert_eq!(rehearsal.code.output, [7, 14]);
    }
}

#[test]
fn an_unread_result_has_edges() {
    let rows = [constant(0, 0, 1), constant(0, 1, 2), put(0), END];
    let result = compiled(&[2, 2], &rows, &RegisterFile::nested());
    assert_eq!(places(&result), [Place::Register(1), Place::Register(0)]);
}

#[test]
fn refusals_at_their_places() {
    assert_eq!(refusal(&Draft::new(&[2], &[put(0), END]).bytes()), (14, 0, "program"));
    let jump = |target| row(11, 0, 0, 0, 0, target);
    assert_eq!(refusal(&Draft::new(&[], &[jump(2), END, END]).bytes()), (13, 1, "program"));
    assert_eq!(refusal(&[]), (1, 0, "bits"));
    assert_eq!(refusal(&[65, 0]), (3, 0, "bits"));
    assert_eq!(refusal(&[64, 0]), (4, 0, "bits"));
    assert_eq!(refusal(&[0, 1, 0, 0, 0, 0, 0]), (2, 0, "bits"));
    assert_eq!(refusal(&Draft::new(&[0, 3], &[END]).bytes()), (5, 1, "bits"));
    assert_eq!(refusal(&[1, 1, 0x20, 0, 0, 0, 0]), (6, 0, "bits"));
    assert_eq!(refusal(&Draft::new(&[], &[jump(0), 0xd000_0000]).bytes()), (7, 1, "rows"));
    assert_eq!(refusal(&Draft::new(&[1], &[constant(0, 1, 0) | 1]).bytes()), (8, 0, "rows"));
    assert_eq!(refusal(&Draft::new(&[1], &[constant(0, 1, 0)]).bytes()), (9, 0, "rows"));
    assert_eq!(refusal(&Draft::new(&[1, 2], &[copy(0, 1)]).bytes()), (10, 0, "rows"));
    assert_eq!(refusal(&Draft::new(&[], &[jump(1)]).bytes()), (11, 0, "rows"));
    assert_eq!(refusal(&Draft::new(&[1], &[constant(0, 0, 0)]).bytes()), (12, 0, "rows"));
    assert!(admit(&Draft::new(&[0; 64], &[END]).bytes()).is_ok());
    assert_eq!(refusal(&Draft::new(&[0; 65], &[END]).bytes()), (3, 0, "bits"));
    for (rows, last) in [(128u32, 127u32), (128, 128), (129, 128)] {
        let mut all = vec![row(9, 0, 0, 0, 0, 0); rows as usize];
        all[rows as usize - 1] = jump(last);
        let answer = admit(&Draft::new(&[0], &all).bytes());
        match (rows, last) {
            (128, 127) => assert!(answer.is_ok()),
            (128, _) => assert_eq!(answer.unwrap_err(), Fault::new(11, 127)),
            _ => assert_eq!(answer.unwrap_err(), Fault::new(4, 0)),
        }
    }
}

#[test]
fn calls_at_their_bounds() {
    let program = admit(&[0, 1, 0, 0, 0, 0]).unwrap();
    let chip = RegisterFile::paired();
    let result = compile(&program, &chip);
    let mut rehearsal = Rehearsal::open(&program, &result, filled_bank(&chip), filled_slots());
    assert_eq!(rehearsal.restart(&[5; 257]).unwrap_err(), Fault::new(16, 0));
    assert_eq!(rehearsal.restart(&[5; 256]), Ok(()));
    assert_eq!(rehearsal.play_code(65_536).unwrap_err(), Fault::new(17, 0));
    assert_eq!(rehearsal.play_source(65_536).unwrap_err(), Fault::new(17, 0));
    assert_eq!(rehearsal.play_code(0), Ok((0, Outcome::Running)));
    assert_eq!(rehearsal.play_code(65_535), Ok((1, Outcome::AtEnd)));
    assert_eq!(rehearsal.play_code(65_535), Ok((0, Outcome::AtEnd)));
}

#[test]
fn the_257th_output_ends_the_player() {
    let rows = [row(9, 0, 0, 0, 0, 0), put(0), row(11, 0, 0, 0, 0, 1)];
    let program = admit(&Draft::new(&[0], &rows).bytes()).unwrap();
    let chip = RegisterFile::nested();
    let result = compile(&program, &chip);
    let mut rehearsal = Rehearsal::open(&program, &result, filled_bank(&chip), filled_slots());
    assert_eq!(rehearsal.play_source(9), Ok((1, Outcome::NoInput)));
    rehearsal.restart(&[0x1_02ff]).unwrap();
    // One input, 256 pairs of output and jump, and the output that ends.
    assert_eq!(rehearsal.play_source(65_535), Ok((1 + 2 * 256 + 1, Outcome::OutputFull)));
    assert_eq!(rehearsal.play_code(65_535), Ok((1 + 2 * 256 + 1, Outcome::OutputFull)));
    assert_eq!(rehearsal.code.output, [0xff; 256]);
    assert_eq!(rehearsal.source.output, [0xff; 256]);
}

/// Whether a path leads from row `from` to `to` whose rows before `to` all pass.
fn path(rows: &[Row], from: usize, to: usize, pass: impl Fn(&Row) -> bool) -> bool {
    let mut seen = vec![false; rows.len()];
    let mut open = vec![from];
    while let Some(place) = open.pop() {
        if place == to {
            return true;
        }
        if !seen[place] && pass(&rows[place]) {
            seen[place] = true;
            open.extend(rows[place].successors(place));
        }
    }
    false
}

/// Admission in terms of paths, for rows that are well formed.
fn by_paths(program: &Program) -> Option<(u32, usize)> {
    let rows = &program.rows;
    let unreached = (0..rows.len()).find(|&i| !path(rows, 0, i, |_| true));
    let unsure = |i: &usize| {
        rows[*i].reads().any(|v| path(rows, 0, *i, |row: &Row| row.writes() != Some(v)))
    };
    unreached.map(|i| (13, i)).or_else(|| (0..rows.len()).find(unsure).map(|i| (14, i)))
}

#[test]
fn facts_agree_with_paths() {
    let mut random = Random::new(77);
    let (mut fine, mut refused) = (0, 0);
    for _ in 0..3000 {
        let (variables, rows) = (random.between(1, 8), random.between(2, 24));
        let shape = Shape::any(&mut random, variables, rows);
        let mut draft = program(&mut random, &shape);
        let whole = admit(&draft.bytes()).expect("made to be admitted");
        assert_eq!(by_paths(&whole), None);
        let live = solve(&Live, &whole.rows);
        for (place, row) in whole.rows.iter().enumerate() {
            for v in 0..variables {
                let needed = (0..whole.rows.len()).any(|to| {
                    whole.rows[to].reads().any(|read| read == v)
                        && row.successors(place).any(|next| {
                            path(&whole.rows, next, to, |row: &Row| row.writes() != Some(v))
                        })
                });
                assert_eq!(live[place].contains(v), needed);
            }
        }
        // Take a row away by turning it into a jump to somewhere.
        let at = random.below(rows - 1);
        draft.rows[at] = row(11, 0, 0, 0, 0, random.below(rows) as u32);
        let whole = Program {
            classes: whole.classes,
            rows: {
                let mut changed = whole.rows;
                let x = (draft.rows[at] & 0xff) as u16;
                changed[at] = Row { op: Opcode::Jump, weight: 0, d: 0, a: 0, b: 0, x };
                changed
            },
        };
        let answer = admit(&draft.bytes());
        assert_eq!(answer.as_ref().err().map(|f| (f.number, f.place)), by_paths(&whole));
        match answer {
            Ok(_) => fine += 1,
            Err(_) => refused += 1,
        }
    }
    assert!(fine > 100 && refused > 100, "{fine} {refused}");
}

#[test]
fn both_sides_agree() {
    let chips = [RegisterFile::nested(), RegisterFile::paired()];
    let mut random = Random::new(2024);
    let (mut spilled, mut ended) = (0, 0);
    for _ in 0..2500 {
        let (variables, rows) = (random.between(1, 30), random.between(2, 90));
        let shape = Shape::any(&mut random, variables, rows);
        let program = admit(&program(&mut random, &shape).bytes()).expect("made to be admitted");
        let chip = &chips[random.below(2)];
        let result = compile(&program, chip);
        spilled += usize::from(result.slots > 0);
        assert!(result.rounds <= program.classes.len() + 1);
        assert!(result.code.len() <= 4 * program.rows.len());
        for given in &result.report {
            assert!(matches!(given.place, Place::Register(_)) || given.mark == Mark::Hoped);
        }
        let mut rehearsal = Rehearsal::open(&program, &result, filled_bank(chip), filled_slots());
        let (mut asked, mut played) = ([0u64; 2], [0u64; 2]);
        for _ in 0..12 {
            if random.chance(15) {
                let input: Vec<u32> =
                    (0..random.below(300)).map(|_| random.number() as u32).collect();
                if rehearsal.restart(&input).is_ok() {
                    (asked, played) = ([0; 2], [0; 2]);
                }
            } else {
                let side = random.below(2);
                let few = random.between(1, 50) as u32;
                let n = random.pick(&[0, few, few, few, 3000, 65_535, 65_536]);
                let answer =
                    if side == 0 { rehearsal.play_source(n) } else { rehearsal.play_code(n) };
                if let Ok((rows, _)) = answer {
                    asked[side] += u64::from(n);
                    played[side] += u64::from(rows);
                }
            }
            let (source, code) = (&rehearsal.source, &rehearsal.code);
            assert!(
                source.output.starts_with(&code.output) || code.output.starts_with(&source.output)
            );
            let alike = source.outcome == code.outcome && source.output == code.output;
            if source.outcome != Outcome::Running && asked[1] >= 4 * played[0] {
                assert!(alike);
                ended += 1;
            }
            if code.outcome != Outcome::Running && asked[0] >= 128 * played[1] {
                assert!(alike);
                ended += 1;
            }
        }
    }
    assert!(spilled > 500 && ended > 2000, "{spilled} {ended}");
}
