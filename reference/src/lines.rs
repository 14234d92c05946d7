//! The lines that are read and printed.

use std::fmt::Display;
use std::io::{self, Write};

use crate::compile::{compile, CodeRow, Compiled, Place};
use crate::fault::Fault;
use crate::registers::RegisterFile;
use crate::rehearse::{filled_bank, filled_slots, Outcome, Rehearsal, NUMBERS};
use crate::round::Mark;
use crate::source::{admit, Opcode, Program};

/// What stays from line to line: the last compiled program and the rehearsal
/// opened on it.
pub struct Session<'a> {
    chips: &'a [RegisterFile; 2],
    compiled: Option<(Program, Compiled, &'a RegisterFile)>,
    rehearsal: Option<Rehearsal<'a>>,
}

/// The line is no case.
struct Bad;

impl<'a> Session<'a> {
    pub fn new(chips: &'a [RegisterFile; 2]) -> Self {
        Session { chips, compiled: None, rehearsal: None }
    }

    /// Answers one line, given without its end.
    pub fn answer(&mut self, line: &[u8], out: &mut impl Write) -> io::Result<()> {
        let mut words = line.split(|&byte| byte == b' ').filter(|word| !word.is_empty());
        // A case is looked at whole before anything is printed.
        let mut text = Vec::new();
        let answered = match words.next() {
            None => Err(Bad),
            Some(b">") => self.call(words, &mut text),
            Some(hex) => self.file(hex, words, &mut text),
        };
        match answered {
            Ok(result) => {
                result?;
                text.push(b'\n');
                out.write_all(&text)
            }
            Err(Bad) => out.write_all(b"bad case\n"),
        }
    }

    fn file<'l>(
        &mut self,
        hex: &[u8],
        mut words: impl Iterator<Item = &'l [u8]>,
        out: &mut Vec<u8>,
    ) -> Result<io::Result<()>, Bad> {
        let file = bytes(hex).ok_or(Bad)?;
        let admitted = admit(&file);
        out.extend_from_slice(hex);
        let chip = match words.next() {
            Some(b"0") => 0,
            Some(b"1") => 1,
            _ => {
                return Ok(match admitted {
                    Ok(program) => {
                        let (v, n) = (program.classes.len(), program.rows.len());
                        write!(out, " admitted {v} {n}")
                    }
                    Err(fault) => write!(out, " {fault}"),
                })
            }
        };
        Ok(match admitted {
            Ok(program) => {
                let file = &self.chips[chip];
                let compiled = compile(&program, file);
                let printed = print_compiled(chip, &compiled, out);
                self.compiled = Some((program, compiled, file));
                self.rehearsal = None;
                printed
            }
            Err(fault) => write!(out, " {chip} {fault}"),
        })
    }

    fn call<'l>(
        &mut self,
        mut words: impl Iterator<Item = &'l [u8]>,
        out: &mut Vec<u8>,
    ) -> Result<io::Result<()>, Bad> {
        let name = words.next().ok_or(Bad)?;
        if name == b"open" {
            let (program, compiled, file) = self.compiled.as_ref().ok_or(Bad)?;
            let opened = Rehearsal::open(program, compiled, filled_bank(file), filled_slots());
            self.rehearsal = Some(opened);
            return Ok(write!(out, "> open"));
        }
        let rehearsal = self.rehearsal.as_mut().ok_or(Bad)?;
        let mut number = || words.next().and_then(number).ok_or(Bad);
        Ok(match name {
            b"restart" => {
                let count = number()?;
                let input = if count as usize > NUMBERS {
                    (0..=NUMBERS as u32).collect()
                } else {
                    let listed = words.next().and_then(numbers).ok_or(Bad)?;
                    if listed.len() != count as usize {
                        return Err(Bad);
                    }
                    listed
                };
                match rehearsal.restart(&input) {
                    Ok(()) => write!(out, "> restart {count} {} ok", list(&input)),
                    Err(fault) => write!(out, "> restart {count} {fault}"),
                }
            }
            b"source" => {
                let asked = number()?;
                print_play("source", asked, rehearsal.play_source(asked), out)
            }
            b"code" => {
                let asked = number()?;
                print_play("code", asked, rehearsal.play_code(asked), out)
            }
            b"state" => write!(
                out,
                "> state {} {} {} {}",
                list(&rehearsal.source.output),
                list(&rehearsal.code.output),
                list(&rehearsal.bank.contents().collect::<Vec<u32>>()),
                list(&rehearsal.slots),
            ),
            _ => return Err(Bad),
        })
    }
}

fn print_play(
    side: &str,
    asked: u32,
    answer: Result<(u32, Outcome), Fault>,
    out: &mut Vec<u8>,
) -> io::Result<()> {
    match answer {
        Ok((played, outcome)) => write!(out, "> {side} {asked} {played} {}", outcome as u8),
        Err(fault) => write!(out, "> {side} {asked} {fault}"),
    }
}

fn print_compiled(chip: usize, compiled: &Compiled, out: &mut Vec<u8>) -> io::Result<()> {
    let Compiled { rounds, slots, .. } = compiled;
    write!(out, " {chip} compiled rounds={rounds} slots={slots} vars=")?;
    if compiled.report.is_empty() {
        write!(out, "-")?;
    }
    for (v, given) in compiled.report.iter().enumerate() {
        let (letter, number) = match given.place {
            Place::Register(number) => ('r', number),
            Place::Slot(number) => ('s', number),
        };
        let mark = match given.mark {
            Mark::Tested => 't',
            Mark::Hoped => 'h',
        };
        let comma = if v > 0 { "," } else { "" };
        write!(out, "{comma}{letter}{number}@{}{mark}", given.round)?;
    }
    write!(out, " code=")?;
    for (place, row) in compiled.code.iter().enumerate() {
        if place > 0 {
            out.push(b';');
        }
        print_row(row, out)?;
    }
    Ok(())
}

fn print_row(coded: &CodeRow, out: &mut Vec<u8>) -> io::Result<()> {
    let CodeRow { row, d_class, a_class } = coded;
    let op = row.op;
    let has_x = op == Opcode::Const || op.has_target() || op.has_slot();
    write!(out, "{},{}", op as u8, row.weight)?;
    for (used, field) in [
        (op.writes_d(), u16::from(*d_class)),
        (op.reads_a(), u16::from(*a_class)),
        (op.writes_d(), row.d),
        (op.reads_a(), row.a),
        (op.reads_b(), row.b),
        (has_x, row.x),
    ] {
        if used {
            write!(out, ",{field}")?;
        } else {
            out.extend_from_slice(b",-");
        }
    }
    Ok(())
}

/// Numbers with commas between, `-` if there is none.
fn list(numbers: &[u32]) -> impl Display + '_ {
    struct List<'a>(&'a [u32]);
    impl Display for List<'_> {
        fn fmt(&self, f: &mut std::fmt::Formatter<'_>) -> std::fmt::Result {
            let Some((first, rest)) = self.0.split_first() else {
                return write!(f, "-");
            };
            write!(f, "{first}")?;
            rest.iter().try_for_each(|number| write!(f, ",{number}"))
        }
    }
    List(numbers)
}

/// The bytes of a file in hexadecimal digits of either case, `-` for none.
fn bytes(hex: &[u8]) -> Option<Vec<u8>> {
    if hex == b"-" {
        return Some(Vec::new());
    }
    if !hex.len().is_multiple_of(2) {
        return None;
    }
    let digit = |byte: u8| match byte {
        b'0'..=b'9' => Some(byte - b'0'),
        b'a'..=b'f' => Some(byte - b'a' + 10),
        b'A'..=b'F' => Some(byte - b'A' + 10),
        _ => None,
    };
    hex.chunks_exact(2).map(|pair| Some(digit(pair[0])? << 4 | digit(pair[1])?)).collect()
}

/// A number of decimal digits below 2 to the power of 32.
fn number(word: &[u8]) -> Option<u32> {
    if word.is_empty() {
        return None;
    }
    word.iter().try_fold(0u32, |value, &byte| {
        let digit = byte.is_ascii_digit().then(|| u32::from(byte - b'0'))?;
        value.checked_mul(10)?.checked_add(digit)
    })
}

/// Numbers with commas between, `-` for none.
fn numbers(word: &[u8]) -> Option<Vec<u32>> {
    if word == b"-" {
        return Some(Vec::new());
    }
    word.split(|&byte| byte == b',').map(number).collect()
}
