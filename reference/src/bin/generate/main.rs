//! Prints cases without answers, one a line; the reference adds the answers.

mod calls;
mod edges;
mod files;
mod hand;
mod odd;

use std::io::{self, BufWriter, Write};
use std::process::ExitCode;

use reference::random::Random;

const HELP: &str = "\
usage: generate admit-edges                       every edge of the table of refusals
       generate admit COUNT SEED                  files, most of them refused
       generate compile COUNT SEED [small|full]   admitted files, each with a chip
       generate extremes COUNT SEED               the same, chosen for rounds, slots, rows, merges
       generate rehearse COUNT SEED               rehearsals: a compile line and its calls
       generate full COUNT SEED [compile]         64 variables, 128 rows; with `compile`, each with a chip
       generate sized COUNT SEED ROWS [compile]   as full, with that many rows (at least 8) and half as many variables
       generate hand compile|rehearse             cases made by hand
       generate odd admit|compile|rehearse        lines that try the format of lines
";

fn main() -> ExitCode {
    let words: Vec<String> = std::env::args().skip(1).collect();
    let words: Vec<&str> = words.iter().map(String::as_str).collect();
    let mut out = BufWriter::new(io::stdout().lock());
    match run(&words, &mut out).map(|written| written.and_then(|()| out.flush())) {
        Some(Ok(())) => ExitCode::SUCCESS,
        Some(Err(error)) => {
            eprintln!("generate: {error}");
            ExitCode::FAILURE
        }
        None => {
            eprint!("{HELP}");
            ExitCode::FAILURE
        }
    }
}

/// Nothing if the words are no command.
fn run(words: &[&str], out: &mut impl Write) -> Option<io::Result<()>> {
    let each = |count: &str, seed: &str, line: &mut dyn FnMut(&mut Random, usize) -> String| {
        let mut random = Random::new(seed.parse().ok()?);
        Some((0..count.parse().ok()?).map(|i| line(&mut random, i)).collect::<Vec<_>>())
    };
    let lines = match *words {
        ["admit-edges"] => edges::all(),
        ["admit", count, seed] => each(count, seed, &mut files::any)?,
        ["compile", count, seed] => each(count, seed, &mut files::compile_any)?,
        ["compile", count, seed, "small"] => each(count, seed, &mut files::compile_small)?,
        ["compile", count, seed, "full"] => each(count, seed, &mut files::compile_full)?,
        ["extremes", count, seed] => each(count, seed, &mut files::extreme)?,
        ["rehearse", count, seed] => each(count, seed, &mut calls::rehearsal)?,
        ["full", count, seed] => each(count, seed, &mut |r, i| files::sized(r, i, 64, 128))?,
        ["full", count, seed, "compile"] => {
            each(count, seed, &mut |r, i| format!("{} {}", files::sized(r, i, 64, 128), i / 2 % 2))?
        }
        ["sized", count, seed, rows, ref rest @ ..] => {
            let rows: usize = rows.parse().ok().filter(|rows| (8..=128).contains(rows))?;
            let chip = match rest {
                [] => |_| String::new(),
                ["compile"] => |i| format!(" {}", i / 2 % 2),
                _ => return None,
            };
            each(count, seed, &mut |r, i| files::sized(r, i, rows / 2, rows) + &chip(i))?
        }
        ["hand", "compile"] => hand::compile(),
        ["hand", "rehearse"] => hand::rehearse(),
        ["odd", "admit"] => odd::admit(),
        ["odd", "compile"] => odd::compile(),
        ["odd", "rehearse"] => odd::rehearse(),
        _ => return None,
    };
    Some(lines.iter().try_for_each(|line| writeln!(out, "{line}")))
}
