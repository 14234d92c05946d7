//! Reads cases from standard input and prints an answer for each line.

use std::io::{self, BufRead, BufReader, BufWriter, Write};

use reference::lines::Session;
use reference::registers::RegisterFile;

fn main() -> io::Result<()> {
    let chips = [RegisterFile::nested(), RegisterFile::paired()];
    let mut session = Session::new(&chips);
    let mut input = BufReader::with_capacity(1 << 16, io::stdin().lock());
    let mut output = BufWriter::with_capacity(1 << 16, io::stdout().lock());
    let mut line = Vec::new();
    while input.read_until(b'\n', &mut line)? > 0 {
        if line.last() == Some(&b'\n') {
            line.pop();
        }
        session.answer(&line, &mut output)?;
        line.clear();
    }
    output.flush()
}
