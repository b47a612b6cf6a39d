//! Speaks the bench protocol over the proved library: a request a line in, an answer a line out.

#![forbid(unsafe_code)]

mod crc;
mod records;
mod session;
mod words;
mod writing;

use session::Session;
use std::io::{self, BufRead, BufWriter, Write};

fn main() -> io::Result<()> {
    let mut input = io::stdin().lock();
    let mut output = BufWriter::new(io::stdout().lock());
    let mut session = Session::new();
    let mut line = Vec::new();
    while input.read_until(b'\n', &mut line)? != 0 {
        let request = line.strip_suffix(b"\n").unwrap_or(&line);
        if let Some(answer) = session.answer(request) {
            writeln!(output, "{answer}")?;
        }
        line.clear();
    }
    output.flush()
}
