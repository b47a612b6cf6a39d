//! `reference`: the bench protocol on standard input and output.
//!
//! Answers are written out whenever no whole request is at hand, and at the end of input.

#![forbid(unsafe_code)]

use reference::protocol::Session;
use std::io::{self, BufRead, BufReader, BufWriter, Write};

const BUFFER_BYTES: usize = 1 << 16;

fn main() -> io::Result<()> {
    let mut input = BufReader::with_capacity(BUFFER_BYTES, io::stdin().lock());
    let mut output = BufWriter::with_capacity(BUFFER_BYTES, io::stdout().lock());
    let mut session = Session::default();
    let mut line = Vec::new();
    loop {
        if !input.buffer().contains(&b'\n') {
            output.flush()?;
        }
        line.clear();
        if input.read_until(b'\n', &mut line)? == 0 {
            return Ok(());
        }
        if line.ends_with(b"\n") {
            line.pop();
        }
        if let Some(answer) = session.answer_line(&line) {
            writeln!(output, "{answer}")?;
        }
    }
}
