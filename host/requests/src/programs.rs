//! Runs a program on requests through pipes. A thread writes the requests while the answers are
//! read, so neither side waits for ever for the other.

use reference::protocol::request::Request;
use std::io::{self, BufRead, BufReader, BufWriter, Write};
use std::process::{Child, ChildStdin, ChildStdout, Command, Stdio};
use std::thread;

/// A program at work; it yields its answers, and is ended when dropped.
pub struct Answers {
    child: Child,
    output: BufReader<ChildStdout>,
}

/// Starts a program and feeds it the requests.
pub fn ask<R>(program: &str, requests: R) -> io::Result<Answers>
where
    R: IntoIterator<Item = Request> + Send + 'static,
{
    let mut child = Command::new(program)
        .stdin(Stdio::piped())
        .stdout(Stdio::piped())
        .spawn()?;
    let (Some(input), Some(output)) = (child.stdin.take(), child.stdout.take()) else {
        return Err(io::Error::other("the program has no pipes"));
    };
    thread::spawn(move || feed(input, requests));
    Ok(Answers {
        child,
        output: BufReader::new(output),
    })
}

/// Writes all requests, or as many as the program takes: one that ends early shows in its answers.
fn feed(input: ChildStdin, requests: impl IntoIterator<Item = Request>) {
    let mut input = BufWriter::new(input);
    for request in requests {
        if writeln!(input, "{request}").is_err() {
            return;
        }
    }
}

impl Answers {
    /// Whether the program, whose answers have been read, ended well.
    pub fn ended_well(mut self) -> bool {
        self.child.wait().is_ok_and(|status| status.success())
    }
}

impl Iterator for Answers {
    type Item = String;

    /// The next answer line; `None` when the program has no more.
    fn next(&mut self) -> Option<String> {
        let mut line = Vec::new();
        let read = self.output.read_until(b'\n', &mut line).unwrap_or(0);
        if line.ends_with(b"\n") {
            line.pop();
        }
        (read > 0).then(|| String::from_utf8_lossy(&line).into_owned())
    }
}

impl Drop for Answers {
    fn drop(&mut self) {
        let _ = self.child.kill();
        let _ = self.child.wait();
    }
}
