//! The built program `dcdlist`: what it writes is the other program's listing.
//!
//! DCDLIST names the program; without it, it is looked for where `rt check dcdlist` puts it. It is for x86-64, and
//! `tools/run` runs it on the processor at hand.

use reference::protocol::request::Request;
use requests::generator::{Area, Generator};
use std::env;
use std::io::Write;
use std::path::PathBuf;
use std::process::{Command, Stdio};
use std::thread;

fn dcdlist() -> Command {
    let here = PathBuf::from(env!("CARGO_MANIFEST_DIR"));
    let program =
        env::var("DCDLIST").map_or_else(|_| here.join("../../target/bin/dcdlist"), PathBuf::from);
    assert!(
        program.exists(),
        "{} is not there: `make` builds it",
        program.display()
    );
    let mut run = Command::new(here.join("../../tools/run"));
    run.arg(program);
    run
}

/// What the program writes for a body.
fn listed(body: &[u8]) -> String {
    let mut child = dcdlist()
        .stdin(Stdio::piped())
        .stdout(Stdio::piped())
        .spawn()
        .expect("dcdlist starts");
    // A program that has read enough may close its input early.
    let _ = child
        .stdin
        .take()
        .expect("its input is piped")
        .write_all(body);
    let output = child.wait_with_output().expect("dcdlist ends");
    String::from_utf8(output.stdout).expect("a listing is text")
}

/// The other program's listing.
fn expected(body: &[u8]) -> String {
    let lines = reference::listing::list_body(body);
    lines.iter().map(|line| format!("{line}\n")).collect()
}

#[test]
fn same_as_other_program_on_a_thousand_bodies() {
    let bodies = Generator::new(7, Area::List).filter_map(|request| match request {
        Request::List(body) => Some(body),
        _ => None,
    });
    let bodies: Vec<Vec<u8>> = bodies.take(1_000).collect();
    // Under an emulator a run takes 40 ms: the processors share them.
    let workers = thread::available_parallelism().map_or(1, usize::from);
    thread::scope(|scope| {
        for part in bodies.chunks(bodies.len().div_ceil(workers)) {
            scope.spawn(move || {
                for body in part {
                    assert_eq!(listed(body), expected(body), "{body:02x?}");
                }
            });
        }
    });
}

#[test]
fn refuses_03_every_input_over_1500_bytes() {
    for length in [1_501, 1_502, 4_096, 65_536, 1_000_000] {
        assert_eq!(listed(&vec![1; length]), "refused 3 at 0\n");
    }
}

#[test]
fn refuses_02_input_under_three_bytes() {
    assert_eq!(listed(&[]), "refused 2 at 0\n");
    assert_eq!(listed(&[7, 1]), "refused 2 at 0\n");
}

#[test]
fn accepts_the_longest_body() {
    let mut body = vec![7, 1, 1];
    body.extend([99, 0].repeat(748));
    assert_eq!(body.len(), 1_499);
    assert!(listed(&body).starts_with("dcd 7 rules 0 "));
    body.extend([0]);
    assert_eq!(listed(&body), "refused 6 at 1496\n");
}
