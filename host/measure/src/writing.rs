//! Writing a table: the library beside plain Rust, and beside reading what was written.

use crate::inputs::{longest_message, table_message};
use crate::plain;
use crate::rounds::{report, runner};
use dsg::{ffi, Table};
use std::hint::black_box;

/// How long a buffer every table fits in.
const ROOM: usize = 12_000;

/// The table of a message that is written as it is.
fn writing(what: &str, message: &[u8]) {
    let mut table = Table::default();
    table.read(message).expect("the message is accepted");
    let mut read = Table::default();
    let (mut ours, mut theirs) = (vec![0u8; ROOM], vec![0u8; ROOM]);
    report(
        what,
        1,
        vec![
            runner("library", || {
                black_box(ffi::write(black_box(&table), 7, black_box(&mut ours)));
            }),
            runner("plain", || {
                let out = black_box(&mut theirs[..]);
                black_box(plain::write::write_table(black_box(&table), 7, out).is_ok());
            }),
            runner("reading", || {
                black_box(ffi::read(&mut read, black_box(message)));
            }),
        ],
    );
}

/// Tables from none to all of their rules, and the longest.
pub fn writing_all() {
    writing("writing the empty table", &[]);
    for rules in [1, 8, 32] {
        let message = table_message(rules);
        let what = format!("writing {rules} rules, {} bytes", message.len());
        writing(&what, &message);
    }
    let longest = longest_message();
    let what = format!("writing the longest table, {} bytes", longest.len());
    writing(&what, &longest);
}
