//! dsg_write on any record and any buffer, beside a plain encoder (document 02, Req 01).
//!
//!   encoding   the plain encoding of a record, its bodies, and whether it reads back to the record
//!   fields     every field of every record of a table, and what is tried in it
//!   changes    tables that reading gave, with a field changed: 19 exactly where the encoding does not read back
//!   buffers    any record into a buffer of any length: 19 before 20, what is written, and what is left
//!   received   the written bodies, received in any order
//!
//! What a text of the bench protocol can say is compared with the other program elsewhere; here are counts above their
//! limits, marks, kinds and unused places of any value. No expectation is an answer of dsg_write.

#![forbid(unsafe_code)]

mod buffers;
mod changes;
mod encoding;
mod fields;
mod received;

use dsg::ffi;
use dsg::records::Table;
use fields::FIELDS;
use requests::messages::message_of;
use requests::random::Random;
use requests::tables::{full_table, marked_table, sound_table};

/// A table that reading gives: a generated message, read.
fn accepted(random: &mut Random) -> Table {
    let mut table = match random.below(8) {
        0 => full_table(random),
        1 => marked_table(random),
        _ => sound_table(random),
    };
    if random.once_in(2) {
        // Full rules, and not so many that they take four pieces.
        table.rules.truncate(random.between(1, 24));
    }
    let mut read = ffi::empty_table();
    let answer = ffi::read(&mut read, &message_of(random, &table));
    assert_eq!(answer.number, 0);
    read
}

/// A record of any bytes.
fn any_record(random: &mut Random) -> Table {
    let mut record = ffi::empty_table();
    for field in &FIELDS {
        for at in 0..field.places {
            (field.number)(&mut record, at).store(random.word());
        }
    }
    record
}
