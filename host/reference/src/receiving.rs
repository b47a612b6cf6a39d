//! Receives one body all the way: takes its piece and, where that completes a message, reads the
//! message's table (document 01, "Collecting pieces", then "Elements").
//!
//! The record and the buffers become what `collecting` makes of the body, also when the message that
//! it completes is refused: that body was accepted, and its next copy is a repeat. A message that is
//! never reported complete is never read; refusal 21, which is the body's own, drops one unread.
//! Refusal 3 of a message cannot occur here, since sixteen pieces of 1,497 bytes are just the 23,952
//! that a message may have.

use crate::collecting::{take_piece, Record, Taken};
use crate::table::{read_table, Table};
use crate::Refusal;

/// The answer to an accepted body.
#[derive(Debug, PartialEq, Eq)]
pub enum Received {
    Repeat,
    /// The number of empty slots.
    Waiting(usize),
    /// The message is complete: the table that it gives.
    Accepted(Table),
    /// The message is complete, and refused at an offset of its own.
    MessageRefused(Refusal),
}

/// Receives one body; the outer refusal is the body's.
pub fn receive_body(
    record: &mut Record,
    slots: &mut [u8],
    join: &mut [u8],
    body: &[u8],
) -> Result<Received, Refusal> {
    let message = match take_piece(record, slots, join, body)? {
        Taken::Repeat => return Ok(Received::Repeat),
        Taken::Waiting(empty) => return Ok(Received::Waiting(empty)),
        Taken::CompleteBody(message) | Taken::CompleteJoin(message) => message,
    };
    Ok(match read_table(message) {
        Ok(table) => Received::Accepted(table),
        Err(refusal) => Received::MessageRefused(refusal),
    })
}
