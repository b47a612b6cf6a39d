//! What several test files want: bytes from text, a collection with its lent buffers, in `judging` a
//! frame with tables to judge it by and, in `writing`, what `write` answers.

// Each test file is a program of its own and uses a part of this.
#![allow(dead_code)]

pub mod judging;
pub mod writing;

use reference::collecting::{take_piece, Record, Taken, BUFFER_MIN};
use reference::receiving::{receive_body, Received};
use reference::table::{read_table, Table};
use reference::Refusal;

/// Bytes from hex digits; spaces are skipped.
pub fn bytes(hex: &str) -> Vec<u8> {
    let digits: Vec<u32> = hex.chars().filter_map(|c| c.to_digit(16)).collect();
    digits
        .chunks(2)
        .map(|pair| (pair[0] * 16 + pair[1]) as u8)
        .collect()
}

/// Document 01's message M, "Listing".
pub fn message_m() -> Vec<u8> {
    bytes(
        "32 14 01 01 05 02 01 50 04 04 04 02 00 2A 05 06 01 00 5E 05 05 05 \
         32 14 01 01 06 02 01 09 04 04 04 02 00 2A 05 06 01 00 5E 06 06 06 \
         33 06 01 04 23 F1 0C C0",
    )
}

/// An element.
pub fn element(kind: u8, value: &[u8]) -> Vec<u8> {
    [&[kind, value.len() as u8], value].concat()
}

/// An element whose value is a row.
pub fn row(kind: u8, children: &[Vec<u8>]) -> Vec<u8> {
    element(kind, &children.concat())
}

/// The shortest accepted rule of a number, with more children at its end.
pub fn rule(number: u8, more: &[Vec<u8>]) -> Vec<u8> {
    let musts = bytes(&format!("01 01 {number:02X} 04 00 05 06 01 00 5E 00 00 01"));
    row(50, &[musts, more.concat()])
}

/// The shortest accepted classifier of a number.
pub fn classifier(number: u16) -> Vec<u8> {
    row(
        23,
        &[bytes(&format!(
            "02 02 {number:04X} 05 01 01 09 06 05 04 E0 00 00 09"
        ))],
    )
}

/// The table of a message that is accepted.
pub fn accepted(message: &[u8]) -> Table {
    read_table(message).expect("accepted")
}

/// The number and offset of a message's refusal.
pub fn refused(message: &[u8]) -> (u8, usize) {
    let refusal = read_table(message).expect_err("refused");
    (refusal.number, refusal.offset)
}

/// A body.
pub fn body(count: u8, number: u8, sequence: u8, piece: &[u8]) -> Vec<u8> {
    [&[count, number, sequence], piece].concat()
}

/// The bodies, under count 7, of a message that is cut at these offsets.
pub fn cut_at(message: &[u8], cuts: &[usize]) -> Vec<Vec<u8>> {
    let number = cuts.len() as u8 + 1;
    let starts = [&[0], cuts].concat();
    let ends = [cuts, &[message.len()]].concat();
    let spans = starts.into_iter().zip(ends);
    (1..)
        .zip(spans)
        .map(|(sequence, (start, end))| body(7, number, sequence, &message[start..end]))
        .collect()
}

/// A collection with buffers of the least size.
#[derive(Clone, Debug, PartialEq, Eq)]
pub struct Collection {
    pub record: Record,
    pub slots: Vec<u8>,
    pub join: Vec<u8>,
}

impl Collection {
    pub fn new() -> Collection {
        Collection {
            record: Record::default(),
            slots: vec![0xEE; BUFFER_MIN],
            join: vec![0xDD; BUFFER_MIN],
        }
    }

    /// A collection in the strict setting.
    pub fn strict() -> Collection {
        Collection {
            record: Record::empty(true),
            ..Collection::new()
        }
    }

    /// Takes a body; the answer is a copy.
    pub fn take(&mut self, body: &[u8]) -> Result<Answer, Refusal> {
        let taken = take_piece(&mut self.record, &mut self.slots, &mut self.join, body)?;
        Ok(match taken {
            Taken::Repeat => Answer::Repeat,
            Taken::Waiting(empty) => Answer::Waiting(empty),
            Taken::CompleteBody(message) => Answer::CompleteBody(message.to_vec()),
            Taken::CompleteJoin(message) => Answer::CompleteJoin(message.to_vec()),
        })
    }

    /// Receives a body all the way.
    pub fn receive(&mut self, body: &[u8]) -> Result<Received, Refusal> {
        receive_body(&mut self.record, &mut self.slots, &mut self.join, body)
    }
}

/// `Taken`, with bytes of its own.
#[derive(Debug, PartialEq, Eq)]
pub enum Answer {
    Repeat,
    Waiting(usize),
    CompleteBody(Vec<u8>),
    CompleteJoin(Vec<u8>),
}
