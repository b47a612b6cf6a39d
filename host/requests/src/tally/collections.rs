//! Bodies, by the buffers and the record that they meet, and messages that `recv` completes.

use super::part;
use reference::collecting::{Fault, Record, BUFFER_MIN};
use reference::protocol::records::parse_collection;
use reference::protocol::request::Request;

/// The requests that take a body.
const TAKERS: [&str; 2] = ["piece", "recv"];
/// Buffers about the least size.
const SIZES: [usize; 3] = [BUFFER_MIN - 1, BUFFER_MIN, BUFFER_MIN + 1];
const COMPLETED: [&str; 2] = ["accepted", "message refused"];

pub fn lines() -> impl Iterator<Item = String> {
    let broken = TAKERS
        .into_iter()
        .flat_map(|taker| Fault::ALL.map(|fault| broken_line(fault, taker)));
    let sizes = SIZES
        .into_iter()
        .flat_map(|slot| SIZES.map(|join| sizes_line([slot, join])));
    let completed = COMPLETED
        .into_iter()
        .flat_map(|outcome| [1, 2].map(|number| completed_line(outcome, number)));
    let turns = [turn_line("piece", "recv"), turn_line("recv", "piece")];
    broken.chain(sizes).chain(completed).chain(turns)
}

fn broken_line(fault: Fault, taker: &str) -> String {
    format!("collection broken: {fault:?}, {taker}")
}

fn sizes_line([slot, join]: [usize; 2]) -> String {
    format!("body for buffers of {slot} and {join}")
}

fn completed_line(outcome: &str, number: u8) -> String {
    let pieces = if number == 1 {
        "one piece"
    } else {
        "several pieces"
    };
    format!("recv: {outcome}, {pieces}")
}

fn turn_line(before: &str, after: &str) -> String {
    format!("collection taken by {before}, then by {after}")
}

/// The collection before the next request.
pub struct Collections {
    record: Record,
    /// Of the slot buffer and the join buffer.
    sizes: [usize; 2],
    /// The request that took the last accepted body, if no other record was given since.
    taker: Option<&'static str>,
}

impl Default for Collections {
    fn default() -> Collections {
        Collections {
            record: Record::default(),
            sizes: [BUFFER_MIN; 2],
            taker: None,
        }
    }
}

impl Collections {
    /// The lines that a request adds to.
    pub fn seen(&mut self, request: &Request, answer: &str) -> Vec<String> {
        match request {
            Request::New { slot, join, .. } => {
                *self = Collections {
                    sizes: [*slot, *join],
                    ..Collections::default()
                };
            }
            Request::Rec(record) => {
                self.record = record.clone();
                self.taker = None;
            }
            Request::Piece(_) | Request::Recv(_) => return self.body_seen(request.word(), answer),
            _ => {}
        }
        Vec::new()
    }

    fn body_seen(&mut self, taker: &'static str, answer: &str) -> Vec<String> {
        let mut lines = Vec::new();
        if self.sizes.iter().all(|size| SIZES.contains(size)) {
            lines.push(sizes_line(self.sizes));
        }
        let Some(record) = part(answer, 1).and_then(|words| parse_collection(&words)) else {
            return lines;
        };
        if answer.starts_with("refused") {
            // only 21 leaves another record
            if record != self.record {
                (self.record, self.taker) = (record, None);
            }
            return lines;
        }
        lines.extend(self.fault().map(|fault| broken_line(fault, taker)));
        let goes_on = (record.count, record.number) == (self.record.count, self.record.number);
        if let (Some(before), true) = (self.taker.filter(|&before| before != taker), goes_on) {
            lines.push(turn_line(before, taker));
        }
        let completed = COMPLETED
            .into_iter()
            .find(|outcome| answer.starts_with(outcome));
        lines.extend(completed.map(|outcome| completed_line(outcome, record.number)));
        self.record = record;
        self.taker = Some(taker);
        lines
    }

    /// What is wrong with the record, if it is one thing only.
    fn fault(&self) -> Option<Fault> {
        let faults: Vec<Fault> = Fault::ALL
            .into_iter()
            .filter(|&fault| self.record.has(fault))
            .collect();
        match faults[..] {
            [fault] => Some(fault),
            _ => None,
        }
    }
}
