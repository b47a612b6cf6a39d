//! Lent tables, by what they hold and by where they come from, the questions about them, and what is
//! written of them.

use super::marks::{all_marks, marks_line, marks_of};
use super::questions::Question;
use super::writes::{self, Written};
use crate::lent::lent_by;
use reference::protocol::request::Request;
use reference::table::Table;
use reference::table::{
    CHANNELS_MAX, CLASSIFIERS_MAX, CLIENTS_MAX, NUMBERS_MAX, RULES_MAX, UCIDS_MAX,
};

/// Where a lent table comes from.
const SOURCES: [&str; 2] = [TEXT, MESSAGE];
const TEXT: &str = "table in text";
const MESSAGE: &str = "table of a message";
/// The lists of a table and of a rule, and their room.
const LISTS: [(&str, usize); 6] = [
    ("rules", RULES_MAX),
    ("classifiers", CLASSIFIERS_MAX),
    ("channels", CHANNELS_MAX),
    ("UCIDs of a rule", UCIDS_MAX),
    ("client IDs of a rule", CLIENTS_MAX),
    ("classifier numbers of a rule", NUMBERS_MAX),
];
const BY_RECV: &str = "of a table that recv lent";
const KEPT: &str = "of a table kept over a refused message";
const KEPT_OVER_21: &str = "of a table kept over a dropped message";

pub fn lines() -> impl Iterator<Item = String> {
    let lists = SOURCES.into_iter().flat_map(|source| {
        LISTS.into_iter().flat_map(move |(list, room)| {
            [0, 1, room].map(move |count| list_line(source, list, count))
        })
    });
    let marks = all_marks().map(|marks| marks_line(MESSAGE, marks));
    let asked = ["choose", "judge", "write"]
        .into_iter()
        .flat_map(|word| [BY_RECV, KEPT, KEPT_OVER_21].map(|of| asked_line(word, of)));
    lists.chain(marks).chain(asked)
}

fn list_line(source: &str, list: &str, count: usize) -> String {
    format!("{source}: {count} {list}")
}

fn asked_line(word: &str, of: &str) -> String {
    format!("{word} {of}")
}

/// The lent table before the next request.
#[derive(Default)]
pub struct Lent {
    table: Table,
    by_recv: bool,
    /// Whether `recv` refused a message since it was lent.
    kept: bool,
    /// Whether `recv` dropped one.
    kept_over_21: bool,
    /// What was written last, of this table or of one before it.
    written: Written,
}

impl Lent {
    /// The lines that a request adds to.
    pub fn seen(&mut self, request: &Request, answer: &str) -> Vec<String> {
        let mut lines = self.written.seen(request, answer);
        if let Request::Recv(_) = request {
            self.kept |= answer.starts_with("message refused");
            self.kept_over_21 |= answer.starts_with("refused 21 ");
        }
        if let Some(table) = lent_by(request, answer) {
            lines.extend(self.lend(table, request));
        }
        lines.extend(match request {
            Request::Choose(client, ucid) | Request::Judge(client, ucid, _) => {
                let question = Question {
                    table: &self.table,
                    client: *client,
                    ucid: *ucid,
                    frame: frame_of(request),
                };
                question.seen(answer)
            }
            Request::Write { out, fill, .. } => {
                self.written.note(&self.table, answer);
                writes::seen(&self.table, *out, *fill, answer)
            }
            _ => return lines,
        });
        lines.extend(self.asked(request.word()));
        lines
    }

    fn lend(&mut self, table: Table, request: &Request) -> Vec<String> {
        let source = match request {
            Request::TSet(_) => TEXT,
            _ => MESSAGE,
        };
        let counts = list_counts(&table).into_iter().filter_map(|(list, count)| {
            let (list, room) = LISTS[list];
            let shown = [0, 1, room].contains(&count);
            shown.then(|| list_line(source, list, count))
        });
        let marks = table.classifiers.iter().filter(|_| source == MESSAGE);
        let marks = marks.map(|classifier| marks_line(source, marks_of(classifier)));
        let lines = counts.chain(marks).collect();
        *self = Lent {
            table,
            by_recv: matches!(request, Request::Recv(_)),
            written: std::mem::take(&mut self.written),
            ..Lent::default()
        };
        lines
    }

    fn asked(&self, word: &str) -> Vec<String> {
        let of = [
            (self.by_recv, BY_RECV),
            (self.kept, KEPT),
            (self.kept_over_21, KEPT_OVER_21),
        ];
        let of = of.into_iter().filter(|(holds, _)| *holds);
        of.map(|(_, of)| asked_line(word, of)).collect()
    }
}

/// The frame of a `judge`.
fn frame_of(request: &Request) -> Option<&[u8]> {
    match request {
        Request::Judge(_, _, frame) => Some(frame),
        _ => None,
    }
}

/// The index in `LISTS` of each list of a table and of its rules, with its count.
fn list_counts(table: &Table) -> Vec<(usize, usize)> {
    let counts = [
        table.rules.len(),
        table.classifiers.len(),
        table.channels.len(),
    ];
    let of_rules = table.rules.iter().flat_map(|rule| {
        let counts = [rule.ucids.len(), rule.clients.len(), rule.classifiers.len()];
        (3..).zip(counts)
    });
    (0..).zip(counts).chain(of_rules).collect()
}
