//! Runs in strict collections, by where they were cut (`runs`), what comes after one that is dropped,
//! and what the setting is kept over; beside them the same runs in loose collections.

mod runs;

use crate::places::TopRow;
use reference::collecting::{take_piece, Piece, Record, Taken, BUFFER_MIN};
use reference::protocol::request::Request;
use reference::table::read_table;
use runs::Run;
use std::collections::BTreeSet;

const COMPLETED: &str = "completed";
const DROPPED: &str = "dropped";
const ONE_PIECE: &str = "one piece";
const ONE_PIECE_FAULTY: &str = "one piece, with a faulty head";
const REPEAT: &str = "repeat in a completed run";
const REPEAT_BAD: &str = "repeat in a given record, complete with a bad cut";
const LOOSE: &str = "loose, completed with a bad cut";
/// What becomes of a run that comes first in one setting and then in the other.
const BOTH_COMPLETED: &str = "in both settings, completed";
const BOTH_DROPPED: &str = "in both settings, dropped in one";
/// What a message would give that `recv` drops.
const UNREAD_TABLE: &str = "dropped by recv, would be accepted";
const UNREAD_REFUSAL: &str = "dropped by recv, would be refused";
const OTHERS: [&str; 11] = [
    COMPLETED,
    DROPPED,
    ONE_PIECE,
    ONE_PIECE_FAULTY,
    REPEAT,
    REPEAT_BAD,
    LOOSE,
    BOTH_COMPLETED,
    BOTH_DROPPED,
    UNREAD_TABLE,
    UNREAD_REFUSAL,
];
/// A run of which a record was given.
const GIVEN: &str = "begun by a given record";
/// What the setting is kept over, if a run is dropped behind it.
const KEPT: [&str; 3] = [OVER_21, OVER_GIVEN, OVER_ANEW];
const OVER_21: &str = "21";
const OVER_GIVEN: &str = "a given record";
const OVER_ANEW: &str = "a run begun anew";
/// What the next body is to a run that was dropped, and what it gets.
const AFTER: [(&str, &str); 5] = [
    (SAME, "waiting"),
    (OF_THE_RUN, "waiting"),
    (OF_ANOTHER, "waiting"),
    (ONE_PIECE, "complete"),
    (REFUSED, "refused"),
];
const SAME: &str = "the same body";
const OF_THE_RUN: &str = "another body of the run";
const OF_ANOTHER: &str = "a body of another run";
const REFUSED: &str = "a refused body";

pub fn lines() -> impl Iterator<Item = String> {
    let completed = runs::completed_cases().map(|case| case_line(COMPLETED, &case));
    let dropped = runs::dropped_cases().map(|case| case_line(DROPPED, &case));
    completed
        .chain(dropped)
        .chain([COMPLETED, DROPPED].map(|outcome| case_line(outcome, GIVEN)))
        .chain(KEPT.map(kept_line))
        .chain(AFTER.map(|(body, outcome)| after_line(body, outcome)))
        .chain(OTHERS.map(line))
}

fn line(case: &str) -> String {
    format!("cuts: {case}")
}

fn case_line(outcome: &str, case: &str) -> String {
    line(&format!("{outcome}, {case}"))
}

fn kept_line(over: &str) -> String {
    case_line(DROPPED, &format!("setting kept over {over}"))
}

fn after_line(body: &str, outcome: &str) -> String {
    line(&format!("after 21, {body}: {outcome}"))
}

/// The collection before the next request.
pub struct Cuts {
    record: Record,
    slots: Vec<u8>,
    join: Vec<u8>,
    /// Whether the run that it holds was given.
    given: bool,
    /// Which of `KEPT` came since the setting was chosen.
    came: BTreeSet<&'static str>,
    /// The body that was just dropped, and its run.
    dropped: Option<(Vec<u8>, Run)>,
    /// The last complete run, and its setting.
    last: Option<(Run, bool)>,
}

impl Default for Cuts {
    fn default() -> Cuts {
        Cuts {
            record: Record::default(),
            slots: vec![0; BUFFER_MIN],
            join: vec![0; BUFFER_MIN],
            given: false,
            came: BTreeSet::new(),
            dropped: None,
            last: None,
        }
    }
}

impl Cuts {
    /// The lines that a request adds to.
    pub fn seen(&mut self, request: &Request, answer: &str) -> Vec<String> {
        match request {
            Request::New {
                slot,
                join,
                fill,
                strict,
            } => {
                *self = Cuts {
                    record: Record::empty(*strict),
                    slots: vec![*fill; *slot],
                    join: vec![*fill; *join],
                    last: self.last.take(),
                    ..Cuts::default()
                };
            }
            Request::Rec(record) => {
                self.note(record.clone());
                self.given = true;
                self.came.insert(OVER_GIVEN);
                self.dropped = None;
            }
            Request::Piece(body) => return self.body_seen(body, answer),
            Request::Recv(body) => {
                let mut lines = self.body_seen(body, answer);
                let dropped = self.dropped.as_ref();
                lines.extend(dropped.map(|(_, run)| line(unread_case(run))));
                return lines;
            }
            _ => {}
        }
        Vec::new()
    }

    /// Keeps the record, in the setting that was chosen.
    fn note(&mut self, record: Record) {
        let strict = self.record.strict;
        self.record = Record { strict, ..record };
    }

    /// Takes the body as a loose collection does: a run that completes there, a strict collection
    /// completes or drops.
    fn body_seen(&mut self, body: &[u8], answer: &str) -> Vec<String> {
        let mut lines: Vec<String> = self.after_dropped(body, answer).into_iter().collect();
        let (strict, held) = (self.record.strict, self.record.number > 0);
        let mut record = Record {
            strict: false,
            ..self.record.clone()
        };
        let taken = take_piece(&mut record, &mut self.slots, &mut self.join, body);
        let begun = record.filled.iter().filter(|&&filled| filled).count() == 1;
        match taken {
            Err(_) => return lines,
            Ok(Taken::Repeat) => {
                let run = Run::held(&record, &self.slots).filter(|_| strict);
                lines.extend(run.map(|run| line(repeat_case(&run))));
                return lines;
            }
            Ok(Taken::CompleteBody(message)) if strict => lines.extend(one_piece_lines(message)),
            _ => {}
        }
        self.note(record);
        self.given &= !begun;
        self.came.extend((held && begun).then_some(OVER_ANEW));
        if let Some(run) = Run::held(&self.record, &self.slots) {
            lines.extend(self.run_seen(body, run, answer));
        }
        lines
    }

    /// A run that is complete with this body.
    fn run_seen(&mut self, body: &[u8], run: Run, answer: &str) -> Vec<String> {
        let (strict, bad) = (self.record.strict, run.has_bad_cut());
        let dropped = answer.starts_with("refused 21 ");
        let mut lines = match (strict, dropped) {
            (true, false) => self.outcome_lines(COMPLETED, run.completed()),
            (true, true) => self.outcome_lines(DROPPED, run.dropped()),
            (false, _) => bad.then(|| line(LOOSE)).into_iter().collect(),
        };
        if self.last.as_ref() == Some(&(run.clone(), !strict)) {
            lines.push(line(if bad { BOTH_DROPPED } else { BOTH_COMPLETED }));
        }
        self.last = Some((run.clone(), strict));
        if dropped {
            lines.extend(self.came.iter().map(|over| kept_line(over)));
            self.record = Record::empty(strict);
            self.came.insert(OVER_21);
            self.dropped = Some((body.to_vec(), run));
        }
        lines
    }

    fn outcome_lines(&self, outcome: &str, cases: Vec<String>) -> Vec<String> {
        let given = self.given.then_some(GIVEN);
        let cases = cases.iter().map(String::as_str).chain(given);
        let cases = cases.map(|case| case_line(outcome, case));
        [line(outcome)].into_iter().chain(cases).collect()
    }

    /// The line of a body that comes just after one that was dropped.
    fn after_dropped(&mut self, body: &[u8], answer: &str) -> Option<String> {
        let (dropped, run) = self.dropped.take()?;
        let of_the_run = |piece: &Piece| {
            [piece.count, piece.number] == dropped[..2] && run.has(piece.slot, piece.bytes)
        };
        let which = match Piece::of(body) {
            Err(_) => REFUSED,
            Ok(_) if body == dropped => SAME,
            Ok(piece) if piece.number == 1 => ONE_PIECE,
            Ok(piece) if of_the_run(&piece) => OF_THE_RUN,
            Ok(_) => OF_ANOTHER,
        };
        let outcome = match answer.split(' ').next().unwrap_or_default() {
            "accepted" | "message" => "complete",
            word => word,
        };
        Some(after_line(which, outcome))
    }
}

fn one_piece_lines(message: &[u8]) -> Vec<String> {
    let faulty = TopRow::of(message).faulty.is_some();
    let faulty = faulty.then(|| line(ONE_PIECE_FAULTY));
    [line(ONE_PIECE)].into_iter().chain(faulty).collect()
}

fn repeat_case(run: &Run) -> &'static str {
    if run.has_bad_cut() {
        REPEAT_BAD
    } else {
        REPEAT
    }
}

fn unread_case(run: &Run) -> &'static str {
    if read_table(&run.message).is_ok() {
        UNREAD_TABLE
    } else {
        UNREAD_REFUSAL
    }
}
