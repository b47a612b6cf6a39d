//! Modem events: the rows of document 01's table that they take, the broken records that they meet,
//! and the timers whose ends they come about.

use super::part;
use reference::modem::{row_taken, Event, Fault, Record, Row, State};
use reference::protocol::records::{parse_modem, state_word, write_event};
use reference::protocol::request::Request;

/// Document 01's modem table: each row's states and events.
const ROWS: [(Row, &[&str], &[&str]); 13] = [
    (
        Row::Start,
        &[
            "idle", "scanning", "checking", "oneway", "ranging", "twoway", "resting",
        ],
        &["start"],
    ),
    (Row::Locked, &["scanning"], &["locked"]),
    (Row::ScanEmpty, &["scanning"], &["empty"]),
    (
        Row::FirstTable,
        &["checking"],
        &["table, permitted", "table, not permitted"],
    ),
    (
        Row::Received,
        &["oneway", "ranging", "twoway"],
        &["packet", "table"],
    ),
    (Row::RetryOver, &["oneway"], &["tick"]),
    (Row::Enabled, &["oneway"], &["enable"]),
    (Row::UpstreamUp, &["ranging"], &["up"]),
    (Row::UpstreamLost, &["ranging", "twoway"], &["lost"]),
    (Row::Disabled, &["ranging", "twoway"], &["disable"]),
    (
        Row::ReceiveOver,
        &["checking", "oneway", "ranging", "twoway"],
        &["tick"],
    ),
    (
        Row::GivenUp,
        &["checking", "oneway", "ranging", "twoway"],
        &["hunt", "downlost"],
    ),
    (Row::RestOver, &["resting"], &["tick"]),
];
const NOT_NAMED: &str = "modem pair that no row names";
const IGNORED: &str = "modem event ignored in idle";

/// The timers and the states in which they run.
const TIMERS: [(&str, State); 6] = [
    ("receive", State::Checking),
    ("receive", State::OneWay),
    ("receive", State::Ranging),
    ("receive", State::TwoWay),
    ("receive", State::Resting),
    ("retry", State::OneWay),
];
/// When an event comes, about a timer's end.
const MOMENTS: [&str; 3] = ["1 ms before its end", "at its end", "1 ms after its end"];
const BOTH_OVER: &str = "modem receive and retry both over: tick";

/// UCIDs at their ends.
const UCIDS: [u8; 2] = [0, 255];

pub fn lines() -> impl Iterator<Item = String> {
    let rows = ROWS.into_iter().flat_map(|(row, states, events)| {
        states
            .iter()
            .flat_map(move |state| events.iter().map(move |event| row_line(row, state, event)))
    });
    let broken = Fault::ALL.map(broken_line);
    let ends = TIMERS.into_iter().flat_map(|(timer, state)| {
        MOMENTS
            .into_iter()
            .flat_map(move |moment| [true, false].map(|tick| end_line(timer, state, moment, tick)))
    });
    let others = [NOT_NAMED, IGNORED, BOTH_OVER].map(str::to_string);
    rows.chain(broken)
        .chain(ends)
        .chain(others)
        .chain(UCIDS.map(up_line))
        .chain(UCIDS.map(held_line))
}

fn row_line(row: Row, state: &str, event: &str) -> String {
    format!("modem row {:02}: {state}, {event}", row as u8 + 1)
}

fn broken_line(fault: Fault) -> String {
    format!("modem record broken: {fault:?}")
}

fn end_line(timer: &str, state: State, moment: &str, tick: bool) -> String {
    let event = if tick { "tick" } else { "another event" };
    format!("modem {timer} in {}, {moment}: {event}", state_word(state))
}

fn up_line(ucid: u8) -> String {
    format!("modem row 08: ranging, up with UCID {ucid}")
}

fn held_line(ucid: u8) -> String {
    format!("modem event in twoway with UCID {ucid}")
}

/// The line of a UCID at an end: of one that is taken up, or of one that the record has.
fn ucid_line(row: Row, event: Event, record: &Record) -> Option<String> {
    let at_end = |ucid: &u8| UCIDS.contains(ucid);
    match (row, event, record.ucid) {
        (Row::UpstreamUp, Event::UpstreamUp(ucid), _) => Some(ucid).filter(at_end).map(up_line),
        (Row::Start | Row::Ignored, ..) => None,
        (_, _, held) => held.filter(at_end).map(held_line),
    }
}

/// The modem record before the next request.
#[derive(Default)]
pub struct Modems {
    record: Record,
}

impl Modems {
    /// The lines that a request adds to.
    pub fn seen(&mut self, request: &Request, answer: &str) -> Vec<String> {
        match request {
            Request::MRec(record) => self.record = record.clone(),
            Request::MEv(now, event) => {
                let lines = self.event_seen(*now, *event);
                if let Some(record) = part(answer, 1).and_then(|words| parse_modem(&words)) {
                    self.record = record;
                }
                return lines;
            }
            _ => {}
        }
        Vec::new()
    }

    fn event_seen(&self, now: u32, event: Event) -> Vec<String> {
        let mut lines = Vec::new();
        lines.extend(self.fault_told(event).map(broken_line));
        if let Ok(row) = row_taken(&self.record, now, event) {
            lines.push(self.taken_line(row, event));
            lines.extend(ucid_line(row, event, &self.record));
            if ![Row::Start, Row::Ignored].contains(&row) {
                lines.extend(self.end_lines(now.wrapping_sub(self.record.last), event));
            }
        }
        lines
    }

    /// The timers about whose end an event comes, after an accepted step.
    fn end_lines(&self, step: u32, event: Event) -> Vec<String> {
        let (state, tick) = (self.record.state, event == Event::Tick);
        let running = [
            ("receive", self.record.receive),
            ("retry", self.record.retry),
        ];
        let ends = running.iter().filter_map(|&(timer, left)| {
            let left = left?;
            let moment = (step + 1).checked_sub(left)?;
            let moment = MOMENTS.get(moment as usize)?;
            Some(end_line(timer, state, moment, tick))
        });
        let over = |left: Option<u32>| left.is_some_and(|left| left <= step);
        let both_over = tick && running.iter().all(|&(_, left)| over(left));
        let mut lines: Vec<String> = ends.collect();
        lines.extend(both_over.then(|| BOTH_OVER.to_string()));
        lines
    }

    /// A broken record counts when an event other than Start meets it outside Idle, and nothing else
    /// is wrong with it.
    fn fault_told(&self, event: Event) -> Option<Fault> {
        let told = self.record.state != State::Idle && !matches!(event, Event::Start(_));
        let faults: Vec<Fault> = Fault::ALL
            .into_iter()
            .filter(|&fault| self.record.has(fault))
            .collect();
        match faults[..] {
            [fault] if told => Some(fault),
            _ => None,
        }
    }

    fn taken_line(&self, row: Row, event: Event) -> String {
        let words = write_event(event);
        let word = words.split(' ').next().unwrap_or_default();
        let event = match row {
            Row::NotNamed => return NOT_NAMED.to_string(),
            Row::Ignored => return IGNORED.to_string(),
            Row::FirstTable if self.record.permitted => "table, permitted",
            Row::FirstTable => "table, not permitted",
            _ => word,
        };
        row_line(row, state_word(self.record.state), event)
    }
}
