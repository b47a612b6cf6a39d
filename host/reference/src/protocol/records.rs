//! The collection record, the modem record and modem events in the protocol's text.

use super::words::{commas, flag, number, optional, or_dash};
use crate::collecting;
use crate::modem::{self, Event, State};

/// `COUNT NUMBER FLAGS LENS`: the record but for its setting.
pub fn write_collection(record: &collecting::Record) -> String {
    let digit = |&filled: &bool| if filled { '1' } else { '0' };
    format!(
        "{} {} {} {}",
        record.count,
        record.number,
        record.filled.iter().map(digit).collect::<String>(),
        commas(record.lengths)
    )
}

/// A loose record, since the words say nothing of the setting.
pub fn parse_collection(words: &[&str]) -> Option<collecting::Record> {
    let [count, num, flags, lengths] = words else {
        return None;
    };
    let filled: Option<Vec<bool>> = flags.chars().map(|c| flag(&c.to_string())).collect();
    let lengths: Option<Vec<u16>> = lengths.split(',').map(number).collect();
    Some(collecting::Record {
        count: number(count)?,
        number: number(num)?,
        filled: filled?.try_into().ok()?,
        lengths: lengths?.try_into().ok()?,
        strict: false,
    })
}

/// `STATE LAST PERM UCID T1 T2 T3 T4 RECEIVE RETRY adv`.
pub fn write_modem(record: &modem::Record) -> String {
    let [t1, t2, t3, t4] = record.timers;
    format!(
        "{} {} {} {} {t1} {t2} {t3} {t4} {} {} adv",
        state_word(record.state),
        record.last,
        u8::from(record.permitted),
        or_dash(record.ucid),
        or_dash(record.receive),
        or_dash(record.retry)
    )
}

pub fn parse_modem(words: &[&str]) -> Option<modem::Record> {
    let [state, last, permitted, ucid, t1, t2, t3, t4, receive, retry, "adv"] = words else {
        return None;
    };
    Some(modem::Record {
        state: State::ALL.into_iter().find(|&s| state_word(s) == *state)?,
        last: number(last)?,
        permitted: flag(permitted)?,
        ucid: optional(ucid, number)?,
        timers: [number(t1)?, number(t2)?, number(t3)?, number(t4)?],
        receive: optional(receive, number)?,
        retry: optional(retry, number)?,
    })
}

pub fn state_word(state: State) -> &'static str {
    match state {
        State::Idle => "idle",
        State::Scanning => "scanning",
        State::Checking => "checking",
        State::OneWay => "oneway",
        State::Ranging => "ranging",
        State::TwoWay => "twoway",
        State::Resting => "resting",
    }
}

pub fn write_event(event: Event) -> String {
    let word = match event {
        Event::Start(permitted) => return format!("start {}", u8::from(permitted)),
        Event::TableAccepted([t1, t2, t3, t4]) => return format!("table {t1} {t2} {t3} {t4}"),
        Event::UpstreamUp(ucid) => return format!("up {ucid}"),
        Event::Locked => "locked",
        Event::ScanEmpty => "empty",
        Event::Packet => "packet",
        Event::Tick => "tick",
        Event::Enable => "enable",
        Event::Disable => "disable",
        Event::UpstreamLost => "lost",
        Event::Hunt => "hunt",
        Event::DownstreamLost => "downlost",
    };
    word.to_string()
}

pub fn parse_event(words: &[&str]) -> Option<Event> {
    match words {
        ["start", permitted] => flag(permitted).map(Event::Start),
        ["table", t1, t2, t3, t4] => {
            let timers = [number(t1)?, number(t2)?, number(t3)?, number(t4)?];
            Some(Event::TableAccepted(timers))
        }
        ["up", ucid] => number(ucid).map(Event::UpstreamUp),
        ["locked"] => Some(Event::Locked),
        ["empty"] => Some(Event::ScanEmpty),
        ["packet"] => Some(Event::Packet),
        ["tick"] => Some(Event::Tick),
        ["enable"] => Some(Event::Enable),
        ["disable"] => Some(Event::Disable),
        ["lost"] => Some(Event::UpstreamLost),
        ["hunt"] => Some(Event::Hunt),
        ["downlost"] => Some(Event::DownstreamLost),
        _ => None,
    }
}
