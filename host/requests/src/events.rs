//! Random modem records and events: each state, each broken record, clocks about each timer's end
//! and about half the clock's range.

use crate::random::Random;
use crate::tables::timers;
use reference::modem::{step, Event, Fault, Record, State, BACK_MS, TIMER_MAX_MS};
use reference::protocol::request::Request;

pub fn scenario(random: &mut Random) -> Vec<Request> {
    if random.once_in(3) {
        timer_end(random)
    } else {
        run(random)
    }
}

/// A record, then events that follow it.
fn run(random: &mut Random) -> Vec<Request> {
    let mut record = first_record(random);
    let mut requests = vec![Request::MRec(record.clone())];
    let few = random.between(1, 8);
    for _ in 0..random.pick(&[few, few, few, 30]) {
        let now = next_clock(random, &record);
        let event = next_event(random, &record);
        requests.push(told(&mut record, now, event));
    }
    requests
}

/// A timer that runs, often one that an event has just loaded, then events about its end: just
/// before, at and just after it.
fn timer_end(random: &mut Random) -> Vec<Request> {
    let state = random.pick(&[
        State::Scanning,
        State::Checking,
        State::OneWay,
        State::OneWay,
        State::Ranging,
        State::TwoWay,
        State::TwoWay,
        State::Resting,
    ]);
    let mut record = sound_record(random, state);
    let mut requests = vec![Request::MRec(record.clone())];
    if state == State::Scanning || random.once_in(2) {
        let now = record.last.wrapping_add(random.below(3_000) as u32);
        let event = loading_event(random, state);
        requests.push(told(&mut record, now, event));
    }
    let timer = if random.once_in(3) {
        record.receive
    } else {
        record.retry.or(record.receive)
    };
    let end = record.last.wrapping_add(timer.unwrap_or(0));
    for now in [end.wrapping_sub(1), end, end.wrapping_add(1)] {
        let any = next_event(random, &record);
        let event = random.pick(&[Event::Tick, Event::Tick, any]);
        if !random.once_in(3) {
            requests.push(told(&mut record, now, event));
        }
    }
    requests
}

/// An event that loads a timer in that state, where there is one.
fn loading_event(random: &mut Random, state: State) -> Event {
    let table = Event::TableAccepted(timers(random));
    let loading: &[Event] = match state {
        State::Scanning => &[Event::Locked, Event::ScanEmpty],
        State::Checking => &[table],
        State::OneWay => &[table, Event::Packet],
        State::Ranging | State::TwoWay => &[table, Event::Packet, Event::UpstreamLost],
        State::Idle | State::Resting => &[Event::Tick],
    };
    random.pick(loading)
}

/// The request for an event; the record becomes what the event makes of it.
fn told(record: &mut Record, now: u32, event: Event) -> Request {
    if let Ok(next) = step(record, now, event) {
        *record = next;
    }
    Request::MEv(now, event)
}

fn first_record(random: &mut Random) -> Record {
    if random.once_in(3) {
        return broken_record(random);
    }
    let state = random.pick(&[
        State::Idle,
        State::Scanning,
        State::Checking,
        State::OneWay,
        State::OneWay,
        State::OneWay,
        State::Ranging,
        State::Ranging,
        State::TwoWay,
        State::TwoWay,
        State::TwoWay,
        State::Resting,
    ]);
    sound_record(random, state)
}

/// A record in that state that document 01 allows.
fn sound_record(random: &mut Random, state: State) -> Record {
    let transmits = matches!(state, State::Ranging | State::TwoWay);
    let permitted = transmits || random.once_in(2);
    let still = matches!(state, State::Idle | State::Scanning);
    let retries = state == State::OneWay && permitted && !random.once_in(4);
    let retry = timer(random);
    let receive = if retries && random.once_in(2) {
        TIMER_MAX_MS
    } else {
        timer(random)
    };
    Record {
        state,
        last: clock(random),
        permitted,
        ucid: (state == State::TwoWay).then(|| ucid(random)),
        timers: sound_timers(random),
        receive: (!still).then_some(receive),
        retry: retries.then_some(retry),
    }
}

/// Timer values of which only the last two may be 0.
fn sound_timers(random: &mut Random) -> [u16; 4] {
    let [t1, t2, t3, t4] = timers(random);
    [t1.max(1), t2.max(1), t3, t4]
}

/// A record with one fault of document 01's list.
fn broken_record(random: &mut Random) -> Record {
    let fault = random.pick(&Fault::ALL);
    let state = random.pick(states_of(fault));
    let over = random.pick(&[TIMER_MAX_MS + 1, u32::MAX]);
    let mut record = sound_record(random, state);
    match fault {
        Fault::ReceiveOff => record.receive = None,
        Fault::ReceiveInScanning => record.receive = Some(timer(random)),
        Fault::RetryOutsideOneWay => {
            record.permitted = true;
            record.retry = Some(timer(random));
        }
        Fault::RetryNotPermitted => {
            record.permitted = false;
            record.retry = Some(timer(random));
        }
        Fault::UcidOutsideTwoWay => record.ucid = Some(ucid(random)),
        Fault::TwoWayWithoutUcid => record.ucid = None,
        Fault::TransmitterNotPermitted => record.permitted = false,
        Fault::Tdsg1Zero => record.timers[0] = 0,
        Fault::Tdsg2Zero => record.timers[1] = 0,
        Fault::ReceiveTooLong => record.receive = Some(over),
        Fault::RetryTooLong => {
            record.permitted = true;
            record.retry = Some(over);
        }
    }
    record
}

/// The states in which a record may have the fault and no other.
fn states_of(fault: Fault) -> &'static [State] {
    use State::{Checking, OneWay, Ranging, Resting, Scanning, TwoWay};
    match fault {
        Fault::ReceiveOff | Fault::ReceiveTooLong => &[Checking, OneWay, Ranging, TwoWay, Resting],
        Fault::ReceiveInScanning => &[Scanning],
        Fault::RetryOutsideOneWay => &[Scanning, Checking, Ranging, TwoWay, Resting],
        Fault::RetryNotPermitted | Fault::RetryTooLong => &[OneWay],
        Fault::UcidOutsideTwoWay => &[Scanning, Checking, OneWay, Ranging, Resting],
        Fault::TwoWayWithoutUcid => &[TwoWay],
        Fault::TransmitterNotPermitted => &[Ranging, TwoWay],
        Fault::Tdsg1Zero | Fault::Tdsg2Zero => {
            &[Scanning, Checking, OneWay, Ranging, TwoWay, Resting]
        }
    }
}

/// A UCID, often at an end of its range.
fn ucid(random: &mut Random) -> u8 {
    let any = random.byte();
    random.pick(&[0, 255, any, any])
}

/// Milliseconds that a timer may have left.
fn timer(random: &mut Random) -> u32 {
    let any = random.between(0, TIMER_MAX_MS as usize) as u32;
    random.pick(&[0, 1, 2, 1_000, 2_000, any, TIMER_MAX_MS - 1, TIMER_MAX_MS])
}

/// A clock, often near its top or near half its range.
fn clock(random: &mut Random) -> u32 {
    let any = random.word() as u32;
    random.pick(&[any, any, 0, 0xFFFF_FF00, u32::MAX, BACK_MS - 1, BACK_MS])
}

/// A clock after the record's: at a timer's end or next to it, or at the edge of going back.
fn next_clock(random: &mut Random, record: &Record) -> u32 {
    let timer = random.pick(&[
        record.receive,
        record.retry,
        record.retry.or(record.receive),
    ]);
    let timer = timer.unwrap_or(512);
    let (any, small) = (random.word() as u32, random.below(3_000) as u32);
    let step = match random.below(12) {
        0..=2 => timer,
        3 => timer.wrapping_sub(1),
        4 => timer.wrapping_add(1),
        5 => random.pick(&[BACK_MS - 1, BACK_MS, BACK_MS + 1, u32::MAX]),
        6 => any,
        7 => 0,
        _ => small,
    };
    record.last.wrapping_add(step)
}

/// An event: a start where nothing else acts, one that leads on from the state, or any.
fn next_event(random: &mut Random, record: &Record) -> Event {
    let start = Event::Start(random.once_in(2));
    let table = Event::TableAccepted(timers(random));
    let up = Event::UpstreamUp(ucid(random));
    let state = if record.counts_as_idle() {
        State::Idle
    } else {
        record.state
    };
    let leading: &[Event] = match state {
        State::Idle => &[start],
        State::Scanning => &[Event::Locked, Event::Locked, Event::ScanEmpty],
        State::Checking => &[table, table, table, Event::Tick],
        State::OneWay => &[Event::Tick, Event::Tick, Event::Tick, Event::Enable],
        State::Ranging => &[up, up, up, Event::UpstreamLost, Event::Disable, Event::Tick],
        State::TwoWay => &[
            Event::UpstreamLost,
            Event::UpstreamLost,
            Event::Disable,
            Event::Tick,
        ],
        State::Resting => &[Event::Tick],
    };
    if random.once_in(3) {
        return random.pick(leading);
    }
    random.pick(&[
        start,
        Event::Locked,
        Event::ScanEmpty,
        table,
        Event::Packet,
        Event::Tick,
        Event::Enable,
        Event::Disable,
        up,
        Event::UpstreamLost,
        Event::Hunt,
        Event::DownstreamLost,
    ])
}
