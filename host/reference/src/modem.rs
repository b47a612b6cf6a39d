//! One event on the modem record (document 01, "Modem record" and refusal 18).
//!
//! `step` first finds the row of document 01's table that the record and the event pick, then does
//! what that row says, so that the table can be read beside `Row` and `row_of`. A record that breaks
//! the document's rules counts as Idle and comes back as it was given after any event but Start.

use crate::table::{Timers, DEFAULT_TIMERS};
use crate::Refusal;

/// 65,535 seconds.
pub const TIMER_MAX_MS: u32 = 65_535_000;
/// A step this long or longer is a clock that went back.
pub const BACK_MS: u32 = 1 << 31;

#[derive(Clone, Copy, Debug, PartialEq, Eq, PartialOrd, Ord)]
pub enum State {
    Idle,
    Scanning,
    Checking,
    OneWay,
    Ranging,
    TwoWay,
    Resting,
}

impl State {
    pub const ALL: [State; 7] = [
        State::Idle,
        State::Scanning,
        State::Checking,
        State::OneWay,
        State::Ranging,
        State::TwoWay,
        State::Resting,
    ];

    fn forwards(self) -> bool {
        matches!(self, State::OneWay | State::Ranging | State::TwoWay)
    }

    fn transmits(self) -> bool {
        matches!(self, State::Ranging | State::TwoWay)
    }

    /// Checking and the three forwarding states.
    fn receives(self) -> bool {
        self == State::Checking || self.forwards()
    }
}

/// The lent record.
#[derive(Clone, Debug, PartialEq, Eq)]
pub struct Record {
    pub state: State,
    /// The last clock, in milliseconds.
    pub last: u32,
    pub permitted: bool,
    pub ucid: Option<u8>,
    pub timers: Timers,
    /// Milliseconds left, `None` when off.
    pub receive: Option<u32>,
    /// Milliseconds left, `None` when off.
    pub retry: Option<u32>,
}

/// Idle, with everything 0 or off and the default timer values.
impl Default for Record {
    fn default() -> Record {
        Record {
            state: State::Idle,
            last: 0,
            permitted: false,
            ucid: None,
            timers: DEFAULT_TIMERS,
            receive: None,
            retry: None,
        }
    }
}

#[derive(Clone, Copy, Debug, PartialEq, Eq)]
pub enum Event {
    /// Carries the permission.
    Start(bool),
    Locked,
    ScanEmpty,
    /// Carries the table's timer values.
    TableAccepted(Timers),
    Packet,
    Tick,
    Enable,
    Disable,
    /// Carries the UCID.
    UpstreamUp(u8),
    UpstreamLost,
    Hunt,
    DownstreamLost,
}

impl Event {
    fn ucid(self) -> Option<u8> {
        match self {
            Event::UpstreamUp(ucid) => Some(ucid),
            _ => None,
        }
    }
}

/// How a lent record breaks document 01's rules.
#[derive(Clone, Copy, Debug, PartialEq, Eq, PartialOrd, Ord)]
pub enum Fault {
    ReceiveOff,
    ReceiveInScanning,
    RetryOutsideOneWay,
    RetryNotPermitted,
    UcidOutsideTwoWay,
    TwoWayWithoutUcid,
    TransmitterNotPermitted,
    Tdsg1Zero,
    Tdsg2Zero,
    ReceiveTooLong,
    RetryTooLong,
}

impl Fault {
    pub const ALL: [Fault; 11] = [
        Fault::ReceiveOff,
        Fault::ReceiveInScanning,
        Fault::RetryOutsideOneWay,
        Fault::RetryNotPermitted,
        Fault::UcidOutsideTwoWay,
        Fault::TwoWayWithoutUcid,
        Fault::TransmitterNotPermitted,
        Fault::Tdsg1Zero,
        Fault::Tdsg2Zero,
        Fault::ReceiveTooLong,
        Fault::RetryTooLong,
    ];
}

impl Record {
    pub fn has(&self, fault: Fault) -> bool {
        let state = self.state;
        let too_long = |timer: Option<u32>| timer.is_some_and(|left| left > TIMER_MAX_MS);
        match fault {
            Fault::ReceiveOff => {
                (state.receives() || state == State::Resting) && self.receive.is_none()
            }
            Fault::ReceiveInScanning => state == State::Scanning && self.receive.is_some(),
            Fault::RetryOutsideOneWay => state != State::OneWay && self.retry.is_some(),
            Fault::RetryNotPermitted => self.retry.is_some() && !self.permitted,
            Fault::UcidOutsideTwoWay => state != State::TwoWay && self.ucid.is_some(),
            Fault::TwoWayWithoutUcid => state == State::TwoWay && self.ucid.is_none(),
            Fault::TransmitterNotPermitted => state.transmits() && !self.permitted,
            Fault::Tdsg1Zero => self.timers[0] == 0,
            Fault::Tdsg2Zero => self.timers[1] == 0,
            Fault::ReceiveTooLong => too_long(self.receive),
            Fault::RetryTooLong => too_long(self.retry),
        }
    }

    pub fn counts_as_idle(&self) -> bool {
        self.state == State::Idle || Fault::ALL.iter().any(|&fault| self.has(fault))
    }

    /// Whether the transmitter is on.
    pub fn transmits(&self) -> bool {
        !self.counts_as_idle() && self.state.transmits()
    }

    /// Whether tunnels are forwarded.
    pub fn forwards(&self) -> bool {
        !self.counts_as_idle() && self.state.forwards()
    }

    fn receive_over(&self) -> bool {
        self.receive == Some(0)
    }

    fn retry_over(&self) -> bool {
        self.retry == Some(0) && self.permitted
    }

    fn with_clock(&self, now: u32) -> Record {
        Record {
            last: now,
            ..self.clone()
        }
    }

    fn started(now: u32, permitted: bool) -> Record {
        Record {
            state: State::Scanning,
            last: now,
            permitted,
            ..Record::default()
        }
    }

    /// The record at a later clock, its running timers fallen by the step.
    fn moved_to(&self, now: u32) -> Result<Record, Refusal> {
        let step = now.wrapping_sub(self.last);
        if step >= BACK_MS {
            return Err(Refusal::whole(18));
        }
        let fallen = |timer: Option<u32>| timer.map(|left| left.saturating_sub(step));
        Ok(Record {
            receive: fallen(self.receive),
            retry: fallen(self.retry),
            ..self.with_clock(now)
        })
    }

    /// Enters a state. None keeps retry or a UCID from before; a row that gives one does so after.
    fn enter(&mut self, state: State) {
        self.state = state;
        self.retry = None;
        self.ucid = None;
        if state == State::Scanning {
            self.receive = None;
        }
    }

    /// Enters a state in which receive starts afresh.
    fn enter_with(&mut self, state: State, receive: Tdsg) {
        self.enter(state);
        self.receive = Some(self.milliseconds(receive));
    }

    fn milliseconds(&self, timer: Tdsg) -> u32 {
        u32::from(self.timers[timer as usize]) * 1_000
    }

    fn set_timers(&mut self, given: Timers) {
        self.timers = given;
        for (timer, default) in self.timers.iter_mut().zip(DEFAULT_TIMERS).take(2) {
            if *timer == 0 {
                *timer = default;
            }
        }
    }
}

/// A timer value's index in the record.
enum Tdsg {
    One,
    Two,
    Three,
    Four,
}

/// The rows of document 01's table, in its order, then what the table leaves out.
#[derive(Clone, Copy, Debug, PartialEq, Eq, PartialOrd, Ord)]
pub enum Row {
    Start,
    Locked,
    ScanEmpty,
    FirstTable,
    Received,
    RetryOver,
    Enabled,
    UpstreamUp,
    UpstreamLost,
    Disabled,
    ReceiveOver,
    GivenUp,
    RestOver,
    /// A pair that the table does not name.
    NotNamed,
    /// Anything but Start in Idle.
    Ignored,
}

/// The record after an event.
pub fn step(record: &Record, now: u32, event: Event) -> Result<Record, Refusal> {
    let (mut next, row) = moved(record, now, event)?;
    if row != Row::Ignored {
        set_values(&mut next, event);
        act(&mut next, row, event);
    }
    Ok(next)
}

/// The row that an event on this record takes.
pub fn row_taken(record: &Record, now: u32, event: Event) -> Result<Row, Refusal> {
    moved(record, now, event).map(|(_, row)| row)
}

/// The record with its clock and timers moved, and the row that it then takes.
fn moved(record: &Record, now: u32, event: Event) -> Result<(Record, Row), Refusal> {
    if matches!(event, Event::Start(_)) {
        return Ok((record.with_clock(now), Row::Start));
    }
    if record.counts_as_idle() {
        return Ok((record.clone(), Row::Ignored));
    }
    let moved = record.moved_to(now)?;
    let row = row_of(&moved, event);
    Ok((moved, row))
}

/// The row for a moved record, in the order of document 01's table; receive is tested before retry.
fn row_of(record: &Record, event: Event) -> Row {
    let state = record.state;
    let (receive_over, retry_over) = (record.receive_over(), record.retry_over());
    match event {
        Event::Start(_) => Row::Start,
        Event::Locked if state == State::Scanning => Row::Locked,
        Event::ScanEmpty if state == State::Scanning => Row::ScanEmpty,
        Event::TableAccepted(_) if state == State::Checking => Row::FirstTable,
        Event::Packet | Event::TableAccepted(_) if state.forwards() => Row::Received,
        Event::Tick if state == State::OneWay && retry_over && !receive_over => Row::RetryOver,
        Event::Enable if state == State::OneWay => Row::Enabled,
        Event::UpstreamUp(_) if state == State::Ranging => Row::UpstreamUp,
        Event::UpstreamLost if state.transmits() => Row::UpstreamLost,
        Event::Disable if state.transmits() => Row::Disabled,
        Event::Tick if state.receives() && receive_over => Row::ReceiveOver,
        Event::Hunt | Event::DownstreamLost if state.receives() => Row::GivenUp,
        Event::Tick if state == State::Resting && receive_over => Row::RestOver,
        _ => Row::NotNamed,
    }
}

/// What an event sets whatever row it takes: permission, and the timer values of a table.
fn set_values(record: &mut Record, event: Event) {
    match event {
        Event::Enable => record.permitted = true,
        Event::Disable => {
            record.permitted = false;
            record.retry = None;
        }
        Event::TableAccepted(timers) if record.state.receives() => record.set_timers(timers),
        _ => {}
    }
}

/// What a row's last column says.
fn act(record: &mut Record, row: Row, event: Event) {
    match row {
        Row::Start => *record = Record::started(record.last, event == Event::Start(true)),
        Row::Locked => record.enter_with(State::Checking, Tdsg::One),
        Row::ScanEmpty => record.enter_with(State::Resting, Tdsg::Four),
        Row::FirstTable if record.permitted => record.enter_with(State::Ranging, Tdsg::Two),
        Row::FirstTable => record.enter_with(State::OneWay, Tdsg::Two),
        Row::Received => record.receive = Some(record.milliseconds(Tdsg::Two)),
        Row::RetryOver | Row::Enabled => record.enter(State::Ranging),
        Row::UpstreamUp => {
            record.enter(State::TwoWay);
            record.ucid = event.ucid();
        }
        Row::UpstreamLost => {
            record.enter(State::OneWay);
            record.retry = Some(record.milliseconds(Tdsg::Three));
        }
        Row::Disabled => record.enter(State::OneWay),
        Row::ReceiveOver => record.enter_with(State::Resting, Tdsg::Four),
        Row::GivenUp | Row::RestOver => record.enter(State::Scanning),
        Row::NotNamed | Row::Ignored => {}
    }
}
