//! The records that a host lends, laid out as the library has them (`include/dsg.h`).
//!
//! They hold numbers only, and every value of every field is allowed: document 01 says what a record
//! means that no call could have made. The layout is held to the header's in `tests/layout.rs`, and to the library's own in
//! `tests/library_layout`.

/// How many rules, classifiers and channels a table has room for.
pub const TABLE_ROOM: usize = 32;
/// How many client IDs a rule has room for.
pub const RULE_CLIENTS: usize = 8;
/// How many classifier numbers a rule has room for.
pub const RULE_NUMBERS: usize = 8;
/// How many UCIDs a rule has room for.
pub const RULE_UCIDS: usize = 16;

/// A client ID: its kind, and its value as a number.
#[repr(C)]
#[derive(Clone, Copy, Debug, Default, PartialEq, Eq)]
pub struct Client {
    /// 0 broadcast of length 0, 1 broadcast, 2 well-known MAC, 3 CA system, 4 application.
    pub kind: u8,
    /// The value; a MAC as the number of its six bytes.
    pub value: u64,
}

/// A rule of a table.
#[repr(C)]
#[derive(Clone, Copy, Debug, Default, PartialEq, Eq)]
pub struct Rule {
    /// The rule's number.
    pub number: u8,
    /// Its priority: the greatest number wins.
    pub priority: u8,
    /// How many places of `ucids` are used; none means no UCID list.
    pub ucidcount: u8,
    /// How many places of `clients` are used.
    pub clientcount: u8,
    /// How many places of `numbers` are used.
    pub numbercount: u8,
    /// The UCIDs.
    pub ucids: [u8; RULE_UCIDS],
    /// The classifier numbers that the rule names.
    pub numbers: [u16; RULE_NUMBERS],
    /// The tunnel address, as the number of its six bytes.
    pub tunnel: u64,
    /// The client IDs.
    pub clients: [Client; RULE_CLIENTS],
}

/// A classifier of a table. A part is absent where its mark is 0.
#[repr(C)]
#[derive(Clone, Copy, Debug, Default, PartialEq, Eq)]
pub struct Classifier {
    /// The destination address.
    pub destination: u32,
    /// The source address, where `hassource` is not 0.
    pub source: u32,
    /// The source mask, where `hasmask` is not 0.
    pub mask: u32,
    /// The classifier's number.
    pub number: u16,
    /// The first destination port, where `hasstart` is not 0.
    pub start: u16,
    /// The last destination port, where `hasend` is not 0.
    pub end: u16,
    /// Its priority: the greatest number is tried first.
    pub priority: u8,
    /// The mark of `source`.
    pub hassource: u8,
    /// The mark of `mask`.
    pub hasmask: u8,
    /// The mark of `start`.
    pub hasstart: u8,
    /// The mark of `end`.
    pub hasend: u8,
}

/// The four timer values in seconds.
#[repr(C)]
#[derive(Clone, Copy, Debug, PartialEq, Eq)]
pub struct TimerValues {
    /// Tdsg1: how long a channel is checked.
    pub tdsg1: u16,
    /// Tdsg2: how long a forwarding modem waits for a packet.
    pub tdsg2: u16,
    /// Tdsg3: how long a one-way modem rests its transmitter.
    pub tdsg3: u16,
    /// Tdsg4: how long a modem rests after a scan.
    pub tdsg4: u16,
}

impl From<TimerValues> for [u16; 4] {
    /// Tdsg1 to Tdsg4, as [`crate::Event::TableAccepted`] takes them.
    fn from(values: TimerValues) -> [u16; 4] {
        [values.tdsg1, values.tdsg2, values.tdsg3, values.tdsg4]
    }
}

/// A table. Of each list the places up to its count are used; a count above 32 is read as 32.
#[repr(C)]
#[derive(Clone, Copy, Debug, PartialEq, Eq)]
pub struct Table {
    /// How many places of `rules` are used.
    pub rulecount: u8,
    /// How many places of `classifiers` are used.
    pub classifiercount: u8,
    /// How many places of `channels` are used.
    pub channelcount: u8,
    /// The timer values.
    pub timers: TimerValues,
    /// The channels, in Hz.
    pub channels: [u32; TABLE_ROOM],
    /// The classifiers, in message order.
    pub classifiers: [Classifier; TABLE_ROOM],
    /// The rules, in message order.
    pub rules: [Rule; TABLE_ROOM],
}

/// What has been collected of a message. [`Collection::empty`] makes the first one.
#[repr(C)]
#[derive(Clone, Copy, Debug, PartialEq, Eq)]
pub struct Collection {
    /// The change count of the held pieces.
    pub count: u8,
    /// How many pieces the message has; 0 means nothing collected.
    pub number: u8,
    /// For each slot 1 where it is filled, else 0.
    pub filled: [u8; 16],
    /// For each slot how many bytes it holds.
    pub lengths: [u16; 16],
    /// The setting: 0 is loose, every other number strict. It comes back as it was lent. Set it only in an empty record, as
    /// [`Collection::empty`] does.
    pub strict: u16,
}

/// The states of a modem record, by number.
#[allow(missing_docs)]
pub mod state {
    pub const IDLE: u8 = 0;
    pub const SCANNING: u8 = 1;
    pub const CHECKING: u8 = 2;
    pub const ONE_WAY: u8 = 3;
    pub const RANGING: u8 = 4;
    pub const TWO_WAY: u8 = 5;
    pub const RESTING: u8 = 6;
}

/// A modem record. Timers in milliseconds, timer values in seconds. [`Modem::idle`] makes the first one.
#[repr(C)]
#[derive(Clone, Copy, Debug, PartialEq, Eq)]
pub struct Modem {
    /// The clock of the last event that was taken.
    pub last: u32,
    /// What is left of the receive timer, where `receiveon` is 1.
    pub receive: u32,
    /// What is left of the retry timer, where `retryon` is 1.
    pub retry: u32,
    /// Tdsg1.
    pub tdsg1: u16,
    /// Tdsg2.
    pub tdsg2: u16,
    /// Tdsg3.
    pub tdsg3: u16,
    /// Tdsg4.
    pub tdsg4: u16,
    /// 1 where the receive timer runs, else 0.
    pub receiveon: u16,
    /// 1 where the retry timer runs, else 0.
    pub retryon: u16,
    /// The state, see [`state`].
    pub state: u8,
    /// 1 where transmitting is permitted, else 0.
    pub permission: u8,
    /// 1 where `ucid` is known, else 0.
    pub hasucid: u8,
    /// The UCID, where `hasucid` is 1.
    pub ucid: u8,
}

/// The tunnel of a client, prepared: the choice made, the rule's classifiers looked up, in matching order.
///
/// [`crate::lent::prepare_tunnel`] makes it; any other value of its fields has a meaning too.
#[repr(C)]
#[derive(Clone, Copy, Debug, PartialEq, Eq)]
pub struct Tunnel {
    /// The tunnel address.
    pub address: u64,
    /// Whether no rule fits, the rule names no classifier, or its classifiers decide.
    pub mode: u8,
    /// How many places of the lists are used.
    pub count: u8,
    /// The destination addresses.
    pub destinations: [u32; TABLE_ROOM],
    /// The source addresses.
    pub sources: [u32; TABLE_ROOM],
    /// The masks that the packet's source is taken under.
    pub masks: [u32; TABLE_ROOM],
    /// The first ports.
    pub starts: [u16; TABLE_ROOM],
    /// The last ports.
    pub ends: [u16; TABLE_ROOM],
    /// The classifiers' numbers.
    pub numbers: [u16; TABLE_ROOM],
    /// Whether the ports are tested.
    pub ports: [u8; TABLE_ROOM],
}
