//! Tables, and the table that a message gives (document 01, "Elements", refusals 3 and 15).
//!
//! A lent table may say anything within its room; a table that was read follows from the message
//! alone. Absent parts are `None`, lists hold only what was listed.

use crate::elements::{all, find, number, read_message, Element};
use crate::Refusal;

/// Sixteen pieces of 1,497 bytes.
pub const MESSAGE_MAX: usize = 23_952;
pub const RULES_MAX: usize = 32;
pub const CLASSIFIERS_MAX: usize = 32;
pub const CHANNELS_MAX: usize = 32;
/// In a rule.
pub const CLIENTS_MAX: usize = 8;
/// In a rule.
pub const NUMBERS_MAX: usize = 8;
/// In a rule.
pub const UCIDS_MAX: usize = 16;

/// Tdsg1 to Tdsg4 in seconds.
pub type Timers = [u16; 4];

/// The timers that a message, or a record, has where none are given.
pub const DEFAULT_TIMERS: Timers = [2, 600, 300, 1800];

#[derive(Clone, Debug, PartialEq, Eq)]
pub struct Table {
    pub timers: Timers,
    pub rules: Vec<Rule>,
    pub classifiers: Vec<Classifier>,
    pub channels: Vec<u32>,
}

/// The table of the empty message.
impl Default for Table {
    fn default() -> Table {
        Table {
            timers: DEFAULT_TIMERS,
            rules: Vec::new(),
            classifiers: Vec::new(),
            channels: Vec::new(),
        }
    }
}

#[derive(Clone, Debug, PartialEq, Eq)]
pub struct Rule {
    pub number: u8,
    pub priority: u8,
    pub tunnel: [u8; 6],
    /// Empty when the rule has no UCID list.
    pub ucids: Vec<u8>,
    pub clients: Vec<Client>,
    /// The classifier numbers that the rule names.
    pub classifiers: Vec<u16>,
}

/// A client ID: its kind and value.
#[derive(Clone, Copy, Debug, PartialEq, Eq)]
pub enum Client {
    /// The broadcast ID of length 0.
    EmptyBroadcast,
    Broadcast(u16),
    Mac([u8; 6]),
    CaSystem(u16),
    Application(u16),
}

#[derive(Clone, Debug, PartialEq, Eq)]
pub struct Classifier {
    pub number: u16,
    pub priority: u8,
    pub source: Option<[u8; 4]>,
    pub mask: Option<[u8; 4]>,
    pub destination: [u8; 4],
    pub port_start: Option<u16>,
    pub port_end: Option<u16>,
}

/// Reads a message: its table, or the refusal that document 01 gives.
pub fn read_table(message: &[u8]) -> Result<Table, Refusal> {
    if message.len() > MESSAGE_MAX {
        return Err(Refusal::whole(3));
    }
    let top = read_message(message)?;
    let table = Table {
        timers: timers_of(find(&top, 51)),
        rules: all(&top, 50).map(rule_of).collect(),
        classifiers: all(&top, 23).map(classifier_of).collect(),
        channels: find(&top, 51).map(channels_of).unwrap_or_default(),
    };
    match first_unanswered(&top, &table) {
        Some(at) => Err(Refusal::at(15, at)),
        None => Ok(table),
    }
}

/// The offset of the first 50.6 whose number no classifier of the table carries.
fn first_unanswered(top: &[Element], table: &Table) -> Option<usize> {
    let answered = |wanted| table.classifiers.iter().any(|c| c.number == wanted);
    all(top, 50)
        .flat_map(|rule| all(&rule.children, 6))
        .find(|named| !answered(number(named.value) as u16))
        .map(|named| named.at)
}

fn rule_of(rule: &Element) -> Rule {
    let row = &rule.children;
    let clients = find(row, 4).map(|ids| ids.children.iter().filter_map(client_of).collect());
    Rule {
        number: byte(row, 1).unwrap_or(0),
        priority: byte(row, 2).unwrap_or(0),
        tunnel: exactly(row, 5).unwrap_or_default(),
        ucids: find(row, 3)
            .map(|list| list.value.to_vec())
            .unwrap_or_default(),
        clients: clients.unwrap_or_default(),
        classifiers: all(row, 6)
            .map(|named| number(named.value) as u16)
            .collect(),
    }
}

fn client_of(id: &Element) -> Option<Client> {
    let value = number(id.value) as u16;
    match id.kind {
        1 if id.value.is_empty() => Some(Client::EmptyBroadcast),
        1 => Some(Client::Broadcast(value)),
        2 => id.value.try_into().ok().map(Client::Mac),
        3 => Some(Client::CaSystem(value)),
        4 => Some(Client::Application(value)),
        _ => None,
    }
}

fn classifier_of(classifier: &Element) -> Classifier {
    let row = &classifier.children;
    let ip = find(row, 9)
        .map(|part| part.children.as_slice())
        .unwrap_or_default();
    Classifier {
        number: pair(row, 2).unwrap_or(0),
        priority: byte(row, 5).unwrap_or(0),
        source: exactly(ip, 3),
        mask: exactly(ip, 4),
        destination: exactly(ip, 5).unwrap_or_default(),
        port_start: pair(ip, 9),
        port_end: pair(ip, 10),
    }
}

fn channels_of(configuration: &Element) -> Vec<u32> {
    let channels = all(&configuration.children, 1);
    channels.map(|channel| number(channel.value)).collect()
}

fn timers_of(configuration: Option<&Element>) -> Timers {
    let row = configuration
        .map(|c| c.children.as_slice())
        .unwrap_or_default();
    let mut timers = DEFAULT_TIMERS;
    for (timer, kind) in timers.iter_mut().zip(2..) {
        *timer = pair(row, kind).unwrap_or(*timer);
    }
    timers
}

/// The value of a row's child that has just this many bytes.
fn exactly<const N: usize>(row: &[Element], kind: u8) -> Option<[u8; N]> {
    find(row, kind)?.value.try_into().ok()
}

fn byte(row: &[Element], kind: u8) -> Option<u8> {
    exactly(row, kind).map(u8::from_be_bytes)
}

fn pair(row: &[Element], kind: u8) -> Option<u16> {
    exactly(row, kind).map(u16::from_be_bytes)
}
