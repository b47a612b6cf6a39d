//! Tables that no message gives (document 02, Req 01, refusal 19), as far as a table in text can say it.

use reference::table::{Client, Table};

/// Why no message gives a table.
#[derive(Clone, Copy, Debug, PartialEq, Eq)]
pub enum Reason {
    ClassifierNumber0,
    ClassifierNumberTwice,
    RuleNumberTwice,
    NumberUnanswered,
    BroadcastOf0,
    ChannelOf0,
    ChannelOffTheGrid,
    ChannelTooHigh,
    Tdsg1Of0,
    Tdsg2Of0,
}

/// Channels are multiples of it, from it on
const GRID: u32 = 62_500;
/// up to this one.
const CHANNEL_MOST: u32 = 1_000_000_000;

impl Reason {
    pub const ALL: [Reason; 10] = [
        Reason::ClassifierNumber0,
        Reason::ClassifierNumberTwice,
        Reason::RuleNumberTwice,
        Reason::NumberUnanswered,
        Reason::BroadcastOf0,
        Reason::ChannelOf0,
        Reason::ChannelOffTheGrid,
        Reason::ChannelTooHigh,
        Reason::Tdsg1Of0,
        Reason::Tdsg2Of0,
    ];

    pub fn holds(self, table: &Table) -> bool {
        let mut classifiers = table.classifiers.iter().map(|c| c.number);
        let mut channels = table.channels.iter();
        let mut clients = table.rules.iter().flat_map(|rule| &rule.clients);
        match self {
            Reason::ClassifierNumber0 => classifiers.any(|number| number == 0),
            Reason::ClassifierNumberTwice => has_twice(classifiers),
            Reason::RuleNumberTwice => has_twice(table.rules.iter().map(|rule| rule.number)),
            Reason::NumberUnanswered => has_unanswered(table),
            Reason::BroadcastOf0 => clients.any(|&client| client == Client::Broadcast(0)),
            Reason::ChannelOf0 => channels.any(|&hz| hz == 0),
            Reason::ChannelOffTheGrid => channels.any(|&hz| hz <= CHANNEL_MOST && hz % GRID != 0),
            Reason::ChannelTooHigh => channels.any(|&hz| hz > CHANNEL_MOST),
            Reason::Tdsg1Of0 => table.timers[0] == 0,
            Reason::Tdsg2Of0 => table.timers[1] == 0,
        }
    }
}

/// Every reason that holds for a table.
pub fn reasons(table: &Table) -> Vec<Reason> {
    let all = Reason::ALL.into_iter();
    all.filter(|reason| reason.holds(table)).collect()
}

/// Whether some message gives the table.
pub fn is_readable(table: &Table) -> bool {
    reasons(table).is_empty()
}

fn has_twice<N: PartialEq>(numbers: impl Iterator<Item = N>) -> bool {
    let numbers: Vec<N> = numbers.collect();
    let earlier = |at: usize| numbers[..at].contains(&numbers[at]);
    (0..numbers.len()).any(earlier)
}

fn has_unanswered(table: &Table) -> bool {
    let answered = |number| table.classifiers.iter().any(|c| c.number == number);
    let mut named = table.rules.iter().flat_map(|rule| &rule.classifiers);
    named.any(|&number| !answered(number))
}
