//! The numbers of a table that was read: unused places and the values of absent parts are 0.

use dsg::records::{Classifier, Client, Rule, Table, TimerValues};
use reference::table as said;

/// The number that bytes spell, big-endian.
pub fn number(bytes: &[u8]) -> u64 {
    bytes.iter().fold(0, |n, &byte| n << 8 | u64::from(byte))
}

/// An array with the items at its start and empty places behind them.
fn padded<T: Copy + Default, const N: usize>(items: impl IntoIterator<Item = T>) -> [T; N] {
    let mut items = items.into_iter();
    std::array::from_fn(|_| items.next().unwrap_or_default())
}

/// The numbers of a table as a message gives it.
pub fn plain(table: &said::Table) -> Table {
    let [tdsg1, tdsg2, tdsg3, tdsg4] = table.timers;
    Table {
        rulecount: table.rules.len() as u8,
        classifiercount: table.classifiers.len() as u8,
        channelcount: table.channels.len() as u8,
        timers: TimerValues {
            tdsg1,
            tdsg2,
            tdsg3,
            tdsg4,
        },
        channels: padded(table.channels.iter().copied()),
        classifiers: padded(table.classifiers.iter().map(plain_classifier)),
        rules: padded(table.rules.iter().map(plain_rule)),
    }
}

pub fn plain_client(client: &said::Client) -> Client {
    let (kind, value) = match client {
        said::Client::EmptyBroadcast => (0, 0),
        said::Client::Broadcast(value) => (1, u64::from(*value)),
        said::Client::Mac(address) => (2, number(address)),
        said::Client::CaSystem(value) => (3, u64::from(*value)),
        said::Client::Application(value) => (4, u64::from(*value)),
    };
    Client { kind, value }
}

fn plain_rule(rule: &said::Rule) -> Rule {
    Rule {
        number: rule.number,
        priority: rule.priority,
        ucidcount: rule.ucids.len() as u8,
        clientcount: rule.clients.len() as u8,
        numbercount: rule.classifiers.len() as u8,
        ucids: padded(rule.ucids.iter().copied()),
        numbers: padded(rule.classifiers.iter().copied()),
        tunnel: number(&rule.tunnel),
        clients: padded(rule.clients.iter().map(plain_client)),
    }
}

/// The mark of a present part is 1 in a table that was read; dsg.h says no more than that it is not 0.
fn plain_classifier(classifier: &said::Classifier) -> Classifier {
    let address = |part: Option<[u8; 4]>| part.map_or(0, |bytes| number(&bytes) as u32);
    Classifier {
        destination: number(&classifier.destination) as u32,
        source: address(classifier.source),
        mask: address(classifier.mask),
        number: classifier.number,
        start: classifier.port_start.unwrap_or(0),
        end: classifier.port_end.unwrap_or(0),
        priority: classifier.priority,
        hassource: classifier.source.is_some().into(),
        hasmask: classifier.mask.is_some().into(),
        hasstart: classifier.port_start.is_some().into(),
        hasend: classifier.port_end.is_some().into(),
    }
}
