//! Tables of chosen numbers, and the messages that give them (document 01, "Elements").

use crate::numbers::Numbers;
use dsg::records::{Classifier, Client, Rule, Table, TimerValues, TABLE_ROOM};
use std::array::from_fn;

/// An element.
fn element(kind: u8, value: &[u8]) -> Vec<u8> {
    [&[kind, value.len() as u8], value].concat()
}

/// The message of a table (document 01, "Elements").
pub fn message_of(table: &Table) -> Vec<u8> {
    let mut message = Vec::new();
    for classifier in &table.classifiers[..table.classifiercount.into()] {
        message.extend(classifier_element(classifier));
    }
    for rule in &table.rules[..table.rulecount.into()] {
        message.extend(rule_element(rule));
    }
    let mut row = Vec::new();
    for channel in &table.channels[..table.channelcount.into()] {
        row.extend(element(1, &channel.to_be_bytes()));
    }
    let TimerValues {
        tdsg1,
        tdsg2,
        tdsg3,
        tdsg4,
    } = table.timers;
    for (kind, timer) in (2..).zip([tdsg1, tdsg2, tdsg3, tdsg4]) {
        row.extend(element(kind, &timer.to_be_bytes()));
    }
    message.extend(element(51, &row));
    message
}

fn classifier_element(c: &Classifier) -> Vec<u8> {
    let mut ip = element(5, &c.destination.to_be_bytes());
    let parts = [
        (c.hassource, element(3, &c.source.to_be_bytes())),
        (c.hasmask, element(4, &c.mask.to_be_bytes())),
        (c.hasstart, element(9, &c.start.to_be_bytes())),
        (c.hasend, element(10, &c.end.to_be_bytes())),
    ];
    ip.extend(
        parts
            .iter()
            .filter(|(mark, _)| *mark == 1)
            .flat_map(|(_, part)| part),
    );
    let number = element(2, &c.number.to_be_bytes());
    element(
        23,
        &[number, element(5, &[c.priority]), element(9, &ip)].concat(),
    )
}

fn rule_element(rule: &Rule) -> Vec<u8> {
    let clients = rule.clients[..rule.clientcount.into()]
        .iter()
        .flat_map(client_element);
    let mut row = [
        element(1, &[rule.number]),
        element(2, &[rule.priority]),
        element(4, &clients.collect::<Vec<u8>>()),
        element(5, &rule.tunnel.to_be_bytes()[2..]),
    ]
    .concat();
    if rule.ucidcount > 0 {
        row.extend(element(3, &rule.ucids[..rule.ucidcount.into()]));
    }
    for number in &rule.numbers[..rule.numbercount.into()] {
        row.extend(element(6, &number.to_be_bytes()));
    }
    element(50, &row)
}

fn client_element(client: &Client) -> Vec<u8> {
    let value = client.value.to_be_bytes();
    match client.kind {
        0 => element(1, &[]),
        2 => element(2, &value[2..]),
        kind => element(kind, &value[6..]),
    }
}

/// The items at an array's start; the other places are unused and hold 0.
fn places<T: Copy + Default, const N: usize>(
    used: usize,
    mut item: impl FnMut(usize) -> T,
) -> [T; N] {
    from_fn(|at| if at < used { item(at) } else { T::default() })
}

/// A table that a message can give.
pub fn table(numbers: &mut Numbers) -> Table {
    let [rules, classifiers, channels] = from_fn(|_| numbers.count(TABLE_ROOM));
    let (first, other) = (numbers.byte(), numbers.between(1, 65_000) as u16);
    Table {
        rulecount: rules as u8,
        classifiercount: classifiers as u8,
        channelcount: channels as u8,
        timers: TimerValues {
            tdsg1: numbers.between(1, 65_535) as u16,
            tdsg2: numbers.between(1, 65_535) as u16,
            tdsg3: numbers.pair(),
            tdsg4: numbers.pair(),
        },
        channels: places(channels, |_| 62_500 * numbers.between(1, 16_000) as u32),
        classifiers: places(classifiers, |at| Classifier {
            number: other + at as u16,
            ..classifier(numbers)
        }),
        rules: places(rules, |at| Rule {
            number: first.wrapping_add(at as u8),
            ..rule(numbers, other, classifiers)
        }),
    }
}

fn classifier(numbers: &mut Numbers) -> Classifier {
    let [hassource, hasmask, hasstart, hasend] = from_fn(|_| numbers.between(0, 1) as u8);
    Classifier {
        destination: numbers.long(),
        source: numbers.long() * u32::from(hassource),
        mask: numbers.long() * u32::from(hasmask),
        number: 0,
        start: numbers.pair() * u16::from(hasstart),
        end: numbers.pair() * u16::from(hasend),
        priority: numbers.byte(),
        hassource,
        hasmask,
        hasstart,
        hasend,
    }
}

/// A rule that names some of so many classifiers, whose numbers begin with the first.
fn rule(numbers: &mut Numbers, first: u16, classifiers: usize) -> Rule {
    let (ucids, clients) = (numbers.count(16), numbers.count(8));
    let named = if classifiers > 0 { numbers.count(8) } else { 0 };
    Rule {
        number: 0,
        priority: numbers.byte(),
        ucidcount: ucids as u8,
        clientcount: clients as u8,
        numbercount: named as u8,
        ucids: places(ucids, |_| numbers.byte()),
        numbers: places(named, |_| {
            first + numbers.between(0, classifiers as u64 - 1) as u16
        }),
        tunnel: numbers.address(),
        clients: places(clients, |_| client(numbers)),
    }
}

fn client(numbers: &mut Numbers) -> Client {
    let kind = numbers.between(0, 4) as u8;
    let value = match kind {
        0 => 0,
        2 => numbers.address(),
        _ => numbers.between(1, 65_535),
    };
    Client { kind, value }
}

/// A full table: every rule lists eight clients, of any kinds and values.
pub fn full(numbers: &mut Numbers) -> Table {
    Table {
        rulecount: 32,
        classifiercount: 32,
        channelcount: 32,
        timers: table(numbers).timers,
        channels: from_fn(|_| numbers.long()),
        classifiers: from_fn(|at| Classifier {
            number: at as u16 + 1_000,
            ..classifier(numbers)
        }),
        rules: from_fn(|at| Rule {
            number: at as u8,
            clientcount: 8,
            clients: from_fn(|_| Client {
                kind: numbers.byte(),
                value: numbers.word(),
            }),
            ..rule(numbers, 1_000, 32)
        }),
    }
}
