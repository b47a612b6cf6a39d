//! Random tables: sound ones, that a message can give, and free ones, that a host may lend all the
//! same. Values come from small pools, so that clients, rules and classifiers meet.

use crate::random::Random;
use reference::table::{Classifier, Client, Rule, Table, DEFAULT_TIMERS};
use reference::table::{
    CHANNELS_MAX, CLASSIFIERS_MAX, CLIENTS_MAX, NUMBERS_MAX, RULES_MAX, UCIDS_MAX,
};

const TUNNELS: [[u8; 6]; 3] = [
    [0x01, 0x00, 0x5E, 0x0A, 0x00, 0x01],
    [0x01, 0x00, 0x5E, 0x0A, 0x00, 0x02],
    [0x02, 0x00, 0x00, 0x00, 0x00, 0x01],
];
const PRIORITIES: [u8; 6] = [0, 1, 9, 10, 80, 255];
const MACS: [[u8; 6]; 2] = [
    [0, 0x10, 0x20, 0x30, 0x40, 0x50],
    [0, 0x10, 0x20, 0x30, 0x40, 0x51],
];
const VALUES: [u16; 5] = [1, 2, 42, 256, 65_535];
const DESTINATIONS: [[u8; 4]; 3] = [[224, 0, 0, 9], [224, 0, 0, 8], [239, 255, 1, 2]];
const SOURCES: [[u8; 4]; 4] = [[10, 1, 2, 0], [10, 1, 2, 3], [10, 1, 0, 0], [0, 0, 0, 0]];
const MASKS: [[u8; 4]; 5] = [
    [255, 255, 255, 0],
    [255, 255, 255, 255],
    [255, 255, 0, 0],
    [0, 0, 0, 0],
    [255, 0, 255, 1],
];
const PORTS: [u16; 6] = [0, 1, 1_000, 8_192, 65_534, 65_535];
const UCIDS: [u8; 4] = [0, 1, 7, 255];

/// A table that some message gives.
pub fn sound_table(random: &mut Random) -> Table {
    let mut table = free_table(random);
    let mut rule_numbers: Vec<u8> = (0..=255).collect();
    random.shuffle(&mut rule_numbers);
    for (rule, number) in table.rules.iter_mut().zip(rule_numbers) {
        rule.number = number;
    }
    number_classifiers(random, &mut table.classifiers);
    let numbers: Vec<u16> = table.classifiers.iter().map(|c| c.number).collect();
    for rule in &mut table.rules {
        rule.clients
            .retain(|&client| client != Client::Broadcast(0));
        rule.classifiers.retain(|_| !numbers.is_empty());
        for named in &mut rule.classifiers {
            *named = random.pick(&numbers);
        }
    }
    for channel in &mut table.channels {
        *channel = 62_500 * random.pick(&[1, 2, 9_648, 15_999, 16_000]);
    }
    for (timer, default) in table.timers.iter_mut().zip(DEFAULT_TIMERS).take(2) {
        *timer = if *timer == 0 { default } else { *timer };
    }
    table
}

/// A sound table of sixteen rules, each for a client of its own and with a classifier of its own:
/// together the classifiers have each of their four parts, or not, in all sixteen ways.
pub fn marked_table(random: &mut Random) -> Table {
    let mut table = Table::default();
    for marks in 0..16 {
        table.rules.push(Rule {
            number: marks,
            clients: vec![Client::Application(marks.into())],
            ..free_rule(random)
        });
        let marked = |part: u8| marks >> part & 1 == 1;
        table.classifiers.push(Classifier {
            source: marked(0).then(|| random.pick(&SOURCES)),
            mask: marked(1).then(|| random.pick(&MASKS)),
            port_start: marked(2).then(|| random.pick(&PORTS)),
            port_end: marked(3).then(|| random.pick(&PORTS)),
            ..free_classifier(random)
        });
    }
    number_classifiers(random, &mut table.classifiers);
    for (rule, classifier) in table.rules.iter_mut().zip(&table.classifiers) {
        rule.classifiers = vec![classifier.number];
    }
    random.shuffle(&mut table.rules);
    table
}

/// A sound table with every list full and nothing twice in a list, so that each place decides for
/// someone.
pub fn full_table(random: &mut Random) -> Table {
    let mut table = Table {
        rules: (0..RULES_MAX).map(|_| free_rule(random)).collect(),
        classifiers: (0..CLASSIFIERS_MAX)
            .map(|_| free_classifier(random))
            .collect(),
        channels: (1..=CHANNELS_MAX as u32).map(|n| 62_500 * n).collect(),
        ..Table::default()
    };
    number_classifiers(random, &mut table.classifiers);
    let numbers: Vec<u16> = table.classifiers.iter().map(|c| c.number).collect();
    let rule_numbers = different(random, 0..=255, RULES_MAX);
    for (rule, number) in table.rules.iter_mut().zip(rule_numbers) {
        rule.number = number;
        rule.ucids = different(random, 0..=255, UCIDS_MAX);
        let first = random.pick(&[0, CLASSIFIERS_MAX - NUMBERS_MAX]);
        rule.classifiers = different(random, numbers[first..].to_vec(), NUMBERS_MAX);
    }
    for (value, rule) in (1..).step_by(CLIENTS_MAX).zip(&mut table.rules) {
        rule.clients = (value..).map(client_of).take(CLIENTS_MAX).collect();
    }
    table
}

/// So many of the items, in any order.
fn different<T>(random: &mut Random, items: impl IntoIterator<Item = T>, count: usize) -> Vec<T> {
    let mut items: Vec<T> = items.into_iter().collect();
    random.shuffle(&mut items);
    items.truncate(count);
    items
}

/// A client for each value, other than 0, and of each kind in turn.
fn client_of(value: u16) -> Client {
    match value % 4 {
        0 => Client::Broadcast(value),
        1 => Client::Mac([0, 0x10, 0x20, 0x30, 0x40, value as u8]),
        2 => Client::CaSystem(value),
        _ => Client::Application(value),
    }
}

/// Numbers that differ, from 1 on or up to 65,535.
fn number_classifiers(random: &mut Random, classifiers: &mut [Classifier]) {
    let first = random.pick(&[1, 255, 65_536 - CLASSIFIERS_MAX]);
    let mut numbers: Vec<usize> = (first..first + CLASSIFIERS_MAX).collect();
    random.shuffle(&mut numbers);
    for (classifier, number) in classifiers.iter_mut().zip(numbers) {
        classifier.number = number as u16;
    }
}

/// Any table within document 01's room.
pub fn free_table(random: &mut Random) -> Table {
    Table {
        timers: timers(random),
        rules: many(random, RULES_MAX, free_rule),
        classifiers: many(random, CLASSIFIERS_MAX, free_classifier),
        channels: many(random, CHANNELS_MAX, |random| random.word() as u32),
    }
}

/// Four timer values, often the default ones and often at their ends.
pub fn timers(random: &mut Random) -> [u16; 4] {
    DEFAULT_TIMERS.map(|default| {
        let other = random.pair();
        random.pick(&[default, default, other])
    })
}

pub fn free_rule(random: &mut Random) -> Rule {
    let differing = random.once_in(3);
    let listed = |random: &mut Random| {
        let any = random.byte();
        if differing {
            any
        } else {
            random.pick(&UCIDS)
        }
    };
    Rule {
        number: random.pick(&[0, 1, 2, 3, 200, 255]),
        priority: random.pick(&PRIORITIES),
        tunnel: random.pick(&TUNNELS),
        ucids: many(random, UCIDS_MAX, listed),
        clients: many(random, CLIENTS_MAX, client),
        classifiers: many(random, NUMBERS_MAX, classifier_number),
    }
}

pub fn free_classifier(random: &mut Random) -> Classifier {
    let (source, mask) = (random.pick(&SOURCES), random.pick(&MASKS));
    let (start, end) = (random.pick(&PORTS), random.pick(&PORTS));
    Classifier {
        number: classifier_number(random),
        priority: random.pick(&PRIORITIES),
        source: random.maybe(source),
        mask: random.maybe(mask),
        destination: random.pick(&DESTINATIONS),
        port_start: random.maybe(start),
        port_end: random.maybe(end),
    }
}

fn classifier_number(random: &mut Random) -> u16 {
    random.pick(&[0, 1, 2, 3, 4, 65_535])
}

/// A client ID, now and then the one that no message gives.
pub fn client(random: &mut Random) -> Client {
    let value = random.pick(&VALUES);
    match random.below(16) {
        0 => Client::Broadcast(0),
        1..=3 => Client::EmptyBroadcast,
        4..=6 => Client::Broadcast(value),
        7..=9 => Client::Mac(random.pick(&MACS)),
        10..=12 => Client::CaSystem(value),
        _ => Client::Application(value),
    }
}

/// A UCID that rules list, another one, or none.
pub fn ucid(random: &mut Random) -> Option<u8> {
    let (listed, any) = (random.pick(&UCIDS), random.byte());
    random.pick(&[Some(listed), Some(listed), Some(any), None])
}

/// None, a few, or about as many as there is room for.
fn many<T>(random: &mut Random, most: usize, make: impl Fn(&mut Random) -> T) -> Vec<T> {
    let few = random.between(1, most.min(4));
    let count = random.pick(&[0, 1, few, few, few, few, most - 1, most]);
    (0..count).map(|_| make(random)).collect()
}
