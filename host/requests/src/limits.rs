//! One value of a table moved to a side of its limit: beyond it no message gives the table (document 02,
//! Req 01, refusal 19), up to it some message does, however odd the table looks.

use crate::random::Random;
use crate::tables::{free_classifier, free_rule};
use reference::table::{Classifier, Client, Rule, Table, DEFAULT_TIMERS};
use reference::table::{CHANNELS_MAX, CLASSIFIERS_MAX, CLIENTS_MAX, NUMBERS_MAX, RULES_MAX};

/// Client IDs of each kind with values at their ends; broadcast 0 is the one that no message gives.
const CLIENTS: [Client; 10] = [
    Client::EmptyBroadcast,
    Client::Broadcast(0),
    Client::Broadcast(1),
    Client::Broadcast(65_535),
    Client::Mac([0; 6]),
    Client::Mac([255; 6]),
    Client::CaSystem(0),
    Client::CaSystem(65_535),
    Client::Application(0),
    Client::Application(65_535),
];
/// Channels about the ends of their range and about the grid.
const CHANNELS: [u32; 14] = [
    0,
    0,
    1,
    62_499,
    62_500,
    62_501,
    125_000,
    999_937_500,
    999_999_999,
    1_000_000_000,
    1_000_000_001,
    1_000_062_500,
    4_294_937_500,
    4_294_967_295,
];

/// Moves one value; what was sound before stays so in all other places.
pub fn move_value(random: &mut Random, table: &mut Table) {
    match random.below(20) {
        0..=1 => move_classifier_number(random, table),
        2 => repeat_classifier_number(random, table),
        3..=4 => move_rule_number(random, table),
        5 => name_number(random, table),
        6..=9 => list_client(random, table),
        10 => some_rule(random, table).tunnel = random.pick(&[[0; 6], [255; 6]]),
        11..=12 => list_channel(random, table),
        13..=16 => move_timer(random, table),
        17 => move_priority(random, table),
        18 => move_part(random, table),
        _ => repeat_entry(random, table),
    }
}

/// Any rule of the table, a new one if there is none.
fn some_rule<'t>(random: &mut Random, table: &'t mut Table) -> &'t mut Rule {
    if table.rules.is_empty() {
        table.rules.push(Rule {
            clients: Vec::new(),
            classifiers: Vec::new(),
            ..free_rule(random)
        });
    }
    let at = random.below(table.rules.len());
    &mut table.rules[at]
}

/// Where any classifier of the table stands, a new one if there is none.
fn some_classifier(random: &mut Random, table: &mut Table) -> usize {
    if table.classifiers.is_empty() {
        table.classifiers.push(Classifier {
            number: 1,
            ..free_classifier(random)
        });
    }
    random.below(table.classifiers.len())
}

/// Gives a classifier a number at an end; rules that name it follow.
fn move_classifier_number(random: &mut Random, table: &mut Table) {
    let at = some_classifier(random, table);
    let old = table.classifiers[at].number;
    let new = random.pick(&[0, 0, 1, 65_535]);
    if table.classifiers.iter().any(|c| c.number == new) {
        return;
    }
    table.classifiers[at].number = new;
    let named = table
        .rules
        .iter_mut()
        .flat_map(|rule| &mut rule.classifiers);
    for number in named.filter(|number| **number == old) {
        *number = new;
    }
}

/// Another classifier with the number of one that is there.
fn repeat_classifier_number(random: &mut Random, table: &mut Table) {
    let at = some_classifier(random, table);
    let number = table.classifiers[at].number;
    let copy = Classifier {
        number,
        ..free_classifier(random)
    };
    if table.classifiers.len() < CLASSIFIERS_MAX {
        let at = random.below(table.classifiers.len() + 1);
        table.classifiers.insert(at, copy);
        return;
    }
    // the numbers of the one that goes are named no more
    let gone = (at + random.between(1, CLASSIFIERS_MAX - 1)) % CLASSIFIERS_MAX;
    let old = std::mem::replace(&mut table.classifiers[gone], copy).number;
    for rule in &mut table.rules {
        rule.classifiers.retain(|&named| named != old);
    }
}

/// Gives a rule a number at an end, or that of another.
fn move_rule_number(random: &mut Random, table: &mut Table) {
    let other = some_rule(random, table).clone();
    if random.once_in(2) && table.rules.len() < RULES_MAX {
        let at = random.below(table.rules.len() + 1);
        return table.rules.insert(at, other);
    }
    let end = random.pick(&[0, 255]);
    let number = random.pick(&[end, end, other.number]);
    some_rule(random, table).number = number;
}

/// Has a rule name a number that some classifier has, or one about it.
fn name_number(random: &mut Random, table: &mut Table) {
    let at = some_classifier(random, table);
    let there = table.classifiers[at].number;
    let number = random.pick(&[there, there.wrapping_add(1), 0, 65_535]);
    let rule = some_rule(random, table);
    put(random, &mut rule.classifiers, number, NUMBERS_MAX);
}

fn list_client(random: &mut Random, table: &mut Table) {
    let client = random.pick(&CLIENTS);
    let rule = some_rule(random, table);
    put(random, &mut rule.clients, client, CLIENTS_MAX);
}

fn list_channel(random: &mut Random, table: &mut Table) {
    let channel = random.pick(&CHANNELS);
    put(random, &mut table.channels, channel, CHANNELS_MAX);
}

/// Puts an entry anywhere in a list, in the place of others if there are too many.
fn put<T>(random: &mut Random, list: &mut Vec<T>, entry: T, most: usize) {
    while list.len() >= most {
        list.remove(random.below(list.len()));
    }
    list.insert(random.below(list.len() + 1), entry);
}

/// Sets one timer to an end or to what some timer usually is; often the others are usual, and often there
/// is no channel then.
fn move_timer(random: &mut Random, table: &mut Table) {
    let which = random.below(3);
    if which > 0 {
        table.timers = DEFAULT_TIMERS;
    }
    if which > 1 {
        table.channels.clear();
    }
    let usual = random.pick(&DEFAULT_TIMERS);
    table.timers[random.below(4)] = random.pick(&[0, 0, 1, usual, usual, 65_535]);
}

fn move_priority(random: &mut Random, table: &mut Table) {
    let priority = random.pick(&[0, 255]);
    if random.once_in(2) {
        some_rule(random, table).priority = priority;
    } else {
        let at = some_classifier(random, table);
        table.classifiers[at].priority = priority;
    }
}

/// Ports the wrong way round, a mask alone, or parts that are there and 0.
fn move_part(random: &mut Random, table: &mut Table) {
    let at = some_classifier(random, table);
    let classifier = &mut table.classifiers[at];
    match random.below(6) {
        0 => (classifier.port_start, classifier.port_end) = (Some(65_535), Some(0)),
        1 => (classifier.port_start, classifier.port_end) = (Some(2), Some(1)),
        2 => (classifier.source, classifier.mask) = (None, Some([255; 4])),
        3 => classifier.source = Some([0; 4]),
        4 => classifier.mask = Some([0; 4]),
        _ => classifier.destination = random.pick(&[[0; 4], [255; 4]]),
    }
}

/// Has a list say something twice.
fn repeat_entry(random: &mut Random, table: &mut Table) {
    let which = random.below(4);
    if which == 3 {
        let channel = 62_500 * random.between(1, 16_000) as u32;
        put(random, &mut table.channels, channel, CHANNELS_MAX - 1);
        return put(random, &mut table.channels, channel, CHANNELS_MAX);
    }
    let rule = some_rule(random, table);
    match which {
        0 => rule.ucids = vec![random.byte(); random.between(2, 16)],
        1 => rule.clients = vec![random.pick(&CLIENTS[2..]); random.between(2, CLIENTS_MAX)],
        _ => {
            if let Some(&number) = rule.classifiers.first() {
                put(random, &mut rule.classifiers, number, NUMBERS_MAX);
            }
        }
    }
}
