//! Tables and client IDs in the protocol's text ("Tables" of the bench protocol).
//!
//! `write_table` and `parse_table` are each other's inverse; a table in text may say anything within
//! document 01's room.

use super::words::{array, commas, hex, list, number, optional, or_dash};
use crate::table::{Classifier, Client, Rule, Table};
use crate::table::{CHANNELS_MAX, CLASSIFIERS_MAX, CLIENTS_MAX, NUMBERS_MAX, RULES_MAX, UCIDS_MAX};

pub fn write_table(table: &Table) -> String {
    let [t1, t2, t3, t4] = table.timers;
    let mut parts = vec![format!("table j128 {t1} {t2} {t3} {t4} -")];
    parts.extend(table.rules.iter().enumerate().map(write_rule));
    parts.extend(table.classifiers.iter().map(write_classifier));
    parts.extend(table.channels.iter().map(|hz| format!("channel {hz}")));
    parts.join(" ; ")
}

fn write_rule((place, rule): (usize, &Rule)) -> String {
    format!(
        "rule {} {} {} {} {} {} - {place}",
        rule.number,
        rule.priority,
        hex(&rule.tunnel),
        commas(&rule.ucids),
        commas(rule.clients.iter().copied().map(write_client)),
        commas(&rule.classifiers),
    )
}

pub fn write_client(client: Client) -> String {
    match client {
        Client::EmptyBroadcast => "0".to_string(),
        Client::Broadcast(value) => format!("1:{value}"),
        Client::Mac(address) => format!("2:{}", hex(&address)),
        Client::CaSystem(value) => format!("3:{value}"),
        Client::Application(value) => format!("4:{value}"),
    }
}

fn write_classifier(classifier: &Classifier) -> String {
    let address = |part: Option<[u8; 4]>| or_dash(part.map(|bytes| hex(&bytes)));
    format!(
        "classifier {} {} {} {} {} {} {}",
        classifier.number,
        classifier.priority,
        address(classifier.source),
        address(classifier.mask),
        hex(&classifier.destination),
        or_dash(classifier.port_start),
        or_dash(classifier.port_end),
    )
}

/// Reads the words of a table.
pub fn parse_table(words: &[&str]) -> Option<Table> {
    let mut parts = words.split(|&word| word == ";");
    let mut table = parse_head(parts.next()?)?;
    for part in parts {
        parse_part(part, &mut table)?;
    }
    Some(table)
}

fn parse_head(words: &[&str]) -> Option<Table> {
    let ["table", "j128", t1, t2, t3, t4, "-"] = words else {
        return None;
    };
    Some(Table {
        timers: [number(t1)?, number(t2)?, number(t3)?, number(t4)?],
        ..Table::default()
    })
}

/// Adds a rule, classifier or channel, if it comes in its order and there is room.
fn parse_part(words: &[&str], table: &mut Table) -> Option<()> {
    let (first, rest) = words.split_first()?;
    let (no_classifier, no_channel) = (table.classifiers.is_empty(), table.channels.is_empty());
    match *first {
        "rule" if no_classifier && no_channel => {
            let rule = parse_rule(rest, table.rules.len())?;
            push_within(&mut table.rules, rule, RULES_MAX)
        }
        "classifier" if no_channel => push_within(
            &mut table.classifiers,
            parse_classifier(rest)?,
            CLASSIFIERS_MAX,
        ),
        "channel" => push_within(&mut table.channels, parse_channel(rest)?, CHANNELS_MAX),
        _ => None,
    }
}

fn push_within<T>(list: &mut Vec<T>, item: T, most: usize) -> Option<()> {
    if list.len() == most {
        return None;
    }
    list.push(item);
    Some(())
}

fn parse_rule(words: &[&str], index: usize) -> Option<Rule> {
    let [num, priority, tunnel, ucids, clients, classifiers, "-", place] = words else {
        return None;
    };
    if number(place) != Some(index) {
        return None;
    }
    Some(Rule {
        number: number(num)?,
        priority: number(priority)?,
        tunnel: array(tunnel)?,
        ucids: list(ucids, UCIDS_MAX, number)?,
        clients: list(clients, CLIENTS_MAX, parse_client)?,
        classifiers: list(classifiers, NUMBERS_MAX, number)?,
    })
}

pub fn parse_client(word: &str) -> Option<Client> {
    if word == "0" {
        return Some(Client::EmptyBroadcast);
    }
    let (kind, value) = word.split_once(':')?;
    match kind {
        "1" => number(value).map(Client::Broadcast),
        "2" => array(value).map(Client::Mac),
        "3" => number(value).map(Client::CaSystem),
        "4" => number(value).map(Client::Application),
        _ => None,
    }
}

fn parse_classifier(words: &[&str]) -> Option<Classifier> {
    let [num, priority, source, mask, destination, start, end] = words else {
        return None;
    };
    Some(Classifier {
        number: number(num)?,
        priority: number(priority)?,
        source: optional(source, array)?,
        mask: optional(mask, array)?,
        destination: array(destination)?,
        port_start: optional(start, number)?,
        port_end: optional(end, number)?,
    })
}

fn parse_channel(words: &[&str]) -> Option<u32> {
    match words {
        [hz] => number(hz),
        _ => None,
    }
}
