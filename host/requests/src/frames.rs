//! Random clients and frames for a lent table: ones that fit, and ones that nearly do.

use crate::headers::{disturb, frame_for};
use crate::messages::message_of;
use crate::misses::levelled;
use crate::packets::names_port;
use crate::random::Random;
use crate::tables::{client, free_table, full_table, marked_table, sound_table, ucid};
use reference::protocol::request::Request;
use reference::table::{Classifier, Client, Rule, Table};

/// A lent table and some requests about it.
pub fn scenario(random: &mut Random) -> Vec<Request> {
    let (table, lend) = lent_table(random);
    let many = random.between(4, 24);
    let mut requests = vec![lend];
    requests.extend(questions(random, &table, many));
    requests
}

fn lent_table(random: &mut Random) -> (Table, Request) {
    let table = match random.below(8) {
        0..=1 => sound_table(random),
        2 => marked_table(random),
        3..=4 => full_table(random),
        _ => {
            let table = free_table(random);
            return (table.clone(), Request::TSet(table));
        }
    };
    let message = message_of(random, &table);
    (table, Request::TRead(message))
}

/// So many questions about a table, fewer if no rule of it reaches a client.
pub fn questions(random: &mut Random, table: &Table, many: usize) -> Vec<Request> {
    let reached = |rule: &&Rule| !rule.clients.is_empty();
    let rules: Vec<&Rule> = table.rules.iter().filter(reached).collect();
    let many = if rules.is_empty() { many.min(2) } else { many };
    (0..many).map(|_| question(random, table, &rules)).collect()
}

/// A question about a client of one of these rules, if there are any.
fn question(random: &mut Random, table: &Table, rules: &[&Rule]) -> Request {
    let rule = (!rules.is_empty()).then(|| random.pick(rules));
    let client = near_client(random, rule);
    let ucid = near_ucid(random, rule);
    if random.once_in(4) {
        return Request::Choose(client, ucid);
    }
    let chosen = reference::choosing::choose_rule(table, client, ucid);
    let aimed = chosen.map(|index| &table.rules[index]).ok().or(rule);
    Request::Judge(client, ucid, near_frame(random, table, aimed))
}

/// A client that the rule lists, or one of another kind or value.
fn near_client(random: &mut Random, rule: Option<&Rule>) -> Client {
    match rule {
        Some(rule) if !random.once_in(6) => random.pick(&rule.clients),
        _ => client(random),
    }
}

fn near_ucid(random: &mut Random, rule: Option<&Rule>) -> Option<u8> {
    let listed = rule.filter(|rule| !rule.ucids.is_empty());
    match listed {
        Some(rule) if !random.once_in(6) => Some(random.pick(&rule.ucids)),
        _ => ucid(random),
    }
}

/// A frame for the rule's tunnel and one of its classifiers, as it is or nearly so; of those that miss
/// a third misses on each of port, address and both.
fn near_frame(random: &mut Random, table: &Table, rule: Option<&Rule>) -> Vec<u8> {
    let tunnel = rule.map_or([0xFF; 6], |rule| rule.tunnel);
    let named = |c: &&Classifier| rule.is_some_and(|rule| rule.classifiers.contains(&c.number));
    let candidates: Vec<&Classifier> = table.classifiers.iter().filter(named).collect();
    let classifier = aimed_at(random, &candidates);
    let mut frame = frame_for(random, tunnel, classifier);
    for _ in 0..random.pick(&[0, 0, 0, 1, 1, 1, 2]) {
        disturb(random, &mut frame);
    }
    levelled(random, frame, tunnel, &candidates)
}

/// One of the classifiers, if there are any; often one that names no port, if there is one.
fn aimed_at<'c>(random: &mut Random, named: &[&'c Classifier]) -> Option<&'c Classifier> {
    let mut among = named.to_vec();
    if random.once_in(3) && !named.iter().all(|c| names_port(c)) {
        among.retain(|c| !names_port(c));
    }
    (!among.is_empty()).then(|| random.pick(&among))
}
