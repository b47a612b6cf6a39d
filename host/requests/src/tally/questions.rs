//! Questions about a lent table, by what decides the answer: a UCID at an end of its range or none,
//! the broadcast clients of value 0 and of length 0, the last place of a full list, a classifier with
//! some of its parts, the header of a frame (`headers`), its source (`sources`), what it misses on
//! (`misses`).

use super::marks::{all_marks, marks_line, marks_of};
use super::{headers, misses, sources};
use reference::choosing::choose_rule;
use reference::protocol::tables::write_client;
use reference::protocol::words::or_dash;
use reference::table::{Classifier, Client, Rule, Table};
use reference::table::{CLASSIFIERS_MAX, CLIENTS_MAX, NUMBERS_MAX, RULES_MAX, UCIDS_MAX};

/// UCIDs at their ends or not known, and whether a rule's list has them.
const UCIDS: [(Option<u8>, bool); 5] = [
    (Some(0), true),
    (Some(0), false),
    (Some(255), true),
    (Some(255), false),
    (None, false),
];
/// The broadcast client of value 0 and the one of length 0: the one asked about, and a listed one.
const BROADCASTS: [[Client; 2]; 3] = [
    [Client::Broadcast(0), Client::Broadcast(0)],
    [Client::Broadcast(0), Client::EmptyBroadcast],
    [Client::EmptyBroadcast, Client::Broadcast(0)],
];
/// The lists that are searched, and their room.
const LISTS: [(&str, usize); 5] = [
    ("rules", RULES_MAX),
    ("client IDs", CLIENTS_MAX),
    ("UCIDs", UCIDS_MAX),
    ("classifier numbers", NUMBERS_MAX),
    ("classifiers", CLASSIFIERS_MAX),
];
/// What becomes of a frame that classifiers were asked about.
const JUDGED: [&str; 2] = ["forward", "filtered"];

pub fn lines() -> impl Iterator<Item = String> {
    let marks = JUDGED.into_iter().flat_map(|judged| {
        let said = format!("judge: {judged}");
        all_marks().map(move |marks| marks_line(&said, marks))
    });
    marks
        .chain(UCIDS.map(ucid_line))
        .chain(BROADCASTS.map(broadcast_line))
        .chain(LISTS.map(last_line))
}

fn ucid_line((ucid, listed): (Option<u8>, bool)) -> String {
    let listed = if listed { "listed" } else { "not listed" };
    format!("question: UCID {}, {listed}", or_dash(ucid))
}

fn broadcast_line([asked, listed]: [Client; 2]) -> String {
    let (asked, listed) = (write_client(asked), write_client(listed));
    format!("question: client {asked}, {listed} listed")
}

fn last_line((list, room): (&str, usize)) -> String {
    format!("question: found last of {room} {list}")
}

/// A `choose` or a `judge`, and the table that it is about.
pub struct Question<'t> {
    pub table: &'t Table,
    pub client: Client,
    pub ucid: Option<u8>,
    /// Of a `judge`.
    pub frame: Option<&'t [u8]>,
}

impl<'t> Question<'t> {
    /// The lines that it adds to, with its answer.
    pub fn seen(&self, answer: &str) -> Vec<String> {
        let broadcasts = self.broadcasts().map(broadcast_line);
        let mut lines: Vec<String> = self.ucids().map(ucid_line).chain(broadcasts).collect();
        let chosen = choose_rule(self.table, self.client, self.ucid);
        if let Ok(chosen) = chosen {
            let words: Vec<&str> = answer.split(' ').collect();
            lines.extend(self.found_last(chosen, &words).map(last_line));
            let said = format!("judge: {}", words[0]);
            let rule = &self.table.rules[chosen];
            let frame = self.frame.unwrap_or_default();
            let judged = self.judged(rule, &words);
            for classifier in &judged {
                lines.push(marks_line(&said, marks_of(classifier)));
                lines.extend(headers::seen(frame, classifier, words[0]));
                lines.extend(sources::seen(frame, classifier, words[0]));
            }
            if words[0] == "filtered" {
                lines.extend(misses::seen(frame, &judged));
            }
            if rule.classifiers.is_empty() && words[0] == "forward" {
                lines.extend(headers::seen_unasked(frame, words[0]));
            }
        }
        lines
    }

    /// The UCID, and whether it is in the list of a rule for the client.
    fn ucids(&self) -> impl Iterator<Item = (Option<u8>, bool)> + '_ {
        let decided = |rule: &&Rule| !rule.ucids.is_empty() && rule.clients.contains(&self.client);
        let rules = self.table.rules.iter().filter(decided);
        let listed = |rule: &Rule| self.ucid.is_some_and(|ucid| rule.ucids.contains(&ucid));
        rules
            .map(move |rule| (self.ucid, listed(rule)))
            .filter(|pair| UCIDS.contains(pair))
    }

    fn broadcasts(&self) -> impl Iterator<Item = [Client; 2]> + '_ {
        let listed = self.table.rules.iter().flat_map(|rule| &rule.clients);
        listed
            .map(|&listed| [self.client, listed])
            .filter(|pair| BROADCASTS.contains(pair))
    }

    /// The full lists in whose last place, and in no other, the answer was found.
    fn found_last(
        &self,
        chosen: usize,
        answer: &[&str],
    ) -> impl Iterator<Item = (&'static str, usize)> {
        let rule = &self.table.rules[chosen];
        let (rules, classifiers) = (&self.table.rules, &self.table.classifiers);
        let number = match answer {
            ["forward", number, _] => number.parse().ok(),
            _ => None,
        };
        let client = rule.clients.iter().position(|&id| id == self.client);
        let ucid = rule.ucids.iter().position(|&id| Some(id) == self.ucid);
        let named = rule.classifiers.iter().position(|&id| Some(id) == number);
        let classifier = classifiers.iter().position(|c| Some(c.number) == number);
        let places = [
            (rules.len(), Some(chosen)),
            (rule.clients.len(), client),
            (rule.ucids.len(), ucid),
            (rule.classifiers.len(), named),
            (classifiers.len(), named.and(classifier)),
        ];
        let last = |((_, room), (count, place)): &((&str, usize), (usize, Option<usize>))| {
            count == room && *place == Some(room - 1)
        };
        LISTS
            .into_iter()
            .zip(places)
            .filter(last)
            .map(|(list, _)| list)
    }

    /// The classifier that let a frame pass, or those that did not.
    fn judged(&self, rule: &Rule, answer: &[&str]) -> Vec<&'t Classifier> {
        let named = |c: &&Classifier| rule.classifiers.contains(&c.number);
        let named = self.table.classifiers.iter().filter(named);
        match answer {
            ["filtered"] => named.collect(),
            ["forward", number, _] => {
                let told = |c: &&Classifier| c.number.to_string() == *number;
                match named.filter(told).collect::<Vec<_>>()[..] {
                    [only] => vec![only],
                    _ => Vec::new(),
                }
            }
            _ => Vec::new(),
        }
    }
}
