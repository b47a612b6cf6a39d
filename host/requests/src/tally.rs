//! Counts what was seen. Every line that should not be 0 is there from the start, so that a gap in
//! the generator's aim shows.
//!
//!   answers       each answer by request kind, each refusal that the kind can give
//!   collections   bodies by the buffers and records that they meet, messages that `recv` completes
//!   cuts          runs in strict collections, by where they were cut
//!   lent          tables that become lent, by what they hold and where they come from
//!   questions     what is asked of them, by what decides the answer
//!   writes        what is written of them, and taken back
//!   headers       frames that classifiers were asked about, by IP header and port
//!   sources       the same, by source and mask
//!   misses        those that none matched, by what they miss on
//!   marks         which parts a classifier has
//!   modems        rows of the modem's table, broken records, timers about their ends
//!
//! `collections`, `cuts`, `lent` and `modems` each follow a state that requests keep, and name what a
//! request shows of it.

mod answers;
mod collections;
mod cuts;
mod headers;
mod lent;
mod marks;
mod misses;
mod modems;
mod questions;
mod sources;
mod writes;

use collections::Collections;
use cuts::Cuts;
use lent::Lent;
use modems::Modems;
use reference::protocol::request::Request;
use std::collections::{BTreeMap, BTreeSet};

pub struct Tally {
    counts: BTreeMap<String, u64>,
    collections: Collections,
    cuts: Cuts,
    lent: Lent,
    modems: Modems,
}

impl Default for Tally {
    fn default() -> Tally {
        let lines = answers::lines()
            .chain(collections::lines())
            .chain(cuts::lines())
            .chain(lent::lines())
            .chain(questions::lines())
            .chain(headers::lines())
            .chain(sources::lines())
            .chain(misses::lines())
            .chain(writes::lines())
            .chain(modems::lines());
        Tally {
            counts: lines.map(|line| (line, 0)).collect(),
            collections: Collections::default(),
            cuts: Cuts::default(),
            lent: Lent::default(),
            modems: Modems::default(),
        }
    }
}

impl Tally {
    /// Counts a request with its answer, once on each line.
    pub fn count(&mut self, request: &Request, answer: &str) {
        let mut seen = BTreeSet::new();
        seen.extend(answers::seen(request, answer));
        seen.extend(self.collections.seen(request, answer));
        seen.extend(self.cuts.seen(request, answer));
        seen.extend(self.lent.seen(request, answer));
        seen.extend(self.modems.seen(request, answer));
        for line in seen {
            *self.counts.entry(line).or_insert(0) += 1;
        }
    }

    /// How often the line was counted.
    pub fn of(&self, line: &str) -> u64 {
        self.counts.get(line).copied().unwrap_or(0)
    }

    /// Each line with its count.
    pub fn lines(&self) -> impl Iterator<Item = (&str, u64)> {
        self.counts
            .iter()
            .map(|(line, &count)| (line.as_str(), count))
    }
}

/// The words of one of an answer's parts.
fn part(answer: &str, index: usize) -> Option<Vec<&str>> {
    Some(answer.split(" | ").nth(index)?.split(' ').collect())
}
