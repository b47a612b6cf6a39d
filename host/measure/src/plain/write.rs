//! A table becomes the bodies of a message in a lent buffer, or is refused.

use super::readable::is_readable;
use dsg::records::{Classifier, Client, Rule, Table};

/// The most bytes of a message in a body.
const PIECE_MOST: usize = 1_497;
/// From the start of a body to the start of the next.
const STEP: usize = 1_500;
/// What stands before a piece in its body.
const HEAD: usize = 3;
/// Tdsg1 to Tdsg4 where the message says nothing of them.
const USUAL: [u16; 4] = [2, 600, 300, 1800];

/// How many bodies were written, and how many bytes each has.
#[derive(Clone, Copy, Debug, PartialEq, Eq)]
pub struct Written {
    pub number: u8,
    pub lengths: [u16; 16],
}

fn configuration_length(table: &Table) -> usize {
    let timers = <[u16; 4]>::from(table.timers);
    let unusual = timers.iter().zip(USUAL).filter(|(t, usual)| *t != usual);
    6 * usize::from(table.channelcount) + 4 * unusual.count()
}

fn parts_length(c: &Classifier) -> usize {
    let addresses = usize::from(c.hassource) + usize::from(c.hasmask) + 1;
    let ports = usize::from(c.hasstart) + usize::from(c.hasend);
    6 * addresses + 4 * ports
}

fn classifier_length(c: &Classifier) -> usize {
    9 + parts_length(c)
}

fn client_length(client: &Client) -> usize {
    match client.kind {
        0 => 2,
        2 => 8,
        _ => 4,
    }
}

fn clients_length(rule: &Rule) -> usize {
    let clients = &rule.clients[..usize::from(rule.clientcount)];
    clients.iter().map(client_length).sum()
}

fn rule_length(rule: &Rule) -> usize {
    let ucids = match rule.ucidcount {
        0 => 0,
        n => 2 + usize::from(n),
    };
    16 + ucids + clients_length(rule) + 4 * usize::from(rule.numbercount)
}

fn classifiers(table: &Table) -> &[Classifier] {
    &table.classifiers[..usize::from(table.classifiercount)]
}

fn rules(table: &Table) -> &[Rule] {
    &table.rules[..usize::from(table.rulecount)]
}

/// The lengths of the values of all top-level elements.
fn lengths(table: &Table) -> impl Iterator<Item = usize> + '_ {
    let configuration = Some(configuration_length(table)).filter(|&length| length > 0);
    let classifiers = classifiers(table).iter().map(classifier_length);
    let rules = rules(table).iter().map(rule_length);
    configuration.into_iter().chain(classifiers).chain(rules)
}

/// The bodies that the elements fill.
fn cut(table: &Table) -> Written {
    let mut written = Written {
        number: 1,
        lengths: [0; 16],
    };
    let mut filled = 0;
    for length in lengths(table) {
        if filled + 2 + length > PIECE_MOST {
            written.lengths[usize::from(written.number) - 1] = (HEAD + filled) as u16;
            written.number += 1;
            filled = 0;
        }
        filled += 2 + length;
    }
    written.lengths[usize::from(written.number) - 1] = (HEAD + filled) as u16;
    written
}

/// Where the next byte goes.
struct Writer<'o> {
    out: &'o mut [u8],
    count: u8,
    number: u8,
    /// Of the present body, from 1.
    sequence: u8,
    at: usize,
}

impl Writer<'_> {
    fn begin_body(&mut self) {
        self.sequence += 1;
        self.at = usize::from(self.sequence - 1) * STEP;
        self.put([self.count, self.number, self.sequence]);
    }

    /// The head of a top-level element, in the next body where this one has no room for it.
    fn top(&mut self, kind: u8, length: usize) {
        let start = usize::from(self.sequence - 1) * STEP;
        if self.at + 2 + length > start + STEP {
            self.begin_body();
        }
        self.head(kind, length);
    }

    fn put<const N: usize>(&mut self, bytes: [u8; N]) {
        self.out[self.at..self.at + N].copy_from_slice(&bytes);
        self.at += N;
    }

    fn head(&mut self, kind: u8, length: usize) {
        self.put([kind, length as u8]);
    }

    fn byte(&mut self, kind: u8, value: u8) {
        self.put([kind, 1, value]);
    }

    fn pair(&mut self, kind: u8, value: u16) {
        let [a, b] = value.to_be_bytes();
        self.put([kind, 2, a, b]);
    }

    fn address(&mut self, kind: u8, value: u32) {
        let [a, b, c, d] = value.to_be_bytes();
        self.put([kind, 4, a, b, c, d]);
    }

    fn mac(&mut self, kind: u8, value: u64) {
        let [_, _, a, b, c, d, e, f] = value.to_be_bytes();
        self.put([kind, 6, a, b, c, d, e, f]);
    }

    fn configuration(&mut self, table: &Table) {
        let length = configuration_length(table);
        if length == 0 {
            return;
        }
        self.top(51, length);
        for &channel in &table.channels[..usize::from(table.channelcount)] {
            self.address(1, channel);
        }
        let timers = <[u16; 4]>::from(table.timers);
        for ((kind, timer), usual) in (2..).zip(timers).zip(USUAL) {
            if timer != usual {
                self.pair(kind, timer);
            }
        }
    }

    fn classifier(&mut self, c: &Classifier) {
        self.top(23, classifier_length(c));
        self.pair(2, c.number);
        self.byte(5, c.priority);
        self.head(9, parts_length(c));
        if c.hassource == 1 {
            self.address(3, c.source);
        }
        if c.hasmask == 1 {
            self.address(4, c.mask);
        }
        self.address(5, c.destination);
        if c.hasstart == 1 {
            self.pair(9, c.start);
        }
        if c.hasend == 1 {
            self.pair(10, c.end);
        }
    }

    fn client(&mut self, client: &Client) {
        match client.kind {
            0 => self.head(1, 0),
            2 => self.mac(2, client.value),
            kind => self.pair(kind, client.value as u16),
        }
    }

    fn rule(&mut self, rule: &Rule) {
        self.top(50, rule_length(rule));
        self.byte(1, rule.number);
        self.byte(2, rule.priority);
        let ucids = &rule.ucids[..usize::from(rule.ucidcount)];
        if !ucids.is_empty() {
            self.head(3, ucids.len());
            self.out[self.at..self.at + ucids.len()].copy_from_slice(ucids);
            self.at += ucids.len();
        }
        self.head(4, clients_length(rule));
        for client in &rule.clients[..usize::from(rule.clientcount)] {
            self.client(client);
        }
        self.mac(5, rule.tunnel);
        for &number in &rule.numbers[..usize::from(rule.numbercount)] {
            self.pair(6, number);
        }
    }
}

/// Writes a table as the bodies of a message under that count, or gives the refusal and leaves the buffer as it was.
#[inline(never)]
pub fn write_table(table: &Table, count: u8, out: &mut [u8]) -> Result<Written, u8> {
    if !is_readable(table) {
        return Err(19);
    }
    let written = cut(table);
    let last = usize::from(written.number) - 1;
    if out.len() < last * STEP + usize::from(written.lengths[last]) {
        return Err(20);
    }
    let mut writer = Writer {
        out,
        count,
        number: written.number,
        sequence: 0,
        at: 0,
    };
    writer.begin_body();
    writer.configuration(table);
    for classifier in classifiers(table) {
        writer.classifier(classifier);
    }
    for rule in rules(table) {
        writer.rule(rule);
    }
    Ok(written)
}
