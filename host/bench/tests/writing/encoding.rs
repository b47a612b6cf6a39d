//! The plain encoding of a table record, and what follows from it (document 02, Req 01).
//!
//! Every record has one: of a list the places up to its count, as far as there are places, of a number the bytes of its
//! element, of a classifier the parts whose mark is not 0.

use dsg::ffi::{self, Written};
use dsg::records::{Classifier, Client, Rule, Table, TimerValues};
use std::array::from_fn;

const PIECE: usize = 1_497;
const STEP: usize = 1_500;
/// Tdsg1 to Tdsg4 where a message has none.
const USUAL: [u16; 4] = [2, 600, 300, 1_800];

fn element(kind: u8, value: &[u8]) -> Vec<u8> {
    [&[kind, value.len() as u8], value].concat()
}

fn used<T>(places: &[T], count: u8) -> &[T] {
    &places[..places.len().min(count.into())]
}

fn elements(table: &Table) -> Vec<Vec<u8>> {
    let row = configuration_row(table);
    let configuration = (!row.is_empty()).then(|| element(51, &row));
    let classifiers = used(&table.classifiers, table.classifiercount);
    let rules = used(&table.rules, table.rulecount);
    let rest = classifiers
        .iter()
        .map(classifier)
        .chain(rules.iter().map(rule));
    configuration.into_iter().chain(rest).collect()
}

fn configuration_row(table: &Table) -> Vec<u8> {
    let channels = used(&table.channels, table.channelcount).iter();
    let mut row: Vec<u8> = channels
        .flat_map(|hertz| element(1, &hertz.to_be_bytes()))
        .collect();
    let TimerValues {
        tdsg1,
        tdsg2,
        tdsg3,
        tdsg4,
    } = table.timers;
    for ((kind, timer), usual) in (2..).zip([tdsg1, tdsg2, tdsg3, tdsg4]).zip(USUAL) {
        if timer != usual {
            row.extend(element(kind, &timer.to_be_bytes()));
        }
    }
    row
}

fn classifier(c: &Classifier) -> Vec<u8> {
    let parts = [
        (c.hassource, element(3, &c.source.to_be_bytes())),
        (c.hasmask, element(4, &c.mask.to_be_bytes())),
        (1, element(5, &c.destination.to_be_bytes())),
        (c.hasstart, element(9, &c.start.to_be_bytes())),
        (c.hasend, element(10, &c.end.to_be_bytes())),
    ];
    let present = parts.into_iter().filter(|(mark, _)| *mark != 0);
    let row = [
        element(2, &c.number.to_be_bytes()),
        element(5, &[c.priority]),
        element(9, &present.flat_map(|(_, part)| part).collect::<Vec<u8>>()),
    ];
    element(23, &row.concat())
}

fn rule(r: &Rule) -> Vec<u8> {
    let ucids = used(&r.ucids, r.ucidcount);
    let clients = used(&r.clients, r.clientcount).iter().flat_map(client);
    let numbers = used(&r.numbers, r.numbercount).iter();
    let row = [
        element(1, &[r.number]),
        element(2, &[r.priority]),
        if ucids.is_empty() {
            vec![]
        } else {
            element(3, ucids)
        },
        element(4, &clients.collect::<Vec<u8>>()),
        element(5, &r.tunnel.to_be_bytes()[2..]),
        numbers
            .flat_map(|number| element(6, &number.to_be_bytes()))
            .collect(),
    ];
    element(50, &row.concat())
}

fn client(client: &Client) -> Vec<u8> {
    let value = client.value.to_be_bytes();
    match client.kind {
        0 => element(1, &[]),
        2 => element(2, &value[2..]),
        kind => element(kind, &value[6..]),
    }
}

/// Whether reading can produce the record: its plain encoding, read over another table, gives it back field by field.
pub fn reads_back(table: &Table, other: &Table) -> bool {
    let mut read = *other;
    let answer = ffi::read(&mut read, &elements(table).concat());
    answer.number == 0 && read == *table
}

/// The bodies of the message: each filled as far as the next element allows.
pub fn bodies(table: &Table, count: u8) -> Vec<Vec<u8>> {
    let mut parts = vec![Vec::new()];
    for element in elements(table) {
        match parts.last_mut() {
            Some(part) if part.len() + element.len() <= PIECE => part.extend(element),
            _ => parts.push(element),
        }
    }
    let number = parts.len() as u8;
    let numbered = (1..).zip(parts);
    numbered
        .map(|(sequence, part)| [&[count, number, sequence], &part[..]].concat())
        .collect()
}

/// How many bytes bodies need.
pub fn need(bodies: &[Vec<u8>]) -> usize {
    let last = bodies.last().map_or(0, Vec::len);
    (bodies.len() - 1) * STEP + last
}

/// The answer to so many bodies, and the buffer with them.
pub fn written(bodies: &[Vec<u8>], given: &[u8]) -> (Written, Vec<u8>) {
    let mut out = given.to_vec();
    for (at, body) in bodies.iter().enumerate() {
        out[at * STEP..][..body.len()].copy_from_slice(body);
    }
    let answer = Written {
        number: 0,
        pieces: bodies.len() as u32,
        lengths: from_fn(|at| bodies.get(at).map_or(0, |body| body.len() as u16)),
    };
    (answer, out)
}

/// The answer to a table that is refused.
pub fn refused(number: u32) -> Written {
    Written {
        number,
        pieces: 0,
        lengths: [0; 16],
    }
}
