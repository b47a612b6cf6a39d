//! Writes a DCD from a table, for a head end (document 02, Req 01, refusals 19 and 20).
//!
//! The message is the configuration, unless it would be empty, then every classifier, then every
//! rule, in table order. It is cut only between these elements, and a piece is filled as far as the
//! next element allows. Pieces are written as whole bodies at steps of 1,500 bytes; no other byte of
//! the output buffer changes, and none at a refusal.
//!
//! Elements are made of any table, also of one that no message gives. Whether reading can produce the
//! table is asked of the reader: it must accept these elements and give the same table, field by
//! field. What reading gives, reading can produce, so no other table passes; and a table that it can
//! produce passes, since these elements say every field of it.

use crate::collecting::PIECE_MAX;
use crate::table::{read_table, Classifier, Client, Rule, Table, DEFAULT_TIMERS};
use crate::Refusal;

/// Where bodies begin in the output buffer: body s (from 0) at s x 1,500.
pub const BODY_STEP: usize = 1_500;

/// Writes the table under a change count; gives the lengths of the bodies, heads included.
pub fn write_dcd(table: &Table, count: u8, output: &mut [u8]) -> Result<Vec<usize>, Refusal> {
    let elements = elements_of(table);
    let read_back = read_table(&elements.concat());
    if !read_back.is_ok_and(|read| read == *table) {
        return Err(Refusal::whole(19));
    }
    let bodies = bodies_of(count, &pieces_of(&elements));
    if output.len() < end_of_last(&bodies) {
        return Err(Refusal::whole(20));
    }
    for (place, body) in output.chunks_mut(BODY_STEP).zip(&bodies) {
        place[..body.len()].copy_from_slice(body);
    }
    Ok(bodies.iter().map(Vec::len).collect())
}

/// Where the last body ends in the output buffer.
fn end_of_last(bodies: &[Vec<u8>]) -> usize {
    match bodies {
        [before @ .., last] => before.len() * BODY_STEP + last.len(),
        [] => 0,
    }
}

/// The pieces with their heads. No table that reading can produce gives more pieces than a head can
/// number: its message has at most 5,618 bytes.
fn bodies_of(count: u8, pieces: &[Vec<u8>]) -> Vec<Vec<u8>> {
    let number = pieces.len() as u8;
    let body =
        |(sequence, piece): (u8, &Vec<u8>)| [&[count, number, sequence], &piece[..]].concat();
    (1..).zip(pieces).map(body).collect()
}

/// Each element goes into the present piece or, where that has no room for it, begins the next. No
/// element gives one empty piece.
fn pieces_of(elements: &[Vec<u8>]) -> Vec<Vec<u8>> {
    let mut full = Vec::new();
    let mut present = Vec::new();
    for element in elements {
        if present.len() + element.len() > PIECE_MAX {
            full.push(present);
            present = Vec::new();
        }
        present.extend(element);
    }
    full.push(present);
    full
}

/// The message's top-level elements.
fn elements_of(table: &Table) -> Vec<Vec<u8>> {
    let mut elements = Vec::new();
    elements.extend(configuration_of(table));
    elements.extend(table.classifiers.iter().map(classifier_of));
    elements.extend(table.rules.iter().map(rule_of));
    elements
}

/// The channels, and the timers that differ from the defaults; `None` without any.
fn configuration_of(table: &Table) -> Option<Vec<u8>> {
    let mut children = Vec::new();
    for hz in &table.channels {
        children.push(element(1, &hz.to_be_bytes()));
    }
    for (index, kind) in (2..=5).enumerate() {
        let timer = table.timers[index];
        if timer != DEFAULT_TIMERS[index] {
            children.push(element(kind, &timer.to_be_bytes()));
        }
    }
    (!children.is_empty()).then(|| row(51, &children))
}

fn classifier_of(classifier: &Classifier) -> Vec<u8> {
    let ip = [
        if_present(3, classifier.source),
        if_present(4, classifier.mask),
        element(5, &classifier.destination),
        if_present(9, classifier.port_start.map(u16::to_be_bytes)),
        if_present(10, classifier.port_end.map(u16::to_be_bytes)),
    ];
    let children = [
        element(2, &classifier.number.to_be_bytes()),
        element(5, &[classifier.priority]),
        row(9, &ip),
    ];
    row(23, &children)
}

fn rule_of(rule: &Rule) -> Vec<u8> {
    let clients: Vec<Vec<u8>> = rule.clients.iter().map(client_of).collect();
    let mut children = vec![element(1, &[rule.number]), element(2, &[rule.priority])];
    if !rule.ucids.is_empty() {
        children.push(element(3, &rule.ucids));
    }
    children.push(row(4, &clients));
    children.push(element(5, &rule.tunnel));
    for number in &rule.classifiers {
        children.push(element(6, &number.to_be_bytes()));
    }
    row(50, &children)
}

fn client_of(client: &Client) -> Vec<u8> {
    match client {
        Client::EmptyBroadcast => element(1, &[]),
        Client::Broadcast(value) => element(1, &value.to_be_bytes()),
        Client::Mac(address) => element(2, address),
        Client::CaSystem(value) => element(3, &value.to_be_bytes()),
        Client::Application(value) => element(4, &value.to_be_bytes()),
    }
}

/// The element of an optional part, or no bytes.
fn if_present<const N: usize>(kind: u8, part: Option<[u8; N]>) -> Vec<u8> {
    part.map(|value| element(kind, &value)).unwrap_or_default()
}

fn row(kind: u8, children: &[Vec<u8>]) -> Vec<u8> {
    element(kind, &children.concat())
}

/// An element. A value over 254 bytes, which only a list beyond its room gives, has length 255, and
/// so is refused by reading.
fn element(kind: u8, value: &[u8]) -> Vec<u8> {
    let length = u8::try_from(value.len()).unwrap_or(255);
    [&[kind, length], value].concat()
}
