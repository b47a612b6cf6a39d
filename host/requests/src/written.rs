//! What a table is as a head end writes it (document 02, Req 01): its elements, the pieces that they fill,
//! and how long a buffer these need. The generator aims by it, and `claims` holds answers to it; no
//! program that is compared has a part in it.

use reference::table::{Classifier, Client, Rule, Table};

/// The most bytes of a message that a piece carries.
pub const PIECE_MOST: usize = 1_497;
/// From the start of one body in the buffer to the start of the next.
pub const STEP: usize = 1_500;
/// The most pieces that a table takes. Configuration and classifiers have at most 210 + 32 * 37 = 1,394
/// bytes, so the first piece has them all; a rule has at most 132, so every other one has eleven of the
/// 32 rules.
pub const PIECES_MOST: usize = 4;

/// Tdsg1 to Tdsg4 where the configuration says nothing of them.
const USUAL: [u16; 4] = [2, 600, 300, 1800];

/// The top-level elements, in the order in which they are written.
pub fn elements(table: &Table) -> Vec<Vec<u8>> {
    let classifiers = table.classifiers.iter().map(classifier);
    let rules = table.rules.iter().map(rule);
    let configuration = configuration(table).into_iter();
    configuration.chain(classifiers).chain(rules).collect()
}

/// An element: its type, its length, its value.
fn element(kind: u8, value: &[u8]) -> Vec<u8> {
    [&[kind, value.len() as u8], value].concat()
}

/// An element whose value is a row of others.
fn row(kind: u8, children: &[Vec<u8>]) -> Vec<u8> {
    element(kind, &children.concat())
}

/// None where there is nothing to say.
fn configuration(table: &Table) -> Option<Vec<u8>> {
    let channels = table.channels.iter();
    let channels = channels.map(|hz| element(1, &hz.to_be_bytes()));
    let timers = (2..).zip(table.timers.into_iter().zip(USUAL));
    let unusual = timers.filter(|(_, (timer, usual))| timer != usual);
    let timers = unusual.map(|(kind, (timer, _))| element(kind, &timer.to_be_bytes()));
    let children: Vec<Vec<u8>> = channels.chain(timers).collect();
    (!children.is_empty()).then(|| row(51, &children))
}

fn classifier(classifier: &Classifier) -> Vec<u8> {
    let address = |kind, part: Option<[u8; 4]>| part.map(|bytes| element(kind, &bytes));
    let port = |kind, part: Option<u16>| part.map(|port| element(kind, &port.to_be_bytes()));
    let parts = [
        address(3, classifier.source),
        address(4, classifier.mask),
        address(5, Some(classifier.destination)),
        port(9, classifier.port_start),
        port(10, classifier.port_end),
    ];
    let parts: Vec<Vec<u8>> = parts.into_iter().flatten().collect();
    let children = [
        element(2, &classifier.number.to_be_bytes()),
        element(5, &[classifier.priority]),
        row(9, &parts),
    ];
    row(23, &children)
}

/// The bytes of a rule.
pub fn rule(rule: &Rule) -> Vec<u8> {
    let clients: Vec<Vec<u8>> = rule.clients.iter().map(client).collect();
    let mut children = vec![element(1, &[rule.number]), element(2, &[rule.priority])];
    if !rule.ucids.is_empty() {
        children.push(element(3, &rule.ucids));
    }
    children.push(row(4, &clients));
    children.push(element(5, &rule.tunnel));
    let numbers = rule.classifiers.iter();
    children.extend(numbers.map(|number| element(6, &number.to_be_bytes())));
    row(50, &children)
}

fn client(client: &Client) -> Vec<u8> {
    match client {
        Client::EmptyBroadcast => element(1, &[]),
        Client::Broadcast(value) => element(1, &value.to_be_bytes()),
        Client::Mac(address) => element(2, address),
        Client::CaSystem(value) => element(3, &value.to_be_bytes()),
        Client::Application(value) => element(4, &value.to_be_bytes()),
    }
}

/// The elements in pieces, each filled as far as the next element allows; one piece where there is none.
pub fn pieces(elements: &[Vec<u8>]) -> Vec<Vec<u8>> {
    let mut pieces = Vec::new();
    let mut piece = Vec::new();
    for element in elements {
        if piece.len() + element.len() > PIECE_MOST {
            pieces.push(std::mem::take(&mut piece));
        }
        piece.extend(element);
    }
    pieces.push(piece);
    pieces
}

/// The pieces of a table with their heads.
pub fn bodies(count: u8, table: &Table) -> Vec<Vec<u8>> {
    let pieces = pieces(&elements(table));
    let number = pieces.len() as u8;
    let body = |(piece, sequence): (Vec<u8>, u8)| [&[count, number, sequence], &piece[..]].concat();
    pieces.into_iter().zip(1..).map(body).collect()
}

/// The shortest buffer that has room for the bodies.
pub fn needed(bodies: &[Vec<u8>]) -> usize {
    let last = bodies.last().map_or(0, Vec::len);
    STEP * bodies.len().saturating_sub(1) + last
}
