//! What is measured: messages, pieces, tables and frames, made here and nowhere random.

use std::ops::RangeInclusive;

/// The longest message.
pub const LONGEST: usize = 23_952;

fn element(kind: u8, value: &[u8]) -> Vec<u8> {
    let mut bytes = vec![
        kind,
        u8::try_from(value.len()).expect("a value of at most 254 bytes"),
    ];
    bytes.extend_from_slice(value);
    bytes
}

fn row(kind: u8, children: &[Vec<u8>]) -> Vec<u8> {
    element(kind, &children.concat())
}

/// A row with an unlisted child at its end that fills it to 254 bytes.
fn filled_row(kind: u8, children: &[Vec<u8>]) -> Vec<u8> {
    let mut value = children.concat();
    let left = 254 - value.len();
    value.extend(element(99, &vec![0; left - 2]));
    element(kind, &value)
}

/// A classifier for packets to that destination, whose ports are in the range.
fn classifier_of(number: u16, destination: u8, ports: RangeInclusive<u16>) -> Vec<Vec<u8>> {
    let ip = [
        element(3, &[10, 1, 2, 0]),
        element(4, &[255, 255, 255, 0]),
        element(5, &[239, 1, 2, destination]),
        element(9, &ports.start().to_be_bytes()),
        element(10, &ports.end().to_be_bytes()),
    ];
    vec![
        element(2, &number.to_be_bytes()),
        element(5, &[number as u8]),
        row(9, &ip),
    ]
}

/// A classifier with an address of its own and the ports of all others.
fn classifier_children(number: u16) -> Vec<Vec<u8>> {
    classifier_of(number, number as u8, 0x1000..=0x1FFF)
}

fn rule_children(number: u8, numbers: &[u16]) -> Vec<Vec<u8>> {
    let clients: Vec<Vec<u8>> = (0..8).map(|i| element(4, &[number, i])).collect();
    rule_for(number, &clients, numbers)
}

fn rule_for(number: u8, clients: &[Vec<u8>], numbers: &[u16]) -> Vec<Vec<u8>> {
    let ucids: Vec<u8> = (1..=16).collect();
    let mut children = vec![
        element(1, &[number]),
        element(2, &[number.wrapping_mul(37)]),
        element(3, &ucids),
        row(4, clients),
        element(5, &[1, 0, 0x5E, 5, 5, number]),
    ];
    children.extend(numbers.iter().map(|n| element(6, &n.to_be_bytes())));
    children
}

fn numbers_of(rule: u8) -> Vec<u16> {
    (0..8).map(|i| u16::from(rule + i) % 32 + 1).collect()
}

fn configuration() -> Vec<u8> {
    let mut children: Vec<Vec<u8>> = (1..=32u32)
        .map(|n| element(1, &(n * 25_000_000).to_be_bytes()))
        .collect();
    children.extend((2..=5).map(|kind| element(kind, &[1, 0])));
    row(51, &children)
}

/// A message with `rules` rules and as many classifiers, each with all it may hold, and 32 channels.
pub fn table_message(rules: u8) -> Vec<u8> {
    let mut message = configuration();
    for number in 1..=32 {
        message.extend(row(23, &classifier_children(number)));
    }
    for n in 0..rules {
        message.extend(row(50, &rule_children(n, &numbers_of(n))));
    }
    message
}

/// The longest message that a table is written as: that of [`table_message`] with 32 rules, and client IDs of six bytes.
pub fn longest_message() -> Vec<u8> {
    let mut message = table_message(0);
    for n in 0..32 {
        let macs: Vec<Vec<u8>> = (0..8).map(|i| element(2, &[0, 16, 32, 48, n, i])).collect();
        message.extend(row(50, &rule_for(n, &macs, &numbers_of(n))));
    }
    message
}

/// The destination of every classifier of [`ports_message`].
pub const PORTS_DESTINATION: u8 = 1;

/// The ports of the `place`th classifier of [`ports_message`] in matching order, from 0 on: a range behind the one
/// before it, with a gap between the two.
pub fn ports_at(place: u16) -> RangeInclusive<u16> {
    let start = 0x1000 + 0x200 * place;
    start..=start + 0xFF
}

/// A message with rule 9 alone and eight classifiers of one address, each with ports of its own.
pub fn ports_message() -> Vec<u8> {
    let mut message = configuration();
    for number in 1..=8 {
        // the greatest number has the greatest priority
        let ports = ports_at(8 - number);
        message.extend(row(23, &classifier_of(number, PORTS_DESTINATION, ports)));
    }
    let numbers: Vec<u16> = (1..=8).collect();
    message.extend(row(50, &rule_children(9, &numbers)));
    message
}

/// The longest message, of rows that are as long as they may be, and then of long unlisted elements.
pub fn long_rows() -> Vec<u8> {
    let mut message = configuration();
    for number in 1..=32 {
        message.extend(filled_row(23, &classifier_children(number)));
    }
    for n in 0..32 {
        message.extend(filled_row(50, &rule_children(n, &numbers_of(n))));
    }
    while LONGEST - message.len() > 600 {
        message.extend(element(99, &[0; 254]));
    }
    let left = LONGEST - message.len();
    message.extend(element(99, &vec![0; left / 2 - 2]));
    message.extend(element(99, &vec![0; left - left / 2 - 2]));
    message
}

/// A message of unlisted elements without a value.
pub fn unlisted(bytes: usize) -> Vec<u8> {
    [99, 0].repeat(bytes / 2)
}

/// The bodies of a message cut into sixteen pieces as long as they may be.
pub fn sixteen_bodies(message: &[u8]) -> Vec<Vec<u8>> {
    message
        .chunks(1497)
        .zip(1..)
        .map(|(piece, sequence)| [&[7, 16, sequence], piece].concat())
        .collect()
}

/// The bodies of a message of whole elements, cut between them into sixteen pieces as long as they may be; what these cannot
/// carry is left out.
pub fn sixteen_bodies_of_elements(message: &[u8]) -> Vec<Vec<u8>> {
    let mut rest = message;
    (1..=16)
        .map(|sequence| {
            let mut end = 0;
            while let Some(length) = rest.get(end + 1) {
                let next = end + 2 + usize::from(*length);
                if next > 1497 {
                    break;
                }
                end = next;
            }
            let (piece, after) = rest.split_at(end);
            rest = after;
            [&[7, 16, sequence], piece].concat()
        })
        .collect()
}

/// A UDP frame of 128 bytes to the tunnel of rule `number` of [`table_message`].
pub fn frame(number: u8, destination: u8, port: u16) -> Vec<u8> {
    let mut frame = vec![0; 128];
    frame[..6].copy_from_slice(&[1, 0, 0x5E, 5, 5, number]);
    frame[12..15].copy_from_slice(&[0x08, 0x00, 0x45]);
    frame[23] = 17;
    frame[26..30].copy_from_slice(&[10, 1, 2, 9]);
    frame[30..34].copy_from_slice(&[239, 1, 2, destination]);
    frame[36..38].copy_from_slice(&port.to_be_bytes());
    frame
}

/// The frame with a protocol that has no ports.
pub fn without_port(mut frame: Vec<u8>) -> Vec<u8> {
    frame[23] = 1;
    frame
}

/// The frame with a Router Alert option behind the 20 bytes of its IP header.
pub fn with_alert(mut frame: Vec<u8>) -> Vec<u8> {
    frame[14] = 0x46;
    frame.splice(34..34, [0x94, 0x04, 0, 0]);
    frame
}
