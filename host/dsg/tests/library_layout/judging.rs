//! Tables as dsg_judge reads them: every rule, every classifier number, every part of every classifier.

use crate::messages::full;
use crate::numbers::Numbers;
use crate::places::tell_apart;
use dsg::ffi::{self, Judged};
use dsg::records::{Classifier, Table};
use std::array::from_fn;

pub const OTHER: Judged = Judged {
    kind: 1,
    number: 0,
    start: 0,
    length: 0,
};
pub const FILTERED: Judged = Judged { kind: 3, ..OTHER };

pub fn refused(number: u32) -> Judged {
    Judged {
        kind: 0,
        number,
        ..OTHER
    }
}

/// The answer that lends a frame of 38 bytes from byte 14 on.
pub fn forward(number: u16) -> Judged {
    Judged {
        kind: 2,
        number: number.into(),
        start: 14,
        length: 24,
    }
}

/// A frame of 38 bytes: IPv4 with UDP.
pub fn frame(tunnel: u64, source: u32, destination: u32, port: u16) -> Vec<u8> {
    let mut frame = vec![0; 38];
    frame[..6].copy_from_slice(&tunnel.to_be_bytes()[2..]);
    frame[12..15].copy_from_slice(&[0x08, 0x00, 0x45]);
    frame[23] = 17;
    frame[26..30].copy_from_slice(&source.to_be_bytes());
    frame[30..34].copy_from_slice(&destination.to_be_bytes());
    frame[36..38].copy_from_slice(&port.to_be_bytes());
    frame
}

/// A full table: the rule at `at` has in its place k the number of the classifier at `named(at, k)`, and
/// every classifier looks at its destination alone.
fn full_table(numbers: &mut Numbers) -> Table {
    let mut table = full(numbers);
    for (at, rule) in table.rules.iter_mut().enumerate() {
        rule.ucidcount = 0;
        rule.numbercount = 8;
        rule.numbers = from_fn(|k| 1_000 + named(at, k) as u16);
    }
    for classifier in &mut table.classifiers {
        classifier.hassource = 0;
        (classifier.hasstart, classifier.hasend) = (0, 0);
    }
    table
}

fn named(at: usize, k: usize) -> usize {
    (at + 4 * k) % 32
}

/// The verdict for the first client of the rule at a place.
fn judge(table: &Table, at: usize, frame: &[u8]) -> Judged {
    let client = table.rules[at].clients[0];
    ffi::judge(table, client.kind, client.value, 0, 0, frame)
}

#[test]
fn judges_by_every_tunnel_and_every_number() {
    let table = full_table(&mut Numbers(11));
    for at in 0..32 {
        for k in 0..8 {
            let place = named(at, k);
            let (number, tunnel) = (1_000 + place as u16, table.rules[at].tunnel);
            let frame = frame(tunnel, 1, table.classifiers[place].destination, 1);
            assert_eq!(judge(&table, at, &frame), forward(number));
            assert_eq!(judge(&table, (at + 1) % 32, &frame), OTHER);
            let mut lent = table;
            lent.rules[at].numbercount = k as u8;
            let without = if k == 0 { forward(0) } else { FILTERED };
            assert_eq!(judge(&lent, at, &frame), without);
            let mut lent = table;
            lent.rules[at].numbers[k] = 7;
            assert_eq!(judge(&lent, at, &frame), FILTERED);
            let mut lent = table;
            lent.classifiercount = place as u8;
            assert_eq!(judge(&lent, at, &frame), FILTERED);
        }
    }
}

type Change = fn(&mut Classifier);

/// What is done to a classifier of which all parts are present and match, and whether it matches then.
const CHANGES: [(Change, bool); 13] = [
    (|_| (), true),
    (|c| c.destination ^= 0x0100_0000, false),
    (|c| c.source ^= 0x0100_0000, false),
    (|c| c.mask = 0x0F00_FFFF, false),
    (|c| c.mask = 0xFFFF_FFFF, false),
    (|c| c.start = 0x1235, false),
    (|c| c.end = 0x1233, false),
    (|c| c.number = 7, false),
    (|c| (c.source, c.hassource) = (5, 0), true),
    (|c| (c.source, c.hassource) = (5, 1), false),
    (|c| (c.mask, c.hasmask) = (0xFF00_FFFF, 0), false),
    (|c| (c.start, c.hasstart) = (0x1235, 0), true),
    (|c| (c.end, c.hasend) = (0x1233, 0), true),
];

#[test]
fn judges_by_every_part_of_every_classifier() {
    let table = full_table(&mut Numbers(12));
    for place in 0..32 {
        let number = 1_000 + place as u16;
        for (change, matches) in CHANGES {
            let mut lent = table;
            let classifier = &mut lent.classifiers[place];
            *classifier = Classifier {
                source: 0x1100_3344,
                mask: 0xFF00_FFFF,
                start: 0x1234,
                end: 0x1234,
                hassource: 1,
                hasmask: 1,
                hasstart: 1,
                hasend: 1,
                ..*classifier
            };
            let destination = classifier.destination;
            change(classifier);
            let tunnel = table.rules[place].tunnel;
            let frame = frame(tunnel, 0x1122_3344, destination, 0x1234);
            let expected = if matches { forward(number) } else { FILTERED };
            assert_eq!(judge(&lent, place, &frame), expected);
        }
    }
}

#[test]
fn judges_by_every_priority_and_every_classifier_number() {
    let mut table = full_table(&mut Numbers(13));
    for classifier in &mut table.classifiers {
        (classifier.destination, classifier.priority) = (9, 100);
    }
    for at in 0..32 {
        let frame = frame(table.rules[at].tunnel, 1, 9, 1);
        let least = (0..8).map(|k| named(at, k)).min().unwrap_or(0);
        assert_eq!(judge(&table, at, &frame), forward(1_000 + least as u16));
        for k in 0..8 {
            let mut lent = table;
            lent.classifiers[named(at, k)].priority = 101;
            let number = 1_000 + named(at, k) as u16;
            assert_eq!(judge(&lent, at, &frame), forward(number));
        }
    }
}

#[test]
fn answers_every_verdict_in_its_fields() {
    let table = full_table(&mut Numbers(14));
    let place = named(31, 7);
    let (tunnel, destination) = (table.rules[31].tunnel, table.classifiers[place].destination);
    let mut long = frame(tunnel, 1, destination, 1);
    long.resize(1_518, 0);
    let judged = [
        judge(&table, 31, &long),
        judge(&table, 30, &long),
        judge(&table, 31, &long[..13]),
        ffi::judge(&table, 0, 0, 0, 0, &long),
        judge(&table, 31, &frame(tunnel, 1, 9, 1)),
    ];
    let longest = Judged {
        length: 1_504,
        ..forward(1_000 + place as u16)
    };
    let expected = [longest, OTHER, refused(16), refused(17), FILTERED];
    assert_eq!(judged, expected);
    tell_apart(&judged);
}
