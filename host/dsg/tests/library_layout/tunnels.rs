//! Prepared tunnels: what dsg_prepare writes, and what dsg_judge_prepared reads.
//!
//! A lent table may repeat a classifier number, so that a rule of eight numbers has up to 32 entries. The
//! greatest priority is tried first (document 01, "Choosing and judging").

use crate::judging::{forward, frame, refused, FILTERED, OTHER};
use crate::messages::full;
use crate::numbers::Numbers;
use crate::places::tell_apart;
use dsg::ffi;
use dsg::records::{Classifier, Client, Table, Tunnel};
use std::array::from_fn;

const PORT: u16 = 0x1234;
const SOURCE: u32 = 0x1122_3344;

/// A table whose rule at a place names all its classifiers, each of another priority and destination. All
/// parts are present; `SOURCE` and `PORT` match.
fn table(numbers: &mut Numbers, at: usize) -> Table {
    let mut table = full(numbers);
    let mut priorities: Vec<u8> = (0..=255).collect();
    numbers.shuffle(&mut priorities);
    let first = numbers.between(1, 65_000) as u16;
    for (place, classifier) in table.classifiers.iter_mut().enumerate() {
        let mask = numbers.long() | 0x0100_0000;
        *classifier = Classifier {
            destination: numbers.long(),
            source: SOURCE & mask,
            mask,
            number: first + place as u16 % 8,
            start: numbers.between(1, PORT.into()) as u16,
            end: numbers.between(PORT.into(), 65_534) as u16,
            priority: priorities[place],
            hassource: 1,
            hasmask: 1,
            hasstart: 1,
            hasend: 1,
        };
    }
    let rule = &mut table.rules[at];
    (rule.ucidcount, rule.numbercount) = (0, 8);
    rule.numbers = from_fn(|k| first + k as u16);
    table
}

fn prepare(table: &Table, client: Client) -> Tunnel {
    ffi::prepare(table, client.kind, client.value, 0, 0)
}

/// The classifiers of a table in the order in which they are tried.
fn in_order(table: &Table) -> Vec<Classifier> {
    let mut classifiers = table.classifiers[..table.classifiercount.into()].to_vec();
    classifiers.sort_by_key(|classifier| 255 - classifier.priority);
    classifiers
}

#[test]
fn prepares_every_place() {
    let mut numbers = Numbers(21);
    let mut written = Vec::new();
    for at in (0..32).chain(0..32) {
        let mut table = table(&mut numbers, at);
        table.classifiercount = numbers.between(1, 32).max(numbers.between(1, 32)) as u8;
        for classifier in &mut table.classifiers {
            if numbers.between(0, 3) == 0 {
                (classifier.hasstart, classifier.hasend) = (0, 0);
            }
        }
        let (rule, classifiers) = (table.rules[at], in_order(&table));
        let mut tunnel = prepare(&table, rule.clients[7]);
        assert_eq!(tunnel.address, rule.tunnel);
        assert!(tunnel.mode > 1);
        assert_eq!(usize::from(tunnel.count), classifiers.len());
        for (place, classifier) in classifiers.iter().enumerate() {
            assert_eq!(tunnel.destinations[place], classifier.destination);
            assert_eq!(tunnel.sources[place], classifier.source);
            assert_eq!(tunnel.masks[place], classifier.mask);
            assert_eq!(tunnel.numbers[place], classifier.number);
            assert_eq!(tunnel.ports[place] != 0, classifier.hasstart == 1);
            if classifier.hasstart == 1 {
                assert_eq!(tunnel.starts[place], classifier.start);
                assert_eq!(tunnel.ends[place], classifier.end);
            }
        }
        tunnel.ports = tunnel.ports.map(|port| port.min(1));
        written.push(tunnel);
        table.rules[at].numbercount = 0;
        let tunnel = prepare(&table, rule.clients[0]);
        assert_eq!((tunnel.mode, tunnel.address), (1, rule.tunnel));
        let Client { kind, value } = rule.clients[0];
        let nobody = Client {
            kind,
            value: value ^ 1,
        };
        assert_eq!(prepare(&table, nobody).mode, 0);
    }
    tell_apart(&written);
}

#[test]
fn judges_by_every_place() {
    let mut numbers = Numbers(22);
    let table = table(&mut numbers, 31);
    let tunnel = prepare(&table, table.rules[31].clients[7]);
    for (at, classifier) in in_order(&table).into_iter().enumerate() {
        // The entry at this place alone matches the frame.
        let frame = frame(tunnel.address, SOURCE, classifier.destination, PORT);
        let judge = |change: &dyn Fn(&mut Tunnel)| {
            let mut lent = tunnel;
            change(&mut lent);
            ffi::judge_prepared(&lent, &frame)
        };
        let matched = forward(classifier.number);
        assert_eq!(judge(&|_| ()), matched);
        assert_eq!(judge(&|t| t.address ^= 1), OTHER);
        assert_eq!(judge(&|t| t.mode = 0), refused(17));
        assert_eq!(judge(&|t| t.mode = 1), forward(0));
        assert_eq!(judge(&|t| t.count = at as u8), FILTERED);
        assert_eq!(judge(&|t| t.count = at as u8 + 1), matched);
        assert_eq!(judge(&|t| t.destinations[at] ^= 1), FILTERED);
        assert_eq!(judge(&|t| t.sources[at] ^= 1), FILTERED);
        assert_eq!(judge(&|t| t.masks[at] = 0), FILTERED);
        assert_eq!(judge(&|t| t.starts[at] = PORT + 1), FILTERED);
        assert_eq!(judge(&|t| t.ends[at] = PORT - 1), FILTERED);
        assert_eq!(judge(&|t| t.numbers[at] = 54_321), forward(54_321));
        let untested = |t: &mut Tunnel| (t.starts[at], t.ports[at]) = (PORT + 1, 0);
        assert_eq!(judge(&untested), matched);
    }
}
