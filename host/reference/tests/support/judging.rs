//! What tests of verdicts want: a frame, and tables to judge it by.

use reference::choosing::{judge_frame, Verdict};
use reference::table::{Classifier, Client, Rule, Table};
use std::slice::from_ref;

pub const TUNNEL: [u8; 6] = [1, 0, 0x5E, 5, 5, 5];
pub const CLIENT: Client = Client::Application(42);

pub fn rule(number: u8, priority: u8) -> Rule {
    Rule {
        number,
        priority,
        tunnel: TUNNEL,
        ucids: vec![],
        clients: vec![CLIENT],
        classifiers: vec![],
    }
}

pub fn table(rules: &[Rule]) -> Table {
    Table {
        rules: rules.to_vec(),
        ..Table::default()
    }
}

/// Any source and any port to 224.0.0.9.
pub fn classifier(number: u16, priority: u8) -> Classifier {
    Classifier {
        number,
        priority,
        source: None,
        mask: None,
        destination: [224, 0, 0, 9],
        port_start: None,
        port_end: None,
    }
}

/// A classifier of ports.
pub fn ports(port_start: Option<u16>, port_end: Option<u16>) -> Classifier {
    Classifier {
        port_start,
        port_end,
        ..classifier(3, 1)
    }
}

/// A table whose only rule names these classifiers.
pub fn classified(classifiers: &[Classifier]) -> Table {
    let numbers = classifiers
        .iter()
        .map(|classifier| classifier.number)
        .collect();
    Table {
        rules: vec![Rule {
            classifiers: numbers,
            ..rule(5, 80)
        }],
        classifiers: classifiers.to_vec(),
        ..Table::default()
    }
}

/// UDP from 10.1.2.3 to 224.0.0.9, port 8192, in 42 bytes.
pub fn frame() -> Vec<u8> {
    super::bytes(
        "01 00 5E 05 05 05 00 00 00 00 00 01 08 00 \
         45 00 00 1C 00 00 00 00 40 11 00 00 0A 01 02 03 E0 00 00 09 \
         10 00 20 00 00 08 00 00",
    )
}

/// The frame with another byte.
pub fn with(at: usize, byte: u8) -> Vec<u8> {
    changed(&frame(), at, byte)
}

/// A frame with another byte.
pub fn changed(frame: &[u8], at: usize, byte: u8) -> Vec<u8> {
    let mut frame = frame.to_vec();
    frame[at] = byte;
    frame
}

pub fn judged<'f>(table: &Table, frame: &'f [u8]) -> Verdict<'f> {
    judge_frame(table, CLIENT, None, frame).expect("a verdict")
}

/// Whether the frame passes the classifier, which the table's only rule names.
pub fn passes(classifier: &Classifier, frame: &[u8]) -> bool {
    match judged(&classified(from_ref(classifier)), frame) {
        Verdict::Forward(number, _) => {
            assert_eq!(number, classifier.number);
            true
        }
        verdict => {
            assert_eq!(verdict, Verdict::Filtered);
            false
        }
    }
}
