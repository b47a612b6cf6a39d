//! Tables for these tests.

use reference::table::{Classifier, Client, Rule, Table};

/// A rule for application 42 and for nobody else, without UCIDs and classifiers.
pub fn rule(number: u8, priority: u8, tunnel: [u8; 6]) -> Rule {
    Rule {
        number,
        priority,
        tunnel,
        ucids: vec![],
        clients: vec![Client::Application(42)],
        classifiers: vec![],
    }
}

/// The table of document 01's message M.
pub fn table_m() -> Table {
    Table {
        rules: vec![
            rule(5, 80, [0x01, 0x00, 0x5E, 0x05, 0x05, 0x05]),
            rule(6, 9, [0x01, 0x00, 0x5E, 0x06, 0x06, 0x06]),
        ],
        channels: vec![603_000_000],
        ..Table::default()
    }
}

/// A classifier for packets to 239.1.2.3, with no other part.
pub fn classifier(number: u16) -> Classifier {
    Classifier {
        number,
        priority: 1,
        source: None,
        mask: None,
        destination: [239, 1, 2, 3],
        port_start: None,
        port_end: None,
    }
}

/// A table of two rules and two classifiers, each rule with a classifier.
pub fn table_of_two() -> Table {
    let mut table = table_m();
    table.classifiers = vec![classifier(10), classifier(20)];
    table.rules[0].classifiers = vec![10];
    table.rules[1].classifiers = vec![20];
    table
}

/// The longest table: 32 of everything, each with all that it may hold.
pub fn longest_table() -> Table {
    let mac = |place| Client::Mac([0, 0, 0, 0, 1, place]);
    let classifier = |number| Classifier {
        source: Some([10, 0, 0, 0]),
        mask: Some([255, 0, 0, 0]),
        port_start: Some(1),
        port_end: Some(2),
        ..classifier(number)
    };
    let rule = |number| Rule {
        ucids: (1..=16).collect(),
        clients: (0..8).map(mac).collect(),
        classifiers: (1..=8).collect(),
        ..rule(number, 1, [1, 0, 0x5E, 0, 0, number])
    };
    Table {
        timers: [1, 1, 1, 1],
        rules: (0..32).map(rule).collect(),
        classifiers: (1..=32).map(classifier).collect(),
        channels: (1..=32).map(|n| 62_500 * n).collect(),
    }
}
