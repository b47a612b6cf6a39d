//! The listing of any lent table, under any count and into any buffer.

use crate::disguise::any_table;
use crate::from_seeds;
use dsg::ffi::{self, Listed};
use dsg::records::{self, Classifier, Client, Rule, TimerValues};
use reference::table::Table;
use std::fmt::Write;
use std::hint::black_box;

/// The longest listing of any table (dsg.h).
const LISTING_BYTES: usize = 3_755;

/// The answer to a buffer under that.
const SHORT: Listed = Listed {
    number: 100,
    length: 0,
};

/// The lines of a table (document 01, "Listing"). Of a tunnel of 2^48 and more the last twelve digits
/// are written: the document has twelve, and dsg.h does not say which.
fn text(count: u8, table: &Table) -> String {
    let (rules, classifiers, channels) = (&table.rules, &table.classifiers, &table.channels);
    let mut text = format!(
        "dcd {count} rules {} classifiers {} channels {}\n",
        rules.len(),
        classifiers.len(),
        channels.len()
    );
    for rule in rules {
        let _ = write!(
            text,
            "rule {} priority {} tunnel ",
            rule.number, rule.priority
        );
        for byte in rule.tunnel {
            let _ = write!(text, "{byte:02x}");
        }
        let (clients, numbers) = (rule.clients.len(), rule.classifiers.len());
        let _ = writeln!(text, " clients {clients} classifiers {numbers}");
    }
    for classifier in classifiers {
        let (number, priority) = (classifier.number, classifier.priority);
        let _ = writeln!(text, "classifier {number} priority {priority}");
    }
    for channel in channels {
        let _ = writeln!(text, "channel {channel}");
    }
    let [t1, t2, t3, t4] = table.timers;
    text + &format!("timers {t1} {t2} {t3} {t4}\n")
}

#[test]
fn same_text_as_document_01_gives_for_any_lent_table() {
    from_seeds(|seed, random| {
        let (table, lent) = any_table(random);
        let (given, count, fill) = (lent, random.byte(), random.byte());
        let case = || format!("seed {seed}: count {count}, {given:?}");
        let mut out = vec![fill; LISTING_BYTES + random.pick(&[0, 0, 1, 500])];
        let listed = ffi::list_table(&lent, count, &mut out);
        let expected = text(count, &table);
        let length = expected.len();
        assert_eq!(listed, Listed { number: 0, length }, "{}", case());
        assert_eq!(out[..length], *expected.as_bytes(), "{}", case());
        assert!(out[length..].iter().all(|&b| b == fill), "{}", case());
        let any = random.below(LISTING_BYTES);
        let mut out = vec![fill; random.pick(&[0, 1, LISTING_BYTES - 1, any])];
        assert_eq!(ffi::list_table(&lent, count, &mut out), SHORT, "{}", case());
        assert!(out.iter().all(|&b| b == fill), "{}", case());
        assert_eq!(*black_box(&lent), given, "{}", case());
        1
    });
}

#[test]
fn longest_listing_fills_the_least_buffer() {
    let client = Client {
        kind: 255,
        value: u64::MAX,
    };
    let rule = Rule {
        number: 255,
        priority: 255,
        ucidcount: 255,
        clientcount: 255,
        numbercount: 255,
        ucids: [255; 16],
        numbers: [65_535; 8],
        tunnel: u64::MAX,
        clients: [client; 8],
    };
    let classifier = Classifier {
        number: 65_535,
        priority: 255,
        ..Classifier::default()
    };
    let table = records::Table {
        rulecount: 255,
        classifiercount: 255,
        channelcount: 255,
        timers: TimerValues {
            tdsg1: 65_535,
            tdsg2: 65_535,
            tdsg3: 65_535,
            tdsg4: 65_535,
        },
        channels: [u32::MAX; 32],
        classifiers: [classifier; 32],
        rules: [rule; 32],
    };
    let mut out = vec![0; LISTING_BYTES];
    let listed = ffi::list_table(&table, 255, &mut out);
    assert_eq!((listed.number, listed.length), (0, LISTING_BYTES));
    assert!(out.ends_with(b"channel 4294967295\ntimers 65535 65535 65535 65535\n"));
}
