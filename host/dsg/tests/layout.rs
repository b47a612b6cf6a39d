//! The records and answers are laid out as `include/dsg.h` asserts it for C: every size and every field, none left out.

use dsg::ffi::{Choice, Collected, Judged, Listed, ReadAnswer, Received, Written};
use dsg::lent::LISTING_BYTES;
use dsg::records::{Classifier, Client, Collection, Modem, Rule, Table, TimerValues, Tunnel};
use dsg::records::{RULE_CLIENTS, RULE_NUMBERS, RULE_UCIDS, TABLE_ROOM};
use dsg::{BUFFER_BYTES, PIECE_STEP, WRITE_BYTES};
use std::collections::BTreeSet;
use std::mem::{offset_of, size_of};

const HEADER: &str = include_str!("../../../include/dsg.h");

/// The header's assertions of one struct, as Rust's layout would have them.
macro_rules! layout {
    ($all:ident, $name:literal, $type:ty, $($field:ident)*) => {
        $all.insert(format!("DSG_SIZE({}, {});", $name, size_of::<$type>()));
        $($all.insert(format!("DSG_AT({}, {}, {});", $name, stringify!($field), offset_of!($type, $field)));)*
    };
}

#[test]
fn layout_is_the_headers() {
    let mut ours = BTreeSet::new();
    layout!(ours, "dsg_client", Client, kind value);
    layout!(ours, "dsg_rule", Rule, number priority ucidcount clientcount numbercount ucids numbers tunnel clients);
    layout!(ours, "dsg_classifier", Classifier, destination source mask number start end priority hassource hasmask hasstart hasend);
    layout!(ours, "dsg_timer_values", TimerValues, tdsg1 tdsg2 tdsg3 tdsg4);
    layout!(ours, "dsg_table", Table, rulecount classifiercount channelcount timers channels classifiers rules);
    layout!(ours, "dsg_collection", Collection, count number filled lengths strict);
    layout!(ours, "dsg_tunnel", Tunnel, address mode count destinations sources masks starts ends numbers ports);
    layout!(ours, "dsg_modem", Modem, last receive retry tdsg1 tdsg2 tdsg3 tdsg4 receiveon retryon state permission hasucid ucid);
    layout!(ours, "dsg_collected", Collected, kind number empty start length offset);
    layout!(ours, "dsg_read_answer", ReadAnswer, number offset);
    layout!(ours, "dsg_received", Received, kind number empty offset);
    layout!(ours, "dsg_choice", Choice, number place);
    layout!(ours, "dsg_verdict", Judged, kind number start length);
    layout!(ours, "dsg_listed", Listed, number length);
    layout!(ours, "dsg_written", Written, number pieces lengths);

    let theirs: BTreeSet<String> = HEADER
        .lines()
        .filter(|line| line.starts_with("DSG_SIZE(") || line.starts_with("DSG_AT("))
        .map(str::to_string)
        .collect();
    assert_eq!(ours, theirs);
}

#[test]
fn limits_are_the_headers() {
    for (name, ours) in [
        ("DSG_BUFFER_BYTES", BUFFER_BYTES),
        ("DSG_LISTING_BYTES", LISTING_BYTES),
        ("DSG_WRITE_BYTES", WRITE_BYTES),
        ("DSG_PIECE_STEP", PIECE_STEP),
        ("DSG_RULES", TABLE_ROOM),
        ("DSG_CLASSIFIERS", TABLE_ROOM),
        ("DSG_CHANNELS", TABLE_ROOM),
        ("DSG_RULE_CLIENTS", RULE_CLIENTS),
        ("DSG_RULE_CLASSIFIERS", RULE_NUMBERS),
        ("DSG_RULE_UCIDS", RULE_UCIDS),
    ] {
        let theirs = HEADER.split_once(&format!("#define {name} "));
        let (number, _) = theirs
            .and_then(|(_, rest)| rest.split_once('u'))
            .expect(name);
        assert_eq!(number, ours.to_string(), "{name}");
    }
}
