//! What the tally says of frames that miss, and of sources and masks. Each frame is written out by
//! hand, with what becomes of it by document 01, "Choosing and judging".

mod support;

use reference::table::{Classifier, Table};
use support::{cases, frame, table, ROUTER_ALERT};

/// The places of a byte of the source, which `MASK` has, and of one of the destination.
const SOURCE: usize = 28;
const DESTINATION: usize = 33;
const MASK: [u8; 4] = [255, 255, 255, 0];
const NONE: [&str; 0] = [];

/// A frame with a header of five words to that port, with some bytes changed.
fn changed(port: u16, changes: &[(usize, u8)]) -> Vec<u8> {
    let mut frame = frame(5, ROUTER_ALERT, port);
    for &(at, byte) in changes {
        frame[at] = byte;
    }
    frame
}

/// What a filtered frame misses on.
fn misses(table: &Table, frame: Vec<u8>) -> Vec<String> {
    cases("miss: on ", table.clone(), frame, "filtered")
}

/// A table whose classifier names that source and mask, and no port.
fn table_for(source: Option<[u8; 4]>, mask: Option<[u8; 4]>) -> Table {
    let mut table = table(None, None);
    let classifier = &mut table.classifiers[0];
    (classifier.source, classifier.mask) = (source, mask);
    table
}

#[test]
fn tells_misses_on_the_port_from_misses_on_an_address_and_on_both() {
    let table = table(Some(1_000), Some(2_000));
    let elsewhere = [(DESTINATION, 8)];
    let below = ["the port", "the port, port below the start"];
    let destination = ["an address", "an address, destination alone"];
    assert_eq!(misses(&table, changed(999, &[])), below);
    assert_eq!(misses(&table, changed(1_000, &elsewhere)), destination);
    assert_eq!(misses(&table, changed(999, &elsewhere)), ["both"]);
    let forwarded = cases("miss: ", table, changed(1_000, &[]), "forward");
    assert_eq!(forwarded, NONE);
}

#[test]
fn tells_why_a_port_is_missed() {
    let table = table(Some(1_000), Some(2_000));
    let mut short = changed(1_500, &[]);
    short.truncate(37);
    let rows = [
        (changed(0, &[]), "port below the start"),
        (changed(2_001, &[]), "port past the end"),
        (changed(1_500, &[(23, 1)]), "protocol without ports"),
        (changed(1_500, &[(21, 1)]), "fragment offset"),
        (short, "under four bytes behind the header"),
    ];
    for (frame, reason) in rows {
        let expected = ["the port".to_string(), format!("the port, {reason}")];
        assert_eq!(misses(&table, frame), expected);
    }
    let two_reasons = changed(999, &[(23, 1)]);
    assert_eq!(misses(&table, two_reasons), ["the port"]);
}

#[test]
fn tells_an_empty_range_from_a_port_outside_one() {
    let empty = table(Some(2_000), Some(1_000));
    for port in [0, 1_000, 1_500, 2_000, 65_535] {
        let expected = ["the port", "the port, empty range"];
        assert_eq!(misses(&empty, changed(port, &[])), expected);
    }
}

#[test]
fn tells_which_address_is_missed() {
    let masked = table_for(Some([10, 0, 0, 0]), Some(MASK));
    let unmasked = table_for(Some([10, 0, 0, 1]), None);
    let (source, destination) = ((SOURCE, 9), (DESTINATION, 8));
    let rows = [
        (&masked, vec![source], "source alone, mask named"),
        (&unmasked, vec![source], "source alone, no mask named"),
        (&masked, vec![destination], "destination alone"),
        (&unmasked, vec![source, destination], "both addresses"),
    ];
    for (table, changes, reason) in rows {
        let expected = ["an address".to_string(), format!("an address, {reason}")];
        assert_eq!(misses(table, changed(7, &changes)), expected);
    }
}

#[test]
fn counts_a_frame_with_the_classifier_that_it_comes_nearest_to() {
    let mut table = table(Some(1_000), Some(2_000));
    let second = Classifier {
        number: 8,
        destination: [224, 0, 0, 7],
        ..table.classifiers[0].clone()
    };
    table.classifiers.push(second);
    table.rules[0].classifiers.push(8);
    let below = ["the port", "the port, port below the start"];
    assert_eq!(misses(&table, changed(999, &[])), below);
    table.classifiers[1].port_start = Some(999);
    assert_eq!(misses(&table, changed(999, &[])), below);
    table.classifiers[0].destination = [224, 0, 0, 6];
    let destination = ["an address", "an address, destination alone"];
    assert_eq!(misses(&table, changed(999, &[])), destination);
}

#[test]
fn says_nothing_of_a_bad_header_or_where_no_classifier_is_asked() {
    let lacking = Table {
        classifiers: vec![],
        ..table(None, None)
    };
    assert_eq!(misses(&lacking, changed(7, &[])), NONE);
    for first in [0x44, 0x4F, 0x65] {
        let frame = changed(7, &[(14, first)]);
        assert_eq!(misses(&table(Some(9), None), frame), NONE);
    }
}

#[test]
fn tells_a_source_that_its_mask_never_leaves_and_masks_that_leave_nothing_to_compare() {
    let outside = "bits outside the mask, the frame's alike under it";
    let (nothing, alone) = (
        "0 and mask 0, the frame's not 0",
        "none, a mask alone that has bits of the frame's",
    );
    let rows = [
        (Some([10, 0, 0, 1]), Some(MASK), "filtered", vec![outside]),
        (Some([10, 0, 9, 1]), Some(MASK), "filtered", vec![]),
        (Some([0; 4]), Some([0; 4]), "forward", vec![nothing]),
        (None, Some(MASK), "forward", vec![alone]),
        (None, Some([0; 4]), "forward", vec![]),
        (Some([10, 0, 0, 0]), Some(MASK), "forward", vec![]),
    ];
    for (source, mask, outcome, expected) in rows {
        let table = table_for(source, mask);
        assert_eq!(cases("source: ", table, changed(7, &[]), outcome), expected);
    }
}
