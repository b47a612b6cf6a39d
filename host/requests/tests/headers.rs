//! What the tally says of frames by their IP header. Each frame is written out by hand, with what
//! becomes of it by Req 02 of document 02.

mod support;

use reference::table::Table;
use support::{frame, table, ROUTER_ALERT};

const PORT_1000: [u8; 4] = [0x00, 0x00, 0x03, 0xE8];

/// The lines about headers that a frame adds to, without their first and last words. The last one is
/// what becomes of the frame.
fn cases(table: Table, frame: Vec<u8>, outcome: &str) -> Vec<String> {
    support::cases("header: ", table, frame, outcome)
}

#[test]
fn tells_a_port_at_an_end_of_the_range_from_one_beside_it() {
    let rows = [
        (1_000, "forward", "no options, port at the start"),
        (999, "filtered", "no options, port 1 below the start"),
        (2_000, "forward", "no options, port at the end"),
        (2_001, "filtered", "no options, port 1 past the end"),
    ];
    for (port, outcome, place) in rows {
        let table = table(Some(1_000), Some(2_000));
        let seen = cases(table, frame(5, ROUTER_ALERT, port), outcome);
        assert_eq!(seen, ["05 words", place]);
    }
}

#[test]
fn tells_a_range_that_is_empty_or_lacks_an_end() {
    let empty = table(Some(2_000), Some(1_000));
    let past_the_end = "port at the start, which is past the end";
    let below_the_start = "port at the end, which is below the start";
    let (no_start, no_end) = ("port 0, no start named", "port 65535, no end named");
    let rows = [
        (&empty, 2_000, "filtered", past_the_end),
        (&empty, 1_000, "filtered", below_the_start),
        (&table(None, Some(9)), 0, "forward", no_start),
        (&table(Some(9), None), 65_535, "forward", no_end),
    ];
    for (table, port, outcome, place) in rows {
        let seen = cases(table.clone(), frame(5, ROUTER_ALERT, port), outcome);
        assert_eq!(seen, ["05 words", place]);
    }
}

#[test]
fn tells_a_port_at_byte_36_that_would_say_otherwise() {
    let outside = "options, port outside the range, one inside at byte 36";
    let inside = "options, port inside the range, one outside at byte 36";
    let rows = [
        (PORT_1000, 3_000, "filtered", vec!["06 words", outside]),
        (PORT_1000, 1_500, "forward", vec!["06 words"]),
        (ROUTER_ALERT, 1_500, "forward", vec!["06 words", inside]),
        (ROUTER_ALERT, 3_000, "filtered", vec!["06 words"]),
    ];
    for (option, port, outcome, expected) in rows {
        let table = table(Some(1_000), Some(2_000));
        assert_eq!(cases(table, frame(6, option, port), outcome), expected);
    }
}

#[test]
fn tells_where_a_frame_with_options_ends() {
    let rows = [
        (73, "-1", "filtered", "filtered"),
        (74, "+0", "forward", "filtered"),
        (77, "+3", "forward", "filtered"),
        (78, "+4", "forward", "forward"),
    ];
    for (length, behind, without_port, with_port) in rows {
        let mut frame = frame(15, PORT_1000, 1_500);
        frame.truncate(length);
        for (table, named, outcome) in [
            (table(None, None), "no port named", without_port),
            (table(Some(1_000), Some(2_000)), "port named", with_port),
        ] {
            let end = format!("options, frame ends {behind} from the header's end, {named}");
            let seen = cases(table, frame.clone(), outcome);
            assert_eq!(seen, ["15 words".to_string(), end]);
        }
    }
}

#[test]
fn tells_a_header_under_5_words() {
    let frame = frame(4, ROUTER_ALERT, 1_000);
    let free = ["04 words", "under 5 words, no port named"];
    assert_eq!(cases(table(None, None), frame.clone(), "filtered"), free);
    assert_eq!(cases(table(Some(0), None), frame, "filtered"), ["04 words"]);
}

#[test]
fn tells_a_protocol_without_ports() {
    let mut icmp = frame(5, ROUTER_ALERT, 1_000);
    icmp[23] = 1;
    let free = ["05 words", "protocol without ports, no port named"];
    assert_eq!(cases(table(None, None), icmp.clone(), "forward"), free);
    assert_eq!(cases(table(Some(0), None), icmp, "filtered"), ["05 words"]);
}

#[test]
fn tells_a_fragment_with_options() {
    let mut fragment = frame(6, ROUTER_ALERT, 1_000);
    fragment[21] = 1;
    let free = ["06 words", "options, fragment offset, no port named"];
    assert_eq!(cases(table(None, None), fragment.clone(), "forward"), free);
    let inside = "options, fragment offset, port inside the range";
    let seen = cases(table(Some(1_000), None), fragment, "filtered");
    assert_eq!(seen, ["06 words", inside]);
}

#[test]
fn tells_a_bad_header_that_no_classifier_is_asked_about() {
    let mut table = table(None, None);
    table.rules[0].classifiers.clear();
    let mut past_the_end = frame(6, ROUTER_ALERT, 1_000);
    past_the_end.truncate(37);
    let (under_5, past) = (
        "under 5 words, no classifier named",
        "past the frame's end, no classifier named",
    );
    let rows = [
        (frame(4, ROUTER_ALERT, 1_000), vec![under_5]),
        (past_the_end, vec![past]),
        (frame(6, ROUTER_ALERT, 1_000), vec![]),
    ];
    for (frame, expected) in rows {
        assert_eq!(cases(table.clone(), frame, "forward"), expected);
    }
}

#[test]
fn says_nothing_of_a_frame_with_other_addresses() {
    let none: [&str; 0] = [];
    let mut destination = frame(6, ROUTER_ALERT, 1_000);
    destination[33] = 8;
    assert_eq!(cases(table(None, None), destination, "filtered"), none);
    let mut from_10 = table(None, None);
    from_10.classifiers[0].source = Some([10, 0, 0, 0]);
    let frame = frame(6, ROUTER_ALERT, 1_000);
    assert_eq!(cases(from_10.clone(), frame.clone(), "filtered"), none);
    from_10.classifiers[0].mask = Some([255, 255, 255, 0]);
    assert_eq!(cases(from_10, frame, "forward"), ["06 words"]);
}
