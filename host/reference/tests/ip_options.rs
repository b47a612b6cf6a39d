//! Judging frames by the IP header's length that they give (document 02, Req 02).

mod support;

use reference::choosing::{judge_frame, Verdict};
use reference::table::{Classifier, Table};
use reference::Refusal;
use support::bytes;
use support::judging::{
    changed, classified, classifier, frame, judged, passes, ports, rule, table, with, CLIENT,
};

const ROUTER_ALERT: [u8; 4] = [0x94, 0x04, 0, 0];
const NO_OPERATION: u8 = 1;

/// The frame with these options, which are whole words.
fn with_options(options: &[u8]) -> Vec<u8> {
    let mut frame = [&frame()[..34], options, &frame()[34..]].concat();
    frame[14] += (options.len() / 4) as u8;
    frame[17] += options.len() as u8;
    frame
}

/// The frame with options that give its header so many words, 5 to 15.
fn with_words(words: usize) -> Vec<u8> {
    with_options(&vec![NO_OPERATION; 4 * (words - 5)])
}

/// The classifier of a single port.
fn port(port: u16) -> Classifier {
    ports(Some(port), Some(port))
}

/// The classifier that asks for a port, whichever it is.
fn any_port() -> Classifier {
    ports(Some(0), Some(65_535))
}

#[test]
fn forwards_a_router_alert_frame_by_its_port() {
    assert!(passes(&port(8_192), &frame()));
    assert!(passes(&port(8_192), &with_options(&ROUTER_ALERT)));
}

#[test]
fn filters_a_router_alert_frame_by_the_bytes_four_early() {
    let frame = with_options(&ROUTER_ALERT);
    assert_eq!(frame[36..38], [0, 0]);
    assert!(!passes(&port(0), &frame));
}

#[test]
fn filters_a_router_alert_frame_by_its_source_port() {
    assert!(!passes(&port(4_096), &with_options(&ROUTER_ALERT)));
}

#[test]
fn forwards_the_bytes_from_14_on_with_the_options() {
    let frame = with_options(&ROUTER_ALERT);
    let payload = bytes(
        "46 00 00 20 00 00 00 00 40 11 00 00 0A 01 02 03 E0 00 00 09 94 04 00 00 \
         10 00 20 00 00 08 00 00",
    );
    for (table, number) in [
        (table(&[rule(5, 80)]), 0),
        (classified(&[classifier(3, 1)]), 3),
        (classified(&[port(8_192)]), 3),
    ] {
        assert_eq!(judged(&table, &frame), Verdict::Forward(number, &payload));
    }
}

#[test]
fn matches_no_classifier_under_5_words() {
    for words in 0..5 {
        for frame in [frame(), with_words(15)] {
            let frame = changed(&frame, 14, 0x40 | words);
            assert!(!passes(&classifier(3, 1), &frame), "{words} words");
            assert!(!passes(&any_port(), &frame), "{words} words");
        }
    }
}

#[test]
fn matches_only_bytes_45_to_4f_as_the_first_of_the_header() {
    for byte in 0..=255 {
        let frame = changed(&with_words(15), 14, byte);
        let passed = (0x45..=0x4F).contains(&byte);
        assert_eq!(passes(&classifier(3, 1), &frame), passed, "{byte:02X}");
        assert_eq!(passes(&any_port(), &frame), passed, "{byte:02X}");
    }
}

#[test]
fn matches_15_words_up_to_the_frames_end() {
    for (length, without_ports, with_ports) in [
        (73, false, false),
        (74, true, false),
        (77, true, false),
        (78, true, true),
    ] {
        let frame = &with_words(15)[..length];
        assert_eq!(
            passes(&classifier(3, 1), frame),
            without_ports,
            "{length} bytes"
        );
        assert_eq!(passes(&port(8_192), frame), with_ports, "{length} bytes");
    }
}

#[test]
fn judges_every_header_cut_at_every_length() {
    for words in 5..=15 {
        let (frame, end) = (with_words(words), 14 + 4 * words);
        for cut in 14..=frame.len() {
            let short = &frame[..cut];
            let case = format!("{words} words cut at {cut}");
            assert_eq!(passes(&classifier(3, 1), short), cut >= end, "{case}");
            assert_eq!(passes(&any_port(), short), cut >= end + 4, "{case}");
            assert_eq!(passes(&port(8_192), short), cut >= end + 4, "{case}");
        }
    }
}

#[test]
fn forwards_for_a_rule_without_classifiers_whatever_byte_14_says() {
    for byte in 0..=255 {
        let frame = with(14, byte);
        for length in [15, 33, 34, 42] {
            assert_eq!(
                judged(&table(&[rule(5, 80)]), &frame[..length]),
                Verdict::Forward(0, &frame[14..length])
            );
        }
    }
}

#[test]
fn judges_other_a_frame_for_another_tunnel_whatever_byte_14_says() {
    for byte in 0..=255 {
        let frame = changed(&with(14, byte), 5, 6);
        for table in [table(&[rule(5, 80)]), classified(&[classifier(3, 1)])] {
            assert_eq!(judged(&table, &frame), Verdict::Other, "{byte:02X}");
        }
    }
}

#[test]
fn refuses_16_then_17_whatever_byte_14_says() {
    let refusal = |frame: &[u8]| judge_frame(&Table::default(), CLIENT, None, frame).err();
    for byte in 0..=255 {
        let mut frame = with(14, byte);
        frame.resize(1_518, 0);
        assert_eq!(refusal(&frame), Some(Refusal::whole(17)));
        frame.push(0);
        assert_eq!(refusal(&frame), Some(Refusal::whole(16)));
    }
}

#[test]
fn matches_no_port_in_a_fragment_with_options() {
    let frame = with_options(&ROUTER_ALERT);
    for (at, byte) in [(20, 0x10), (20, 0x01), (21, 0x80), (21, 0x01)] {
        let fragment = changed(&frame, at, byte);
        assert!(!passes(&any_port(), &fragment));
        assert!(passes(&classifier(3, 1), &fragment));
    }
    for flags in [0x20, 0x40, 0x80, 0xE0] {
        assert!(passes(&any_port(), &changed(&frame, 20, flags)));
    }
}

#[test]
fn reads_addresses_and_protocol_before_the_options() {
    let from = Classifier {
        source: Some([10, 1, 2, 3]),
        ..classifier(3, 1)
    };
    for words in 5..=15 {
        let frame = with_words(words);
        assert!(passes(&from, &frame), "{words} words");
        for at in 26..34 {
            let elsewhere = changed(&frame, at, 0x77);
            assert!(!passes(&from, &elsewhere), "{words} words, byte {at}");
        }
        let icmp = changed(&frame, 23, 1);
        assert!(passes(&from, &icmp), "{words} words");
        assert!(!passes(&any_port(), &icmp), "{words} words");
    }
}

#[test]
fn looks_at_neither_total_length_nor_checksum_nor_options() {
    let frame = with_options(&ROUTER_ALERT);
    for at in [16, 17, 24, 25, 34, 35, 36, 37] {
        for byte in [0, 1, 0x20, 0xFF] {
            let frame = changed(&frame, at, byte);
            assert!(passes(&port(8_192), &frame), "byte {at} is {byte}");
        }
    }
}
