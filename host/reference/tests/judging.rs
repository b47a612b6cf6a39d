//! Choosing a rule and judging a frame (document 01, "Choosing and judging", refusals 16 and 17).
//! Headers of other lengths than five words are in `ip_options.rs`.

mod support;

use reference::choosing::{choose_rule, judge_frame, Verdict};
use reference::table::{Classifier, Client, Rule, Table};
use reference::Refusal;
use std::slice::from_ref;
use support::judging::{
    classified, classifier, frame, judged, passes, ports, rule, table, with, CLIENT, TUNNEL,
};

fn chosen(table: &Table, client: Client, ucid: Option<u8>) -> Option<usize> {
    choose_rule(table, client, ucid).ok()
}

#[test]
fn chooses_the_greatest_priority_as_a_number() {
    assert_eq!(
        chosen(
            &table(&[rule(1, 9), rule(2, 80), rule(3, 10)]),
            CLIENT,
            None
        ),
        Some(1)
    );
}

#[test]
fn chooses_the_smallest_number_among_equal_priorities() {
    assert_eq!(
        chosen(&table(&[rule(9, 7), rule(4, 7), rule(5, 7)]), CLIENT, None),
        Some(1)
    );
}

#[test]
fn chooses_the_first_of_equal_numbers() {
    assert_eq!(
        chosen(&table(&[rule(9, 7), rule(4, 7), rule(4, 7)]), CLIENT, None),
        Some(1)
    );
}

#[test]
fn refuses_17_when_no_rule_lists_the_client() {
    let table = table(&[rule(1, 1)]);
    let others = [
        Client::Application(41),
        Client::CaSystem(42),
        Client::Broadcast(42),
    ];
    for other in others {
        assert_eq!(choose_rule(&table, other, None), Err(Refusal::whole(17)));
    }
    assert_eq!(chosen(&Table::default(), CLIENT, None), None);
}

#[test]
fn tells_the_broadcast_of_length_0_from_every_value() {
    let listing = |client| {
        let clients = vec![client];
        table(&[Rule {
            clients,
            ..rule(1, 1)
        }])
    };
    let (empty, zero) = (Client::EmptyBroadcast, Client::Broadcast(0));
    assert_eq!(chosen(&listing(empty), empty, None), Some(0));
    assert_eq!(chosen(&listing(empty), zero, None), None);
    assert_eq!(chosen(&listing(zero), empty, None), None);
    assert_eq!(chosen(&listing(zero), zero, None), Some(0));
}

#[test]
fn fits_a_ucid_list_only_by_a_known_listed_ucid() {
    let table = table(&[Rule {
        ucids: vec![0, 7],
        ..rule(1, 1)
    }]);
    assert_eq!(chosen(&table, CLIENT, Some(7)), Some(0));
    assert_eq!(chosen(&table, CLIENT, Some(0)), Some(0));
    assert_eq!(chosen(&table, CLIENT, Some(1)), None);
    assert_eq!(chosen(&table, CLIENT, None), None);
}

#[test]
fn passes_over_a_greater_rule_whose_ucid_list_does_not_fit() {
    let listed = Rule {
        ucids: vec![7],
        ..rule(1, 80)
    };
    let table = table(&[listed, rule(2, 9)]);
    assert_eq!(chosen(&table, CLIENT, Some(7)), Some(0));
    assert_eq!(chosen(&table, CLIENT, None), Some(1));
}

#[test]
fn refuses_16_before_17() {
    let refusal = |frame| judge_frame(&Table::default(), CLIENT, None, frame);
    assert_eq!(refusal(&[0; 13]), Err(Refusal::whole(16)));
    assert_eq!(refusal(&[0; 14]), Err(Refusal::whole(17)));
}

#[test]
fn judges_other_a_frame_for_another_tunnel() {
    for at in 0..6 {
        let frame = with(at, 0xAA);
        assert_eq!(judged(&table(&[rule(5, 80)]), &frame), Verdict::Other);
    }
}

#[test]
fn forwards_everything_for_a_rule_without_classifiers() {
    let frame = [&TUNNEL[..], &[0; 8], b"anything"].concat();
    assert_eq!(
        judged(&table(&[rule(5, 80)]), &frame),
        Verdict::Forward(0, b"anything")
    );
}

#[test]
fn forwards_the_bytes_from_14_on() {
    let frame = frame();
    let table = classified(&[classifier(3, 1)]);
    assert_eq!(judged(&table, &frame), Verdict::Forward(3, &frame[14..]));
}

#[test]
fn filters_a_number_that_is_not_in_the_table() {
    let table = table(&[Rule {
        classifiers: vec![3],
        ..rule(5, 80)
    }]);
    assert_eq!(judged(&table, &frame()), Verdict::Filtered);
}

#[test]
fn filters_by_classifiers_that_the_rule_does_not_name() {
    let mut table = classified(&[classifier(3, 1)]);
    table.rules[0].classifiers = vec![4];
    assert_eq!(judged(&table, &frame()), Verdict::Filtered);
}

#[test]
fn forwards_by_the_greatest_classifier_priority_then_the_smallest_number() {
    let greatest = classified(&[classifier(1, 9), classifier(2, 80), classifier(3, 10)]);
    assert_eq!(
        judged(&greatest, &frame()),
        Verdict::Forward(2, &frame()[14..])
    );
    let smallest = classified(&[classifier(9, 7), classifier(4, 7), classifier(5, 7)]);
    assert_eq!(
        judged(&smallest, &frame()),
        Verdict::Forward(4, &frame()[14..])
    );
}

#[test]
fn tries_every_entry_of_a_repeated_classifier_number() {
    let elsewhere = Classifier {
        destination: [224, 0, 0, 8],
        ..classifier(3, 80)
    };
    let table = classified(&[elsewhere, classifier(3, 1)]);
    assert_eq!(
        judged(&table, &frame()),
        Verdict::Forward(3, &frame()[14..])
    );
}

#[test]
fn forwards_by_classifier_0_of_a_lent_table() {
    assert!(passes(&classifier(0, 1), &frame()));
}

#[test]
fn matches_only_ipv4() {
    assert!(!passes(&classifier(3, 1), &with(12, 0x86)));
    assert!(!passes(&classifier(3, 1), &with(13, 0x06)));
    assert!(!passes(&classifier(3, 1), &with(14, 0x65)));
    // A header of 7 words ends with the frame, one of 15 passes its end.
    assert!(passes(&classifier(3, 1), &with(14, 0x47)));
    assert!(!passes(&classifier(3, 1), &with(14, 0x4F)));
}

#[test]
fn matches_only_an_equal_destination() {
    for at in 30..34 {
        assert!(!passes(&classifier(3, 1), &with(at, 0x77)));
    }
}

#[test]
fn masks_the_packet_source_and_not_the_tables() {
    let from = |source, mask| Classifier {
        source,
        mask,
        ..classifier(3, 1)
    };
    assert!(passes(&from(Some([10, 1, 2, 3]), None), &frame()));
    assert!(!passes(&from(Some([10, 1, 2, 2]), None), &frame()));
    assert!(passes(
        &from(Some([10, 1, 2, 0]), Some([255, 255, 255, 0])),
        &frame()
    ));
    assert!(!passes(
        &from(Some([10, 1, 2, 3]), Some([255, 255, 255, 0])),
        &frame()
    ));
    assert!(passes(
        &from(Some([0, 0, 0, 0]), Some([0, 0, 0, 0])),
        &frame()
    ));
}

#[test]
fn ignores_a_mask_without_a_source() {
    let masked = Classifier {
        mask: Some([255; 4]),
        ..classifier(3, 1)
    };
    assert!(passes(&masked, &frame()));
}

#[test]
fn matches_ports_from_start_to_end() {
    for (start, end, passed) in [
        (Some(8_192), Some(8_192), true),
        (Some(8_191), Some(8_193), true),
        (Some(8_193), Some(9_000), false),
        (Some(8_000), Some(8_191), false),
        (Some(8_192), None, true),
        (Some(8_193), None, false),
        (None, Some(8_192), true),
        (None, Some(8_191), false),
        (Some(9_000), Some(8_000), false),
    ] {
        assert_eq!(
            passes(&ports(start, end), &frame()),
            passed,
            "{start:?} {end:?}"
        );
    }
}

#[test]
fn matches_ports_only_in_tcp_and_udp() {
    let any = ports(Some(0), None);
    assert!(passes(&any, &with(23, 6)));
    assert!(passes(&any, &with(23, 17)));
    for protocol in [0, 1, 5, 7, 16, 18] {
        assert!(!passes(&any, &with(23, protocol)));
        assert!(passes(&classifier(3, 1), &with(23, protocol)));
    }
}

#[test]
fn matches_ports_only_at_fragment_offset_0() {
    let any = ports(None, Some(65_535));
    assert!(!passes(&any, &with(20, 0x10)));
    assert!(!passes(&any, &with(21, 0x01)));
    assert!(passes(&classifier(3, 1), &with(21, 0x01)));
    for flags in [0x20, 0x40, 0x80, 0xE0] {
        assert!(passes(&any, &with(20, flags)));
    }
}

#[test]
fn judges_a_frame_cut_at_every_length() {
    let (frame, plain, ported) = (frame(), classifier(3, 1), ports(Some(8_192), None));
    for cut in 0..=frame.len() {
        let short = &frame[..cut];
        if cut < 14 {
            let table = classified(from_ref(&plain));
            assert_eq!(
                judge_frame(&table, CLIENT, None, short),
                Err(Refusal::whole(16))
            );
        } else {
            assert_eq!(passes(&plain, short), cut >= 34, "cut at {cut}");
            assert_eq!(passes(&ported, short), cut >= 34 + 4, "cut at {cut}");
        }
    }
}
