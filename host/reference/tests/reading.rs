//! Reading a table (document 01, "Elements", refusals 3 and 6 to 15).

mod support;

use reference::table::{Classifier, Client, Rule};
use support::{accepted, bytes, classifier, element, message_m, refused, row, rule};

/// Every listed part once: a rule, a classifier and a configuration.
const WHOLE: &str = "32 2A \
    01 01 05  02 01 09  03 02 01 07 \
    04 12  01 00  01 02 00 03  02 06 0A 0B 0C 0D 0E 0F  03 02 12 34 \
    05 06 01 00 5E 01 02 03  06 02 01 00 \
    17 23 02 02 01 00  05 01 03  09 1A \
    03 04 0A 01 02 00  04 04 FF FF FF 00  05 04 E0 00 00 09  09 02 00 01  0A 02 FF FF \
    33 16 01 04 00 00 F4 24  02 02 00 01  03 02 FF FF  04 02 00 00  05 02 01 02";

#[test]
fn accepts_every_part() {
    let table = accepted(&bytes(WHOLE));
    let rule = Rule {
        number: 5,
        priority: 9,
        tunnel: [1, 0, 0x5E, 1, 2, 3],
        ucids: vec![1, 7],
        clients: vec![
            Client::EmptyBroadcast,
            Client::Broadcast(3),
            Client::Mac([10, 11, 12, 13, 14, 15]),
            Client::CaSystem(0x1234),
        ],
        classifiers: vec![256],
    };
    let classifier = Classifier {
        number: 256,
        priority: 3,
        source: Some([10, 1, 2, 0]),
        mask: Some([255, 255, 255, 0]),
        destination: [224, 0, 0, 9],
        port_start: Some(1),
        port_end: Some(65_535),
    };
    assert_eq!(table.rules, [rule]);
    assert_eq!(table.classifiers, [classifier]);
    assert_eq!(table.channels, [62_500]);
    assert_eq!(table.timers, [1, 65_535, 0, 258]);
}

#[test]
fn accepts_absent_parts_as_absent() {
    let table = accepted(&[rule(0, &[]), classifier(1)].concat());
    let rule = &table.rules[0];
    assert_eq!((rule.number, rule.priority), (0, 0));
    assert!(rule.ucids.is_empty() && rule.clients.is_empty() && rule.classifiers.is_empty());
    let classifier = &table.classifiers[0];
    assert_eq!((classifier.source, classifier.mask), (None, None));
    assert_eq!((classifier.port_start, classifier.port_end), (None, None));
    assert_eq!(table.timers, [2, 600, 300, 1800]);
}

#[test]
fn accepts_rows_and_lists_in_message_order() {
    let ids = row(
        4,
        &[
            bytes("04 02 00 02"),
            bytes("03 02 00 01"),
            bytes("04 02 00 02"),
        ],
    );
    let first = row(
        50,
        &[bytes("05 06 00 00 00 00 00 01"), ids, bytes("01 01 09")],
    );
    let table = accepted(&[classifier(9), first, classifier(3), rule(1, &[])].concat());
    let rules: Vec<u8> = table.rules.iter().map(|rule| rule.number).collect();
    let classifiers: Vec<u16> = table.classifiers.iter().map(|c| c.number).collect();
    assert_eq!((rules, classifiers), (vec![9, 1], vec![9, 3]));
    let clients = [
        Client::Application(2),
        Client::CaSystem(1),
        Client::Application(2),
    ];
    assert_eq!(table.rules[0].clients, clients);
}

#[test]
fn accepts_what_is_odd_but_not_refused() {
    let ports_crossed =
        bytes("17 17 02 02 00 01 05 01 00 09 0E 05 04 00 00 00 00 09 02 00 02 0A 02 00 01");
    assert_eq!(accepted(&ports_crossed).classifiers[0].port_end, Some(1));
    let mask_alone = bytes("17 15 02 02 00 01 05 01 00 09 0C 05 04 00 00 00 00 04 04 FF 00 00 00");
    assert_eq!(
        accepted(&mask_alone).classifiers[0].mask,
        Some([255, 0, 0, 0])
    );
    let named_twice = [rule(1, &[bytes("06 02 00 01 06 02 00 01")]), classifier(1)].concat();
    assert_eq!(accepted(&named_twice).rules[0].classifiers, [1, 1]);
    let ucid_twice = rule(1, &[bytes("03 02 05 05")]);
    assert_eq!(accepted(&ucid_twice).rules[0].ucids, [5, 5]);
}

#[test]
fn skips_unlisted_types_at_every_level() {
    let client_ids = row(
        4,
        &[bytes("05 01 00"), bytes("04 02 00 2A"), bytes("05 00")],
    );
    let rule = row(
        50,
        &[
            bytes("07 00 2B 03 00 00 00 2B 00 17 01 FF"),
            bytes("01 01 05"),
            client_ids,
            bytes("05 06 01 00 5E 00 00 01"),
        ],
    );
    let ip = row(9, &[bytes("01 01 00 05 04 E0 00 00 09 06 00 06 00")]);
    let classifier = row(23, &[bytes("01 00 02 02 00 01 05 01 01 03 00"), ip]);
    let configuration = row(51, &[bytes("2B 01 00 2B 00 06 01 FF 00 00")]);
    let top = bytes("00 00 2B 00 2B 01 05 01 01 FF FF 00");
    let table = accepted(&[top, rule, classifier, configuration].concat());
    assert_eq!(table.rules[0].clients, [Client::Application(42)]);
    assert_eq!(table.classifiers[0].destination, [224, 0, 0, 9]);
    assert_eq!(
        (table.channels.len(), table.timers),
        (0, [2, 600, 300, 1800])
    );
}

#[test]
fn accepts_a_50_4_with_no_known_child() {
    assert!(accepted(&rule(5, &[])).rules[0].clients.is_empty());
}

#[test]
fn refuses_06_at_every_level() {
    assert_eq!(refused(&bytes("63 00 63")), (6, 2));
    assert_eq!(refused(&bytes("32 01 01")), (6, 2));
    assert_eq!(refused(&bytes("32 03 04 01 01")), (6, 4));
    assert_eq!(refused(&bytes("17 03 09 01 05")), (6, 4));
    assert_eq!(refused(&bytes("33 03 2B 00 01")), (6, 4));
}

#[test]
fn refuses_07_at_every_level() {
    assert_eq!(refused(&bytes("63 FF")), (7, 0));
    assert_eq!(refused(&bytes("32 02 2B FF")), (7, 2));
    assert_eq!(refused(&bytes("32 04 04 02 01 FF")), (7, 4));
    assert_eq!(refused(&bytes("33 00 17 FF")), (7, 2));
}

#[test]
fn refuses_08_past_the_row_or_the_message() {
    assert_eq!(refused(&bytes("63 01")), (8, 0));
    assert_eq!(refused(&bytes("32 02 01 01 05")), (8, 2));
    assert_eq!(refused(&bytes("32 04 04 02 04 02 00 2A")), (8, 4));
    assert_eq!(refused(&bytes("33 02 2B 01 00 00")), (8, 2));
}

#[test]
fn refuses_09_second_copies_in_each_row() {
    assert_eq!(refused(&bytes("17 06 05 01 00 05 01 00")), (9, 5));
    assert_eq!(
        refused(&bytes(
            "17 10 09 06 05 04 00 00 00 01 09 06 05 04 00 00 00 01"
        )),
        (9, 10)
    );
    assert_eq!(
        refused(&bytes("17 0E 09 0C 03 04 00 00 00 01 03 04 00 00 00 01")),
        (9, 10)
    );
    assert_eq!(refused(&bytes("32 06 03 01 00 03 01 00")), (9, 5));
    assert_eq!(refused(&bytes("32 04 04 00 04 00")), (9, 4));
    assert_eq!(refused(&bytes("33 08 05 02 00 00 05 02 00 00")), (9, 6));
}

#[test]
fn refuses_09_before_10_to_12() {
    assert_eq!(refused(&bytes("33 06 02 02 00 01 02 00")), (9, 6));
    let ucids = [element(3, &[1]), element(3, &[0; 17])].concat();
    assert_eq!(refused(&row(50, &[ucids])), (9, 5));
}

#[test]
fn refuses_10_other_lengths() {
    for kind in ["02 01 01", "05 00", "05 02 00 00"] {
        assert_eq!(refused(&row(23, &[bytes(kind)])), (10, 2), "23.{kind}");
    }
    for kind in [
        "03 03 00 00 00",
        "04 05 00 00 00 00 00",
        "05 00",
        "09 01 00",
        "0A 03 00 00 00",
    ] {
        assert_eq!(
            refused(&row(23, &[row(9, &[bytes(kind)])])),
            (10, 4),
            "23.9.{kind}"
        );
    }
    for kind in [
        "01 00",
        "02 02 00 00",
        "03 00",
        "05 05 00 00 00 00 00",
        "06 01 00",
    ] {
        assert_eq!(refused(&row(50, &[bytes(kind)])), (10, 2), "50.{kind}");
    }
    for kind in [
        "01 01 00",
        "01 03 00 00 01",
        "02 05 00 00 00 00 00",
        "03 00",
        "04 03 00 00 00",
    ] {
        assert_eq!(
            refused(&row(50, &[row(4, &[bytes(kind)])])),
            (10, 4),
            "50.4.{kind}"
        );
    }
    for kind in [
        "01 03 00 00 00",
        "02 01 00",
        "03 00",
        "04 01 00",
        "05 03 00 00 00",
    ] {
        assert_eq!(refused(&row(51, &[bytes(kind)])), (10, 2), "51.{kind}");
    }
}

#[test]
fn refuses_11_values_that_the_table_does_not_allow() {
    assert_eq!(refused(&bytes("17 04 02 02 00 00")), (11, 2));
    assert_eq!(refused(&bytes("32 06 04 04 01 02 00 00")), (11, 4));
    assert_eq!(refused(&bytes("32 04 06 02 00 00")), (11, 2));
    assert_eq!(refused(&bytes("33 04 03 02 00 00")), (11, 2));
    assert_eq!(refused(&bytes("33 06 01 04 00 00 00 00")), (11, 2));
    assert_eq!(refused(&bytes("33 06 01 04 00 00 F4 25")), (11, 2));
}

#[test]
fn accepts_0_where_the_table_allows_it() {
    let ids = row(4, &[bytes("03 02 00 00 04 02 00 00")]);
    let message = row(50, &[bytes("01 01 00 05 06 00 00 00 00 00 00"), ids]);
    let clients = [Client::CaSystem(0), Client::Application(0)];
    assert_eq!(accepted(&message).rules[0].clients, clients);
    assert_eq!(accepted(&bytes("33 04 05 02 00 00")).timers[3], 0);
}

#[test]
fn refuses_11_before_12() {
    let named: Vec<Vec<u8>> = (1..=8).map(|n| element(6, &[0, n])).collect();
    let ninth = [named, vec![element(6, &[0, 0])]].concat();
    assert_eq!(refused(&row(50, &ninth)), (11, 2 + 8 * 4));
}

#[test]
fn refuses_13_where_a_row_ends_without_a_must() {
    assert_eq!(refused(&bytes("17 00")), (13, 0));
    let (number, priority) = (bytes("02 02 00 01"), bytes("05 01 01"));
    let ip = bytes("09 06 05 04 E0 00 00 09");
    assert_eq!(refused(&row(23, &[priority.clone(), ip.clone()])), (13, 0));
    assert_eq!(refused(&row(23, &[number.clone(), ip])), (13, 0));
    assert_eq!(refused(&row(23, &[number, priority])), (13, 0));
    let (number, ids, tunnel) = (
        bytes("01 01 05"),
        bytes("04 00"),
        bytes("05 06 01 00 5E 00 00 01"),
    );
    assert_eq!(refused(&row(50, &[ids.clone(), tunnel.clone()])), (13, 0));
    assert_eq!(refused(&row(50, &[number.clone(), tunnel])), (13, 0));
    assert_eq!(
        refused(&[rule(1, &[]), row(50, &[number, ids])].concat()),
        (13, 15)
    );
}

#[test]
fn refuses_13_in_an_inner_row_before_later_children() {
    assert_eq!(refused(&bytes("17 06 09 00 02 02 00 00")), (13, 2));
    assert_eq!(refused(&bytes("17 07 02 02 00 01 09 00 FF")), (13, 6));
}

#[test]
fn refuses_14_at_the_later_row() {
    assert_eq!(
        refused(&[rule(5, &[]), rule(6, &[]), rule(5, &[])].concat()),
        (14, 30)
    );
    assert_eq!(refused(&[classifier(7), classifier(7)].concat()), (14, 17));
}

#[test]
fn refuses_14_before_what_follows() {
    let message = [classifier(7), classifier(7), bytes("32")].concat();
    assert_eq!(refused(&message), (14, 17));
}

#[test]
fn accepts_one_number_for_a_rule_and_a_classifier() {
    assert_eq!(
        accepted(&[rule(5, &[]), classifier(5)].concat())
            .rules
            .len(),
        1
    );
}

#[test]
fn refuses_15_at_the_first_unanswered_number() {
    let named = bytes("06 02 00 01 06 02 00 02 06 02 00 03");
    let message = [rule(5, &[named]), classifier(1)].concat();
    assert_eq!(refused(&message), (15, 15 + 4));
}

#[test]
fn accepts_a_classifier_after_or_before_the_rule_that_names_it() {
    let naming = rule(5, &[bytes("06 02 00 01")]);
    assert_eq!(
        accepted(&[naming.clone(), classifier(1)].concat()).rules[0].classifiers,
        [1]
    );
    assert_eq!(
        accepted(&[classifier(1), naming].concat()).rules[0].classifiers,
        [1]
    );
}

#[test]
fn refuses_15_after_everything_else() {
    let naming = rule(5, &[bytes("06 02 00 01")]);
    assert_eq!(refused(&[naming.clone(), bytes("33")].concat()), (6, 19));
    assert_eq!(refused(&[naming, rule(5, &[])].concat()), (14, 19));
}

/// Where a message's top elements begin, and its end: only a cut there leaves whole elements.
fn whole_cuts(message: &[u8]) -> Vec<usize> {
    let mut cuts = vec![0];
    let mut at = 0;
    while at < message.len() {
        at += 2 + usize::from(message[at + 1]);
        cuts.push(at);
    }
    cuts
}

#[test]
fn refuses_06_or_08_every_cut_inside_an_element() {
    for message in [message_m(), bytes(WHOLE)] {
        let cuts = whole_cuts(&message);
        for cut in (0..message.len()).filter(|cut| !cuts.contains(cut)) {
            let start = *cuts.iter().rfind(|&&start| start < cut).expect("a start");
            let number = if cut == start + 1 { 6 } else { 8 };
            assert_eq!(refused(&message[..cut]), (number, start), "cut at {cut}");
        }
    }
}

#[test]
fn accepts_m_cut_between_elements() {
    let message = message_m();
    let sizes = whole_cuts(&message).into_iter().map(|cut| {
        let table = accepted(&message[..cut]);
        (table.rules.len(), table.channels.len())
    });
    assert_eq!(sizes.collect::<Vec<_>>(), [(0, 0), (1, 0), (2, 0), (2, 1)]);
}

#[test]
fn refuses_15_a_rule_cut_from_its_classifier() {
    let message = bytes(WHOLE);
    assert_eq!(refused(&message[..2 + 0x2A]), (15, 2 + 0x2A - 4));
}
