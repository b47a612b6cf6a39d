//! Messages of 23,952 and 23,953 bytes; lengths 254 and 255; each list full and one more; values at
//! the ends of their ranges.

use crate::support::{accepted, bytes, classifier, element, refused, row, rule};
use reference::table::Client;

#[test]
fn accepts_a_message_of_23952_and_refuses_03_of_23953() {
    let pairs = bytes("63 00").repeat(23_952 / 2);
    assert!(accepted(&pairs).rules.is_empty());
    assert_eq!(refused(&[pairs, vec![0x63]].concat()), (3, 0));
}

#[test]
fn accepts_length_254_and_refuses_07_length_255() {
    let long = element(99, &[0; 254]);
    assert!(accepted(&long).rules.is_empty());
    assert_eq!(refused(&element(99, &[0; 255])), (7, 0));
    let row_of_254 = row(51, &[element(43, &[0; 252])]);
    assert!(accepted(&row_of_254).channels.is_empty());
    assert_eq!(refused(&row(51, &[element(43, &[0; 253])])), (7, 0));
}

fn rules(count: u8) -> Vec<u8> {
    (0..count).flat_map(|number| rule(number, &[])).collect()
}

#[test]
fn accepts_32_rules_and_refuses_12_the_33rd() {
    assert_eq!(accepted(&rules(32)).rules.len(), 32);
    assert_eq!(refused(&rules(33)), (12, 32 * 15));
    let empty_33rd = [rules(32), bytes("32 00")].concat();
    assert_eq!(refused(&empty_33rd), (12, 32 * 15));
}

fn classifiers(count: u16) -> Vec<u8> {
    (1..=count).flat_map(classifier).collect()
}

#[test]
fn accepts_32_classifiers_and_refuses_12_the_33rd() {
    assert_eq!(accepted(&classifiers(32)).classifiers.len(), 32);
    assert_eq!(refused(&classifiers(33)), (12, 32 * 17));
}

#[test]
fn accepts_32_channels_and_refuses_12_the_33rd() {
    let channels = |count| row(51, &vec![bytes("01 04 00 00 F4 24"); count]);
    assert_eq!(accepted(&channels(32)).channels, [62_500; 32]);
    assert_eq!(refused(&channels(33)), (12, 2 + 32 * 6));
}

/// A rule with these client IDs, which begin at offset 15.
fn rule_for(ids: &[Vec<u8>]) -> Vec<u8> {
    row(
        50,
        &[bytes("01 01 00 05 06 00 00 00 00 00 00"), row(4, ids)],
    )
}

#[test]
fn accepts_8_client_ids_and_refuses_12_the_9th() {
    let id = bytes("04 02 00 2A");
    let table = accepted(&rule_for(&vec![id.clone(); 8]));
    assert_eq!(table.rules[0].clients, [Client::Application(42); 8]);
    assert_eq!(refused(&rule_for(&vec![id; 9])), (12, 15 + 8 * 4));
}

#[test]
fn counts_client_ids_of_all_kinds_together() {
    let mut ids = vec![bytes("01 00"); 2];
    ids.extend(vec![bytes("01 02 00 01"); 2]);
    ids.extend(vec![bytes("02 06 00 00 00 00 00 01"); 2]);
    ids.extend([bytes("03 02 00 01"), bytes("04 02 00 01")]);
    assert_eq!(accepted(&rule_for(&ids)).rules[0].clients.len(), 8);
    ids.push(bytes("01 00"));
    assert_eq!(refused(&rule_for(&ids)), (12, 15 + 4 + 8 + 16 + 8));
}

#[test]
fn counts_client_ids_anew_in_each_rule() {
    let first = rule_for(&vec![bytes("01 00"); 8]);
    let mut second = rule_for(&vec![bytes("01 00"); 8]);
    second[4] = 1;
    assert_eq!(
        accepted(&[first, second].concat()).rules[1].clients.len(),
        8
    );
}

#[test]
fn accepts_8_classifier_numbers_and_refuses_12_the_9th() {
    let naming = |count| [rule(0, &vec![bytes("06 02 00 01"); count]), classifier(1)].concat();
    assert_eq!(accepted(&naming(8)).rules[0].classifiers, [1; 8]);
    assert_eq!(refused(&naming(9)), (12, 15 + 8 * 4));
}

#[test]
fn accepts_16_ucids_and_refuses_12_a_list_of_17() {
    let listing = |count| rule(0, &[element(3, &vec![9; count])]);
    assert_eq!(accepted(&listing(16)).rules[0].ucids, [9; 16]);
    assert_eq!(refused(&listing(17)), (12, 15));
    assert_eq!(accepted(&listing(1)).rules[0].ucids, [9]);
    assert_eq!(refused(&listing(0)), (10, 15));
}

#[test]
fn accepts_classifier_numbers_1_and_65535() {
    let table = accepted(&[classifier(1), classifier(65_535)].concat());
    assert_eq!(
        (table.classifiers[0].number, table.classifiers[1].number),
        (1, 65_535)
    );
    assert_eq!(refused(&classifier(0)), (11, 2));
}

#[test]
fn accepts_rule_numbers_0_and_255() {
    let table = accepted(&[rule(0, &[]), rule(255, &[])].concat());
    assert_eq!((table.rules[0].number, table.rules[1].number), (0, 255));
}

#[test]
fn accepts_channels_from_62500_to_1000000000() {
    let channel = |hz: u32| row(51, &[element(1, &hz.to_be_bytes())]);
    for hz in [62_500, 125_000, 999_937_500, 1_000_000_000] {
        assert_eq!(accepted(&channel(hz)).channels, [hz]);
    }
    for hz in [
        0,
        1,
        62_499,
        62_501,
        999_999_999,
        1_000_000_001,
        1_000_062_500,
        u32::MAX,
    ] {
        assert_eq!(refused(&channel(hz)), (11, 2), "{hz}");
    }
}

#[test]
fn accepts_timers_at_their_ends() {
    let timer = |kind, seconds: u16| row(51, &[element(kind, &seconds.to_be_bytes())]);
    for (index, kind) in (2..=5).enumerate() {
        assert_eq!(accepted(&timer(kind, 1)).timers[index], 1);
        assert_eq!(accepted(&timer(kind, 65_535)).timers[index], 65_535);
    }
    assert_eq!(refused(&timer(2, 0)), (11, 2));
    assert_eq!(refused(&timer(3, 0)), (11, 2));
    assert_eq!(accepted(&timer(4, 0)).timers, [2, 600, 0, 1800]);
    assert_eq!(accepted(&timer(5, 0)).timers, [2, 600, 300, 0]);
}

#[test]
fn accepts_a_full_table() {
    let named: Vec<Vec<u8>> = (1..=8).map(|number| element(6, &[0, number])).collect();
    let more = [vec![element(2, &[255]), element(3, &[1; 16])], named].concat();
    let rules: Vec<u8> = (0..32).flat_map(|number| rule(number, &more)).collect();
    let configuration = row(51, &vec![bytes("01 04 3B 9A CA 00"); 32]);
    let table = accepted(&[rules, configuration, classifiers(32)].concat());
    let sizes = (
        table.rules.len(),
        table.classifiers.len(),
        table.channels.len(),
    );
    assert_eq!(sizes, (32, 32, 32));
    assert_eq!(table.rules[31].classifiers, [1, 2, 3, 4, 5, 6, 7, 8]);
}
