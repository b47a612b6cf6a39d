//! Which tables no message gives.

use crate::tables::{classifier, longest_table, rule, table_m, table_of_two};
use reference::table::{read_table, Client, Table};
use requests::unreadable::{reasons, Reason};
use requests::written::elements;

/// The only reason against the table of two rules and two classifiers with this change.
fn reason(change: impl Fn(&mut Table)) -> Reason {
    let mut table = table_of_two();
    change(&mut table);
    let found = reasons(&table);
    let [reason] = found[..] else {
        panic!("{found:?}");
    };
    reason
}

/// Nothing is against that table with this change, and it is read back.
fn is_good(change: impl Fn(&mut Table)) {
    let mut table = table_of_two();
    change(&mut table);
    assert_eq!(reasons(&table), []);
    assert_eq!(read_table(&elements(&table).concat()), Ok(table));
}

#[test]
fn nothing_is_against_tables_of_messages() {
    for table in [Table::default(), table_m(), table_of_two(), longest_table()] {
        assert_eq!(reasons(&table), []);
    }
}

#[test]
fn a_number_must_be_a_classifiers_own_and_not_0() {
    let renumber = |table: &mut Table, number| {
        table.classifiers[0].number = number;
        table.rules[0].classifiers = vec![number];
    };
    assert_eq!(reason(|t| renumber(t, 0)), Reason::ClassifierNumber0);
    assert_eq!(reason(|t| renumber(t, 20)), Reason::ClassifierNumberTwice);
    is_good(|t| renumber(t, 1));
    is_good(|t| renumber(t, 65_535));
}

#[test]
fn a_number_must_be_a_rules_own() {
    assert_eq!(reason(|t| t.rules[1].number = 5), Reason::RuleNumberTwice);
    let equal = |table: &mut Table| table.rules[1] = table.rules[0].clone();
    assert_eq!(reason(equal), Reason::RuleNumberTwice);
    is_good(|t| t.rules[1].number = 0);
    is_good(|t| t.rules[1].number = 255);
}

#[test]
fn a_rule_must_name_classifiers_that_are_there() {
    let named = |numbers: &'static [u16]| {
        move |table: &mut Table| table.rules[0].classifiers = numbers.to_vec()
    };
    assert_eq!(reason(named(&[11])), Reason::NumberUnanswered);
    assert_eq!(reason(named(&[10, 0])), Reason::NumberUnanswered);
    assert_eq!(reason(|t| t.classifiers.clear()), Reason::NumberUnanswered);
    is_good(named(&[20, 10, 20]));
    is_good(named(&[]));
}

#[test]
fn a_broadcast_must_have_a_value_or_no_bytes() {
    let listed = |client| move |table: &mut Table| table.rules[0].clients.push(client);
    assert_eq!(reason(listed(Client::Broadcast(0))), Reason::BroadcastOf0);
    let others = [
        Client::EmptyBroadcast,
        Client::Broadcast(1),
        Client::Broadcast(65_535),
        Client::Mac([0; 6]),
        Client::Mac([255; 6]),
        Client::CaSystem(0),
        Client::Application(0),
        Client::Application(65_535),
        Client::Application(42),
    ];
    for client in others {
        is_good(listed(client));
    }
}

#[test]
fn a_channel_must_be_on_the_grid_and_in_its_range() {
    let tuned = |hz| move |table: &mut Table| table.channels = vec![603_000_000, hz];
    assert_eq!(reason(tuned(0)), Reason::ChannelOf0);
    for hz in [1, 62_499, 62_501, 999_999_999] {
        assert_eq!(reason(tuned(hz)), Reason::ChannelOffTheGrid, "{hz}");
    }
    for hz in [1_000_000_001, 1_000_062_500, 4_294_937_500, u32::MAX] {
        assert_eq!(reason(tuned(hz)), Reason::ChannelTooHigh, "{hz}");
    }
    for hz in [62_500, 125_000, 603_000_000, 1_000_000_000] {
        is_good(tuned(hz));
    }
}

#[test]
fn the_first_two_timers_must_not_be_0() {
    assert_eq!(reason(|t| t.timers[0] = 0), Reason::Tdsg1Of0);
    assert_eq!(reason(|t| t.timers[1] = 0), Reason::Tdsg2Of0);
    is_good(|t| t.timers = [1, 1, 0, 0]);
    is_good(|t| t.timers = [65_535; 4]);
}

#[test]
fn odd_tables_are_good() {
    is_good(|t| t.rules[0].priority = 0);
    is_good(|t| t.rules[0].tunnel = [0; 6]);
    is_good(|t| t.rules[0].ucids = vec![7; 16]);
    is_good(|t| t.rules.push(rule(7, 0, [255; 6])));
    is_good(|t| t.classifiers.push(classifier(1)));
    is_good(|t| t.classifiers[0].priority = 0);
    is_good(|t| t.classifiers[0].mask = Some([255, 0, 0, 0]));
    is_good(|t| t.classifiers[0].port_start = Some(65_535));
    is_good(|t| {
        t.classifiers[0].port_start = Some(2);
        t.classifiers[0].port_end = Some(1);
    });
}
