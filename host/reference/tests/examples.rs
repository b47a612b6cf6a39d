//! Every example of document 01, as the document gives it.

mod support;

use reference::choosing::choose_rule;
use reference::listing::list_body;
use reference::modem::{step, Event, Record, State};
use reference::table::{Client, Table};
use support::{accepted, bytes, message_m, refused, Answer, Collection};

#[test]
fn lists_m() {
    let body = [bytes("07 01 01"), message_m()].concat();
    let lines = [
        "dcd 7 rules 2 classifiers 0 channels 1",
        "rule 5 priority 80 tunnel 01005e050505 clients 1 classifiers 0",
        "rule 6 priority 9 tunnel 01005e060606 clients 1 classifiers 0",
        "channel 603000000",
        "timers 2 600 300 1800",
    ];
    assert_eq!(list_body(&body), lines);
}

#[test]
fn lists_a_refusal_alone() {
    assert_eq!(list_body(&bytes("07 01 01 32 00")), ["refused 13 at 0"]);
}

#[test]
fn lists_an_unfinished_collection() {
    assert_eq!(list_body(&bytes("07 02 01 32")), ["waiting 1"]);
}

#[test]
fn application_42_gets_rule_5_of_m() {
    let table = accepted(&message_m());
    let chosen = choose_rule(&table, Client::Application(42), None).expect("a rule");
    assert_eq!(table.rules[chosen].number, 5);
}

#[test]
fn completes_m_cut_after_10_bytes_second_piece_first() {
    let message = message_m();
    let mut collection = Collection::new();
    let second = [&[7, 2, 2], &message[10..]].concat();
    let first = [&[7, 2, 1], &message[..10]].concat();
    assert_eq!(collection.take(&second), Ok(Answer::Waiting(1)));
    assert_eq!(collection.take(&first), Ok(Answer::CompleteJoin(message)));
}

#[test]
fn accepts_the_empty_message() {
    assert_eq!(accepted(&[]), Table::default());
}

#[test]
fn refuses_06_a_lone_byte() {
    assert_eq!(refused(&bytes("32")), (6, 0));
}

#[test]
fn refuses_07_length_255() {
    assert_eq!(refused(&bytes("32 FF")), (7, 0));
}

#[test]
fn refuses_13_empty_rule() {
    assert_eq!(refused(&bytes("32 00")), (13, 0));
}

#[test]
fn refuses_09_second_configuration() {
    assert_eq!(refused(&bytes("33 00 33 00")), (9, 2));
}

#[test]
fn refuses_11_tdsg1_of_0() {
    assert_eq!(refused(&bytes("33 04 02 02 00 00")), (11, 2));
}

#[test]
fn accepts_tdsg3_of_0() {
    let timers = accepted(&bytes("33 04 04 02 00 00")).timers;
    assert_eq!(timers, [2, 600, 0, 1800]);
}

#[test]
fn accepts_an_unlisted_type_as_empty() {
    assert_eq!(accepted(&bytes("63 01 00")), Table::default());
}

#[test]
fn steps_512_over_the_top_of_the_clock() {
    let record = Record {
        state: State::Checking,
        last: 0xFFFF_FF00,
        receive: Some(2_000),
        ..Record::default()
    };
    let next = step(&record, 0x0000_0100, Event::Packet).expect("accepted");
    assert_eq!((next.last, next.receive), (0x100, Some(2_000 - 512)));
}
