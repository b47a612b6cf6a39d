//! Tables: the library reads a message into every place, and chooses and lists by every place.

use crate::messages::{full, message_of, table};
use crate::numbers::Numbers;
use crate::places::tell_apart;
use dsg::ffi::{self, Choice, Listed, ReadAnswer};
use dsg::records::{Client, Table};
use std::array::from_fn;

/// How many tables are enough to tell every place from every other.
const TABLES: usize = 64;

const ACCEPTED: ReadAnswer = ReadAnswer {
    number: 0,
    offset: 0,
};

#[test]
fn reads_a_message_into_every_place() {
    let mut numbers = Numbers(1);
    let mut written = Vec::new();
    for _ in 0..TABLES {
        let (expected, mut read) = (table(&mut numbers), full(&mut numbers));
        assert_eq!(ffi::read(&mut read, &message_of(&expected)), ACCEPTED);
        assert_eq!(read, expected);
        written.push(read);
    }
    tell_apart(&written);
}

#[test]
fn empty_table_is_the_table_of_the_empty_message() {
    let mut read = full(&mut Numbers(2));
    assert_eq!(ffi::read(&mut read, &[]), ACCEPTED);
    assert_eq!(read, ffi::empty_table());
    let timers = read.timers;
    assert_eq!(
        [timers.tdsg1, timers.tdsg2, timers.tdsg3, timers.tdsg4],
        [2, 600, 300, 1_800]
    );
}

#[test]
fn refuses_with_number_and_offset_and_leaves_every_place() {
    let mut numbers = Numbers(3);
    let mut answers = vec![ACCEPTED];
    for (number, fault) in [(6, &[50][..]), (7, &[50, 255]), (13, &[50, 0])] {
        let given = full(&mut numbers);
        let mut table = given;
        let offset = 2 * numbers.between(1, 11_000) as usize;
        let message = [&[99, 0].repeat(offset / 2), fault].concat();
        let refused = ReadAnswer { number, offset };
        assert_eq!(ffi::read(&mut table, &message), refused);
        assert_eq!(table, given);
        answers.push(refused);
    }
    tell_apart(&answers);
}

/// The place of the rule for a client and a UCID with its mark.
fn choose(table: &Table, client: Client, known: u8, ucid: u8) -> Option<usize> {
    let Choice { number, place } = ffi::choose(table, client.kind, client.value, known, ucid);
    assert!(number == 0 || (number, place) == (17, 0));
    (number == 0).then_some(place)
}

#[test]
fn chooses_by_every_client_and_every_ucid() {
    let table = full(&mut Numbers(4));
    for (at, rule) in table.rules.iter().enumerate() {
        let mut lent = table;
        lent.rules[at].ucidcount = 0;
        for (k, client) in rule.clients.into_iter().enumerate() {
            lent.rules[at].clientcount = 8;
            assert_eq!(choose(&lent, client, 0, 0), Some(at));
            lent.rules[at].clientcount = k as u8;
            assert_eq!(choose(&lent, client, 0, 0), None);
        }
        let (mut lent, client) = (table, rule.clients[0]);
        lent.rules[at].ucids = from_fn(|k| 100 + k as u8);
        for k in 0..16 {
            let ucid = 100 + k;
            lent.rules[at].ucidcount = k + 1;
            assert_eq!(choose(&lent, client, 1, ucid), Some(at));
            assert_eq!(choose(&lent, client, 0, ucid), None);
            lent.rules[at].ucidcount = k;
            let without_list = (k == 0).then_some(at);
            assert_eq!(choose(&lent, client, 1, ucid), without_list);
        }
    }
    let Client { kind, value } = table.rules[31].clients[7];
    let last = ffi::choose(&table, kind, value, 1, table.rules[31].ucids[0]);
    let none = ffi::choose(&table, kind, value ^ 1, 0, 0);
    tell_apart(&[last, none]);
}

#[test]
fn chooses_by_every_priority_and_every_number() {
    let mut table = full(&mut Numbers(5));
    let client = table.rules[0].clients[0];
    for rule in &mut table.rules {
        (rule.clients[7], rule.ucidcount, rule.priority) = (client, 0, 100);
    }
    for at in 0..32 {
        let mut lent = table;
        lent.rules[at].priority = 101;
        assert_eq!(choose(&lent, client, 0, 0), Some(at));
        let mut lent = table;
        for (place, rule) in lent.rules.iter_mut().enumerate() {
            rule.number = 50 + (place as u8 + 32 - at as u8) % 32;
        }
        assert_eq!(choose(&lent, client, 0, 0), Some(at));
        let mut lent = table;
        lent.rules[at].priority = 255;
        lent.rulecount = at as u8;
        assert_eq!(choose(&lent, client, 0, 0), (at > 0).then_some(0));
    }
}

/// The listing of a table (document 01, "Listing").
fn text(count: u8, table: &Table) -> String {
    let mut text = format!(
        "dcd {count} rules {} classifiers {} channels {}\n",
        table.rulecount, table.classifiercount, table.channelcount
    );
    for r in &table.rules[..table.rulecount.into()] {
        text += &format!(
            "rule {} priority {} tunnel {:012x} clients {} classifiers {}\n",
            r.number, r.priority, r.tunnel, r.clientcount, r.numbercount
        );
    }
    for c in &table.classifiers[..table.classifiercount.into()] {
        text += &format!("classifier {} priority {}\n", c.number, c.priority);
    }
    for hertz in &table.channels[..table.channelcount.into()] {
        text += &format!("channel {hertz}\n");
    }
    let v = table.timers;
    text + &format!("timers {} {} {} {}\n", v.tdsg1, v.tdsg2, v.tdsg3, v.tdsg4)
}

#[test]
fn lists_every_place() {
    let mut numbers = Numbers(6);
    let mut answers = Vec::new();
    for _ in 0..TABLES {
        let (table, count) = (table(&mut numbers), numbers.byte());
        let mut out = vec![b'#'; 3_755];
        let listed = ffi::list_table(&table, count, &mut out);
        let expected = text(count, &table);
        assert_eq!(listed.number, 0);
        assert_eq!(out[..listed.length], *expected.as_bytes());
        assert!(out[expected.len()..].iter().all(|&b| b == b'#'));
        answers.push(listed);
    }
    let short = Listed {
        number: 100,
        length: 0,
    };
    let refused = ffi::list_table(&full(&mut numbers), 7, &mut [0; 3_754]);
    assert_eq!(refused, short);
    answers.push(refused);
    tell_apart(&answers);
}
