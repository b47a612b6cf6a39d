//! Where dsg.h says that nothing is written, what is lent lies in memory that cannot be written: a write,
//! even of the same bytes, would end the test. A table that holds what it held may be written with the same.

use crate::judging::forward;
use crate::pieces::BUFFER_BYTES;
use dsg::ffi;
use dsg::records::{state, Classifier, Client, Modem, Rule, Table, TimerValues, Tunnel};

const CLIENT: Client = Client { kind: 4, value: 42 };

static TABLE: Table = Table {
    rulecount: 255,
    classifiercount: 255,
    channelcount: 255,
    timers: TimerValues {
        tdsg1: 1,
        tdsg2: 2,
        tdsg3: 3,
        tdsg4: 4,
    },
    channels: [603_000_000; 32],
    classifiers: [Classifier {
        destination: 9,
        source: 1,
        mask: 255,
        number: 10,
        start: 1,
        end: 1,
        priority: 7,
        hassource: 9,
        hasmask: 9,
        hasstart: 9,
        hasend: 9,
    }; 32],
    rules: [Rule {
        number: 5,
        priority: 80,
        ucidcount: 255,
        clientcount: 255,
        numbercount: 255,
        ucids: [3; 16],
        numbers: [10; 8],
        tunnel: 0x0100_5E05_0505,
        clients: [CLIENT; 8],
    }; 32],
};

/// A table that a message gives: the first rule, the first classifier and all channels of the other one.
static READ: Table = {
    let mut table = TABLE;
    (table.rulecount, table.classifiercount) = (1, 1);
    (table.rules[0].ucidcount, table.rules[0].clientcount) = (16, 8);
    table.rules[0].numbercount = 8;
    (table.classifiers[0].hassource, table.classifiers[0].hasmask) = (1, 1);
    (table.classifiers[0].hasstart, table.classifiers[0].hasend) = (1, 1);
    table.channelcount = 32;
    let mut place = 1;
    while place < 32 {
        table.rules[place] = NO_RULE;
        table.classifiers[place] = NO_CLASSIFIER;
        place += 1;
    }
    table
};

const NO_RULE: Rule = Rule {
    number: 0,
    priority: 0,
    ucidcount: 0,
    clientcount: 0,
    numbercount: 0,
    ucids: [0; 16],
    numbers: [0; 8],
    tunnel: 0,
    clients: [Client { kind: 0, value: 0 }; 8],
};

const NO_CLASSIFIER: Classifier = Classifier {
    destination: 0,
    source: 0,
    mask: 0,
    number: 0,
    start: 0,
    end: 0,
    priority: 0,
    hassource: 0,
    hasmask: 0,
    hasstart: 0,
    hasend: 0,
};

static TUNNEL: Tunnel = Tunnel {
    address: 0x0100_5E05_0505,
    mode: 1,
    count: 255,
    destinations: [9; 32],
    sources: [1; 32],
    masks: [255; 32],
    starts: [1; 32],
    ends: [1; 32],
    numbers: [10; 32],
    ports: [9; 32],
};

static MODEM: Modem = Modem {
    last: 9,
    receive: 9,
    retry: 9,
    tdsg1: 1,
    tdsg2: 2,
    tdsg3: 3,
    tdsg4: 4,
    receiveon: 1,
    retryon: 0,
    state: state::TWO_WAY,
    permission: 1,
    hasucid: 1,
    ucid: 9,
};

/// A frame for the tunnel that the classifiers match.
static FRAME: [u8; 38] = [
    1, 0, 0x5E, 5, 5, 5, 0, 0, 0, 0, 0, 0, 8, 0, 0x45, 0, 0, 0, 0, 0, 0, 0, 0, 17, 0, 0, 0, 0, 0,
    1, 0, 0, 0, 9, 0, 0, 0, 1,
];

/// A body with one rule and one channel.
static BODY: [u8; 33] = [
    7, 1, 1, 50, 20, 1, 1, 5, 2, 1, 80, 4, 4, 4, 2, 0, 42, 5, 6, 1, 0, 0x5E, 5, 5, 5, 51, 6, 1, 4,
    0x23, 0xF1, 0x0C, 0xC0,
];

/// The same message in two bodies, cut inside the rule.
static CUT: [&[u8]; 2] = [
    &[7, 2, 1, 50, 20, 1],
    &[
        7, 2, 2, 1, 5, 2, 1, 80, 4, 4, 4, 2, 0, 42, 5, 6, 1, 0, 0x5E, 5, 5, 5, 51, 6, 1, 4, 0x23,
        0xF1, 0x0C, 0xC0,
    ],
];

#[test]
fn choosing_judging_preparing_and_listing_write_nothing_lent_to_read() {
    let Client { kind, value } = CLIENT;
    assert_eq!(ffi::choose(&TABLE, kind, value, 1, 3).place, 0);
    let verdict = ffi::judge(&TABLE, kind, value, 1, 3, &FRAME);
    assert_eq!(verdict, forward(10));
    let tunnel = ffi::prepare(&TABLE, kind, value, 1, 3);
    assert_eq!(ffi::judge_prepared(&tunnel, &FRAME), forward(10));
    assert_eq!(ffi::judge_prepared(&TUNNEL, &FRAME), forward(0));
    assert_eq!(ffi::list_table(&TABLE, 7, &mut [0; 3_755]).number, 0);
}

#[test]
fn writing_a_table_writes_nothing_lent_to_read() {
    let mut out = [0; 12_000];
    let written = ffi::write(&READ, 7, &mut out);
    // The configuration has 32 channels and four timers, the classifier all its parts, the rule 16 UCIDs, eight
    // applications and eight numbers.
    let length = 3 + (2 + 32 * 6 + 4 * 4) + 37 + (2 + 3 + 3 + 18 + 2 + 8 * 4 + 8 + 8 * 4);
    let lengths = (written.number, written.pieces, written.lengths[0]);
    assert_eq!(lengths, (0, 1, length));
    let short = &mut out[..usize::from(length) - 1];
    assert_eq!(ffi::write(&READ, 7, short).number, 20);
    assert_eq!(ffi::write(&TABLE, 7, &mut out).number, 19);
}

#[test]
fn asking_a_modem_writes_nothing() {
    assert!(ffi::transmits(&MODEM) && ffi::forwards(&MODEM));
}

#[test]
fn bodies_and_messages_are_only_read() {
    let (mut slots, mut join) = (vec![0; BUFFER_BYTES], vec![0; BUFFER_BYTES]);
    let (mut held, mut table) = (ffi::empty_collection(0), ffi::empty_table());
    let collected = ffi::collect(&mut held, &mut slots, &mut join, &BODY);
    assert_eq!((collected.kind, collected.length), (3, 30));
    assert_eq!(ffi::read(&mut table, &BODY[3..]).number, 0);
    let again = ffi::receive(&mut held, &mut table, &mut slots, &mut join, &BODY);
    assert_eq!(again.kind, 1);
    let mut held = ffi::empty_collection(0);
    let received = ffi::receive(&mut held, &mut table, &mut slots, &mut join, &BODY);
    assert_eq!(received.kind, 3);
    assert_eq!(ffi::list_body(&BODY, &mut [0; 3_755]).number, 0);
}

#[test]
fn bodies_of_a_dropped_collection_are_only_read_and_the_table_stays() {
    let (mut slots, mut join) = (vec![0; BUFFER_BYTES], vec![0; BUFFER_BYTES]);
    let (mut held, mut table) = (ffi::empty_collection(1), TABLE);
    let collected = CUT.map(|body| ffi::collect(&mut held, &mut slots, &mut join, body));
    assert_eq!(collected.map(|answer| answer.kind), [2, 5]);
    let received = CUT.map(|body| ffi::receive(&mut held, &mut table, &mut slots, &mut join, body));
    assert_eq!(received.map(|answer| answer.kind), [2, 5]);
    assert_eq!((collected[1].offset, received[1].offset), (3, 3));
    assert_eq!((held, table), (ffi::empty_collection(1), TABLE));
}
