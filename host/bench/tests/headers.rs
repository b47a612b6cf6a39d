//! IP headers of every length in frames of every length about their ends, judged by the library and by
//! the other program (document 02, Req 02).

use reference::protocol::request::Request;
use reference::protocol::Session;
use reference::table::{Classifier, Client, Rule, Table};
use requests::programs::ask;
use std::collections::BTreeSet;

const TUNNEL: [u8; 6] = [1, 0, 0x5E, 5, 5, 5];
const DESTINATION: [u8; 4] = [224, 0, 0, 9];
const PORT: u16 = 0x2345;
/// Frames are filled with it; no port of two such bytes is `PORT`.
const FILL: u8 = 0xFF;

/// Three clients: their rules name a classifier with ports, one without, and none.
const CLIENTS: [Client; 3] = [
    Client::Application(1),
    Client::Application(2),
    Client::Application(3),
];

fn table() -> Table {
    let rule = |client: usize, classifiers: &[u16]| Rule {
        number: client as u8,
        priority: 1,
        tunnel: TUNNEL,
        ucids: vec![],
        clients: vec![CLIENTS[client]],
        classifiers: classifiers.to_vec(),
    };
    let classifier = |number, port| Classifier {
        number,
        priority: 1,
        source: None,
        mask: None,
        destination: DESTINATION,
        port_start: port,
        port_end: port,
    };
    Table {
        rules: vec![rule(0, &[1]), rule(1, &[2]), rule(2, &[])],
        classifiers: vec![classifier(1, Some(PORT)), classifier(2, None)],
        ..Table::default()
    }
}

/// The two bytes of flags and fragment offset, and the protocol: UDP, TCP, a fragment behind the first, the
/// first of several, and a protocol without ports.
const KINDS: [([u8; 2], u8); 5] = [
    ([0x00, 0x00], 17),
    ([0x40, 0x00], 6),
    ([0x00, 0x01], 17),
    ([0x20, 0x00], 17),
    ([0x00, 0x00], 1),
];

/// A frame of that length with a header of so many words and `PORT` at one place, as far as it goes.
fn frame(words: u8, length: usize, (fragment, protocol): ([u8; 2], u8), at: usize) -> Vec<u8> {
    let mut frame = vec![FILL; 128];
    frame[..6].copy_from_slice(&TUNNEL);
    frame[12..15].copy_from_slice(&[0x08, 0x00, 0x40 | words]);
    frame[20..22].copy_from_slice(&fragment);
    frame[23] = protocol;
    frame[30..34].copy_from_slice(&DESTINATION);
    frame[at..at + 2].copy_from_slice(&PORT.to_be_bytes());
    frame.truncate(length);
    frame
}

/// Every frame with its header's words, in order.
fn frames() -> impl Iterator<Item = (u8, Vec<u8>)> {
    (0..16u8).flat_map(|words| {
        let end = 14 + 4 * usize::from(words);
        // where the port stands, where it stood before, where the source port stands, and behind it
        let places = BTreeSet::from([36, end.max(34), end.max(34) + 2, end.max(34) + 4]);
        places.into_iter().flat_map(move |at| {
            (14..=90).flat_map(move |length| {
                KINDS.map(move |kind| (words, frame(words, length, kind, at)))
            })
        })
    })
}

#[test]
fn same_as_other_program_on_every_header_length_and_frame_length() {
    let asked = || {
        frames().flat_map(|(words, frame)| {
            CLIENTS.map(|client| (words, Request::Judge(client, None, frame.clone())))
        })
    };
    let requests = std::iter::once(Request::TSet(table())).chain(asked().map(|(_, ask)| ask));
    let mut answers = ask(env!("CARGO_BIN_EXE_bench"), requests).expect("bench starts");
    let mut session = Session::default();
    assert_eq!(answers.next(), Some(session.answer(Request::TSet(table()))));
    let mut matched = BTreeSet::new();
    for (words, request) in asked() {
        let expected = session.answer(request.clone());
        assert_eq!(answers.next().as_ref(), Some(&expected), "{request}");
        if let Some(("forward", rest)) = expected.split_once(' ') {
            let number = rest.split(' ').next().map(str::to_string);
            matched.insert((number, words));
        }
    }
    assert_eq!(answers.next(), None);
    assert!(answers.ended_well());
    // By a classifier only headers of five words or more, each of them; by none every header.
    let of = |number: &str, words: std::ops::Range<u8>| {
        let number = Some(number.to_string());
        words
            .map(move |words| (number.clone(), words))
            .collect::<Vec<_>>()
    };
    let all = [of("0", 0..16), of("1", 5..16), of("2", 5..16)];
    assert_eq!(matched, all.concat().into_iter().collect());
}
