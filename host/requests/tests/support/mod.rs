//! What the tests of the tally want: a table of one rule and one classifier, a frame for it, and the
//! lines that it adds to.

use reference::protocol::request::Request;
use reference::protocol::Session;
use reference::table::{Classifier, Client, Rule, Table};
use requests::tally::Tally;

const CLIENT: Client = Client::Application(42);
const TUNNEL: [u8; 6] = [0x01, 0x00, 0x5E, 0x05, 0x05, 0x05];
const DESTINATION: [u8; 4] = [224, 0, 0, 9];
pub const ROUTER_ALERT: [u8; 4] = [0x94, 0x04, 0x00, 0x00];

/// A table of one rule and one classifier, which names these ports.
pub fn table(start: Option<u16>, end: Option<u16>) -> Table {
    Table {
        rules: vec![Rule {
            number: 1,
            priority: 0,
            tunnel: TUNNEL,
            ucids: vec![],
            clients: vec![CLIENT],
            classifiers: vec![7],
        }],
        classifiers: vec![Classifier {
            number: 7,
            priority: 0,
            source: None,
            mask: None,
            destination: DESTINATION,
            port_start: start,
            port_end: end,
        }],
        ..Table::default()
    }
}

/// A UDP frame with a header of so many words, of which those behind the fifth are `option`, two
/// ports and four bytes more.
pub fn frame(words: u8, option: [u8; 4], port: u16) -> Vec<u8> {
    let mut frame = TUNNEL.to_vec();
    frame.extend([0; 6]);
    frame.extend([0x08, 0x00]);
    frame.extend([0x40 + words, 0, 0, 0, 0, 0, 0, 0, 0, 17, 0, 0]);
    frame.extend([10, 0, 0, 1]);
    frame.extend(DESTINATION);
    for _ in 5..words {
        frame.extend(option);
    }
    let [high, low] = port.to_be_bytes();
    frame.extend([0, 0, high, low, 0, 0, 0, 0]);
    frame
}

/// The lines with that beginning that a frame adds to, without it and without their ending, if that
/// is what becomes of the frame.
pub fn cases(beginning: &str, table: Table, frame: Vec<u8>, outcome: &str) -> Vec<String> {
    let (mut session, mut tally) = (Session::default(), Tally::default());
    let mut answer = String::new();
    for request in [Request::TSet(table), Request::Judge(CLIENT, None, frame)] {
        answer = session.answer(request.clone());
        tally.count(&request, &answer);
    }
    assert_eq!(answer.split(' ').next(), Some(outcome));
    let seen = tally.lines().filter(|&(_, count)| count > 0);
    let cases = seen.filter_map(|(line, _)| line.strip_prefix(beginning));
    let ending = format!(": {outcome}");
    cases
        .map(|line| line.strip_suffix(&ending).unwrap_or(line).to_string())
        .collect()
}
