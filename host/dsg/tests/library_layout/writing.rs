//! Tables as dsg_write reads them, and the lengths that it answers.
//!
//! What was written is read back by dsg_read, whose tables are held to every place in `tables`.

use crate::messages::{full, table};
use crate::numbers::Numbers;
use crate::places::{tell_apart, tell_first_apart, Places};
use dsg::ffi::{self, Written};
use dsg::records::{Classifier, Client, Rule, Table, TimerValues};
use std::array::from_fn;

/// The bytes of a piece's step, of a head, and of a piece at most.
const STEP: usize = 1_500;
const HEAD: usize = 3;
const PIECE: usize = 1_497;

/// The room that every table fits in.
const ROOM: usize = 12_000;

/// The places of `Written` that a table can fill: the number, the pieces, four lengths.
const FILLED: usize = 6;

fn answer(lengths: &[u16]) -> Written {
    Written {
        number: 0,
        pieces: lengths.len() as u32,
        lengths: from_fn(|at| lengths.get(at).copied().unwrap_or(0)),
    }
}

fn refused(number: u32) -> Written {
    Written {
        number,
        ..answer(&[])
    }
}

/// The parts of the message that stand in the buffer. The heads are as they should be, and all other bytes are the fill.
fn parts(written: &Written, count: u8, out: &[u8], fill: u8) -> Vec<Vec<u8>> {
    let pieces = written.pieces as u8;
    let (used, unused) = written.lengths.split_at(pieces.into());
    assert!(unused.iter().all(|&length| length == 0));
    let mut parts = Vec::new();
    for ((&length, sequence), step) in used.iter().zip(1..).zip(out.chunks(STEP)) {
        let (body, behind) = step.split_at(length.into());
        assert_eq!(body[..HEAD], [count, pieces, sequence]);
        assert!(behind.iter().all(|&byte| byte == fill));
        parts.push(body[HEAD..].to_vec());
    }
    assert_eq!(parts.len(), used.len());
    let behind = out.iter().skip(STEP * parts.len());
    assert!(behind.into_iter().all(|&byte| byte == fill));
    parts
}

#[test]
fn writes_every_place_of_a_table() {
    let mut numbers = Numbers(41);
    let tables: Vec<Table> = (0..64).map(|_| table(&mut numbers)).collect();
    for given in &tables {
        let (count, fill) = (numbers.byte(), numbers.byte());
        let mut out = vec![fill; ROOM];
        let written = ffi::write(given, count, &mut out);
        assert_eq!(written.number, 0);
        let message = parts(&written, count, &out, fill).concat();
        let mut read = full(&mut numbers);
        assert_eq!(ffi::read(&mut read, &message).number, 0);
        assert_eq!(read, *given);
    }
    tell_apart(&tables);
}

#[test]
fn answers_every_table_in_its_fields() {
    let mut numbers = Numbers(42);
    let mut answers = vec![refused(19), refused(20)];
    for given in [longest(), table(&mut numbers), table(&mut numbers)] {
        let mut out = vec![0; ROOM];
        let written = ffi::write(&given, 7, &mut out);
        let parts = parts(&written, 7, &out, 0);
        let last = parts.last().map_or(0, Vec::len);
        out.truncate(STEP * (parts.len() - 1) + HEAD + last);
        assert_eq!(ffi::write(&given, 7, &mut out), written);
        assert_eq!(ffi::write(&given, 7, &mut out[1..]), refused(20));
        let crowded = Table {
            rulecount: 33,
            ..given
        };
        assert_eq!(ffi::write(&crowded, 7, &mut out[1..]), refused(19));
        answers.push(written);
    }
    tell_first_apart(&answers, FILLED);
    let unfilled = answers.iter().flat_map(|w| w.places("").split_off(FILLED));
    assert!(unfilled.into_iter().all(|(_, length)| length == 0));
}

/// A table whose message is the longest: every list full, every part present, the longest client IDs, no usual timer.
fn longest() -> Table {
    let classifier = |at: usize| Classifier {
        number: at as u16 + 1,
        hassource: 1,
        hasmask: 1,
        hasstart: 1,
        hasend: 1,
        ..Classifier::default()
    };
    let rule = |at: usize| Rule {
        number: at as u8,
        ucidcount: 16,
        clientcount: 8,
        numbercount: 8,
        numbers: [1; 8],
        clients: [Client { kind: 2, value: 0 }; 8],
        ..Rule::default()
    };
    Table {
        rulecount: 32,
        classifiercount: 32,
        channelcount: 32,
        timers: TimerValues {
            tdsg1: 1,
            tdsg2: 1,
            tdsg3: 1,
            tdsg4: 1,
        },
        channels: [62_500; 32],
        classifiers: from_fn(classifier),
        rules: from_fn(rule),
    }
}

#[test]
fn cuts_the_longest_table_as_far_as_the_next_element_allows() {
    // 32 channels of 6 bytes and four timers of 4; a classifier's number, priority and five parts; a rule's number, priority,
    // 16 UCIDs, eight MAC addresses, tunnel and eight numbers: each row with its head.
    let configuration = 2 + 32 * 6 + 4 * 4;
    let classifier = 2 + 4 + 3 + 2 + 3 * 6 + 2 * 4;
    let rule = 2 + 3 + 3 + 18 + 2 + 8 * 8 + 8 + 8 * 4;
    assert_eq!((configuration, classifier, rule), (210, 37, 132));
    let first = configuration + 32 * classifier;
    let all = [first, 11 * rule, 11 * rule, 10 * rule];
    assert!(first + rule > PIECE && 12 * rule > PIECE);
    let expected = answer(&all.map(|length| (length + HEAD) as u16));
    let mut out = vec![0; ROOM];
    assert_eq!(ffi::write(&longest(), 255, &mut out), expected);
    let message = parts(&expected, 255, &out, 0).concat();
    let mut read = full(&mut Numbers(43));
    assert_eq!(ffi::read(&mut read, &message).number, 0);
    assert_eq!(read, longest());
}
