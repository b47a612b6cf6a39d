//! Collection records with flags that no call writes and with settings of any value, and receiving beside any table.

use crate::disguise::any_table;
use crate::from_seeds;
use crate::plain::plain;
use dsg::ffi::{self, Collected, Received};
use dsg::records::{Collection, Table};
use reference::collecting::{take_piece, Record, Taken, BUFFER_MIN, PIECE_MAX, SLOTS};
use reference::protocol::request::Request;
use reference::table::{read_table, MESSAGE_MAX};
use reference::Refusal;
use requests::messages::{message, message_of};
use requests::pieces;
use requests::random::Random;
use requests::tables::sound_table;
use std::collections::BTreeSet;

/// A collection record and its buffers.
#[derive(Clone, PartialEq)]
struct Lent {
    held: Collection,
    slots: Vec<u8>,
    join: Vec<u8>,
}

impl Lent {
    /// Nothing collected, in a setting.
    fn new(slots: usize, join: usize, fill: u8, strict: u16) -> Lent {
        Lent {
            held: numbers(&Record::default(), strict),
            slots: vec![fill; slots],
            join: vec![fill; join],
        }
    }

    /// Takes a body as the other program does; the setting stays as it was lent. Where the message is complete, its bytes are
    /// given too.
    fn take(&mut self, body: &[u8]) -> (Collected, Option<Vec<u8>>) {
        let mut record = meant(&self.held);
        let answer = |kind, number, empty, start, length| Collected {
            kind,
            number,
            empty,
            start,
            length,
            offset: 0,
        };
        let taken = match take_piece(&mut record, &mut self.slots, &mut self.join, body) {
            Err(Refusal { number: 21, offset }) => {
                let dropped = Collected {
                    offset,
                    ..answer(5, 21, 0, 0, 0)
                };
                (dropped, None)
            }
            Err(refusal) => return (answer(0, refusal.number.into(), 0, 0, 0), None),
            Ok(Taken::Repeat) => (answer(1, 0, 0, 0, 0), None),
            Ok(Taken::Waiting(empty)) => (answer(2, 0, empty, 0, 0), None),
            Ok(Taken::CompleteBody(part)) => (answer(3, 0, 0, 3, part.len()), Some(part.to_vec())),
            Ok(Taken::CompleteJoin(part)) => (answer(4, 0, 0, 0, part.len()), Some(part.to_vec())),
        };
        assert_eq!(record.strict, self.held.strict != 0);
        self.held = numbers(&record, self.held.strict);
        taken
    }

    /// What a body is answered all the way, and the table after it.
    fn receive(&mut self, table: &Table, body: &[u8]) -> (Received, Table) {
        let (taken, message) = self.take(body);
        let answer = Received {
            kind: taken.kind,
            number: taken.number,
            empty: taken.empty,
            offset: taken.offset,
        };
        match message.map(|message| read_table(&message)) {
            None => (answer, *table),
            Some(Ok(read)) => (Received { kind: 3, ..answer }, plain(&read)),
            Some(Err(refusal)) => {
                let refused = Received {
                    kind: 4,
                    number: refusal.number.into(),
                    empty: 0,
                    offset: refusal.offset,
                };
                (refused, *table)
            }
        }
    }
}

/// The record that numbers mean: with a flag that is neither 0 nor 1, nothing collected; strict with any setting but 0.
fn meant(held: &Collection) -> Record {
    let strict = held.strict != 0;
    if held.filled.iter().any(|&flag| flag > 1) {
        return Record::empty(strict);
    }
    Record {
        count: held.count,
        number: held.number,
        filled: held.filled.map(|flag| flag == 1),
        lengths: held.lengths,
        strict,
    }
}

/// The numbers of a record, and a number for its setting.
fn numbers(record: &Record, strict: u16) -> Collection {
    Collection {
        count: record.count,
        number: record.number,
        filled: record.filled.map(u8::from),
        lengths: record.lengths,
        strict,
    }
}

/// A number for a setting: 0 for loose, any other for strict.
fn setting(random: &mut Random, strict: bool) -> u16 {
    let any = random.between(1, 65_535) as u16;
    let strict_number = random.pick(&[1, 2, 255, 256, 0x8000, 65_535, any]);
    u16::from(strict) * strict_number
}

/// Either setting.
fn any_setting(random: &mut Random) -> u16 {
    let strict = random.once_in(2);
    setting(random, strict)
}

/// Gives a slot, often a filled one, a flag that no call writes.
fn spoil(random: &mut Random, held: &mut Collection) {
    let filled: Vec<usize> = (0..SLOTS).filter(|&slot| held.filled[slot] == 1).collect();
    let any = random.below(SLOTS);
    let slot = filled.get(random.below(2 * filled.len())).copied();
    held.filled[slot.unwrap_or(any)] = random.pick(&[2, 3, 128, 254, 255]);
}

#[test]
fn same_as_other_program_with_flags_and_settings_of_any_value() {
    let mut seen = BTreeSet::new();
    from_seeds(|seed, random| {
        let mut lent = Lent::new(BUFFER_MIN, BUFFER_MIN, 0, any_setting(random));
        let mut cases = 0;
        for request in pieces::scenario(random) {
            match request {
                Request::New {
                    slot,
                    join,
                    fill,
                    strict,
                } => lent = Lent::new(slot, join, fill, setting(random, strict)),
                Request::Rec(record) => lent.held = numbers(&record, lent.held.strict),
                Request::Piece(body) => {
                    let spoilt = random.once_in(3);
                    if spoilt {
                        spoil(random, &mut lent.held);
                    }
                    // A host that writes the setting while something is held changes what the next body is judged by.
                    if random.once_in(8) {
                        lent.held.strict = any_setting(random);
                    }
                    let strict = lent.held.strict != 0;
                    let answer = compare_collect(seed, &mut lent, &body);
                    seen.insert((strict, spoilt, answer.kind));
                    cases += usize::from(spoilt);
                }
                _ => {}
            }
        }
        cases
    });
    // To a record that holds nothing no body is a repeat, and none completes a message of several pieces, or drops one.
    let mut expected = BTreeSet::from([(true, false, 5)]);
    for strict in [false, true] {
        expected.extend([0, 1, 2, 3, 4].map(|kind| (strict, false, kind)));
        expected.extend([0, 2, 3].map(|kind| (strict, true, kind)));
    }
    assert_eq!(seen, expected);
}

fn compare_collect(seed: u64, lent: &mut Lent, body: &[u8]) -> Collected {
    let (given, mut other) = (lent.held, lent.clone());
    let answer = ffi::collect(&mut lent.held, &mut lent.slots, &mut lent.join, body);
    let (expected, _) = other.take(body);
    let case = || format!("seed {seed}: body {body:02x?} to {given:?}");
    assert_eq!(answer, expected, "{}", case());
    assert_eq!(lent.held, other.held, "{}", case());
    assert!(lent.slots == other.slots, "slots, {}", case());
    assert!(lent.join == other.join, "join, {}", case());
    answer
}

/// Where the last element starts that starts within the first `most` bytes, or behind them.
fn last_start(elements: &[u8], most: usize) -> usize {
    let mut start = 0;
    while let Some(&length) = elements.get(start + 1) {
        let next = start + 2 + usize::from(length);
        if next > most {
            break;
        }
        start = next;
    }
    start
}

/// Bodies that carry a message, cut anywhere, or as far as there is room between its elements.
fn cut(random: &mut Random, message: &[u8]) -> Vec<Vec<u8>> {
    let fewest = message.len().div_ceil(PIECE_MAX).max(1);
    let number = random.between(fewest, SLOTS.min(fewest + 3));
    let (count, between) = (random.byte(), random.once_in(2));
    let mut rest = message;
    let mut bodies = Vec::new();
    for sequence in 1..=number {
        let least = rest.len().saturating_sub((number - sequence) * PIECE_MAX);
        let mut length = random.between(least, rest.len().min(PIECE_MAX));
        if between {
            length = last_start(rest, length).max(least);
        }
        let (piece, after) = rest.split_at(length);
        bodies.push([&[count, number as u8, sequence as u8], piece].concat());
        rest = after;
    }
    bodies
}

/// Bodies as they come: those of a message in any order, some of them twice, others between.
fn arrivals(random: &mut Random) -> Vec<Vec<u8>> {
    let table = sound_table(random);
    let mut message = match random.below(3) {
        0 => message(random),
        _ => message_of(random, &table),
    };
    message.truncate(MESSAGE_MAX);
    let mut bodies = cut(random, &message);
    random.shuffle(&mut bodies);
    for _ in 0..random.below(3) {
        bodies.push(random.pick(&bodies));
    }
    if random.once_in(4) {
        let at = random.below(bodies.len());
        bodies.insert(at, pieces::any_body(random));
    }
    bodies
}

#[test]
fn receives_as_the_other_program_collects_and_reads_beside_any_table() {
    let mut seen = BTreeSet::new();
    let mut joined = 0;
    from_seeds(|seed, random| {
        let (fill, strict) = (random.byte(), any_setting(random));
        let mut lent = Lent::new(BUFFER_MIN, BUFFER_MIN, fill, strict);
        let bodies = arrivals(random);
        for body in &bodies {
            let (_, table) = any_table(random);
            if random.once_in(8) {
                spoil(random, &mut lent.held);
            }
            let answer = compare_receive(seed, random, &mut lent, table, body);
            seen.insert((strict != 0, answer.kind, answer.number == 1));
            joined += u32::from(strict != 0 && answer.kind == 3 && body[1] > 1);
        }
        bodies.len()
    });
    // The kinds, and refusal 1 besides the other refusals of a body; dropped only where the setting is strict.
    let mut expected = BTreeSet::from([(true, 5, false)]);
    for strict in [false, true] {
        expected.insert((strict, 0, true));
        expected.extend([0, 1, 2, 3, 4].map(|kind| (strict, kind, false)));
    }
    assert_eq!(seen, expected);
    assert!(joined > 100, "{joined} strict messages of several pieces");
}

fn compare_receive(
    seed: u64,
    random: &mut Random,
    lent: &mut Lent,
    given: Table,
    body: &[u8],
) -> Received {
    // Now and then a buffer is lent a byte short.
    let (slots, join) = random.pick(&[(0, 1), (1, 0)]);
    let short = usize::from(random.once_in(16));
    lent.slots.truncate(BUFFER_MIN - short * slots);
    lent.join.truncate(BUFFER_MIN - short * join);
    let (held, mut other, mut table) = (lent.held, lent.clone(), given);
    let answer = ffi::receive(
        &mut lent.held,
        &mut table,
        &mut lent.slots,
        &mut lent.join,
        body,
    );
    let (expected, next) = other.receive(&given, body);
    let case = || format!("seed {seed}: body {body:02x?} to {held:?} beside {given:?}");
    assert_eq!(answer, expected, "{}", case());
    assert_eq!(table, next, "{}", case());
    assert_eq!(lent.held, other.held, "{}", case());
    assert!(lent.slots == other.slots, "slots, {}", case());
    assert!(lent.join == other.join, "join, {}", case());
    lent.slots.resize(BUFFER_MIN, 0);
    lent.join.resize(BUFFER_MIN, 0);
    answer
}
