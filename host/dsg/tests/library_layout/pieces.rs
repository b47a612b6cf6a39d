//! Collection records: every piece is noted in its place, and every place is looked at. The setting comes back as it was lent.

use crate::messages::full;
use crate::numbers::Numbers;
use crate::places::tell_apart;
use dsg::ffi::{self, Collected, Received};
use dsg::records::{Collection, Table};

/// The least length of both buffers (dsg.h).
pub const BUFFER_BYTES: usize = 24_000;

const NOTHING: Collection = Collection {
    count: 0,
    number: 0,
    filled: [0; 16],
    lengths: [0; 16],
    strict: 0,
};

const REPEAT: Collected = Collected {
    kind: 1,
    number: 0,
    empty: 0,
    start: 0,
    length: 0,
    offset: 0,
};

fn waiting(empty: usize) -> Collected {
    Collected {
        kind: 2,
        empty,
        ..REPEAT
    }
}

fn joined(length: usize) -> Collected {
    Collected {
        kind: 4,
        length,
        ..REPEAT
    }
}

fn dropped(offset: usize) -> Collected {
    Collected {
        kind: 5,
        number: 21,
        offset,
        ..REPEAT
    }
}

/// The piece of a slot, of two bytes or more: whole elements, their types and values no other slot's.
fn piece(slot: usize, length: u16) -> Vec<u8> {
    let mut piece = vec![slot as u8 + 100; length.into()];
    let mut at = 0;
    while at < piece.len() {
        let rest = piece.len() - at;
        let element = if rest > 256 { 256.min(rest - 2) } else { rest };
        piece[at + 1] = (element - 2) as u8;
        at += element;
    }
    piece
}

fn body(held: &Collection, slot: usize, length: u16) -> Vec<u8> {
    let head = [held.count, held.number, slot as u8 + 1];
    [&head[..], &piece(slot, length)].concat()
}

/// A strict record of which all slots up to its number are filled.
fn filled(numbers: &mut Numbers, number: u8) -> Collection {
    let mut held = Collection {
        count: numbers.byte(),
        number,
        strict: numbers.between(1, 65_535) as u16,
        ..NOTHING
    };
    for slot in 0..usize::from(number) {
        held.filled[slot] = 1;
        held.lengths[slot] = numbers.between(2, 1_497) as u16;
    }
    held
}

/// The slot buffer that goes with a record.
fn slots_of(held: &Collection) -> Vec<u8> {
    let mut slots = vec![0; BUFFER_BYTES];
    for (slot, &length) in held.lengths.iter().enumerate() {
        slots[slot * 1_500..][..length.into()].copy_from_slice(&piece(slot, length));
    }
    slots
}

/// The message of a record whose slots are all filled.
fn message_of(held: &Collection) -> Vec<u8> {
    let slots = 0..usize::from(held.number);
    slots
        .flat_map(|slot| piece(slot, held.lengths[slot]))
        .collect()
}

#[test]
fn notes_every_piece_in_its_place() {
    let mut numbers = Numbers(31);
    let mut written = Vec::new();
    for number in [16, 15, 16, 9] {
        let whole = filled(&mut numbers, number);
        let mut order: Vec<usize> = (0..number.into()).collect();
        numbers.shuffle(&mut order);
        let (mut slots, mut join) = (vec![0; BUFFER_BYTES], vec![0; BUFFER_BYTES]);
        let mut held = ffi::empty_collection(whole.strict);
        let mut expected = Collection {
            filled: [0; 16],
            lengths: [0; 16],
            ..whole
        };
        for (taken, slot) in (1..).zip(order) {
            let body = body(&whole, slot, whole.lengths[slot]);
            let answer = ffi::collect(&mut held, &mut slots, &mut join, &body);
            (expected.filled[slot], expected.lengths[slot]) = (1, whole.lengths[slot]);
            assert_eq!(held, expected);
            written.push(held);
            let message = message_of(&whole);
            if taken < usize::from(number) {
                assert_eq!(answer, waiting(usize::from(number) - taken));
            } else {
                assert_eq!(answer, joined(message.len()));
                assert_eq!(join[..message.len()], message);
                assert_eq!(slots, slots_of(&whole));
            }
        }
    }
    tell_apart(&written);
}

#[test]
fn begins_with_any_setting() {
    for strict in 0..=65_535 {
        let begun = Collection { strict, ..NOTHING };
        assert_eq!(ffi::empty_collection(strict), begun);
    }
}

#[test]
fn looks_at_every_place() {
    let mut numbers = Numbers(32);
    for slot in 0..16 {
        let whole = filled(&mut numbers, 16);
        let (given, length) = (slots_of(&whole), whole.lengths[slot]);
        let collect = |change: &dyn Fn(&mut Collection), body: &[u8]| {
            let (mut held, mut slots, mut join) = (whole, given.clone(), vec![0; BUFFER_BYTES]);
            change(&mut held);
            let answer = ffi::collect(&mut held, &mut slots, &mut join, body);
            (answer, join[..answer.length].to_vec())
        };
        let (again, other) = (body(&whole, slot, length), (slot + 1) % 16);
        let empty = |held: &mut Collection| (held.filled[slot], held.lengths[slot]) = (0, 0);
        let emptied = |held: &mut Collection| {
            empty(held);
            (held.filled[other], held.lengths[other]) = (0, 0);
        };
        let message = message_of(&whole);
        assert_eq!(collect(&|_| (), &again), (REPEAT, vec![]));
        assert_eq!(collect(&empty, &again), (joined(message.len()), message));
        assert_eq!(collect(&emptied, &again).0, waiting(1));
        // All of these begin anew: another length, a length on an empty slot, another count or number.
        assert_eq!(
            collect(&|held| held.lengths[slot] -= 1, &again).0,
            waiting(15)
        );
        assert_eq!(
            collect(&|held| held.filled[slot] = 0, &again).0,
            waiting(15)
        );
        assert_eq!(collect(&|held| held.count ^= 1, &again).0, waiting(15));
        assert_eq!(collect(&|held| held.number = 15, &again).0, waiting(15));
    }
}

/// The bodies of a record's message, with a byte of the element behind a slot moved in front of the cut; and where it was cut.
fn badly_cut(whole: &Collection, slot: usize) -> (Vec<Vec<u8>>, usize) {
    let slots = 0..usize::from(whole.number);
    let mut bodies: Vec<Vec<u8>> = slots.map(|k| body(whole, k, whole.lengths[k])).collect();
    let moved = bodies[slot + 1].remove(3);
    bodies[slot].push(moved);
    let cut = bodies[..=slot].iter().map(|body| body.len() - 3).sum();
    (bodies, cut)
}

/// The joined message of bodies that stand in order.
fn message(bodies: &[Vec<u8>]) -> Vec<u8> {
    bodies.iter().flat_map(|body| body[3..].to_vec()).collect()
}

/// A record of sixteen pieces, each of which has room for one byte more.
fn roomy(numbers: &mut Numbers) -> Collection {
    let mut whole = filled(numbers, 16);
    whole.lengths = whole.lengths.map(|length| length.min(1_496));
    whole
}

#[test]
fn looks_at_every_bit_of_the_setting_and_at_every_cut() {
    let mut numbers = Numbers(34);
    for bit in 0..16 {
        for slot in 0..15 {
            let (bodies, cut) = badly_cut(&roomy(&mut numbers), slot);
            let mut order: Vec<usize> = (0..16).collect();
            numbers.shuffle(&mut order);
            for (strict, last) in [
                (1 << bit, dropped(cut)),
                (0, joined(message(&bodies).len())),
            ] {
                let (mut slots, mut join) = (vec![0; BUFFER_BYTES], vec![0; BUFFER_BYTES]);
                let mut held = ffi::empty_collection(strict);
                let mut answers = Vec::new();
                for &at in &order {
                    let answer = ffi::collect(&mut held, &mut slots, &mut join, &bodies[at]);
                    assert_eq!(held.strict, strict);
                    answers.push(answer);
                }
                let expected: Vec<Collected> = (1..16).rev().map(waiting).chain([last]).collect();
                assert_eq!(answers, expected, "strict {strict}, cut at {cut}");
            }
        }
    }
}

/// What is lent to a call, and what it leaves of that.
#[derive(Clone, PartialEq)]
struct Lent {
    held: Collection,
    table: Table,
    slots: Vec<u8>,
    join: Vec<u8>,
}

impl Lent {
    fn collect(&mut self, body: &[u8]) -> Collected {
        ffi::collect(&mut self.held, &mut self.slots, &mut self.join, body)
    }

    fn receive(&mut self, body: &[u8]) -> Received {
        let (held, table) = (&mut self.held, &mut self.table);
        ffi::receive(held, table, &mut self.slots, &mut self.join, body)
    }
}

#[test]
fn drops_a_collection_and_leaves_the_rest_as_at_complete() {
    let mut numbers = Numbers(35);
    for slot in 0..15 {
        let (bodies, cut) = badly_cut(&roomy(&mut numbers), slot);
        let (strict, mark) = (numbers.between(1, 65_535) as u16, numbers.byte());
        let given = Lent {
            held: Collection { strict, ..NOTHING },
            table: full(&mut numbers),
            slots: vec![mark; BUFFER_BYTES + 7],
            join: vec![mark; BUFFER_BYTES + 7],
        };
        // By document 01: every piece in its slot, the message at the start of the join buffer, all else as it was.
        let mut left = given.clone();
        for (body, slot) in bodies.iter().zip(left.slots.chunks_mut(1_500)) {
            slot[..body.len() - 3].copy_from_slice(&body[3..]);
        }
        let message = message(&bodies);
        left.join[..message.len()].copy_from_slice(&message);

        let (mut collected, mut received) = (given.clone(), given);
        let answers = bodies.iter().map(|body| collected.collect(body));
        assert_eq!(answers.last(), Some(dropped(cut)));
        assert!(collected == left);
        let answers = bodies.iter().map(|body| received.receive(body));
        let refused = Received {
            kind: 5,
            number: 21,
            empty: 0,
            offset: cut,
        };
        assert_eq!(answers.last(), Some(refused));
        assert!(received == left);
        // The next body starts a run, a copy of the last one too.
        assert_eq!(left.collect(&bodies[15]), waiting(15));
        assert_eq!(left.held.strict, strict);
    }
}

#[test]
fn answers_every_body_in_its_fields() {
    let mut numbers = Numbers(33);
    let (whole, head) = (filled(&mut numbers, 8), [7, 1, 1]);
    let (mut slots, mut join) = (vec![0; BUFFER_BYTES], vec![0; BUFFER_BYTES]);
    let mut held = ffi::empty_collection(1);
    let mut collect = |body: &[u8]| ffi::collect(&mut held, &mut slots, &mut join, body);
    let mut answers = vec![
        collect(&[7; 1_501]),
        collect(&[&head[..], &[99; 1_497]].concat()),
        collect(&[&head[..], &[99; 1_497]].concat()),
    ];
    answers.extend((0..8).map(|slot| collect(&body(&whole, slot, whole.lengths[slot]))));
    // Two elements, the second cut behind its type byte.
    answers.extend([&[7, 2, 1, 99, 1, 0, 99], &[7, 2, 2, 0][..]].map(&mut collect));
    let refused = Collected {
        kind: 0,
        number: 3,
        ..REPEAT
    };
    let lent_from_body = Collected {
        kind: 3,
        start: 3,
        length: 1_497,
        ..REPEAT
    };
    let mut expected = vec![refused, lent_from_body, REPEAT];
    expected.extend((1..8).rev().map(waiting));
    expected.push(joined(message_of(&whole).len()));
    expected.extend([waiting(1), dropped(4)]);
    assert_eq!(answers, expected);
    tell_apart(&answers);
}

#[test]
fn answers_every_received_body_in_its_fields() {
    let (mut slots, mut join) = (vec![0; BUFFER_BYTES], vec![0; BUFFER_BYTES]);
    let (mut held, mut table) = (ffi::empty_collection(1), ffi::empty_table());
    let mut receive =
        |body: &[u8]| ffi::receive(&mut held, &mut table, &mut slots, &mut join, body);
    let unlisted = [99, 0].repeat(600);
    let answers = [
        receive(&[7; 1_501]),
        receive(&[&[7, 2, 1], &unlisted[..]].concat()),
        receive(&[&[7, 2, 1], &unlisted[..]].concat()),
        receive(&[7, 2, 2, 50, 0]),
        receive(&[7, 9, 1]),
        receive(&[7, 1, 1]),
        receive(&[&[7, 2, 1], &unlisted[..1_199]].concat()),
        receive(&[7, 2, 2, 0]),
    ];
    let answer = |kind, number, empty, offset| Received {
        kind,
        number,
        empty,
        offset,
    };
    let expected = [
        answer(0, 3, 0, 0),
        answer(2, 0, 1, 0),
        answer(1, 0, 0, 0),
        answer(4, 13, 0, 1_200),
        answer(2, 0, 8, 0),
        answer(3, 0, 0, 0),
        answer(2, 0, 1, 0),
        answer(5, 21, 0, 1_199),
    ];
    assert_eq!(answers, expected);
    tell_apart(&answers);
}
