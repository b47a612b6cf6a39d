//! Random collections: runs of pieces with all that may come between them, records that no calls
//! could have made, bodies that are refused, and buffers that are too short. Here messages are cut
//! anywhere, and one collection in three is strict; `strict` has messages that are cut with an aim.

use crate::messages::message;
use crate::random::Random;
use crate::strict;
use reference::collecting::{Fault, Record, BODY_MAX, BUFFER_MIN, PIECE_MAX, SLOTS};
use reference::protocol::request::{Request, BUFFER_MAX};
use reference::table::MESSAGE_MAX;
use std::ops::Range;

pub fn scenario(random: &mut Random) -> Vec<Request> {
    match random.below(16) {
        0 => short_buffers(random),
        1..=3 => invented_record(random),
        4..=8 => run(random),
        _ => strict::scenario(random),
    }
}

pub fn pieces(bodies: Vec<Vec<u8>>) -> impl Iterator<Item = Request> {
    bodies.into_iter().map(Request::Piece)
}

/// Sizes of the slot buffer and the join buffer that do.
pub fn good_sizes(random: &mut Random) -> [usize; 2] {
    let sizes = [BUFFER_MIN, BUFFER_MIN, BUFFER_MIN + 1, BUFFER_MIN + 700];
    [random.pick(&sizes), random.pick(&sizes)]
}

/// Sizes on either side of the least one, now and then far from it.
pub fn any_sizes(random: &mut Random) -> [usize; 2] {
    let near = [BUFFER_MIN - 1, BUFFER_MIN, BUFFER_MIN + 1].as_slice();
    let far = [0, 1, MESSAGE_MAX, BUFFER_MIN - 1, BUFFER_MIN, BUFFER_MAX].as_slice();
    let sizes = random.pick(&[near, near, far]);
    [random.pick(sizes), random.pick(sizes)]
}

/// Buffers of these sizes, in either setting.
fn new_buffers(random: &mut Random, [slot, join]: [usize; 2], fill: u8) -> Request {
    Request::New {
        slot,
        join,
        fill,
        strict: random.once_in(3),
    }
}

/// Buffers that do, in that setting.
pub fn good_buffers(random: &mut Random, strict: bool) -> Request {
    let [slot, join] = good_sizes(random);
    Request::New {
        slot,
        join,
        fill: random.byte(),
        strict,
    }
}

/// Pieces, good and bad, with one buffer, both or none too short; then buffers that do.
fn short_buffers(random: &mut Random) -> Vec<Request> {
    let mut requests = Vec::new();
    for _ in 0..random.between(1, 3) {
        let (sizes, fill) = (any_sizes(random), random.byte());
        requests.push(new_buffers(random, sizes, fill));
        requests.extend(pieces(vec![body(random, 1, 1, b"x"), refused_body(random)]));
    }
    let sizes = good_sizes(random);
    requests.push(new_buffers(random, sizes, 0));
    requests
}

/// A message cut into pieces that come in any order, some of them again, with others between.
fn run(random: &mut Random) -> Vec<Request> {
    let message = cuttable_message(random);
    let count = random.byte();
    let bodies = cut(random, count, &message);
    let mut arrivals = arrivals(random, &bodies);
    arrivals.push(random.pick(&bodies));
    let mut requests = Vec::new();
    if random.once_in(2) {
        let strict = random.once_in(3);
        requests.push(good_buffers(random, strict));
    }
    requests.extend(pieces(arrivals));
    if random.once_in(8) {
        requests.push(Request::TRead(message));
    }
    requests
}

/// All bodies in any order, some of them again, with others between.
pub fn arrivals(random: &mut Random, bodies: &[Vec<u8>]) -> Vec<Vec<u8>> {
    let mut arrivals = bodies.to_vec();
    random.shuffle(&mut arrivals);
    for _ in 0..random.pick(&[0, 1, 2, bodies.len()]) {
        let at = random.below(arrivals.len() + 1);
        arrivals.insert(at, random.pick(bodies));
    }
    for _ in 0..random.pick(&[0, 0, 1, 3]) {
        let at = random.below(arrivals.len() + 1);
        arrivals.insert(at, intruder(random, bodies));
    }
    arrivals
}

/// A message that sixteen pieces can carry, mostly a short one.
fn cuttable_message(random: &mut Random) -> Vec<u8> {
    let any = random.below(MESSAGE_MAX);
    match random.below(24) {
        0 => random.bytes(MESSAGE_MAX),
        1 => random.bytes(any),
        2..=4 => message(random).into_iter().take(MESSAGE_MAX).collect(),
        5..=6 => Vec::new(),
        7..=8 => random.bytes(PIECE_MAX),
        _ => {
            let length = random.between(1, 60);
            random.bytes(length)
        }
    }
}

/// Bodies that carry the message in any number of pieces that it allows.
fn cut(random: &mut Random, count: u8, message: &[u8]) -> Vec<Vec<u8>> {
    let fewest = fewest_pieces(message);
    let any = random.between(fewest, SLOTS);
    let number = random.pick(&[fewest, any, any, SLOTS]);
    cut_into(random, number, count, message)
}

pub fn fewest_pieces(message: &[u8]) -> usize {
    message.len().div_ceil(PIECE_MAX).max(1)
}

/// So many bodies that carry the message, cut anywhere; some pieces may be empty.
pub fn cut_into(random: &mut Random, number: usize, count: u8, message: &[u8]) -> Vec<Vec<u8>> {
    let (mut cuts, mut at) = (Vec::new(), 0);
    for after in (1..number).rev() {
        let rest = message.len() - at;
        let least = rest.saturating_sub(after * PIECE_MAX);
        at += random.between(least, rest.min(PIECE_MAX));
        cuts.push(at);
    }
    cut_at(count, message, &cuts)
}

/// Bodies that carry the message, cut at these places.
pub fn cut_at(count: u8, message: &[u8], cuts: &[usize]) -> Vec<Vec<u8>> {
    let spans = spans(cuts, message.len());
    let number = spans.len() as u8;
    let pieces = spans.into_iter().map(|span| &message[span]);
    pieces
        .zip(1..)
        .map(|(piece, sequence)| [&[count, number, sequence], piece].concat())
        .collect()
}

/// Where the pieces of a message that ends there lie, cut at these places.
pub fn spans(cuts: &[usize], end: usize) -> Vec<Range<usize>> {
    let bounds = [&[0], cuts, &[end]].concat();
    bounds.windows(2).map(|pair| pair[0]..pair[1]).collect()
}

fn body(random: &mut Random, number: u8, sequence: u8, piece: &[u8]) -> Vec<u8> {
    let mut body = vec![random.byte(), number, sequence];
    body.extend(piece);
    body
}

/// A body that comes between: a refused one, or one near a piece of the run.
fn intruder(random: &mut Random, bodies: &[Vec<u8>]) -> Vec<u8> {
    if random.once_in(4) {
        refused_body(random)
    } else {
        near_body(random, bodies)
    }
}

/// A body near a piece of the run.
pub fn near_body(random: &mut Random, bodies: &[Vec<u8>]) -> Vec<u8> {
    let mut near = random.pick(bodies);
    match random.below(6) {
        0 => near[0] = near[0].wrapping_add(1),
        1 => near[1] = random.between(1, SLOTS) as u8,
        2 => near[2] = random.between(1, near[1].into()) as u8,
        3 => near.push(random.byte()),
        4 => drop(near.pop()),
        _ => *near.last_mut().expect("a byte") ^= 1,
    }
    near
}

/// A body by itself: a refused one, or one of several pieces.
pub fn any_body(random: &mut Random) -> Vec<u8> {
    if random.once_in(2) {
        return refused_body(random);
    }
    let number = random.between(2, SLOTS);
    let sequence = random.between(1, number);
    body(random, number as u8, sequence as u8, b"any")
}

/// A body that some test of 2 to 5 refuses.
pub fn refused_body(random: &mut Random) -> Vec<u8> {
    let high = random.between(SLOTS + 1, 255) as u8;
    let number = random.between(1, SLOTS) as u8;
    let length = random.between(0, 8);
    let mut body = random.bytes(3 + length);
    match random.below(6) {
        0 => body.truncate(random.below(3)),
        1 => body.resize(BODY_MAX + random.pick(&[1, 1, 2, 500]), number),
        2 => body[1] = 0,
        3 => body[1] = random.pick(&[17, high]),
        4 => (body[1], body[2]) = (number, 0),
        _ => (body[1], body[2]) = (number, number + 1),
    }
    body
}

/// A record given outright, mostly one that no calls could have made, then pieces that would be
/// repeats or would complete it if it held what it says. With a small number in all bytes a message is
/// one of short elements.
fn invented_record(random: &mut Random) -> Vec<Request> {
    let any = random.byte();
    let fill = random.pick(&[0, 1, 3, any, any]);
    let mut record = sound_record(random);
    let held = record.clone();
    if !random.once_in(4) {
        break_record(random, &mut record);
    }
    let sizes = good_sizes(random);
    let mut requests = vec![new_buffers(random, sizes, fill), Request::Rec(record)];
    if random.once_in(3) {
        requests.push(Request::Piece(refused_body(random)));
    }
    for _ in 0..random.between(1, 4) {
        requests.push(Request::Piece(fitting_body(random, &held, fill)));
    }
    requests
}

pub fn sound_record(random: &mut Random) -> Record {
    let number = random.pick(&[1, 2, 2, 3, 5, 15, 16]);
    let mut record = Record {
        count: random.byte(),
        number,
        ..Record::default()
    };
    let first = random.below(number.into());
    for slot in 0..usize::from(number) {
        if slot == first || random.once_in(2) {
            record.filled[slot] = true;
            record.lengths[slot] = random.pick(&[0, 1, 5, 5, 1_496, 1_497]);
        }
    }
    record
}

pub fn break_record(random: &mut Random, record: &mut Record) {
    let number = usize::from(record.number);
    let slot = random.below(SLOTS);
    let filled = record.filled.iter().position(|&filled| filled).unwrap_or(0);
    match random.pick(&Fault::ALL) {
        Fault::NumberOver16 => record.number = random.pick(&[17, 18, 255]),
        Fault::LengthOver1497 => record.lengths[filled] = random.pick(&[1_498, 1_500, 65_535]),
        Fault::LengthOnEmptySlot => {
            record.filled[slot] = false;
            record.lengths[slot] = random.pick(&[1, 1_497]);
        }
        Fault::FilledBeyondNumber => record.filled[number.max(slot).min(SLOTS - 1)] = true,
        Fault::NumberWithNothingFilled => {
            record.filled = [false; SLOTS];
            record.lengths = [0; SLOTS];
        }
    }
}

/// A body of the record's run: what the slot holds, or something near it.
pub fn fitting_body(random: &mut Random, record: &Record, fill: u8) -> Vec<u8> {
    let slot = random.below(record.number.into());
    let length = usize::from(record.lengths[slot]).min(PIECE_MAX);
    let mut piece = vec![fill; length];
    match random.below(4) {
        0 => piece = random.bytes(length),
        1 => piece.truncate(length / 2),
        _ => {}
    }
    let mut body = body(random, record.number, slot as u8 + 1, &piece);
    body[0] = record.count;
    body
}
