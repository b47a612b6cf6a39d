//! Random lives of strict collections through `piece`: cuttings of messages of elements, with others
//! between their pieces or one after another, what comes after one that was dropped, the same run in
//! both settings, and records given when the slots are full.

use crate::cuttings::{any_cutting, bad_cutting, Cutting};
use crate::pieces::{arrivals, good_buffers, near_body, pieces, refused_body};
use crate::random::Random;
use reference::collecting::{Record, HEAD_BYTES};
use reference::protocol::request::Request;

pub fn scenario(random: &mut Random) -> Vec<Request> {
    match random.below(13) {
        0..=1 => run(random),
        2..=4 => runs_in_a_row(random),
        5..=7 => in_both_settings(random),
        8..=9 => after_a_drop(random),
        _ => given_records(random),
    }
}

/// A run, with all that may come between its pieces.
fn run(random: &mut Random) -> Vec<Request> {
    let count = random.byte();
    let bodies = any_cutting(random).bodies(count);
    let mut requests = vec![good_buffers(random, true)];
    requests.extend(pieces(arrivals(random, &bodies)));
    requests.push(Request::Piece(random.pick(&bodies)));
    requests
}

/// Runs one after another on the same record, nothing between their pieces.
fn runs_in_a_row(random: &mut Random) -> Vec<Request> {
    let mut requests = vec![good_buffers(random, true)];
    for _ in 0..random.between(2, 5) {
        let count = random.byte();
        let mut bodies = any_cutting(random).bodies(count);
        random.shuffle(&mut bodies);
        requests.extend(pieces(bodies));
    }
    requests
}

/// The same pieces in a strict and in a loose collection, or the other way round.
fn in_both_settings(random: &mut Random) -> Vec<Request> {
    let count = random.byte();
    let mut bodies = any_cutting(random).bodies(count);
    let first = random.once_in(2);
    let mut requests = Vec::new();
    for strict in [first, !first] {
        random.shuffle(&mut bodies);
        requests.push(good_buffers(random, strict));
        requests.extend(pieces(bodies.clone()));
    }
    requests
}

/// A run that is dropped; then some bodies, and now and then the same run again or another one.
fn after_a_drop(random: &mut Random) -> Vec<Request> {
    let count = random.byte();
    let mut bodies = bad_cutting(random).bodies(count);
    random.shuffle(&mut bodies);
    let mut requests = vec![good_buffers(random, true)];
    requests.extend(pieces(bodies.clone()));
    for _ in 0..random.between(1, 3) {
        requests.push(Request::Piece(body_after(random, &bodies)));
    }
    match random.below(4) {
        0 => requests.extend(pieces(bodies)),
        1 => requests.extend(pieces(any_cutting(random).bodies(count))),
        _ => {}
    }
    requests
}

/// A body that may follow the last of these, which was dropped.
pub fn body_after(random: &mut Random, bodies: &[Vec<u8>]) -> Vec<u8> {
    let last = bodies.last().cloned().unwrap_or_default();
    match random.below(8) {
        0..=1 => last,
        2..=3 => random.pick(bodies),
        4 => near_body(random, bodies),
        5 => {
            let others = any_cutting(random).bodies(random.byte());
            random.pick(&others)
        }
        6 => [&[last[0], 1, 1], &last[HEAD_BYTES..]].concat(),
        _ => refused_body(random),
    }
}

/// A run; then a record that says that all its pieces are held, or all but one or two, those that it
/// lacks, and some of the run again.
fn given_records(random: &mut Random) -> Vec<Request> {
    let count = random.byte();
    let (any, bad) = (any_cutting(random), bad_cutting(random));
    let cutting = random.pick(&[any, bad]);
    let mut bodies = cutting.bodies(count);
    let strict = !random.once_in(4);
    let mut requests = vec![good_buffers(random, strict)];
    requests.extend(pieces(bodies.clone()));
    for _ in 0..random.between(1, 2) {
        random.shuffle(&mut bodies);
        let lacking = random.pick(&[0, 0, 1, 1, 2]).min(bodies.len());
        let again = random.between(1, 2);
        let mut record = whole_record(count, &cutting);
        for body in &bodies[..lacking] {
            let slot = usize::from(body[2] - 1);
            record.filled[slot] = false;
            record.lengths[slot] = 0;
        }
        requests.push(Request::Rec(record));
        requests.extend(pieces(bodies[..lacking].to_vec()));
        requests.extend((0..again).map(|_| Request::Piece(random.pick(&bodies))));
    }
    requests
}

/// A record that says that all pieces are held.
fn whole_record(count: u8, cutting: &Cutting) -> Record {
    let bodies = cutting.bodies(count);
    let mut record = Record {
        count,
        number: bodies.len() as u8,
        ..Record::default()
    };
    for (slot, body) in bodies.iter().enumerate() {
        record.filled[slot] = true;
        record.lengths[slot] = (body.len() - HEAD_BYTES) as u16;
    }
    record
}
