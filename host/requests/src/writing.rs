//! Random tables that a head end writes (document 02, Req 01): sound ones, from messages and in text, ones
//! with a value about its limit, large ones; into buffers about the length that they need; and the written
//! pieces taken back by `piece`, `recv`, `tread` and `read`.

use crate::filled::large_table;
use crate::limits::move_value;
use crate::messages::{message, message_of};
use crate::pieces::{arrivals, good_buffers};
use crate::random::Random;
use crate::tables::{free_table, full_table, marked_table, sound_table};
use crate::unreadable::is_readable;
use crate::written::{bodies, elements, needed, STEP};
use reference::protocol::request::{Request, BUFFER_MAX};
use reference::table::{read_table, Table};

/// The length of a buffer that every table fits in.
const ROOM: usize = 12_000;

pub fn scenario(random: &mut Random) -> Vec<Request> {
    if random.once_in(2) {
        moved_tables(random)
    } else {
        lent_and_written(random)
    }
}

/// Tables that differ from a sound one in a value about its limit, now and then in two, each written.
fn moved_tables(random: &mut Random) -> Vec<Request> {
    let sound = match random.below(6) {
        0 => Table::default(),
        1 => large_table(random),
        _ => sound_table(random),
    };
    let mut requests = Vec::new();
    for _ in 0..random.between(2, 8) {
        let mut table = sound.clone();
        for _ in 0..random.pick(&[1, 1, 1, 2]) {
            move_value(random, &mut table);
        }
        let write = write(random, &table);
        requests.extend([Request::TSet(table), write]);
    }
    requests
}

/// A lent table, written once or more; then often what was written is taken back, and written again.
fn lent_and_written(random: &mut Random) -> Vec<Request> {
    let (table, mut requests) = lent_table(random);
    for _ in 0..random.between(1, 3) {
        requests.push(write(random, &table));
    }
    if is_readable(&table) && !random.once_in(3) {
        let count = random.byte();
        let bodies = bodies(count, &table);
        let out = random.pick(&[needed(&bodies), ROOM]);
        requests.push(write_into(random, count, out));
        requests.extend(taken_back(random, &table, &bodies));
        requests.push(write(random, &table));
    }
    requests
}

/// A table, and the requests that lend it.
fn lent_table(random: &mut Random) -> (Table, Vec<Request>) {
    let table = match random.below(16) {
        0 => Table::default(),
        1 => marked_table(random),
        2 => full_table(random),
        3 => free_table(random),
        4..=8 => sound_table(random),
        _ => large_table(random),
    };
    if is_readable(&table) && random.once_in(2) {
        let message = message_of(random, &table);
        return (table, vec![Request::TRead(message)]);
    }
    let mut requests = vec![Request::TSet(table.clone())];
    if !random.once_in(6) {
        return (table, requests);
    }
    let message = message(random);
    let table = read_table(&message).unwrap_or(table);
    requests.push(Request::TRead(message));
    (table, requests)
}

/// The table written under any count, into a buffer about the length that it needs, or far from it.
pub fn write(random: &mut Random, table: &Table) -> Request {
    let any = random.byte();
    let count = random.pick(&[0, 255, any, any]);
    let bodies = bodies(count, table);
    let need = needed(&bodies);
    let short = random.below(need);
    let steps = STEP * random.pick(&[bodies.len() - 1, bodies.len()]);
    let near = random.pick(&[need - 1, need, need + 1, steps]);
    let out = match random.below(16) {
        0 => 0,
        1 => short,
        2 => random.between(need, BUFFER_MAX),
        3..=5 => ROOM,
        6..=8 => need - 1,
        9..=12 => need,
        _ => near,
    };
    write_into(random, count, out)
}

fn write_into(random: &mut Random, count: u8, out: usize) -> Request {
    let any = random.byte();
    let fill = random.pick(&[0, 255, any]);
    Request::Write { count, out, fill }
}

/// The bodies of a written table, taken as a board takes them, or their message read at once.
fn taken_back(random: &mut Random, table: &Table, bodies: &[Vec<u8>]) -> Vec<Request> {
    let message = elements(table).concat();
    match random.below(8) {
        0 => return vec![Request::TRead(message)],
        1 => return vec![Request::Read(message)],
        _ => {}
    }
    let mut arriving = bodies.to_vec();
    random.shuffle(&mut arriving);
    if random.once_in(4) {
        arriving = arrivals(random, bodies);
    }
    let strict = random.once_in(2);
    let take = random.pick(&[Request::Piece, Request::Recv]);
    let mut requests = vec![good_buffers(random, strict)];
    requests.extend(arriving.into_iter().map(take));
    if random.once_in(4) {
        let write = write(random, table);
        requests.insert(random.below(requests.len() + 1), write);
    }
    requests
}
