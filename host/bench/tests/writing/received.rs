//! The bodies that were written, received in any order, strict and loose: the table comes back, field by field.

use crate::{accepted, any_record};
use dsg::records::{Collection, Table};
use dsg::{ffi, WRITE_BYTES};
use requests::random::Random;
use std::collections::BTreeSet;

const BUFFER: usize = 24_000;

/// A receiver: a collection, its buffers, a table.
struct Board {
    held: Collection,
    slots: Vec<u8>,
    join: Vec<u8>,
    table: Table,
}

impl Board {
    /// Buffers and a table of any bytes; nothing collected, or a piece under another count.
    fn new(random: &mut Random, strict: u16, count: u8) -> Board {
        let mut board = Board {
            held: ffi::empty_collection(strict),
            slots: vec![random.byte(); BUFFER],
            join: vec![random.byte(); BUFFER],
            table: any_record(random),
        };
        if random.once_in(2) {
            let other = [count ^ 1, random.between(2, 16) as u8, 1, 50, 0];
            assert_eq!(board.receive(&other), [2, 0]);
        }
        board
    }

    /// The kind and the number of the answer to a body.
    fn receive(&mut self, body: &[u8]) -> [u32; 2] {
        let (held, table) = (&mut self.held, &mut self.table);
        let answer = ffi::receive(held, table, &mut self.slots, &mut self.join, body);
        [answer.kind, answer.number]
    }
}

#[test]
fn roundtrips_a_table_through_its_bodies_in_any_order() {
    let mut seen = BTreeSet::new();
    for seed in 0..2_000 {
        let random = &mut Random::new(seed);
        let (table, count) = (accepted(random), random.byte());
        let mut out = vec![random.byte(); WRITE_BYTES];
        let pieces = table.write(count, &mut out).expect("a table that was read");
        let mut bodies: Vec<&[u8]> = pieces.into_iter().collect();
        random.shuffle(&mut bodies);
        let strict = random.pick(&[0, 0, 1, 65_535]);
        let mut board = Board::new(random, strict, count);
        let before = board.table;
        let (last, first) = bodies.split_last().expect("one body at least");
        for body in first {
            assert_eq!(board.receive(body), [2, 0], "seed {seed}: {body:02x?}");
            assert_eq!(board.receive(body), [1, 0], "seed {seed}: {body:02x?}");
            assert_eq!(board.table, before);
        }
        assert_eq!(board.receive(last), [3, 0], "seed {seed}: {table:?}");
        assert_eq!(board.table, table, "seed {seed}");
        for body in bodies {
            assert_eq!(board.receive(body), [1, 0], "seed {seed}: {body:02x?}");
        }
        seen.insert((pieces.number(), strict != 0));
    }
    let all = (1..=4).flat_map(|number| [(number, false), (number, true)]);
    assert_eq!(seen, all.collect());
}
