//! The buffer of dsg_write, of just the bytes that the bodies need and of others.

use crate::{Guarded, MARK};
use dsg::{Refusal, Table, PIECE_STEP, WRITE_BYTES};

/// A table of so many rules, each with 16 UCIDs and eight MAC addresses: elements of 100 bytes, of which 14 fit into a piece.
fn rules_of_100_bytes(count: u8) -> Table {
    let rule = |number| {
        let head = [50, 98, 1, 1, number, 2, 1, 9, 3, 16];
        let clients = [2, 6, 0, 0, 0, 0, 0, number].repeat(8);
        let tunnel = [5, 6, 1, 0, 0x5E, 0, 0, number];
        [&head[..], &[number; 16], &[4, 64], &clients, &tunnel].concat()
    };
    let mut table = Table::default();
    let message: Vec<u8> = (0..count).flat_map(rule).collect();
    table.read(&message).expect("an accepted message");
    table
}

/// The lengths of its bodies, and the bytes that they need.
fn lengths_of(count: u8) -> (Vec<u16>, usize) {
    let (full, last) = match u16::from(count) {
        count @ 0..=14 => (0, count),
        count @ 15..=28 => (1, count - 14),
        count => (2, count - 28),
    };
    let mut lengths = vec![3 + 100 * 14; full];
    lengths.push(3 + 100 * last);
    (lengths, full * 1_500 + 3 + 100 * usize::from(last))
}

#[test]
fn writing_writes_only_the_bodies() {
    for count in 0..=32 {
        let (lengths, need) = lengths_of(count);
        let table = rules_of_100_bytes(count);
        for bytes in [need, need + 1, need + 1_000, WRITE_BYTES] {
            let mut out = Guarded::new(bytes);
            let pieces = table.write(7, out.lent()).expect("room for all bodies");
            assert_eq!(pieces.lengths(), lengths);
            assert!((pieces.iter().len(), pieces.body(lengths.len())) == (lengths.len(), None));
            let bodies: Vec<Vec<u8>> = pieces.into_iter().map(<[u8]>::to_vec).collect();
            assert_eq!(
                (pieces.number(), bodies.len()),
                (lengths.len(), lengths.len())
            );
            assert!(out.is_whole());
            let mut expected = vec![MARK; bytes];
            for (at, body) in bodies.iter().enumerate() {
                assert_eq!(body[..3], [7, lengths.len() as u8, at as u8 + 1]);
                expected[at * PIECE_STEP..][..body.len()].copy_from_slice(body);
            }
            assert!(out.lent() == expected);
        }
    }
}

#[test]
fn writing_leaves_the_buffer_where_it_refuses() {
    for count in 0..=32 {
        let (_, need) = lengths_of(count);
        let table = rules_of_100_bytes(count);
        let mut spoilt = table;
        spoilt.timers.tdsg1 = 0;
        for (table, bytes, number) in [
            (table, need - 1, 20),
            (table, 0, 20),
            (spoilt, need - 1, 19),
            (spoilt, 0, 19),
            (spoilt, WRITE_BYTES, 19),
        ] {
            let mut out = Guarded::new(bytes);
            let refused = Refusal { number, offset: 0 };
            assert_eq!(table.write(7, out.lent()), Err(refused));
            assert!(out.is_whole() && out.lent().iter().all(|&byte| byte == MARK));
        }
    }
}
