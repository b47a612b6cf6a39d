//! Answers that break a claim, and answers that do not.

use crate::tables::{table_m, table_of_two};
use reference::protocol::request::Request;
use reference::protocol::tables::write_table;
use reference::table::Table;
use requests::claims::Claims;
use requests::written::elements;

fn write(count: u8, out: usize, fill: u8) -> Request {
    Request::Write { count, out, fill }
}

/// Claims about a lent table.
fn claims(table: Table) -> Claims {
    let mut claims = Claims::default();
    assert_eq!(claims.broken(&Request::TSet(table), "ok"), None);
    claims
}

#[test]
fn the_empty_table_is_written_as_three_bytes() {
    let mut claims = Claims::default();
    // zlib's CRC-32 of 07 01 01, and of these with seven bytes of 9 behind them
    let (exact, roomy) = ("pieces 3 2484260416 070101", "pieces 3 3217516112 070101");
    assert_eq!(claims.broken(&write(7, 3, 0), exact), None);
    assert_eq!(claims.broken(&write(7, 10, 9), roomy), None);
    let others = [
        "refused 19 0",
        "refused 20 0",
        "pieces 0 2484260416 070101",
        "pieces 3 2484260417 070101",
        "pieces 3 2484260416 070001",
        roomy,
    ];
    for other in others {
        assert!(claims.broken(&write(7, 3, 0), other).is_some(), "{other}");
    }
}

#[test]
fn a_buffer_under_the_need_is_refused_with_20_and_a_bad_table_with_19_first() {
    let mut good = claims(table_m());
    assert_eq!(good.broken(&write(7, 54, 0), "refused 20 0"), None);
    assert!(good.broken(&write(7, 55, 0), "refused 20 0").is_some());
    let mut bad = claims(Table {
        channels: vec![1],
        ..table_m()
    });
    for out in [0, 54, 12_000] {
        assert_eq!(bad.broken(&write(7, out, 0), "refused 19 0"), None);
        assert!(bad.broken(&write(7, out, 0), "refused 20 0").is_some());
    }
}

#[test]
fn a_written_message_is_read_back_as_the_table() {
    let message = elements(&table_of_two()).concat();
    let mut claims = claims(table_of_two());
    let (same, other) = (write_table(&table_of_two()), write_table(&table_m()));
    assert_eq!(claims.broken(&Request::Read(message.clone()), &same), None);
    for other in [&other, "refused 13 0"] {
        let broken = claims.broken(&Request::Read(message.clone()), other);
        assert!(broken.is_some(), "{other}");
    }
    // nothing is claimed of another message
    assert_eq!(claims.broken(&Request::Read(vec![50, 0]), "any"), None);
}

#[test]
fn the_lent_table_is_the_last_one_that_was_lent() {
    let mut claims = claims(table_m());
    let empty = "pieces 3 2484260416 070101";
    assert!(claims.broken(&write(7, 3, 0), empty).is_some());
    let refused = Request::TRead(vec![50, 0]);
    assert_eq!(claims.broken(&refused, "refused 13 0"), None);
    assert!(claims.broken(&write(7, 3, 0), empty).is_some());
    assert_eq!(claims.broken(&Request::TRead(vec![]), "ok"), None);
    assert_eq!(claims.broken(&write(7, 3, 0), empty), None);
}
