//! Collecting pieces (document 01, "Collecting pieces", refusals 1 to 5).

mod support;

use reference::collecting::Record;
use reference::Refusal;
use support::{body, bytes, message_m, Answer, Collection};

fn record(count: u8, number: u8, pieces: &[(usize, u16)]) -> Record {
    let mut record = Record {
        count,
        number,
        ..Record::default()
    };
    for &(slot, length) in pieces {
        record.filled[slot] = true;
        record.lengths[slot] = length;
    }
    record
}

/// The collection refuses the body by number and is left as it was.
fn assert_refused(mut collection: Collection, body: &[u8], number: u8) {
    let given = collection.clone();
    assert_eq!(collection.take(body), Err(Refusal::whole(number)));
    assert_eq!(collection.record, given.record);
    assert_eq!(
        (collection.slots, collection.join),
        (given.slots, given.join)
    );
}

#[test]
fn refuses_01_a_short_slot_buffer() {
    let mut collection = Collection::new();
    collection.slots.truncate(23_999);
    assert_refused(collection, &[], 1);
}

#[test]
fn refuses_01_a_short_join_buffer() {
    let mut collection = Collection::new();
    collection.join.truncate(23_999);
    assert_refused(collection, &bytes("00 01 01"), 1);
}

#[test]
fn refuses_02_a_body_of_2_bytes() {
    assert_refused(Collection::new(), &bytes("00 00"), 2);
}

#[test]
fn refuses_03_before_04() {
    assert_refused(Collection::new(), &[0; 1_501], 3);
}

#[test]
fn refuses_04_before_05() {
    assert_refused(Collection::new(), &bytes("00 00 00"), 4);
    assert_refused(Collection::new(), &bytes("00 11 12"), 4);
}

#[test]
fn refuses_05_sequence_0_and_beyond_the_number() {
    assert_refused(Collection::new(), &bytes("00 02 00"), 5);
    assert_refused(Collection::new(), &bytes("00 02 03"), 5);
}

#[test]
fn keeps_what_is_held_after_a_refusal() {
    let mut collection = Collection::new();
    collection.take(&body(1, 2, 1, b"abc")).expect("accepted");
    assert_refused(collection, &bytes("01 02 03"), 5);
}

#[test]
fn lends_a_single_piece_from_the_body() {
    let mut collection = Collection::new();
    let answer = collection.take(&body(9, 1, 1, b"abc"));
    assert_eq!(answer, Ok(Answer::CompleteBody(b"abc".to_vec())));
    assert_eq!(collection.record, record(9, 1, &[(0, 3)]));
    assert_eq!(collection.slots[..4], *b"abc\xEE");
    assert_eq!(collection.join, [0xDD; 24_000]);
}

#[test]
fn lends_two_pieces_from_the_join_buffer_also_when_one_is_empty() {
    let mut collection = Collection::new();
    assert_eq!(collection.take(&body(9, 2, 2, b"")), Ok(Answer::Waiting(1)));
    let answer = collection.take(&body(9, 2, 1, b"abc"));
    assert_eq!(answer, Ok(Answer::CompleteJoin(b"abc".to_vec())));
    assert_eq!(collection.join[..4], *b"abc\xDD");
}

#[test]
fn stores_a_piece_in_its_slot_and_nowhere_else() {
    let mut collection = Collection::new();
    assert_eq!(
        collection.take(&body(9, 3, 2, b"xyz")),
        Ok(Answer::Waiting(2))
    );
    let mut slots = vec![0xEE; 24_000];
    slots[1_500..1_503].copy_from_slice(b"xyz");
    assert_eq!(collection.slots, slots);
    assert_eq!(collection.record, record(9, 3, &[(1, 3)]));
}

#[test]
fn repeats_before_and_after_completion() {
    let mut collection = Collection::new();
    let (first, second) = (body(9, 2, 1, b"a"), body(9, 2, 2, b"b"));
    assert_eq!(collection.take(&first), Ok(Answer::Waiting(1)));
    assert_eq!(collection.take(&first), Ok(Answer::Repeat));
    assert_eq!(
        collection.take(&second),
        Ok(Answer::CompleteJoin(b"ab".to_vec()))
    );
    assert_eq!(collection.take(&first), Ok(Answer::Repeat));
    assert_eq!(collection.take(&second), Ok(Answer::Repeat));
}

#[test]
fn repeats_a_single_piece_after_completion() {
    let mut collection = Collection::new();
    collection.take(&body(9, 1, 1, b"")).expect("accepted");
    assert_eq!(collection.take(&body(9, 1, 1, b"")), Ok(Answer::Repeat));
}

#[test]
fn begins_anew_with_another_count_or_number() {
    for other in [body(8, 3, 1, b"a"), body(9, 2, 1, b"a")] {
        let mut collection = Collection::new();
        collection.take(&body(9, 3, 1, b"a")).expect("accepted");
        collection.take(&body(9, 3, 2, b"b")).expect("accepted");
        let empty = usize::from(other[1]) - 1;
        assert_eq!(collection.take(&other), Ok(Answer::Waiting(empty)));
        assert_eq!(collection.record, record(other[0], other[1], &[(0, 1)]));
    }
}

#[test]
fn begins_anew_with_other_bytes_or_another_length_for_a_filled_slot() {
    for other in [b"ax".as_slice(), b"a", b"abc"] {
        let mut collection = Collection::new();
        collection.take(&body(9, 3, 1, b"ab")).expect("accepted");
        collection.take(&body(9, 3, 2, b"b")).expect("accepted");
        assert_eq!(
            collection.take(&body(9, 3, 1, other)),
            Ok(Answer::Waiting(2))
        );
        assert_eq!(collection.record, record(9, 3, &[(0, other.len() as u16)]));
    }
}

#[test]
fn compares_with_what_the_slot_buffer_holds_now() {
    let mut collection = Collection::new();
    collection.take(&body(9, 2, 1, b"ab")).expect("accepted");
    collection.slots[0] = b'x';
    assert_eq!(collection.take(&body(9, 2, 1, b"xb")), Ok(Answer::Repeat));
    assert_eq!(
        collection.take(&body(9, 2, 1, b"ab")),
        Ok(Answer::Waiting(1))
    );
}

#[test]
fn leaves_the_join_buffer_beyond_the_message() {
    let mut collection = Collection::new();
    collection.join.resize(24_001, 0xDD);
    collection.take(&body(9, 2, 1, b"ab")).expect("accepted");
    collection.take(&body(9, 2, 2, b"c")).expect("accepted");
    assert_eq!(collection.join[..3], *b"abc");
    assert!(collection.join[3..].iter().all(|&byte| byte == 0xDD));
}

/// A record whose slot 1 would make the piece a repeat counts as nothing collected.
fn assert_counts_as_nothing(broken: Record) {
    let mut collection = Collection::new();
    collection.record = broken;
    assert_refused(collection.clone(), &bytes("07 02"), 2);
    assert_eq!(
        collection.take(&body(7, 2, 1, b"\xEE")),
        Ok(Answer::Waiting(1))
    );
    assert_eq!(collection.record, record(7, 2, &[(0, 1)]));
}

#[test]
fn counts_number_0_as_nothing_collected() {
    assert_counts_as_nothing(record(7, 0, &[]));
}

#[test]
fn counts_a_number_over_16_as_nothing_collected() {
    assert_counts_as_nothing(record(7, 17, &[(0, 1)]));
    assert_counts_as_nothing(record(7, 255, &[(0, 1)]));
}

#[test]
fn counts_a_length_over_1497_as_nothing_collected() {
    assert_counts_as_nothing(record(7, 2, &[(0, 1), (1, 1_498)]));
    assert_counts_as_nothing(record(7, 2, &[(0, 65_535)]));
}

#[test]
fn counts_a_length_on_an_empty_slot_as_nothing_collected() {
    for slot in [1, 15] {
        let mut broken = record(7, 2, &[(0, 1)]);
        broken.lengths[slot] = 1;
        assert_counts_as_nothing(broken);
    }
}

#[test]
fn counts_a_filled_slot_beyond_the_number_as_nothing_collected() {
    assert_counts_as_nothing(record(7, 2, &[(0, 1), (2, 0)]));
    assert_counts_as_nothing(record(7, 2, &[(0, 1), (15, 5)]));
}

#[test]
fn counts_a_number_with_no_filled_slot_as_nothing_collected() {
    assert_counts_as_nothing(record(7, 2, &[]));
}

#[test]
fn takes_a_sound_record_as_it_is() {
    let mut collection = Collection::new();
    collection.record = record(7, 2, &[(0, 1_497)]);
    assert_eq!(
        collection.take(&body(7, 2, 1, &[0xEE; 1_497])),
        Ok(Answer::Repeat)
    );
    let joined = [vec![0xEE; 1_497], b"z".to_vec()].concat();
    assert_eq!(
        collection.take(&body(7, 2, 2, b"z")),
        Ok(Answer::CompleteJoin(joined))
    );
}

#[test]
fn joins_a_message_from_every_cut_and_either_order() {
    let message = message_m();
    for cut in 0..=message.len() {
        let (left, right) = message.split_at(cut);
        let (first, second) = (body(7, 2, 1, left), body(7, 2, 2, right));
        for (early, late) in [(&first, &second), (&second, &first)] {
            let mut collection = Collection::new();
            assert_eq!(collection.take(early), Ok(Answer::Waiting(1)));
            assert_eq!(collection.take(&bytes("07 02 03")), Err(Refusal::whole(5)));
            assert_eq!(collection.take(early), Ok(Answer::Repeat));
            assert_eq!(
                collection.take(late),
                Ok(Answer::CompleteJoin(message.clone()))
            );
        }
    }
}
