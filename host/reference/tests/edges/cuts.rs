//! Cuts one byte before, at and behind an element's start; elements of length 254 and 255; values
//! that end with the message and one byte behind it; fifteen cuts.

use crate::support::{bytes, cut_at, element, Answer, Collection};
use reference::Refusal;

/// What a strict collection answers to the last piece of a message that is cut at these offsets.
fn judged(message: &[u8], cuts: &[usize]) -> Result<(), Refusal> {
    let mut collection = Collection::strict();
    let bodies = cut_at(message, cuts);
    for body in &bodies[..cuts.len()] {
        collection.take(body).expect("accepted");
    }
    let answer = collection.take(&bodies[cuts.len()])?;
    assert_eq!(answer, Answer::CompleteJoin(message.to_vec()));
    Ok(())
}

fn bad(offset: usize) -> Result<(), Refusal> {
    Err(Refusal::at(21, offset))
}

#[test]
fn accepts_a_cut_behind_length_254_and_refuses_21_one_byte_beside_it() {
    let message = element(99, &[0; 254]).repeat(2);
    assert_eq!(judged(&message, &[256]), Ok(()));
    assert_eq!(judged(&message, &[255]), bad(255));
    assert_eq!(judged(&message, &[257]), bad(257));
}

#[test]
fn judges_no_cut_behind_the_start_of_length_255() {
    let message = [bytes("63 00"), element(99, &[0; 255]), bytes("63 00")].concat();
    for cut in (0..=message.len()).filter(|&cut| cut != 1) {
        assert_eq!(judged(&message, &[cut]), Ok(()), "{cut}");
    }
    assert_eq!(judged(&message, &[1]), bad(1));
}

#[test]
fn judges_cuts_in_a_value_that_ends_with_the_message_and_none_in_one_past_it() {
    let message = [bytes("63 00"), element(99, &[0; 254])].concat();
    for cut in 3..258 {
        assert_eq!(judged(&message, &[cut]), bad(cut));
        assert_eq!(judged(&message[..257], &[cut]), Ok(()));
    }
    assert_eq!(judged(&message, &[258]), Ok(()));
}

/// A full piece of whole elements.
fn full_piece() -> Vec<u8> {
    [element(99, &[0; 254]).repeat(5), element(99, &[0; 215])].concat()
}

/// Where a message of sixteen full pieces is cut.
fn full_cuts() -> Vec<usize> {
    (1..16).map(|piece| piece * 1_497).collect()
}

#[test]
fn accepts_fifteen_good_cuts_of_full_pieces() {
    let message = full_piece().repeat(16);
    assert_eq!(message.len(), 23_952);
    assert_eq!(judged(&message, &full_cuts()), Ok(()));
}

#[test]
fn refuses_21_the_fifteenth_cut_where_only_it_is_bad() {
    for (before, behind) in [(216, 214), (214, 216)] {
        let message = [
            full_piece().repeat(14),
            element(99, &[0; 254]).repeat(5),
            element(99, &vec![0; before]),
            element(99, &[0; 254]).repeat(5),
            element(99, &vec![0; behind]),
        ]
        .concat();
        assert_eq!(message.len(), 23_952);
        assert_eq!(judged(&message, &full_cuts()), bad(22_455));
    }
}

#[test]
fn refuses_21_the_first_of_fifteen_cuts_where_every_other_one_is_bad() {
    let message = bytes("63 00").repeat(23_952 / 2);
    assert_eq!(judged(&message, &full_cuts()), bad(1_497));
}
