//! Cuts in the strict setting (document 02, Req 04, refusal 21).

mod support;

use reference::collecting::Record;
use reference::Refusal;
use support::{body, bytes, cut_at, message_m, rule, Answer, Collection};

/// Where M may be cut: two rules of 22 bytes and a configuration of 8.
const GOOD_IN_M: [usize; 4] = [0, 22, 44, 52];

/// What the last of these bodies is answered; those before it wait.
fn last_answer(collection: &mut Collection, bodies: &[&Vec<u8>]) -> Result<Answer, Refusal> {
    let (last, before) = bodies.split_last().expect("a body");
    for (body, empty) in before.iter().zip((1..=before.len()).rev()) {
        assert_eq!(collection.take(body), Ok(Answer::Waiting(empty)));
    }
    collection.take(last)
}

/// The message, cut at these offsets, completes in a strict collection, or is refused at the offset;
/// first piece first and last piece first, and beside a loose collection, where it completes.
fn assert_judged(message: &[u8], cuts: &[usize], refused: Option<usize>) {
    let bodies = cut_at(message, cuts);
    let forward: Vec<&Vec<u8>> = bodies.iter().collect();
    let backward: Vec<&Vec<u8>> = bodies.iter().rev().collect();
    for order in [forward, backward] {
        let mut loose = Collection::new();
        let mut strict = Collection::strict();
        let complete = Ok(Answer::CompleteJoin(message.to_vec()));
        assert_eq!(last_answer(&mut loose, &order), complete);
        let answer = last_answer(&mut strict, &order);
        let record = match refused {
            None => {
                assert_eq!(answer, complete, "{message:02x?} cut at {cuts:?}");
                Record {
                    strict: true,
                    ..loose.record
                }
            }
            Some(offset) => {
                let refusal = Err(Refusal::at(21, offset));
                assert_eq!(answer, refusal, "{message:02x?} cut at {cuts:?}");
                Record::empty(true)
            }
        };
        assert_eq!(strict.record, record);
        assert!(strict.slots == loose.slots && strict.join == loose.join);
    }
}

fn assert_completes(message: &[u8], cuts: &[usize]) {
    assert_judged(message, cuts, None);
}

fn assert_refused(message: &[u8], cuts: &[usize], offset: usize) {
    assert_judged(message, cuts, Some(offset));
}

/// Of all single cuts of the message just these are good.
fn assert_good(message: &[u8], good: &[usize]) {
    for cut in 0..=message.len() {
        let refused = Some(cut).filter(|cut| !good.contains(cut));
        assert_judged(message, &[cut], refused);
    }
}

/// A strict collection in which M, cut at 10, was just refused, and its two bodies.
fn after_21() -> (Collection, Vec<Vec<u8>>) {
    let mut collection = Collection::strict();
    let bodies = cut_at(&message_m(), &[10]);
    assert_eq!(collection.take(&bodies[0]), Ok(Answer::Waiting(1)));
    assert_eq!(collection.take(&bodies[1]), Err(Refusal::at(21, 10)));
    (collection, bodies)
}

/// A strict record of count 7 and number 2, with so many bytes in each slot that is filled.
fn given(first: Option<u16>, second: Option<u16>) -> Record {
    let mut record = Record {
        count: 7,
        number: 2,
        ..Record::empty(true)
    };
    for (slot, length) in [first, second].into_iter().enumerate() {
        record.filled[slot] = length.is_some();
        record.lengths[slot] = length.unwrap_or(0);
    }
    record
}

#[test]
fn completes_m_cut_between_elements() {
    assert_completes(&message_m(), &[22]);
    assert_completes(&message_m(), &[44]);
    assert_completes(&message_m(), &[22, 44]);
}

#[test]
fn refuses_21_a_cut_inside_an_element() {
    assert_refused(&message_m(), &[10], 10);
    assert_refused(&message_m(), &[51], 51);
}

#[test]
fn refuses_21_a_cut_just_before_a_start_within_a_head_and_behind_it() {
    for start in [22, 44] {
        assert_refused(&message_m(), &[start - 1], start - 1);
        assert_refused(&message_m(), &[start + 1], start + 1);
        assert_refused(&message_m(), &[start + 2], start + 2);
    }
}

#[test]
fn refuses_21_a_cut_between_children_of_a_row() {
    for child in [2, 5, 8, 14] {
        assert_refused(&message_m(), &[child], child);
    }
}

#[test]
fn judges_every_pair_of_cuts_of_m() {
    for first in 0..=52 {
        for second in first..=52 {
            let cuts = [first, second];
            let bad = cuts.into_iter().find(|cut| !GOOD_IN_M.contains(cut));
            assert_judged(&message_m(), &cuts, bad);
        }
    }
}

#[test]
fn refuses_21_at_the_first_bad_cut() {
    assert_refused(&message_m(), &[10, 22, 44], 10);
    assert_refused(&message_m(), &[22, 30, 44], 30);
    assert_refused(&message_m(), &[22, 44, 50], 50);
    assert_refused(&message_m(), &[10, 30, 50], 10);
    assert_refused(&message_m(), &[22, 30, 50], 30);
    assert_refused(&message_m(), &[0, 30, 31, 52], 30);
}

#[test]
fn refuses_21_at_the_first_bad_cut_whichever_piece_comes_last() {
    let bodies = cut_at(&message_m(), &[10, 30, 50]);
    for last in 0..bodies.len() {
        let mut order: Vec<&Vec<u8>> = bodies.iter().collect();
        order.rotate_left(last);
        let mut collection = Collection::strict();
        let answer = last_answer(&mut collection, &order);
        assert_eq!(answer, Err(Refusal::at(21, 10)));
    }
}

#[test]
fn completes_with_empty_pieces_at_the_start_between_elements_and_at_the_end() {
    assert_completes(&message_m(), &[0]);
    assert_completes(&message_m(), &[0, 0, 0]);
    assert_completes(&message_m(), &[22, 22]);
    assert_completes(&message_m(), &[0, 22, 22, 22, 44]);
    assert_completes(&message_m(), &[52]);
    assert_completes(&message_m(), &[44, 52, 52]);
}

#[test]
fn refuses_21_empty_pieces_inside_an_element() {
    assert_refused(&message_m(), &[10, 10], 10);
    assert_refused(&message_m(), &[0, 22, 43, 43, 52], 43);
}

#[test]
fn completes_a_message_of_no_bytes() {
    assert_completes(&[], &[0]);
    assert_completes(&[], &[0; 15]);
}

#[test]
fn completes_a_message_of_one_piece_whatever_it_holds() {
    for message in ["", "32", "32 FF", "32 01", "32 00", "33 00 33 00"] {
        let mut collection = Collection::strict();
        let message = bytes(message);
        let complete = Ok(Answer::CompleteBody(message.clone()));
        assert_eq!(collection.take(&body(7, 1, 1, &message)), complete);
        assert_eq!(collection.join, [0xDD; 24_000]);
        let repeat = collection.take(&body(7, 1, 1, &message));
        assert_eq!(repeat, Ok(Answer::Repeat));
    }
}

#[test]
fn judges_up_to_the_start_of_a_lone_byte_06() {
    assert_good(&bytes("63 01 00 32"), &[0, 3, 4]);
    assert_good(&bytes("32"), &[0, 1]);
}

#[test]
fn judges_up_to_the_start_of_a_length_of_255_07() {
    assert_good(&bytes("63 01 00 32 FF 63 00"), &[0, 3, 4, 5, 6, 7]);
    assert_good(&bytes("63 01 00 32 FF"), &[0, 3, 4, 5]);
    assert_good(&bytes("32 FF"), &[0, 1, 2]);
}

#[test]
fn judges_up_to_the_start_of_a_value_past_the_message_08() {
    assert_good(&bytes("63 01 00 32 03 01 01"), &[0, 3, 4, 5, 6, 7]);
    assert_good(&bytes("63 01 00 32 01"), &[0, 3, 4, 5]);
    assert_good(&bytes("32 02 63"), &[0, 1, 2, 3]);
}

#[test]
fn judges_the_cuts_before_a_faulty_element_beside_those_behind_it() {
    for message in ["63 01 00 32 FF 63 00", "63 01 00 32 03 01 01"] {
        let message = bytes(message);
        assert_completes(&message, &[3, 4, 5, 6, 7]);
        assert_completes(&message, &[0, 5, 6]);
        assert_refused(&message, &[1, 4], 1);
        assert_refused(&message, &[0, 2, 3, 6], 2);
    }
}

#[test]
fn is_stopped_by_the_first_faulty_element_only() {
    // 7 at 2; behind it 63 02 00 00 would be whole, and FF FF be 7 again.
    assert_good(
        &bytes("63 00 63 FF 63 02 00 00 FF FF"),
        &[0, 2, 3, 4, 5, 6, 7, 8, 9, 10],
    );
    // What looks like a faulty head lies in a value: 63 03 63 FF 63, then 63 01 00.
    assert_good(&bytes("63 03 63 FF 63 63 01 00"), &[0, 5, 8]);
}

#[test]
fn is_not_stopped_by_06_to_08_inside_a_row() {
    assert_good(&bytes("32 01 05 63 01 00"), &[0, 3, 6]);
    assert_good(&bytes("32 02 01 FF 63 01 00"), &[0, 4, 7]);
    assert_good(&bytes("32 02 01 01 63 01 00"), &[0, 4, 7]);
    assert_good(&bytes("17 04 09 02 05 FF 63 01 00"), &[0, 6, 9]);
}

#[test]
fn is_not_stopped_by_09_to_15() {
    assert_good(&bytes("33 00 33 00 63 01 00"), &[0, 2, 4, 7]);
    assert_good(&bytes("33 03 02 01 01 63 01 00"), &[0, 5, 8]);
    assert_good(&bytes("33 04 02 02 00 00 63 01 00"), &[0, 6, 9]);
    let long_list = [bytes("32 13 03 11"), vec![9; 17], bytes("63 01 00")].concat();
    assert_good(&long_list, &[0, 21, 24]);
    assert_good(&bytes("32 00 63 01 00"), &[0, 2, 5]);
    let taken = [rule(5, &[]), rule(5, &[]), bytes("63 01 00")].concat();
    assert_good(&taken, &[0, 15, 30, 33]);
    let unanswered = [rule(5, &[bytes("06 02 00 01")]), bytes("63 01 00")].concat();
    assert_good(&unanswered, &[0, 19, 22]);
}

#[test]
fn looks_at_lengths_and_not_at_types() {
    for kind in [0, 1, 23, 43, 50, 51, 99, 255] {
        assert_good(&[kind, 2, kind, 255, kind, 0], &[0, 4, 6]);
    }
}

/// Whether a cut is good, worked out from the cut backwards: an element starts at 0, and behind
/// each whole element.
fn good_backwards(message: &[u8], cut: usize) -> bool {
    cut == message.len()
        || starts_at(message, cut)
        || (0..cut).any(|at| starts_at(message, at) && whole_end(message, at).is_none())
}

fn starts_at(message: &[u8], at: usize) -> bool {
    let follows = |before| starts_at(message, before) && whole_end(message, before) == Some(at);
    at < message.len() && (at == 0 || (0..at).any(follows))
}

/// The end of an element that gives none of 6, 7 and 8.
fn whole_end(message: &[u8], at: usize) -> Option<usize> {
    let length = *message.get(at + 1)?;
    let end = at + 2 + usize::from(length);
    (length < 255 && end <= message.len()).then_some(end)
}

#[test]
fn judges_every_cut_of_every_short_message_as_worked_out_backwards() {
    let mut messages = vec![vec![]];
    for _ in 0..6 {
        let longer = messages.iter().flat_map(|message: &Vec<u8>| {
            let ending = |byte: u8| [message.as_slice(), &[byte]].concat();
            [0, 1, 2, 255].map(ending)
        });
        messages = longer.collect();
        for message in &messages {
            for cut in 0..=message.len() {
                let mut collection = Collection::strict();
                let bodies = cut_at(message, &[cut]);
                let answer = last_answer(&mut collection, &[&bodies[0], &bodies[1]]);
                let expected = if good_backwards(message, cut) {
                    Ok(Answer::CompleteJoin(message.clone()))
                } else {
                    Err(Refusal::at(21, cut))
                };
                assert_eq!(answer, expected, "{message:02x?} cut at {cut}");
            }
        }
    }
}

#[test]
fn empties_the_record_and_leaves_both_buffers_as_completed() {
    let (collection, _) = after_21();
    assert_eq!(collection.record, Record::empty(true));
    let message = message_m();
    let mut slots = vec![0xEE; 24_000];
    slots[..10].copy_from_slice(&message[..10]);
    slots[1_500..1_542].copy_from_slice(&message[10..]);
    assert_eq!(collection.slots, slots);
    assert_eq!(collection.join[..52], message);
    assert_eq!(collection.join[52..], [0xDD; 24_000 - 52]);
}

#[test]
fn starts_a_run_after_21_with_either_piece_of_the_refused_message() {
    for piece in [0, 1] {
        let (mut collection, bodies) = after_21();
        let left = collection.clone();
        assert_eq!(collection.take(&bodies[piece]), Ok(Answer::Waiting(1)));
        let record = match piece {
            0 => given(Some(10), None),
            _ => given(None, Some(42)),
        };
        assert_eq!(collection.record, record);
        assert!(collection.slots == left.slots && collection.join == left.join);
        assert_eq!(collection.take(&bodies[piece]), Ok(Answer::Repeat));
        let other = collection.take(&bodies[1 - piece]);
        assert_eq!(other, Err(Refusal::at(21, 10)));
        assert_eq!(collection, left);
    }
}

#[test]
fn completes_a_well_cut_message_after_21() {
    let (mut collection, _) = after_21();
    let bodies = cut_at(&message_m(), &[22]);
    let answer = last_answer(&mut collection, &[&bodies[1], &bodies[0]]);
    assert_eq!(answer, Ok(Answer::CompleteJoin(message_m())));
    assert_eq!(collection.record, given(Some(22), Some(30)));
}

#[test]
fn changes_nothing_at_a_body_refused_01_to_05_after_21() {
    let (mut collection, _) = after_21();
    let left = collection.clone();
    for (body, number) in [
        (bytes("07 02"), 2),
        (body(7, 2, 2, &[0; 1_498]), 3),
        (bytes("07 11 01"), 4),
        (bytes("07 02 03"), 5),
    ] {
        assert_eq!(collection.take(&body), Err(Refusal::whole(number)));
    }
    collection.join.truncate(23_999);
    let short = collection.take(&bytes("07 02 01"));
    assert_eq!(short, Err(Refusal::whole(1)));
    assert_eq!(collection.record, left.record);
    assert!(collection.slots == left.slots && collection.join == left.join[..23_999]);
}

#[test]
fn judges_nothing_before_completion() {
    let mut collection = Collection::strict();
    let bodies = cut_at(&message_m(), &[10, 22]);
    assert_eq!(collection.take(&bodies[0]), Ok(Answer::Waiting(2)));
    assert_eq!(collection.take(&bodies[1]), Ok(Answer::Waiting(1)));
    assert_eq!(collection.take(&bodies[0]), Ok(Answer::Repeat));
    let refused = collection.take(&bytes("07 03 04"));
    assert_eq!(refused, Err(Refusal::whole(5)));
    assert_eq!(collection.take(&bodies[2]), Err(Refusal::at(21, 10)));
}

#[test]
fn repeats_after_completion_in_the_strict_setting() {
    let mut collection = Collection::strict();
    let bodies = cut_at(&message_m(), &[22]);
    for body in &bodies {
        collection.take(body).expect("accepted");
    }
    let left = collection.clone();
    for body in &bodies {
        assert_eq!(collection.take(body), Ok(Answer::Repeat));
    }
    assert_eq!(collection, left);
}

#[test]
fn repeats_a_badly_cut_message_that_is_given_as_complete() {
    let mut collection = Collection::strict();
    collection.record = given(Some(1), Some(1));
    collection.slots[0] = 0x33;
    collection.slots[1_500] = 0x00;
    let left = collection.clone();
    for body in cut_at(&bytes("33 00"), &[1]) {
        assert_eq!(collection.take(&body), Ok(Answer::Repeat));
    }
    assert_eq!(collection, left);
    let other = collection.take(&body(7, 2, 2, b"\x01"));
    assert_eq!(other, Ok(Answer::Waiting(1)));
    assert_eq!(collection.record, given(None, Some(1)));
}

#[test]
fn judges_the_cut_behind_a_piece_that_is_given_as_held() {
    let mut collection = Collection::strict();
    collection.record = given(Some(1), None);
    collection.slots[0] = 0x33;
    let answer = collection.take(&body(7, 2, 2, b"\x00"));
    assert_eq!(answer, Err(Refusal::at(21, 1)));
    assert_eq!(collection.record, Record::empty(true));
}

#[test]
fn keeps_the_setting_when_a_run_starts() {
    for strict in [false, true] {
        for start in [
            body(8, 2, 1, b"a"),
            body(7, 3, 1, b"a"),
            body(7, 2, 1, b"b"),
        ] {
            let mut collection = Collection::new();
            collection.record = Record {
                strict,
                ..given(Some(1), None)
            };
            collection.slots[0] = b'a';
            collection.take(&start).expect("accepted");
            assert_eq!(collection.record.count, start[0]);
            assert_eq!(collection.record.strict, strict);
        }
    }
}

#[test]
fn keeps_the_setting_of_a_record_that_counts_as_nothing_collected() {
    for number in [0, 17, 255] {
        let mut collection = Collection::strict();
        collection.record = Record {
            number,
            ..given(Some(1), None)
        };
        let bodies = cut_at(&bytes("33 00"), &[1]);
        assert_eq!(collection.take(&bodies[0]), Ok(Answer::Waiting(1)));
        assert_eq!(collection.record, given(Some(1), None));
        assert_eq!(collection.take(&bodies[1]), Err(Refusal::at(21, 1)));
    }
}
