//! Receiving a body all the way (document 01, "Collecting pieces", then "Elements"; document 02, Req
//! 04): the collector's answer, or what the message that it completes gives.

mod support;

use reference::receiving::Received;
use reference::table::Table;
use reference::Refusal;
use support::{accepted, body, bytes, cut_at, element, message_m, Collection};

/// A message that is refused, with its number and offset.
fn refused_messages() -> [(Vec<u8>, u8, usize); 10] {
    let after_m = |hex: &str| [message_m(), bytes(hex)].concat();
    [
        (after_m("32"), 6, 52),
        (after_m("32 FF"), 7, 52),
        (after_m("32 01"), 8, 52),
        (after_m("33 00"), 9, 52),
        (bytes("33 03 02 01 01"), 10, 2),
        (bytes("33 04 02 02 00 00"), 11, 2),
        (
            bytes("32 13 03 11 00 00 00 00 00 00 00 00 00 00 00 00 00 00 00 00 00"),
            12,
            2,
        ),
        (after_m("32 00"), 13, 52),
        ([message_m(), message_m()[..22].to_vec()].concat(), 14, 52),
        (
            bytes("32 11 01 01 05 04 00 05 06 01 00 5E 05 05 05 06 02 00 01"),
            15,
            15,
        ),
    ]
}

/// A message in two bodies, cut at its middle.
fn halves(message: &[u8]) -> [Vec<u8>; 2] {
    let (left, right) = message.split_at(message.len() / 2);
    [body(7, 2, 1, left), body(7, 2, 2, right)]
}

/// What the collector alone makes of the bodies.
fn collected(bodies: &[Vec<u8>]) -> Collection {
    let mut collection = Collection::new();
    for body in bodies {
        collection.take(body).expect("accepted");
    }
    collection
}

#[test]
fn accepts_a_message_of_one_piece() {
    let mut collection = Collection::new();
    let bodies = [body(7, 1, 1, &message_m())];
    let table = Received::Accepted(accepted(&message_m()));
    assert_eq!(collection.receive(&bodies[0]), Ok(table));
    assert_eq!(collection, collected(&bodies));
}

#[test]
fn accepts_a_message_of_several_pieces() {
    let mut collection = Collection::new();
    let bodies = halves(&message_m());
    let table = Received::Accepted(accepted(&message_m()));
    assert_eq!(collection.receive(&bodies[0]), Ok(Received::Waiting(1)));
    assert_eq!(collection.receive(&bodies[1]), Ok(table));
    assert_eq!(collection, collected(&bodies));
}

#[test]
fn accepts_the_empty_message_of_sixteen_empty_pieces() {
    let mut collection = Collection::new();
    for sequence in (2..=16).rev() {
        let waiting = Received::Waiting(usize::from(sequence) - 1);
        assert_eq!(collection.receive(&body(7, 16, sequence, &[])), Ok(waiting));
    }
    let table = Received::Accepted(Table::default());
    assert_eq!(collection.receive(&body(7, 16, 1, &[])), Ok(table));
}

#[test]
fn accepts_sixteen_full_pieces_so_that_no_message_is_refused_03() {
    let longest = element(99, &[5; 254]).repeat(93);
    let message = [longest, element(99, &[5; 142])].concat();
    assert_eq!(message.len(), 23_952);
    let mut collection = Collection::new();
    for (sequence, piece) in (1..).zip(message.chunks(1_497)) {
        let received = collection.receive(&body(7, 16, sequence, piece));
        let expected = match sequence {
            16 => Received::Accepted(Table::default()),
            _ => Received::Waiting(16 - usize::from(sequence)),
        };
        assert_eq!(received, Ok(expected));
    }
}

#[test]
fn refuses_a_message_of_one_piece_at_its_offset_and_repeats_it_after() {
    for (message, number, offset) in refused_messages() {
        let mut collection = Collection::new();
        let bodies = [body(7, 1, 1, &message)];
        let refused = Received::MessageRefused(Refusal::at(number, offset));
        assert_eq!(collection.receive(&bodies[0]), Ok(refused));
        assert_eq!(collection, collected(&bodies));
        assert_eq!(collection.receive(&bodies[0]), Ok(Received::Repeat));
        assert_eq!(collection, collected(&bodies));
    }
}

#[test]
fn refuses_a_message_of_several_pieces_at_its_offset_and_repeats_them_after() {
    for (message, number, offset) in refused_messages() {
        let mut collection = Collection::new();
        let bodies = halves(&message);
        let refused = Received::MessageRefused(Refusal::at(number, offset));
        assert_eq!(collection.receive(&bodies[1]), Ok(Received::Waiting(1)));
        assert_eq!(collection.receive(&bodies[0]), Ok(refused));
        assert_eq!(collection, collected(&bodies));
        for body in &bodies {
            assert_eq!(collection.receive(body), Ok(Received::Repeat));
        }
        assert_eq!(collection, collected(&bodies));
    }
}

#[test]
fn refuses_bodies_01_to_05_and_leaves_everything() {
    let short = {
        let mut collection = Collection::new();
        collection.join.truncate(23_999);
        collection
    };
    let held = collected(&halves(&message_m())[..1]);
    for (given, body, number) in [
        (short, body(7, 1, 1, &message_m()), 1),
        (held.clone(), bytes("07 02"), 2),
        (held.clone(), body(7, 2, 2, &[0; 1_498]), 3),
        (held.clone(), bytes("07 11 01"), 4),
        (held, bytes("07 02 03"), 5),
    ] {
        let mut collection = given.clone();
        assert_eq!(collection.receive(&body), Err(Refusal::whole(number)));
        assert_eq!(collection, given);
    }
}

#[test]
fn reads_nothing_before_the_message_is_complete() {
    let mut collection = Collection::new();
    let waiting = collection.receive(&body(7, 2, 1, &bytes("32 FF")));
    assert_eq!(waiting, Ok(Received::Waiting(1)));
    let again = collection.receive(&body(7, 2, 1, &bytes("33 00")));
    assert_eq!(again, Ok(Received::Waiting(1)));
    let table = Received::Accepted(Table::default());
    assert_eq!(collection.receive(&body(7, 2, 2, &[])), Ok(table));
}

#[test]
fn accepts_again_under_another_count_and_repeats_under_the_same() {
    let mut collection = Collection::new();
    let table = || Ok(Received::Accepted(accepted(&message_m())));
    for count in [7, 8, 7] {
        assert_eq!(
            collection.receive(&body(count, 1, 1, &message_m())),
            table()
        );
        assert_eq!(
            collection.receive(&body(count, 1, 1, &message_m())),
            Ok(Received::Repeat)
        );
    }
}

#[test]
fn goes_on_with_what_the_collector_took_and_the_other_way_round() {
    let bodies = halves(&message_m());
    let mut received_last = collected(&bodies[..1]);
    let table = Received::Accepted(accepted(&message_m()));
    assert_eq!(received_last.receive(&bodies[1]), Ok(table));
    let mut received_after = collected(&bodies);
    assert_eq!(received_after.receive(&bodies[1]), Ok(Received::Repeat));
    assert_eq!(received_after, received_last);
}

#[test]
fn receives_m_from_every_cut_and_either_order() {
    let message = message_m();
    for cut in 0..=message.len() {
        let (left, right) = message.split_at(cut);
        let (first, second) = (body(7, 2, 1, left), body(7, 2, 2, right));
        for (early, late) in [(&first, &second), (&second, &first)] {
            let mut collection = Collection::new();
            assert_eq!(collection.receive(early), Ok(Received::Waiting(1)));
            assert_eq!(
                collection.receive(&bytes("07 02 03")),
                Err(Refusal::whole(5))
            );
            assert_eq!(collection.receive(early), Ok(Received::Repeat));
            let table = Received::Accepted(accepted(&message));
            assert_eq!(collection.receive(late), Ok(table));
        }
    }
}

/// What a strict collection receives at the second piece of a message that is cut there.
fn received_strict(message: &[u8], cut: usize) -> Result<Received, Refusal> {
    let mut collection = Collection::strict();
    let bodies = cut_at(message, &[cut]);
    assert_eq!(collection.receive(&bodies[0]), Ok(Received::Waiting(1)));
    collection.receive(&bodies[1])
}

#[test]
fn accepts_m_from_good_cuts_only_in_the_strict_setting() {
    for cut in 0..=52 {
        let received = received_strict(&message_m(), cut);
        let expected = match cut {
            0 | 22 | 44 | 52 => Ok(Received::Accepted(accepted(&message_m()))),
            _ => Err(Refusal::at(21, cut)),
        };
        assert_eq!(received, expected);
    }
}

#[test]
fn refuses_21_before_09_to_15_and_gives_those_at_good_cuts() {
    for (message, number, offset) in &refused_messages()[3..] {
        let end = message.len();
        let longer = [message.as_slice(), &bytes("63 01 00")].concat();
        let refused = Received::MessageRefused(Refusal::at(*number, *offset));
        assert_eq!(received_strict(&longer, end), Ok(refused));
        for cut in [1, end - 1, end + 1, end + 2] {
            let refused = Refusal::at(21, cut);
            assert_eq!(received_strict(&longer, cut), Err(refused), "{number}");
        }
    }
}

#[test]
fn refuses_21_before_06_to_08_and_gives_those_at_cuts_that_are_not_judged() {
    for (message, number, offset) in &refused_messages()[..3] {
        for cut in *offset..=message.len() {
            let refused = Received::MessageRefused(Refusal::at(*number, *offset));
            assert_eq!(received_strict(message, cut), Ok(refused));
        }
        let refused = Refusal::at(21, offset - 1);
        assert_eq!(received_strict(message, offset - 1), Err(refused));
    }
}

#[test]
fn refuses_21_with_what_the_collector_makes_of_the_body_and_goes_on() {
    let bodies = halves(&message_m());
    let mut taken = Collection::strict();
    let mut received = Collection::strict();
    for _ in 0..2 {
        taken.take(&bodies[1]).expect("accepted");
        let waiting = received.receive(&bodies[1]);
        assert_eq!(waiting, Ok(Received::Waiting(1)));
        assert_eq!(taken.take(&bodies[0]), Err(Refusal::at(21, 26)));
        let refused = received.receive(&bodies[0]);
        assert_eq!(refused, Err(Refusal::at(21, 26)));
        assert_eq!(received, taken);
    }
    let single = received.receive(&body(7, 1, 1, &message_m()));
    assert_eq!(single, Ok(Received::Accepted(accepted(&message_m()))));
}
