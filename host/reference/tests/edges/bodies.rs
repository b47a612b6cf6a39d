//! Bodies of 2 and 3, 1,500 and 1,501 bytes; buffers of 23,999 and 24,000; sequences 16 and 17;
//! numbers 16 and 17.

use crate::support::{Answer, Collection};
use reference::Refusal;

fn taken(body: &[u8]) -> Result<Answer, Refusal> {
    Collection::new().take(body)
}

#[test]
fn accepts_a_body_of_3_and_refuses_02_a_body_of_2() {
    assert_eq!(taken(&[0, 1, 1]), Ok(Answer::CompleteBody(vec![])));
    assert_eq!(taken(&[0, 1]), Err(Refusal::whole(2)));
    assert_eq!(taken(&[]), Err(Refusal::whole(2)));
}

#[test]
fn accepts_a_body_of_1500_and_refuses_03_a_body_of_1501() {
    let body = [vec![0, 1, 1], vec![5; 1_498]].concat();
    assert_eq!(
        taken(&body[..1_500]),
        Ok(Answer::CompleteBody(vec![5; 1_497]))
    );
    assert_eq!(taken(&body), Err(Refusal::whole(3)));
}

#[test]
fn accepts_number_16_and_refuses_04_number_17() {
    assert_eq!(taken(&[0, 16, 1]), Ok(Answer::Waiting(15)));
    assert_eq!(taken(&[0, 17, 1]), Err(Refusal::whole(4)));
}

#[test]
fn accepts_number_1_and_refuses_04_number_0() {
    assert_eq!(taken(&[0, 1, 1]), Ok(Answer::CompleteBody(vec![])));
    assert_eq!(taken(&[0, 0, 1]), Err(Refusal::whole(4)));
}

#[test]
fn accepts_sequence_16_of_16_and_refuses_05_sequence_17() {
    assert_eq!(taken(&[0, 16, 16]), Ok(Answer::Waiting(15)));
    assert_eq!(taken(&[0, 16, 17]), Err(Refusal::whole(5)));
}

#[test]
fn accepts_sequence_1_and_refuses_05_sequence_0() {
    assert_eq!(taken(&[0, 16, 1]), Ok(Answer::Waiting(15)));
    assert_eq!(taken(&[0, 16, 0]), Err(Refusal::whole(5)));
}

#[test]
fn accepts_buffers_of_24000_and_refuses_01_of_23999() {
    let taken = |slots, join| {
        let mut collection = Collection::new();
        collection.slots.truncate(slots);
        collection.join.truncate(join);
        collection.take(&[0, 1, 1])
    };
    assert_eq!(taken(24_000, 24_000), Ok(Answer::CompleteBody(vec![])));
    assert_eq!(taken(23_999, 24_000), Err(Refusal::whole(1)));
    assert_eq!(taken(24_000, 23_999), Err(Refusal::whole(1)));
}

#[test]
fn joins_sixteen_full_pieces() {
    let mut collection = Collection::new();
    let message: Vec<u8> = (0..23_952u32).map(|at| (at / 7) as u8).collect();
    let body = |sequence: usize| {
        let piece = &message[(sequence - 1) * 1_497..sequence * 1_497];
        [&[3, 16, sequence as u8], piece].concat()
    };
    for sequence in (2..=16).rev() {
        assert_eq!(
            collection.take(&body(sequence)),
            Ok(Answer::Waiting(sequence - 1))
        );
    }
    assert_eq!(
        collection.take(&body(1)),
        Ok(Answer::CompleteJoin(message.clone()))
    );
    assert_eq!(collection.join[23_952..], [0xDD; 48]);
}
