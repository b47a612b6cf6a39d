//! Frames of 13 and 14, 1,518 and 1,519 bytes.

use crate::support::{accepted, message_m};
use reference::choosing::{judge_frame, Verdict};
use reference::table::Client;
use reference::Refusal;

/// What application 42 of M gets for a frame of so many bytes to its tunnel.
fn assert_judged(length: usize, payload: Result<usize, u8>) {
    let mut frame = vec![0; length];
    frame[..6].copy_from_slice(&[0x01, 0x00, 0x5E, 0x05, 0x05, 0x05]);
    let verdict = judge_frame(
        &accepted(&message_m()),
        Client::Application(42),
        None,
        &frame,
    );
    let expected = match payload {
        Ok(bytes) => Ok(Verdict::Forward(0, &frame[length - bytes..])),
        Err(number) => Err(Refusal::whole(number)),
    };
    assert_eq!(verdict, expected);
}

#[test]
fn accepts_a_frame_of_14_and_refuses_16_a_frame_of_13() {
    assert_judged(14, Ok(0));
    assert_judged(13, Err(16));
}

#[test]
fn accepts_a_frame_of_1518_and_refuses_16_a_frame_of_1519() {
    assert_judged(1_518, Ok(1_504));
    assert_judged(1_519, Err(16));
}
