//! Steps of 2^31 - 1 and 2^31, also over the clock's top.

use reference::modem::{step, Event, Record, State};
use reference::Refusal;

fn resting(last: u32) -> Record {
    Record {
        state: State::Resting,
        last,
        receive: Some(65_535_000),
        ..Record::default()
    }
}

#[test]
fn accepts_a_step_of_half_the_range_less_1_and_refuses_18_half_the_range() {
    for last in [0, 1, 0x7FFF_FFFF, 0x8000_0000, 0xFFFF_FFFF] {
        let record = resting(last);
        let now = last.wrapping_add(0x7FFF_FFFF);
        let moved = Record {
            last: now,
            receive: Some(0),
            ..record.clone()
        };
        assert_eq!(step(&record, now, Event::Packet), Ok(moved));
        let back = last.wrapping_add(0x8000_0000);
        assert_eq!(step(&record, back, Event::Packet), Err(Refusal::whole(18)));
        let just_back = last.wrapping_sub(1);
        assert_eq!(
            step(&record, just_back, Event::Packet),
            Err(Refusal::whole(18))
        );
    }
}

#[test]
fn accepts_a_step_of_0() {
    assert_eq!(step(&resting(7), 7, Event::Packet), Ok(resting(7)));
}

#[test]
fn starts_at_any_clock() {
    let started = step(&resting(0), 0x8000_0000, Event::Start(false)).expect("accepted");
    assert_eq!(
        (started.state, started.last),
        (State::Scanning, 0x8000_0000)
    );
}
