//! The modem record: every event writes its places, and every place decides something.

use crate::numbers::Numbers;
use crate::places::tell_apart;
use dsg::ffi;
use dsg::records::{state, Modem};

// Events by number, in dsg.h's order.
const START: u8 = 1;
const LOCKED: u8 = 2;
const SCAN_EMPTY: u8 = 3;
const TABLE_ACCEPTED: u8 = 4;
const PACKET: u8 = 5;
const TICK: u8 = 6;
const UPSTREAM_UP: u8 = 8;
const UPSTREAM_LOST: u8 = 9;
const DISABLE: u8 = 10;
/// A number that names no event.
const NONE: u8 = 0;

/// The record with 0 beside every mark that is off.
fn meant(modem: &Modem) -> Modem {
    Modem {
        receive: modem.receive * u32::from(modem.receiveon),
        retry: modem.retry * u32::from(modem.retryon),
        ucid: modem.ucid * modem.hasucid,
        ..*modem
    }
}

/// The record after an event that is not refused.
fn after(modem: &Modem, clock: u32, event: u8, values: [u16; 4]) -> Modem {
    let mut next = *modem;
    assert_eq!(ffi::event(&mut next, clock, event, values), 0);
    next
}

#[test]
fn writes_every_place() {
    let mut numbers = Numbers(41);
    let mut written = vec![meant(&ffi::empty_modem())];
    assert_eq!(written[0].state, state::IDLE);
    for _ in 0..8 {
        let clock = numbers.long();
        let [t1, t2, t3, t4] = [(); 4].map(|()| numbers.between(1_000, 65_535) as u16);
        let ucid = numbers.between(1, 255) as u8;
        let milliseconds = |seconds: u16| u32::from(seconds) * 1_000;
        let mut modem = *written.last().expect("a record");
        let mut step = |at: u32, event, values, expected: Modem| {
            modem = after(&modem, clock.wrapping_add(at), event, values);
            assert_eq!(meant(&modem), expected);
            written.push(expected);
            expected
        };
        let started = Modem {
            last: clock,
            tdsg1: 2,
            tdsg2: 600,
            tdsg3: 300,
            tdsg4: 1_800,
            state: state::SCANNING,
            permission: 1,
            receive: 0,
            retry: 0,
            receiveon: 0,
            retryon: 0,
            hasucid: 0,
            ucid: 0,
        };
        let started = step(0, START, [1, 0, 0, 0], started);
        let checking = Modem {
            last: clock.wrapping_add(10),
            state: state::CHECKING,
            receive: 2_000,
            receiveon: 1,
            ..started
        };
        let checking = step(10, LOCKED, [0; 4], checking);
        let ranging = Modem {
            last: clock.wrapping_add(30),
            state: state::RANGING,
            receive: milliseconds(t2),
            tdsg1: t1,
            tdsg2: t2,
            tdsg3: t3,
            tdsg4: t4,
            ..checking
        };
        let ranging = step(30, TABLE_ACCEPTED, [t1, t2, t3, t4], ranging);
        let two_way = Modem {
            last: clock.wrapping_add(70),
            state: state::TWO_WAY,
            receive: ranging.receive - 40,
            hasucid: 1,
            ucid,
            ..ranging
        };
        let two_way = step(70, UPSTREAM_UP, [ucid.into(), 0, 0, 0], two_way);
        let one_way = Modem {
            last: clock.wrapping_add(150),
            state: state::ONE_WAY,
            receive: two_way.receive - 80,
            retry: milliseconds(t3),
            retryon: 1,
            hasucid: 0,
            ucid: 0,
            ..two_way
        };
        let one_way = step(150, UPSTREAM_LOST, [0; 4], one_way);
        let disabled = Modem {
            last: clock.wrapping_add(310),
            receive: one_way.receive - 160,
            retry: 0,
            retryon: 0,
            permission: 0,
            ..one_way
        };
        let disabled = step(310, DISABLE, [0; 4], disabled);
        let resting = Modem {
            last: clock.wrapping_add(310 + disabled.receive),
            state: state::RESTING,
            receive: milliseconds(t4),
            ..disabled
        };
        step(310 + disabled.receive, TICK, [0; 4], resting);
    }
    tell_apart(&written);
}

/// A record in each state that document 01 allows, of numbers that differ.
fn sound(at: u8) -> Modem {
    let on = u16::from(at >= state::CHECKING);
    Modem {
        last: 0x1234_5678,
        receive: 11_111_111,
        retry: 22_222_222,
        tdsg1: 1_111,
        tdsg2: 2_222,
        tdsg3: 3_333,
        tdsg4: 4_444,
        receiveon: on,
        retryon: u16::from(at == state::ONE_WAY),
        state: at,
        permission: 1,
        hasucid: u8::from(at == state::TWO_WAY),
        ucid: 77,
    }
}

#[test]
fn reads_the_state() {
    let on = |at| (ffi::transmits(&sound(at)), ffi::forwards(&sound(at)));
    let sending = [state::RANGING, state::TWO_WAY];
    for at in state::IDLE..=state::RESTING {
        let forwards = at == state::ONE_WAY || sending.contains(&at);
        assert_eq!(on(at), (sending.contains(&at), forwards));
    }
}

#[test]
fn reads_the_clock_and_both_timers() {
    let given = sound(state::ONE_WAY);
    let clock = given.last + 1_000;
    let moved = Modem {
        last: clock,
        receive: given.receive - 1_000,
        retry: given.retry - 1_000,
        ..given
    };
    assert_eq!(after(&given, clock, NONE, [0; 4]), moved);
    let mut modem = given;
    assert_eq!(ffi::event(&mut modem, given.last - 1, NONE, [0; 4]), 18);
    assert_eq!(modem, given);
}

#[test]
fn reads_every_timer_value() {
    let then = |at, event| {
        let next = meant(&after(&sound(at), sound(at).last, event, [0; 4]));
        (next.state, next.receive, next.retry)
    };
    let left = sound(state::RANGING).receive;
    let checking = (state::CHECKING, 1_111_000, 0);
    assert_eq!(then(state::SCANNING, LOCKED), checking);
    assert_eq!(then(state::RANGING, PACKET), (state::RANGING, 2_222_000, 0));
    let one_way = (state::ONE_WAY, left, 3_333_000);
    assert_eq!(then(state::RANGING, UPSTREAM_LOST), one_way);
    let resting = (state::RESTING, 4_444_000, 0);
    assert_eq!(then(state::SCANNING, SCAN_EMPTY), resting);
}

#[test]
fn reads_the_permission_and_every_mark() {
    for (permission, next) in [(0, state::ONE_WAY), (1, state::RANGING)] {
        let given = Modem {
            permission,
            ..sound(state::CHECKING)
        };
        let modem = after(&given, given.last, TABLE_ACCEPTED, [1; 4]);
        assert_eq!(modem.state, next);
    }
    let one_way = sound(state::ONE_WAY);
    let two_way = sound(state::TWO_WAY);
    let broken = [
        Modem {
            permission: 0,
            ..one_way
        },
        Modem {
            receiveon: 0,
            ..one_way
        },
        Modem {
            retryon: 2,
            ..one_way
        },
        Modem {
            hasucid: 1,
            ..one_way
        },
        Modem {
            hasucid: 0,
            ..two_way
        },
        Modem {
            retryon: 1,
            ..two_way
        },
    ];
    for record in broken {
        assert!(!ffi::forwards(&record), "{record:?}");
    }
    let retry_off = Modem {
        retryon: 0,
        ..one_way
    };
    assert!(ffi::forwards(&retry_off));
}

#[test]
fn keeps_the_ucid() {
    for ucid in 0..=255 {
        let given = Modem {
            ucid,
            ..sound(state::TWO_WAY)
        };
        assert_eq!(after(&given, given.last, NONE, [0; 4]), given);
        let next = after(&given, given.last, PACKET, [0; 4]);
        assert_eq!((next.hasucid, next.ucid), (1, ucid));
    }
}
