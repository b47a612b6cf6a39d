//! The modem record (document 01, "Modem record", refusal 18): every row of the table, every pair
//! that it leaves out, every kind of broken record.

use reference::modem::{step, Event, Record, State};
use reference::Refusal;

const EVENTS: [Event; 12] = [
    Event::Start(true),
    Event::Locked,
    Event::ScanEmpty,
    Event::TableAccepted([5, 6, 7, 8]),
    Event::Packet,
    Event::Tick,
    Event::Enable,
    Event::Disable,
    Event::UpstreamUp(9),
    Event::UpstreamLost,
    Event::Hunt,
    Event::DownstreamLost,
];
const FORWARDING: [State; 3] = [State::OneWay, State::Ranging, State::TwoWay];
const TRANSMITTING: [State; 2] = [State::Ranging, State::TwoWay];
const RECEIVING: [State; 4] = [
    State::Checking,
    State::OneWay,
    State::Ranging,
    State::TwoWay,
];

/// A permitted record that document 01 allows: clock 1,000, timer values 3, 4, 5 and 6 seconds,
/// receive at 2,000 ms where it runs, UCID 7 where there is one, retry off.
fn sound(state: State) -> Record {
    let still = state == State::Idle || state == State::Scanning;
    Record {
        state,
        last: 1_000,
        permitted: true,
        ucid: (state == State::TwoWay).then_some(7),
        timers: [3, 4, 5, 6],
        receive: (!still).then_some(2_000),
        retry: None,
    }
}

fn without_permission(record: Record) -> Record {
    Record {
        permitted: false,
        ..record
    }
}

fn retrying(retry: u32) -> Record {
    Record {
        retry: Some(retry),
        ..sound(State::OneWay)
    }
}

/// The record after an event 100 ms later.
fn after(record: &Record, event: Event) -> Record {
    step(record, record.last.wrapping_add(100), event).expect("accepted")
}

/// The record with only its clock and timers moved by 100 ms.
fn moved(record: &Record) -> Record {
    let fallen = |timer: Option<u32>| timer.map(|left| left.saturating_sub(100));
    Record {
        last: record.last.wrapping_add(100),
        receive: fallen(record.receive),
        retry: fallen(record.retry),
        ..record.clone()
    }
}

/// Receive is over at the next event.
fn receive_ending(state: State) -> Record {
    Record {
        receive: Some(100),
        ..sound(state)
    }
}

#[test]
fn starts_from_any_state() {
    for state in State::ALL {
        for permitted in [false, true] {
            let next = step(&sound(state), 0, Event::Start(permitted));
            let started = Record {
                state: State::Scanning,
                last: 0,
                permitted,
                ucid: None,
                timers: [2, 600, 300, 1800],
                receive: None,
                retry: None,
            };
            assert_eq!(next, Ok(started));
        }
    }
}

#[test]
fn locked_checks() {
    let next = after(&sound(State::Scanning), Event::Locked);
    let checking = Record {
        receive: Some(3_000),
        last: 1_100,
        ..sound(State::Checking)
    };
    assert_eq!(next, checking);
}

#[test]
fn an_empty_scan_rests() {
    let next = after(&sound(State::Scanning), Event::ScanEmpty);
    let resting = Record {
        receive: Some(6_000),
        last: 1_100,
        ..sound(State::Resting)
    };
    assert_eq!(next, resting);
}

#[test]
fn a_first_table_ranges_if_permitted() {
    let next = after(
        &sound(State::Checking),
        Event::TableAccepted([8, 9, 10, 11]),
    );
    let ranging = Record {
        timers: [8, 9, 10, 11],
        receive: Some(9_000),
        last: 1_100,
        ..sound(State::Ranging)
    };
    assert_eq!(next, ranging);
}

#[test]
fn a_first_table_goes_one_way_if_not_permitted() {
    let record = without_permission(sound(State::Checking));
    let next = after(&record, Event::TableAccepted([8, 9, 10, 11]));
    let one_way = Record {
        timers: [8, 9, 10, 11],
        receive: Some(9_000),
        last: 1_100,
        ..without_permission(sound(State::OneWay))
    };
    assert_eq!(next, one_way);
}

#[test]
fn a_table_with_0_for_tdsg1_and_tdsg2_gives_their_defaults() {
    for state in RECEIVING {
        let next = after(&sound(state), Event::TableAccepted([0, 0, 0, 0]));
        assert_eq!(next.timers, [2, 600, 0, 0]);
        assert_eq!(next.receive, Some(600_000));
    }
}

#[test]
fn a_packet_reloads_receive() {
    for state in FORWARDING {
        let reloaded = Record {
            receive: Some(4_000),
            ..moved(&sound(state))
        };
        assert_eq!(after(&sound(state), Event::Packet), reloaded);
    }
}

#[test]
fn a_later_table_sets_the_timers_and_reloads_receive() {
    for state in FORWARDING {
        let reloaded = Record {
            timers: [8, 9, 10, 11],
            receive: Some(9_000),
            ..moved(&sound(state))
        };
        assert_eq!(
            after(&sound(state), Event::TableAccepted([8, 9, 10, 11])),
            reloaded
        );
    }
}

#[test]
fn a_later_table_leaves_retry_running() {
    let next = after(&retrying(900), Event::TableAccepted([8, 9, 10, 11]));
    assert_eq!(next.retry, Some(800));
}

#[test]
fn a_tick_at_the_end_of_retry_ranges() {
    for left in [0, 99, 100] {
        let ranging = Record {
            state: State::Ranging,
            retry: None,
            ..moved(&retrying(left))
        };
        assert_eq!(after(&retrying(left), Event::Tick), ranging);
    }
    assert_eq!(after(&retrying(101), Event::Tick), moved(&retrying(101)));
}

#[test]
fn enable_ranges_from_one_way() {
    for record in [
        sound(State::OneWay),
        without_permission(sound(State::OneWay)),
        retrying(900),
    ] {
        let ranging = Record {
            state: State::Ranging,
            permitted: true,
            retry: None,
            ..moved(&record)
        };
        assert_eq!(after(&record, Event::Enable), ranging);
    }
}

#[test]
fn upstream_up_goes_two_way_and_keeps_the_ucid() {
    let two_way = Record {
        state: State::TwoWay,
        ucid: Some(0),
        ..moved(&sound(State::Ranging))
    };
    assert_eq!(after(&sound(State::Ranging), Event::UpstreamUp(0)), two_way);
}

#[test]
fn upstream_lost_goes_one_way_and_retries() {
    for state in TRANSMITTING {
        let one_way = Record {
            state: State::OneWay,
            ucid: None,
            retry: Some(5_000),
            ..moved(&sound(state))
        };
        assert_eq!(after(&sound(state), Event::UpstreamLost), one_way);
    }
}

#[test]
fn disable_goes_one_way_without_retry() {
    for state in TRANSMITTING {
        let one_way = Record {
            state: State::OneWay,
            permitted: false,
            ucid: None,
            ..moved(&sound(state))
        };
        assert_eq!(after(&sound(state), Event::Disable), one_way);
    }
}

#[test]
fn disable_stops_retry_so_no_tick_ranges() {
    let stopped = after(&retrying(100), Event::Disable);
    let one_way = Record {
        permitted: false,
        retry: None,
        ..moved(&retrying(100))
    };
    assert_eq!(stopped, one_way);
    assert_eq!(after(&stopped, Event::Tick), moved(&stopped));
}

#[test]
fn a_tick_at_the_end_of_receive_rests() {
    for state in RECEIVING {
        let resting = Record {
            receive: Some(6_000),
            last: 1_100,
            ..sound(State::Resting)
        };
        assert_eq!(after(&receive_ending(state), Event::Tick), resting);
    }
}

#[test]
fn a_tick_one_millisecond_early_stays() {
    for state in RECEIVING.into_iter().chain([State::Resting]) {
        let early = Record {
            receive: Some(101),
            ..sound(state)
        };
        assert_eq!(after(&early, Event::Tick), moved(&early));
    }
}

#[test]
fn receive_acts_before_retry() {
    let both = Record {
        receive: Some(0),
        ..retrying(0)
    };
    let next = after(&both, Event::Tick);
    assert_eq!(
        (next.state, next.receive, next.retry),
        (State::Resting, Some(6_000), None)
    );
}

#[test]
fn only_a_tick_makes_a_timer_act() {
    for event in EVENTS.into_iter().filter(|&event| event != Event::Tick) {
        let next = after(&receive_ending(State::Checking), event);
        assert_ne!(next.state, State::Resting, "{event:?}");
    }
}

#[test]
fn hunt_and_downstream_lost_scan() {
    for state in RECEIVING {
        for event in [Event::Hunt, Event::DownstreamLost] {
            let scanning = Record {
                last: 1_100,
                ..sound(State::Scanning)
            };
            assert_eq!(after(&sound(state), event), scanning);
        }
    }
}

#[test]
fn a_tick_at_the_end_of_rest_scans() {
    let scanning = Record {
        last: 1_100,
        ..sound(State::Scanning)
    };
    assert_eq!(
        after(&receive_ending(State::Resting), Event::Tick),
        scanning
    );
}

#[test]
fn enable_and_disable_set_permission_where_no_row_names_them() {
    for state in [State::Scanning, State::Checking, State::Resting] {
        for (event, permitted) in [(Event::Enable, true), (Event::Disable, false)] {
            for record in [sound(state), without_permission(sound(state))] {
                let set = Record {
                    permitted,
                    ..moved(&record)
                };
                assert_eq!(after(&record, event), set);
            }
        }
    }
    for state in TRANSMITTING {
        assert_eq!(after(&sound(state), Event::Enable), moved(&sound(state)));
    }
}

/// The events that act in a state; Enable and Disable act everywhere outside Idle.
fn acting(state: State) -> Vec<&'static str> {
    let mut words = vec!["Start", "Enable", "Disable"];
    words.extend(match state {
        State::Idle => vec![],
        State::Scanning => vec!["Locked", "ScanEmpty"],
        State::Checking => vec!["TableAccepted", "Hunt", "DownstreamLost"],
        State::OneWay => vec!["TableAccepted", "Packet", "Hunt", "DownstreamLost"],
        State::Ranging => {
            vec![
                "TableAccepted",
                "Packet",
                "UpstreamUp",
                "UpstreamLost",
                "Hunt",
                "DownstreamLost",
            ]
        }
        State::TwoWay => vec![
            "TableAccepted",
            "Packet",
            "UpstreamLost",
            "Hunt",
            "DownstreamLost",
        ],
        State::Resting => vec![],
    });
    words
}

#[test]
fn pairs_not_named_only_move_the_clock_and_timers() {
    for state in State::ALL.into_iter().filter(|&state| state != State::Idle) {
        let acting = acting(state);
        for event in EVENTS {
            let name = format!("{event:?}");
            if !acting.iter().any(|word| name.starts_with(word)) {
                assert_eq!(
                    after(&sound(state), event),
                    moved(&sound(state)),
                    "{state:?} {name}"
                );
            }
        }
    }
}

#[test]
fn upstream_lost_in_one_way_leaves_retry_running() {
    assert_eq!(
        after(&retrying(900), Event::UpstreamLost),
        moved(&retrying(900))
    );
}

#[test]
fn idle_ignores_everything_but_start() {
    let idle = Record {
        timers: [0; 4],
        receive: Some(u32::MAX),
        ..sound(State::Idle)
    };
    assert_comes_back(&idle);
}

/// The record comes back as given after any event but Start, at any clock, and does nothing.
fn assert_comes_back(record: &Record) {
    for event in EVENTS.into_iter().skip(1) {
        for now in [record.last, record.last.wrapping_add(1 << 31), 0] {
            assert_eq!(step(record, now, event), Ok(record.clone()));
        }
    }
    assert!(!record.transmits() && !record.forwards());
    let started = step(record, 9, Event::Start(true)).expect("accepted");
    assert_eq!(
        (started.state, started.timers),
        (State::Scanning, [2, 600, 300, 1800])
    );
}

#[test]
fn counts_as_idle_with_receive_off() {
    for state in RECEIVING.into_iter().chain([State::Resting]) {
        assert_comes_back(&Record {
            receive: None,
            ..sound(state)
        });
    }
}

#[test]
fn counts_as_idle_with_receive_running_in_scanning() {
    assert_comes_back(&Record {
        receive: Some(0),
        ..sound(State::Scanning)
    });
}

#[test]
fn counts_as_idle_with_retry_outside_one_way() {
    for state in State::ALL
        .into_iter()
        .filter(|&state| state != State::OneWay)
    {
        assert_comes_back(&Record {
            retry: Some(0),
            ..sound(state)
        });
    }
}

#[test]
fn counts_as_idle_with_retry_without_permission() {
    assert_comes_back(&without_permission(retrying(900)));
}

#[test]
fn counts_as_idle_with_a_ucid_outside_two_way() {
    for state in State::ALL
        .into_iter()
        .filter(|&state| state != State::TwoWay)
    {
        assert_comes_back(&Record {
            ucid: Some(0),
            ..sound(state)
        });
    }
}

#[test]
fn counts_as_idle_without_a_ucid_in_two_way() {
    assert_comes_back(&Record {
        ucid: None,
        ..sound(State::TwoWay)
    });
}

#[test]
fn counts_as_idle_transmitting_without_permission() {
    for state in TRANSMITTING {
        assert_comes_back(&without_permission(sound(state)));
    }
}

#[test]
fn counts_as_idle_with_tdsg1_or_tdsg2_of_0() {
    for state in State::ALL {
        for timers in [[0, 4, 5, 6], [3, 0, 5, 6]] {
            assert_comes_back(&Record {
                timers,
                ..sound(state)
            });
        }
    }
}

#[test]
fn counts_as_idle_with_a_timer_over_65535000() {
    assert_comes_back(&Record {
        receive: Some(65_535_001),
        ..sound(State::Ranging)
    });
    assert_comes_back(&retrying(65_535_001));
}

#[test]
fn takes_timers_of_65535000_and_tdsg3_and_tdsg4_of_0() {
    let record = Record {
        timers: [1, 1, 0, 0],
        receive: Some(65_535_000),
        ..retrying(65_535_000)
    };
    assert_eq!(after(&record, Event::Tick), moved(&record));
}

#[test]
fn transmits_and_forwards_by_state() {
    for state in State::ALL {
        let record = sound(state);
        assert_eq!(record.transmits(), TRANSMITTING.contains(&state));
        assert_eq!(record.forwards(), FORWARDING.contains(&state));
    }
}

#[test]
fn refuses_18_in_every_state_but_idle() {
    for state in State::ALL.into_iter().filter(|&state| state != State::Idle) {
        for event in EVENTS.into_iter().skip(1) {
            assert_eq!(step(&sound(state), 999, event), Err(Refusal::whole(18)));
        }
    }
}

#[test]
fn takes_timers_of_65535_seconds() {
    let next = after(&sound(State::OneWay), Event::TableAccepted([65_535; 4]));
    assert_eq!(next.receive, Some(65_535_000));
    assert!(next.forwards());
}
