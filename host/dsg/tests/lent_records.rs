//! Records that no text of the bench protocol can give: counts above their limits, marks and states outside their values,
//! settings over 1.

use dsg::records::{state, Client, Rule};
use dsg::{lent, ClientId, Collection, Event, Modem, Part, Piece, Refusal, Refused, Table};
use dsg::{Tunnel, Verdict, BUFFER_BYTES};

const TUNNEL: u64 = 0x0100_5E05_0505;

/// A table whose 32 rules each list eight applications, with counts that say `count`.
fn crowded(count: u8) -> Table {
    let mut table = Table {
        rulecount: count,
        ..Table::default()
    };
    for (n, rule) in (0u8..).zip(&mut table.rules) {
        *rule = Rule {
            number: n,
            priority: n,
            clientcount: count,
            tunnel: TUNNEL,
            ..Rule::default()
        };
        for (k, client) in (0u64..).zip(&mut rule.clients) {
            *client = Client { kind: 4, value: k };
        }
    }
    table
}

#[test]
fn reads_a_count_above_its_limit_as_the_limit() {
    for count in [32, 33, 200, 255] {
        let table = crowded(count);
        assert_eq!(table.choose(ClientId::Application(7), None), Ok(31));
        let listing = dsg::list_table(0, &table);
        assert!(listing.starts_with("dcd 0 rules 32 classifiers 0 channels 0\n"));
        assert!(listing.contains(" clients 8 classifiers 0\n"));
    }
    assert!(crowded(8).choose(ClientId::Application(7), None).is_ok());
    assert!(crowded(7).choose(ClientId::Application(7), None).is_err());
}

#[test]
fn judges_with_a_full_count_both_ways_alike() {
    let frame = [&TUNNEL.to_be_bytes()[2..], &[0; 9]].concat();
    let table = crowded(255);
    let forward = Ok(Verdict::Forward {
        classifier: 0,
        payload: &[0][..],
    });
    assert_eq!(table.judge(ClientId::Application(7), None, &frame), forward);
    assert_eq!(
        Tunnel::prepare(&table, ClientId::Application(7), None).judge(&frame),
        forward
    );
}

#[test]
fn counts_a_flag_outside_its_values_as_nothing_collected() {
    let (mut slots, mut join) = (vec![0; BUFFER_BYTES], vec![0; BUFFER_BYTES]);
    let mut held = Collection {
        count: 7,
        number: 2,
        filled: [0; 16],
        lengths: [0; 16],
        strict: 0,
    };
    held.filled[0] = 1;
    held.filled[1] = 2;
    let mut sound = held;
    sound.filled[1] = 0;
    let body = [7, 2, 2, 9];
    let answer = lent::collect(&mut held, &mut slots, &mut join, &body);
    assert_eq!(answer, Ok(Piece::Waiting(1)));
    assert!(matches!(
        lent::collect(&mut sound, &mut slots, &mut join, &body),
        Ok(Piece::Complete(_))
    ));
}

/// Two bodies that carry the message 99 01 00 99 00, cut at a byte of it.
fn cut_at(cut: usize) -> [Vec<u8>; 2] {
    let (first, second) = [99, 1, 0, 99, 0].split_at(cut);
    [[&[7, 2, 1], first].concat(), [&[7, 2, 2], second].concat()]
}

#[test]
fn drops_under_any_setting_but_0_and_leaves_it_as_lent() {
    for strict in [0, 1, 2, 255, 256, 0x8000, 65_535] {
        let nothing = Collection {
            strict,
            ..Collection::default()
        };
        for cut in 0..=5 {
            let (mut slots, mut join) = (vec![0; BUFFER_BYTES], vec![0; BUFFER_BYTES]);
            let (mut held, [first, second]) = (nothing, cut_at(cut));
            let mut collect = |body: &[u8]| lent::collect(&mut held, &mut slots, &mut join, body);
            assert_eq!(collect(&second), Ok(Piece::Waiting(1)));
            let answer = collect(&first);
            // Elements start at 0 and 3, and the message ends at 5.
            if strict == 0 || [0, 3, 5].contains(&cut) {
                assert_eq!(answer, Ok(Piece::Complete(Part::Join(0..5))));
                assert_eq!((held.number, held.strict), (2, strict));
            } else {
                let refusal = Refusal {
                    number: 21,
                    offset: cut,
                };
                assert_eq!(answer, Err(Refused::Dropped(refusal)));
                assert_eq!(held, nothing);
            }
        }
    }
}

#[test]
fn keeps_the_setting_where_a_record_counts_as_nothing_collected() {
    let (mut slots, mut join) = (vec![0; BUFFER_BYTES], vec![0; BUFFER_BYTES]);
    for strict in [0, 1, 256, 65_535] {
        let spoilt = Collection {
            count: 7,
            number: 2,
            filled: [2; 16],
            lengths: [3; 16],
            strict,
        };
        let mut held = spoilt;
        let refused = lent::collect(&mut held, &mut slots, &mut join, &[7, 2, 3]);
        let refusal = Refusal {
            number: 5,
            offset: 0,
        };
        assert_eq!(refused, Err(Refused::Body(refusal)));
        assert_eq!(held, spoilt);
        let begun = lent::collect(&mut held, &mut slots, &mut join, &[9, 3, 1]);
        assert_eq!(begun, Ok(Piece::Waiting(2)));
        assert_eq!((held.count, held.number, held.strict), (9, 3, strict));
    }
}

#[test]
fn judges_by_the_setting_that_is_lent_with_the_last_piece() {
    for (first, last) in [(0, 1), (1, 0), (2, 65_535)] {
        let (mut slots, mut join) = (vec![0; BUFFER_BYTES], vec![0; BUFFER_BYTES]);
        let bodies = cut_at(1);
        let mut held = Collection {
            strict: first,
            ..Collection::default()
        };
        let waits = lent::collect(&mut held, &mut slots, &mut join, &bodies[0]);
        assert_eq!(waits, Ok(Piece::Waiting(1)));
        held.strict = last;
        let answer = lent::collect(&mut held, &mut slots, &mut join, &bodies[1]);
        assert_eq!(answer.is_err(), last != 0);
        assert_eq!(held.strict, last);
        assert_eq!(held.number, if last == 0 { 2 } else { 0 });
    }
}

#[test]
fn counts_a_broken_modem_record_as_idle() {
    let mut started = Modem::idle();
    started
        .on_event(5, Event::Start { permitted: true })
        .expect("Start is never refused");
    let broken = [
        Modem {
            state: 7,
            ..started
        },
        Modem {
            state: 255,
            ..started
        },
        Modem {
            permission: 2,
            ..started
        },
        Modem {
            hasucid: 2,
            ..started
        },
        Modem {
            receiveon: 2,
            ..started
        },
        Modem {
            retryon: 256,
            ..started
        },
        Modem {
            state: state::RANGING,
            permission: 0,
            receiveon: 1,
            ..started
        },
    ];
    for record in broken {
        let mut modem = record;
        assert!(!modem.transmits() && !modem.forwards());
        assert_eq!(modem.on_event(0, Event::Locked), Ok(()));
        assert_eq!(modem, record);
        assert_eq!(modem.on_event(9, Event::Start { permitted: false }), Ok(()));
        assert_eq!(modem.state, state::SCANNING);
    }
}
