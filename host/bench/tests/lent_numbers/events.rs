//! Modem records and events by number: events that no number names, arguments that an event does not
//! carry, marks and states outside their values, values beside marks that are off.

use crate::from_seeds;
use dsg::ffi;
use dsg::records::Modem;
use reference::modem::{row_taken, step, Event, Record, Row, State};
use reference::protocol::request::Request;
use reference::Refusal;
use requests::events;
use requests::random::Random;
use std::array::from_fn;
use std::collections::BTreeSet;

/// The number of an event and its arguments.
type Numbers = (u8, [u16; 4]);

/// The numbers of an event in dsg.h's order, with anything for an argument that it does not carry.
fn named(random: &mut Random, event: Event) -> Numbers {
    let (number, carried) = match event {
        Event::Start(permitted) => (1, vec![u16::from(permitted)]),
        Event::Locked => (2, vec![]),
        Event::ScanEmpty => (3, vec![]),
        Event::TableAccepted(timers) => (4, timers.to_vec()),
        Event::Packet => (5, vec![]),
        Event::Tick => (6, vec![]),
        Event::Enable => (7, vec![]),
        Event::UpstreamUp(ucid) => (8, vec![u16::from(ucid)]),
        Event::UpstreamLost => (9, vec![]),
        Event::Disable => (10, vec![]),
        Event::Hunt => (11, vec![]),
        Event::DownstreamLost => (12, vec![]),
    };
    let argument = |at| carried.get(at).copied();
    (
        number,
        from_fn(|at| argument(at).unwrap_or_else(|| random.pair())),
    )
}

/// Numbers that name no event.
fn nameless(random: &mut Random) -> Numbers {
    let (beyond, far) = (random.between(13, 255), random.between(256, 65_535) as u16);
    let any = from_fn(|_| random.pair());
    let [_, b, c, d] = any;
    match random.below(5) {
        0 => (0, any),
        1 => (13, any),
        2 => (beyond as u8, any),
        3 => (1, [random.pick(&[2, 3, 255, 256, 257, far]), b, c, d]),
        _ => (8, [random.pick(&[256, 257, 65_535, far]), b, c, d]),
    }
}

/// The numbers of a record, with anything beside a mark that is off.
fn lent(random: &mut Random, record: &Record) -> Modem {
    let any = random.word() as u32;
    let mut beside = || random.pick(&[0, 1, 1_000, 65_535_000, 65_535_001, u32::MAX, any]);
    let [tdsg1, tdsg2, tdsg3, tdsg4] = record.timers;
    Modem {
        last: record.last,
        receive: record.receive.unwrap_or_else(&mut beside),
        retry: record.retry.unwrap_or_else(&mut beside),
        tdsg1,
        tdsg2,
        tdsg3,
        tdsg4,
        receiveon: record.receive.is_some().into(),
        retryon: record.retry.is_some().into(),
        state: record.state as u8,
        permission: record.permitted.into(),
        hasucid: record.ucid.is_some().into(),
        ucid: record.ucid.unwrap_or_else(|| beside() as u8),
    }
}

/// The record that numbers mean; none where one is outside its values, which counts as Idle.
fn meant(modem: &Modem) -> Option<Record> {
    let on = |mark: u16| (mark < 2).then_some(mark == 1);
    Some(Record {
        state: *State::ALL.get(usize::from(modem.state))?,
        last: modem.last,
        permitted: on(modem.permission.into())?,
        ucid: on(modem.hasucid.into())?.then_some(modem.ucid),
        timers: [modem.tdsg1, modem.tdsg2, modem.tdsg3, modem.tdsg4],
        receive: on(modem.receiveon)?.then_some(modem.receive),
        retry: on(modem.retryon)?.then_some(modem.retry),
    })
}

/// Puts one number outside its values.
fn spoil(random: &mut Random, modem: &mut Modem) {
    let over = random.between(2, 255) as u8;
    let far = random.pick(&[2, 255, 256, 257, 65_535]);
    match random.below(5) {
        0 => modem.state = random.between(7, 255) as u8,
        1 => modem.permission = over,
        2 => modem.hasucid = over,
        3 => modem.receiveon = far,
        _ => modem.retryon = far,
    }
}

/// An event of a row that the state has not: it moves the clock and the running timers.
fn not_named(record: &Record, clock: u32) -> Event {
    let event = match record.state {
        State::Scanning => Event::Packet,
        _ => Event::Locked,
    };
    let row = row_taken(record, clock, event);
    assert!(matches!(row, Ok(Row::NotNamed | Row::Ignored) | Err(_)));
    event
}

/// The record after an event, none standing for numbers that name none; or no record where the given
/// one comes back as it is.
fn after(given: &Modem, clock: u32, event: Option<Event>) -> Result<Option<Record>, Refusal> {
    if let Some(start @ Event::Start(_)) = event {
        return step(&Record::default(), clock, start).map(Some);
    }
    match meant(given).filter(|record| !record.counts_as_idle()) {
        None => Ok(None),
        Some(record) => {
            let event = event.unwrap_or_else(|| not_named(&record, clock));
            step(&record, clock, event).map(Some)
        }
    }
}

/// The numbers of a record whose clock and running timers move, and nothing else.
fn moved(given: &Modem, clock: u32) -> Modem {
    let step = clock.wrapping_sub(given.last);
    let fallen = |on, left: u32| {
        if on == 1 {
            left.saturating_sub(step)
        } else {
            left
        }
    };
    Modem {
        last: clock,
        receive: fallen(given.receiveon, given.receive),
        retry: fallen(given.retryon, given.retry),
        ..*given
    }
}

/// Gives the record an event, and compares the answer and the record after it.
fn compare(seed: u64, given: Modem, clock: u32, numbers: Numbers, event: Option<Event>) {
    let case = || format!("seed {seed}: {numbers:?} at {clock} to {given:?}");
    let mut modem = given;
    let answer = ffi::event(&mut modem, clock, numbers.0, numbers.1);
    match after(&given, clock, event) {
        Err(refusal) => assert_eq!(
            (answer, modem),
            (refusal.number.into(), given),
            "{}",
            case()
        ),
        Ok(None) => assert_eq!((answer, modem), (0, given), "{}", case()),
        Ok(Some(record)) => {
            assert_eq!((answer, meant(&modem)), (0, Some(record)), "{}", case());
            if event.is_none() {
                assert_eq!(modem, moved(&given, clock), "{}", case());
            }
        }
    }
    for modem in [given, modem] {
        let on = meant(&modem).map_or([false; 2], |record| [record.transmits(), record.forwards()]);
        assert_eq!(
            [ffi::transmits(&modem), ffi::forwards(&modem)],
            on,
            "{}",
            case()
        );
    }
}

/// Records, each with an event at a clock, as the other program would go through them.
fn scenario(random: &mut Random) -> Vec<(Record, u32, Event)> {
    let mut record = Record::default();
    let mut steps = Vec::new();
    for request in events::scenario(random) {
        match request {
            Request::MRec(given) => record = given,
            Request::MEv(clock, event) => {
                steps.push((record.clone(), clock, event));
                record = step(&record, clock, event).unwrap_or(record);
            }
            other => unreachable!("{other}"),
        }
    }
    steps
}

#[test]
fn same_as_other_program_whatever_stands_where_nothing_is_looked_at() {
    let mut seen = BTreeSet::new();
    from_seeds(|seed, random| {
        let steps = scenario(random);
        for (record, clock, event) in &steps {
            let (given, numbers) = (lent(random, record), named(random, *event));
            compare(seed, given, *clock, numbers, Some(*event));
            seen.insert(row_taken(record, *clock, *event).ok());
        }
        steps.len()
    });
    // The rows of document 01's table, pairs that it leaves out, Idle, and refusal 18.
    assert_eq!(seen.len(), 13 + 1 + 1 + 1);
}

#[test]
fn numbers_that_name_no_event_move_the_clock_and_the_timers_alone() {
    from_seeds(|seed, random| {
        let steps = scenario(random);
        for (record, clock, _) in &steps {
            let (given, numbers) = (lent(random, record), nameless(random));
            compare(seed, given, *clock, numbers, None);
        }
        steps.len()
    });
}

#[test]
fn counts_a_record_with_numbers_outside_their_values_as_idle() {
    from_seeds(|seed, random| {
        let steps = scenario(random);
        for (record, clock, event) in &steps {
            let mut given = lent(random, record);
            spoil(random, &mut given);
            let numbers = named(random, *event);
            compare(seed, given, *clock, numbers, Some(*event));
            let numbers = nameless(random);
            compare(seed, given, *clock, numbers, None);
        }
        steps.len()
    });
}
