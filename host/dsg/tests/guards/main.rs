//! What is lent is written, and nothing beside it: every lent thing stands between guards.

mod writing;

use dsg::lent::{self, LISTING_BYTES};
use dsg::{Collection, Event, Modem, Refusal, Refused, Table, BUFFER_BYTES};

const GUARD: usize = 64;
const MARK: u8 = 0xA5;

/// A buffer between two guards.
struct Guarded(Vec<u8>);

impl Guarded {
    fn new(bytes: usize) -> Self {
        Guarded(vec![MARK; GUARD + bytes + GUARD])
    }

    fn lent(&mut self) -> &mut [u8] {
        let end = self.0.len() - GUARD;
        &mut self.0[GUARD..end]
    }

    fn is_whole(&self) -> bool {
        let end = self.0.len() - GUARD;
        self.0[..GUARD]
            .iter()
            .chain(&self.0[end..])
            .all(|&b| b == MARK)
    }
}

/// Numbers from a seed, the same on every run.
struct Numbers(u64);

impl Numbers {
    fn below(&mut self, n: usize) -> usize {
        self.0 = self
            .0
            .wrapping_mul(6_364_136_223_846_793_005)
            .wrapping_add(1);
        (self.0 >> 33) as usize % n
    }

    /// A number from `low` to `high`, both included.
    fn between(&mut self, low: usize, high: usize) -> usize {
        low + self.below(high + 1 - low)
    }

    fn byte(&mut self) -> u8 {
        self.below(256) as u8
    }

    /// A body that is mostly one of a few collections, of any length up to two over the longest.
    fn body(&mut self) -> Vec<u8> {
        let length = [0, 1, 2, 3, 20, 1499, 1500, 1501, 1502][self.below(9)];
        let mut body: Vec<u8> = (0..length).map(|_| self.byte()).collect();
        for (byte, most) in body.iter_mut().zip([2, 18, 18]) {
            *byte = self.below(most) as u8;
        }
        body
    }
}

#[test]
fn collecting_writes_only_what_is_lent() {
    let mut numbers = Numbers(1);
    for bytes in [BUFFER_BYTES, BUFFER_BYTES - 1, BUFFER_BYTES + 1, 0] {
        let (mut slots, mut join) = (Guarded::new(bytes), Guarded::new(bytes));
        let aside = Collection {
            count: 1,
            number: 2,
            filled: [3; 16],
            lengths: [4; 16],
            strict: 5,
        };
        let mut held = [aside, Collection::default(), aside];
        for _ in 0..3_000 {
            let body = numbers.body();
            let _ = lent::collect(&mut held[1], slots.lent(), join.lent(), &body);
            assert!(slots.is_whole() && join.is_whole());
            assert_eq!((held[0], held[2]), (aside, aside));
        }
    }
}

#[test]
fn dropping_writes_only_what_is_lent() {
    let mut numbers = Numbers(5);
    let (mut slots, mut join) = (Guarded::new(BUFFER_BYTES), Guarded::new(BUFFER_BYTES));
    let mut held = [Collection::empty(true); 3];
    for number in (2..=16).cycle().take(300) {
        // The first element has 256 bytes, and the first piece ends in it.
        let cut = numbers.between(1, 255);
        for sequence in 1..=number {
            let length = if sequence == 1 { cut } else { 1_497 };
            let mut body: Vec<u8> = (0..3 + length).map(|_| numbers.byte()).collect();
            body[..3].copy_from_slice(&[7, number, sequence]);
            match sequence {
                1 if cut > 1 => body[4] = 254,
                2 if cut == 1 => body[3] = 254,
                _ => {}
            }
            let answer = lent::collect(&mut held[1], slots.lent(), join.lent(), &body);
            if sequence == number {
                let refusal = Refusal {
                    number: 21,
                    offset: cut,
                };
                assert_eq!(answer, Err(Refused::Dropped(refusal)));
            }
            assert!(slots.is_whole() && join.is_whole());
            assert_eq!(
                (held[0], held[2]),
                (Collection::empty(true), Collection::empty(true))
            );
        }
    }
}

#[test]
fn receiving_writes_only_what_is_lent() {
    let mut numbers = Numbers(2);
    let (mut slots, mut join) = (Guarded::new(BUFFER_BYTES), Guarded::new(BUFFER_BYTES));
    let mut held = [Collection::default(); 3];
    let mut tables = [Table::default(); 3];
    for _ in 0..3_000 {
        let mut body = numbers.body();
        if numbers.below(2) == 0 {
            body = [&[7, 1, 1, 50][..], &[(body.len() % 255) as u8], &body].concat();
        }
        let _ = lent::receive(
            &mut held[1],
            &mut tables[1],
            slots.lent(),
            join.lent(),
            &body,
        );
        assert!(slots.is_whole() && join.is_whole());
        assert_eq!(
            (held[0], held[2]),
            (Collection::default(), Collection::default())
        );
        assert_eq!((tables[0], tables[2]), (Table::default(), Table::default()));
    }
}

#[test]
fn listing_writes_only_what_is_lent() {
    let mut numbers = Numbers(3);
    for bytes in [LISTING_BYTES, LISTING_BYTES - 1, LISTING_BYTES + 7, 0] {
        let mut out = Guarded::new(bytes);
        for _ in 0..500 {
            let body = numbers.body();
            let listed = lent::list_body(&body, out.lent());
            assert_eq!(listed.is_ok(), bytes >= LISTING_BYTES);
            assert!(out.is_whole());
        }
    }
}

#[test]
fn events_write_only_the_record() {
    let mut numbers = Numbers(4);
    let mut records = [Modem::idle(); 3];
    let _ = records[1].on_event(0, Event::Start { permitted: true });
    for clock in 0..5_000 {
        let events = [
            Event::Locked,
            Event::TableAccepted([1; 4]),
            Event::Tick,
            Event::UpstreamLost,
        ];
        let _ = records[1].on_event(clock * 100, events[numbers.below(4)]);
        assert_eq!((records[0], records[2]), (Modem::idle(), Modem::idle()));
    }
}
