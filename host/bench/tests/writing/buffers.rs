//! Any record into a buffer of any length: 19 before 20, and no byte changed by either; else the bodies, and every other byte
//! as it was.

use crate::encoding::{bodies, need, reads_back, refused, written};
use crate::{accepted, any_record};
use dsg::ffi;
use dsg::records::Table;
use requests::random::Random;
use std::collections::BTreeSet;

const MOST: usize = 13_000;

/// Lengths about the need and the places of pieces, at the ends, and any.
fn lengths(random: &mut Random, need: usize) -> Vec<usize> {
    let any = random.below(MOST + 1);
    let near = random.between(need.saturating_sub(20), need + 20);
    vec![
        need,
        need - 1,
        need + 1,
        need + 1_500,
        0,
        2,
        3,
        1_500,
        7_500,
        12_000,
        near,
        any,
    ]
}

/// Writes a record into buffers of these lengths, and compares. Gives the answers' numbers.
fn compare(seed: u64, random: &mut Random, record: &Table, lengths: &[usize]) -> BTreeSet<u32> {
    let (count, taken) = (random.byte(), reads_back(record, &any_record(random)));
    let bodies = bodies(record, count);
    let mut seen = BTreeSet::new();
    for &length in lengths {
        let given = random.bytes(length);
        let (answer, left) = match taken {
            false => (refused(19), given.clone()),
            true if length < need(&bodies) => (refused(20), given.clone()),
            true => written(&bodies, &given),
        };
        let mut out = given;
        let case = || format!("seed {seed}: {length} bytes for {record:?}");
        assert_eq!(ffi::write(record, count, &mut out), answer, "{}", case());
        assert!(out == left, "the buffer, {}", case());
        seen.insert(answer.number);
    }
    seen
}

#[test]
fn writes_a_table_or_refuses_20_at_every_length() {
    let mut numbers = BTreeSet::new();
    for seed in 0..1_000 {
        let random = &mut Random::new(seed);
        let table = accepted(random);
        let bodies = bodies(&table, 0);
        let lengths = lengths(random, need(&bodies));
        let seen = compare(seed, random, &table, &lengths);
        assert_eq!(seen, BTreeSet::from([0, 20]));
        numbers.insert(bodies.len());
    }
    assert_eq!(numbers, BTreeSet::from([1, 2, 3, 4]));
}

#[test]
fn refuses_19_any_bytes_at_every_length() {
    for seed in 0..1_000 {
        let random = &mut Random::new(seed);
        let (record, need) = (any_record(random), random.between(3, 7_500));
        let lengths = lengths(random, need);
        assert_eq!(
            compare(seed, random, &record, &lengths),
            BTreeSet::from([19])
        );
    }
}

#[test]
fn refuses_19_before_20_where_one_value_is_wrong() {
    for seed in 0..1_000 {
        let random = &mut Random::new(seed);
        let mut record = accepted(random);
        let need = need(&bodies(&record, 0));
        match random.below(4) {
            0 => record.timers.tdsg1 = 0,
            1 => record.rules[31].tunnel |= 1 << 48,
            2 => record.channelcount = 33,
            _ => record.classifiers[31].hasend = 2,
        }
        let lengths = lengths(random, need);
        assert_eq!(
            compare(seed, random, &record, &lengths),
            BTreeSet::from([19])
        );
    }
}

#[test]
fn writes_one_head_for_the_table_of_the_empty_message() {
    for count in 0..=255 {
        let mut out = [9; 5];
        let answer = ffi::write(&ffi::empty_table(), count, &mut out);
        let body = vec![vec![count, 1, 1]];
        assert_eq!((answer, out.to_vec()), written(&body, &[9; 5]));
        assert_eq!(
            ffi::write(&ffi::empty_table(), count, &mut out[..2]),
            refused(20)
        );
    }
}
