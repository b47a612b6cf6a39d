//! Tables that reading gave, with one field changed, or a few: 19 exactly where the plain encoding does not read back.

use crate::encoding::{bodies, reads_back, refused, written};
use crate::fields::{Changed, Field, FIELDS};
use crate::{accepted, any_record};
use dsg::ffi;
use dsg::records::Table;
use requests::random::Random;
use std::collections::BTreeSet;
use std::thread;

const TABLES: u64 = 100;
const ROOM: usize = 12_000;

/// Writes a record into room enough, and compares with its plain encoding. Gives whether it was taken.
fn compare(random: &mut Random, record: &Table, other: &Table, case: impl Fn() -> String) -> bool {
    let (count, given) = (random.byte(), vec![random.byte(); ROOM]);
    let taken = reads_back(record, other);
    let expected = if taken {
        written(&bodies(record, count), &given)
    } else {
        (refused(19), given.clone())
    };
    let mut out = given;
    let answer = ffi::write(record, count, &mut out);
    assert_eq!(answer, expected.0, "{}", case());
    assert!(out == expected.1, "the buffer, {}", case());
    taken
}

/// What is tried at a place: the values of the field, those beside the one that stands there, another place's, and any; where
/// the field has many places, one of them.
fn tried(random: &mut Random, field: &Field, table: &Table, at: usize) -> Vec<u64> {
    let mut table = *table;
    let mut value = |at| (field.number)(&mut table, at).value();
    let (held, another) = (value(at), value(random.below(field.places)));
    let beside = [held.wrapping_add(1), held.wrapping_sub(1)];
    let all = [field.values, &beside, &[another, random.word()]].concat();
    match field.places {
        1 => all,
        _ => vec![random.pick(&all)],
    }
}

/// Whether a change was made at a used place, and whether the table was taken then.
type Seen = BTreeSet<(&'static str, bool, bool)>;

/// Changes every field of a table at every place.
fn change_all(seed: u64, seen: &mut Seen) {
    let random = &mut Random::new(seed);
    let (table, other) = (accepted(random), any_record(random));
    assert!(compare(random, &table, &other, || format!("seed {seed}")));
    for field in &FIELDS {
        for at in 0..field.places {
            let is_used = (field.is_used)(&table, at);
            for value in tried(random, field, &table, at) {
                let mut changed = table;
                (field.number)(&mut changed, at).store(value);
                if changed == table {
                    continue;
                }
                let case = || format!("seed {seed}: {} {at} is {value}, {changed:?}", field.name);
                let taken = compare(random, &changed, &other, case);
                seen.insert((field.name, is_used, taken));
            }
        }
    }
}

#[test]
fn refuses_19_exactly_where_a_changed_table_does_not_read_back() {
    let workers = thread::available_parallelism().map_or(1, |n| n.get() as u64);
    let seen: Seen = thread::scope(|scope| {
        let part = |first| {
            scope.spawn(move || {
                let mut seen = Seen::new();
                for seed in (first..TABLES).step_by(workers as usize) {
                    change_all(seed, &mut seen);
                }
                seen
            })
        };
        let parts: Vec<_> = (0..workers).map(part).collect();
        let join = |part: thread::ScopedJoinHandle<'_, Seen>| part.join().expect("no difference");
        parts.into_iter().flat_map(join).collect()
    });
    let mut expected = Seen::new();
    for field in &FIELDS {
        // What is no list has no unused place.
        expected.extend((field.places > 1).then_some((field.name, false, false)));
        if field.changed != Changed::Refused {
            expected.insert((field.name, true, true));
        }
        if field.changed != Changed::Taken {
            expected.insert((field.name, true, false));
        }
    }
    assert_eq!(seen, expected);
}

#[test]
fn refuses_19_exactly_where_a_table_with_a_few_changes_does_not_read_back() {
    let (mut taken, mut refused) = (0, 0);
    for seed in 0..4_000 {
        let random = &mut Random::new(seed);
        let (mut table, other) = (accepted(random), any_record(random));
        for _ in 0..random.between(2, 4) {
            let field = &FIELDS[random.below(FIELDS.len())];
            let used: Vec<usize> = (0..field.places)
                .filter(|&at| (field.is_used)(&table, at))
                .collect();
            if !used.is_empty() {
                let at = random.pick(&used);
                let values = tried(random, field, &table, at);
                (field.number)(&mut table, at).store(random.pick(&values));
            }
        }
        let case = || format!("seed {seed}: {table:?}");
        match compare(random, &table, &other, case) {
            true => taken += 1,
            false => refused += 1,
        }
    }
    assert!(
        taken > 500 && refused > 500,
        "{taken} taken, {refused} refused"
    );
}

#[test]
fn fields_are_all_fields() {
    let table = &mut ffi::empty_table();
    let bytes = FIELDS.map(|field| field.places * (field.number)(table, 0).bytes());
    // A table less the bytes between its fields: of the table 5, of a classifier 1, of a rule 3 and 7 of each client.
    let between = 5 + 32 + 32 * (3 + 8 * 7);
    assert_eq!(bytes.iter().sum::<usize>(), size_of::<Table>() - between);
}
