//! Every field of every record and answer, by name, and every place of an array.

use dsg::ffi::{Choice, Collected, Judged, Listed, ReadAnswer, Received, Written};
use dsg::records::{Classifier, Client, Collection, Modem, Rule, Table, TimerValues, Tunnel};
use std::collections::BTreeMap;

/// What holds numbers, each in a place with a name.
pub trait Places {
    fn places(&self, name: &str) -> Vec<(String, u64)>;
}

macro_rules! number {
    ($($type:ty)*) => {$(
        impl Places for $type {
            fn places(&self, name: &str) -> Vec<(String, u64)> {
                vec![(name.to_string(), *self as u64)]
            }
        }
    )*};
}

/// A struct by its fields; one left out does not compile.
macro_rules! record {
    ($type:ident: $($field:ident)*) => {
        impl Places for $type {
            fn places(&self, name: &str) -> Vec<(String, u64)> {
                let $type { $($field),* } = self;
                [$($field.places(&format!("{name}.{}", stringify!($field)))),*].concat()
            }
        }
    };
}

impl<T: Places, const N: usize> Places for [T; N] {
    fn places(&self, name: &str) -> Vec<(String, u64)> {
        let places = self.iter().enumerate();
        places
            .flat_map(|(at, place)| place.places(&format!("{name}[{at}]")))
            .collect()
    }
}

number!(u8 u16 u32 u64 usize);

record!(Client: kind value);
record!(Rule: number priority ucidcount clientcount numbercount ucids numbers tunnel clients);
record!(Classifier: destination source mask number start end priority hassource hasmask hasstart hasend);
record!(TimerValues: tdsg1 tdsg2 tdsg3 tdsg4);
record!(Table: rulecount classifiercount channelcount timers channels classifiers rules);
record!(Collection: count number filled lengths strict);
record!(Tunnel: address mode count destinations sources masks starts ends numbers ports);
record!(Modem: last receive retry tdsg1 tdsg2 tdsg3 tdsg4 receiveon retryon state permission hasucid ucid);

record!(Collected: kind number empty start length offset);
record!(ReadAnswer: number offset);
record!(Received: kind number empty offset);
record!(Choice: number place);
record!(Judged: kind number start length);
record!(Listed: number length);
record!(Written: number pieces lengths);

/// Fails where two places hold the same numbers throughout, or one holds 0 throughout: a number that
/// stood in the one instead of the other would not have been noticed.
pub fn tell_apart<T: Places>(records: &[T]) {
    tell_first_apart(records, usize::MAX);
}

/// The same of the first so many places.
pub fn tell_first_apart<T: Places>(records: &[T], first: usize) {
    let rows: Vec<Vec<(String, u64)>> = records.iter().map(|record| record.places("")).collect();
    let mut known = BTreeMap::from([(vec![0; rows.len()], "a place that holds 0")]);
    for (at, (name, _)) in rows[0].iter().enumerate().take(first) {
        let column = rows.iter().map(|row| row[at].1).collect();
        if let Some(other) = known.insert(column, name) {
            panic!("{name} is not told from {other}");
        }
    }
}
