//! Every field of a table record, by name: where its places are, which of them are used, and what is tried there.

use dsg::records::Table;

/// A number of a record, to look at or to change.
pub enum Number<'t> {
    Byte(&'t mut u8),
    Pair(&'t mut u16),
    Long(&'t mut u32),
    Word(&'t mut u64),
}
use Number::{Byte, Long, Pair, Word};

impl Number<'_> {
    pub fn value(&self) -> u64 {
        match self {
            Byte(n) => u64::from(**n),
            Pair(n) => u64::from(**n),
            Long(n) => u64::from(**n),
            Word(n) => **n,
        }
    }

    /// Stores the low bits of a value, as many as there are.
    pub fn store(self, value: u64) {
        match self {
            Byte(n) => *n = value as u8,
            Pair(n) => *n = value as u16,
            Long(n) => *n = value as u32,
            Word(n) => *n = value,
        }
    }

    pub fn bytes(&self) -> usize {
        match self {
            Byte(_) => 1,
            Pair(_) => 2,
            Long(_) => 4,
            Word(_) => 8,
        }
    }
}

/// What becomes of a table that reading gave when a used place of the field is changed. At an unused place it is always
/// refused.
#[derive(Clone, Copy, PartialEq)]
pub enum Changed {
    /// Reading gives every value.
    Taken,
    /// It gives some.
    Either,
    /// None, whatever is tried.
    Refused,
}
use Changed::{Either, Refused, Taken};

/// A field of the table or of the records in it: its name, how many places it has in all, the number at a place, whether
/// that place is used, what is tried there, and what becomes of it.
pub struct Field {
    pub name: &'static str,
    pub places: usize,
    pub number: fn(&mut Table, usize) -> Number,
    pub is_used: fn(&Table, usize) -> bool,
    pub values: &'static [u64],
    pub changed: Changed,
}

const COUNTS: &[u64] = &[0, 1, 2, 8, 9, 16, 17, 31, 32, 33, 128, 255];
const BYTES: &[u64] = &[0, 1, 9, 255];
const MARKS: &[u64] = &[0, 1, 2, 3, 128, 255];
const KINDS: &[u64] = &[0, 1, 2, 3, 4, 5, 6, 128, 255];
const PAIRS: &[u64] = &[0, 1, 256, 65_535];
const TIMERS: &[u64] = &[0, 1, 2, 600, 300, 1_800, 65_535];
const LONGS: &[u64] = &[0, 1, 0xFFFF_FFFF];
/// On both sides of test 11's limits, at the greatest multiple of 62,500 and at the ends.
const CHANNELS: &[u64] = &[
    0,
    1,
    62_499,
    62_500,
    62_501,
    125_000,
    999_937_500,
    999_999_999,
    1_000_000_000,
    1_000_000_001,
    1_000_062_500,
    4_294_937_500,
    0xFFFF_FFFF,
];
/// On both sides of the limits of two and of six bytes.
const VALUES: &[u64] = &[
    0,
    1,
    42,
    0xFFFF,
    0x1_0000,
    0x1_0001,
    0xFFFF_FFFF,
    0x1_0000_0000,
    0xFFFF_FFFF_FFFF,
    0x1_0000_0000_0000,
    0x1_0000_0000_0001,
    0x8000_0000_0000_0000,
    u64::MAX,
];

/// A field of the table itself.
macro_rules! of_table {
    ($($field:ident).+, $number:ident, $values:ident, $changed:ident) => {
        Field {
            name: stringify!($($field).+),
            places: 1,
            number: |table, _| $number(&mut table.$($field).+),
            is_used: |_, _| true,
            values: $values,
            changed: $changed,
        }
    };
}

/// A field of every classifier.
macro_rules! of_classifier {
    ($field:ident, $number:ident, $values:ident, $changed:ident) => {
        Field {
            name: concat!("classifiers.", stringify!($field)),
            places: 32,
            number: |table, at| $number(&mut table.classifiers[at].$field),
            is_used: |table, at| at < table.classifiercount.into(),
            values: $values,
            changed: $changed,
        }
    };
}

/// A field of every rule.
macro_rules! of_rule {
    ($field:ident, $number:ident, $values:ident, $changed:ident) => {
        Field {
            name: concat!("rules.", stringify!($field)),
            places: 32,
            number: |table, at| $number(&mut table.rules[at].$field),
            is_used: |table, at| at < table.rulecount.into(),
            values: $values,
            changed: $changed,
        }
    };
}

/// A list of every rule, or a field of what it lists.
macro_rules! of_rule_list {
    ($list:ident[$room:literal] $(. $field:ident)?, $count:ident, $number:ident, $values:ident, $changed:ident) => {
        Field {
            name: concat!("rules.", stringify!($list) $(, ".", stringify!($field))?),
            places: 32 * $room,
            number: |table, at| $number(&mut table.rules[at / $room].$list[at % $room]$(.$field)?),
            is_used: |table, at| {
                let rule = &table.rules[at / $room];
                at / $room < table.rulecount.into() && at % $room < rule.$count.into()
            },
            values: $values,
            changed: $changed,
        }
    };
}

/// Every field of every record of a table. A place of zeros is a rule, a UCID or a client, and no channel, classifier or
/// number of one: so three counts may grow.
pub const FIELDS: [Field; 29] = [
    of_table!(rulecount, Byte, COUNTS, Either),
    of_table!(classifiercount, Byte, COUNTS, Refused),
    of_table!(channelcount, Byte, COUNTS, Refused),
    of_table!(timers.tdsg1, Pair, TIMERS, Either),
    of_table!(timers.tdsg2, Pair, TIMERS, Either),
    of_table!(timers.tdsg3, Pair, TIMERS, Taken),
    of_table!(timers.tdsg4, Pair, TIMERS, Taken),
    Field {
        name: "channels",
        places: 32,
        number: |table, at| Long(&mut table.channels[at]),
        is_used: |table, at| at < table.channelcount.into(),
        values: CHANNELS,
        changed: Either,
    },
    of_classifier!(destination, Long, LONGS, Taken),
    of_classifier!(source, Long, LONGS, Either),
    of_classifier!(mask, Long, LONGS, Either),
    of_classifier!(number, Pair, PAIRS, Either),
    of_classifier!(start, Pair, PAIRS, Either),
    of_classifier!(end, Pair, PAIRS, Either),
    of_classifier!(priority, Byte, BYTES, Taken),
    of_classifier!(hassource, Byte, MARKS, Either),
    of_classifier!(hasmask, Byte, MARKS, Either),
    of_classifier!(hasstart, Byte, MARKS, Either),
    of_classifier!(hasend, Byte, MARKS, Either),
    of_rule!(number, Byte, BYTES, Either),
    of_rule!(priority, Byte, BYTES, Taken),
    of_rule!(ucidcount, Byte, COUNTS, Either),
    of_rule!(clientcount, Byte, COUNTS, Either),
    of_rule!(numbercount, Byte, COUNTS, Refused),
    of_rule_list!(ucids[16], ucidcount, Byte, BYTES, Taken),
    of_rule_list!(numbers[8], numbercount, Pair, PAIRS, Either),
    of_rule!(tunnel, Word, VALUES, Either),
    of_rule_list!(clients[8].kind, clientcount, Byte, KINDS, Either),
    of_rule_list!(clients[8].value, clientcount, Word, VALUES, Either),
];
