//! The plain writer does the library's work: the same bodies, the same refusals, and every other byte of the buffer left as it
//! was, on every table that is measured and on tables that differ from one of them in a single field.

use dsg::records::{Classifier, Client, Rule};
use dsg::{ffi, Table};
use measure::inputs::{longest_message, table_message};
use measure::plain::write::write_table;

const ROOM: usize = 12_000;

fn table_of(message: &[u8]) -> Table {
    let mut table = Table::default();
    table.read(message).expect("the message is accepted");
    table
}

/// What both give for a buffer of so many bytes, and leave alike: the lengths of the bodies or the refusal, and the buffer.
fn write(table: &Table, count: u8, room: usize) -> (Result<Vec<u16>, u8>, Vec<u8>) {
    let (mut ours, mut theirs) = (vec![0xA5; room], vec![0xA5; room]);
    let answer = ffi::write(table, count, &mut ours);
    let ours_said = match answer.number {
        0 => Ok((answer.pieces as u8, answer.lengths)),
        number => Err(number as u8),
    };
    let plain = write_table(table, count, &mut theirs);
    assert_eq!(ours_said, plain.map(|w| (w.number, w.lengths)));
    assert!(ours == theirs, "what {ours_said:?} leaves");
    let lengths = plain.map(|w| w.lengths[..w.number.into()].to_vec());
    (lengths, ours)
}

/// The message that written bodies carry.
fn joined(lengths: &[u16], out: &[u8]) -> Vec<u8> {
    let bodies = out.chunks(1_500).zip(lengths);
    bodies
        .flat_map(|(body, &length)| &body[3..length.into()])
        .copied()
        .collect()
}

#[test]
fn writes_the_measured_messages_back() {
    let lengths: [(Vec<u8>, &[u16]); 5] = [
        (Vec::new(), &[3]),
        // 1,394 bytes of configuration and classifiers; rules of 100 bytes
        (table_message(1), &[1_497]),
        (table_message(8), &[1_497, 703]),
        (table_message(32), &[1_497, 1_403, 1_403, 303]),
        // rules of 132 bytes
        (longest_message(), &[1_397, 1_455, 1_455, 1_323]),
    ];
    assert_eq!(longest_message().len(), 5_618);
    for (message, lengths) in lengths {
        let table = table_of(&message);
        let need = 1_500 * (lengths.len() - 1) + usize::from(lengths[lengths.len() - 1]);
        for room in [need, need + 1, ROOM] {
            let (given, out) = write(&table, 7, room);
            assert_eq!(given, Ok(lengths.to_vec()));
            assert_eq!(joined(lengths, &out), message);
        }
        for room in [0, 1, need - 1] {
            let (given, out) = write(&table, 7, room);
            assert_eq!(given, Err(20));
            assert_eq!(out, vec![0xA5; room]);
        }
    }
}

/// A table with little in its lists: two rules, one of which names one of two classifiers.
fn small_table() -> Table {
    let mut table = Table::default();
    table.timers.tdsg2 = 5;
    table.channels[0] = 603_000_000;
    table.channelcount = 1;
    let part = Classifier {
        number: 10,
        destination: 0xEF01_0203,
        mask: 0xFF00_0000,
        hasmask: 1,
        ..Classifier::default()
    };
    table.classifiers[0] = part;
    table.classifiers[1] = Classifier { number: 20, ..part };
    table.classifiercount = 2;
    let clients = [(0, 0), (1, 3), (2, 0x0123_4567_89AB), (3, 7), (4, 42)];
    let rule = &mut table.rules[0];
    for (place, (kind, value)) in rule.clients.iter_mut().zip(clients) {
        *place = Client { kind, value };
    }
    rule.clientcount = 5;
    rule.tunnel = 0x0100_5E05_0505;
    rule.numbers[0] = 20;
    rule.numbercount = 1;
    table.rules[1] = Rule {
        number: 1,
        ..Rule::default()
    };
    table.rulecount = 2;
    table
}

/// A field of a table.
enum Field<'t> {
    Byte(&'t mut u8),
    Pair(&'t mut u16),
    Word(&'t mut u32),
    Long(&'t mut u64),
}

use Field::{Byte, Long, Pair, Word};

fn fields(table: &mut Table) -> Vec<Field<'_>> {
    let timers = &mut table.timers;
    let mut all = vec![
        Byte(&mut table.rulecount),
        Byte(&mut table.classifiercount),
        Byte(&mut table.channelcount),
        Pair(&mut timers.tdsg1),
        Pair(&mut timers.tdsg2),
        Pair(&mut timers.tdsg3),
        Pair(&mut timers.tdsg4),
    ];
    all.extend(table.channels.iter_mut().map(Word));
    all.extend(table.classifiers.iter_mut().flat_map(classifier_fields));
    all.extend(table.rules.iter_mut().flat_map(rule_fields));
    all
}

fn classifier_fields(c: &mut Classifier) -> [Field<'_>; 11] {
    [
        Word(&mut c.destination),
        Word(&mut c.source),
        Word(&mut c.mask),
        Pair(&mut c.number),
        Pair(&mut c.start),
        Pair(&mut c.end),
        Byte(&mut c.priority),
        Byte(&mut c.hassource),
        Byte(&mut c.hasmask),
        Byte(&mut c.hasstart),
        Byte(&mut c.hasend),
    ]
}

fn rule_fields(rule: &mut Rule) -> Vec<Field<'_>> {
    let mut all = vec![
        Byte(&mut rule.number),
        Byte(&mut rule.priority),
        Byte(&mut rule.ucidcount),
        Byte(&mut rule.clientcount),
        Byte(&mut rule.numbercount),
        Long(&mut rule.tunnel),
    ];
    all.extend(rule.ucids.iter_mut().map(Byte));
    all.extend(rule.numbers.iter_mut().map(Pair));
    let clients = rule.clients.iter_mut();
    all.extend(clients.flat_map(|client| [Byte(&mut client.kind), Long(&mut client.value)]));
    all
}

/// About the limits of counts, marks, kinds, numbers, addresses and channels.
const VALUES: [u64; 15] = [
    0,
    1,
    2,
    5,
    8,
    9,
    16,
    17,
    33,
    255,
    62_500,
    65_535,
    1_000_062_500,
    1 << 48,
    u64::MAX,
];

impl Field<'_> {
    /// Sets the field to the value, or to what of it fits.
    fn set(self, value: u64) {
        match self {
            Byte(field) => *field = value as u8,
            Pair(field) => *field = value as u16,
            Word(field) => *field = value as u32,
            Long(field) => *field = value,
        }
    }
}

#[test]
fn refuses_and_writes_alike_whatever_a_field_is() {
    let (mut good, mut bad) = (0, 0);
    for table in [small_table(), table_of(&table_message(8))] {
        let count = fields(&mut table.clone()).len();
        for (at, value) in (0..count).flat_map(|at| VALUES.map(|value| (at, value))) {
            let mut changed = table;
            fields(&mut changed).swap_remove(at).set(value);
            match write(&changed, 200, ROOM).0 {
                Ok(_) => good += 1,
                Err(number) => {
                    assert_eq!(number, 19, "field {at} is {value}");
                    bad += 1;
                }
            }
        }
    }
    assert!(good > 5_000 && bad > 25_000, "{good} good, {bad} bad");
}

#[test]
fn refuses_with_19_before_20() {
    let mut table = small_table();
    table.timers.tdsg1 = 0;
    for room in [0, 3, ROOM] {
        assert_eq!(write(&table, 0, room), (Err(19), vec![0xA5; room]));
    }
}

/// Tables about a cut: the twelfth rule of the longest one's second piece, with a UCID less at a time, ends from 1,584 bytes on
/// down, so that it begins the third piece up to 1,498 and stays in the second from 1,497 on.
#[test]
fn cuts_alike_at_every_length_about_the_limit() {
    let mut table = table_of(&longest_message());
    let mut ends = 1_584;
    for rule in 0..12 {
        for _ in 0..15 {
            let (lengths, _) = write(&table, 1, ROOM);
            let second = if ends > 1_497 {
                ends - u16::from(table.rules[11].ucidcount) - 116
            } else {
                ends
            };
            assert_eq!(lengths.expect("written")[1], second + 3, "{ends}");
            let rule = &mut table.rules[rule];
            rule.ucidcount -= 1;
            rule.ucids[usize::from(rule.ucidcount)] = 0;
            ends -= 1;
        }
    }
    assert_eq!(ends, 1_404);
}
