//! A message becomes a table or a refusal, in one pass over a table of the known types.

use dsg::records::{Classifier, Client, Rule, Table, TimerValues, TABLE_ROOM};

/// A refusal: its number and the offset in the message.
pub type Refusal = (u8, usize);

#[derive(Clone, Copy)]
enum Length {
    Row,
    Exactly(usize),
    ZeroOrTwo,
    OneOrMore,
}

#[derive(Clone, Copy)]
enum Value {
    Any,
    NotZero,
    Channel,
}

#[derive(Clone, Copy)]
struct Known {
    kind: u8,
    length: Length,
    must: bool,
    /// How many may stand in a row: 1 for a type that does not repeat.
    room: u8,
    value: Value,
}

const fn known(kind: u8, length: Length, must: bool, room: u8, value: Value) -> Known {
    Known {
        kind,
        length,
        must,
        room,
        value,
    }
}

#[derive(Clone, Copy, PartialEq)]
enum Row {
    Top,
    Classifier,
    IpPart,
    Rule,
    Clients,
    Configuration,
}

const TOP: [Known; 3] = [
    known(23, Length::Row, false, 32, Value::Any),
    known(50, Length::Row, false, 32, Value::Any),
    known(51, Length::Row, false, 1, Value::Any),
];
const CLASSIFIER: [Known; 3] = [
    known(2, Length::Exactly(2), true, 1, Value::NotZero),
    known(5, Length::Exactly(1), true, 1, Value::Any),
    known(9, Length::Row, true, 1, Value::Any),
];
const IP_PART: [Known; 5] = [
    known(3, Length::Exactly(4), false, 1, Value::Any),
    known(4, Length::Exactly(4), false, 1, Value::Any),
    known(5, Length::Exactly(4), true, 1, Value::Any),
    known(9, Length::Exactly(2), false, 1, Value::Any),
    known(10, Length::Exactly(2), false, 1, Value::Any),
];
const RULE: [Known; 6] = [
    known(1, Length::Exactly(1), true, 1, Value::Any),
    known(2, Length::Exactly(1), false, 1, Value::Any),
    known(3, Length::OneOrMore, false, 1, Value::Any),
    known(4, Length::Row, true, 1, Value::Any),
    known(5, Length::Exactly(6), true, 1, Value::Any),
    known(6, Length::Exactly(2), false, 8, Value::NotZero),
];
const CLIENTS: [Known; 4] = [
    known(1, Length::ZeroOrTwo, false, 8, Value::NotZero),
    known(2, Length::Exactly(6), false, 8, Value::Any),
    known(3, Length::Exactly(2), false, 8, Value::Any),
    known(4, Length::Exactly(2), false, 8, Value::Any),
];
const CONFIGURATION: [Known; 5] = [
    known(1, Length::Exactly(4), false, 32, Value::Channel),
    known(2, Length::Exactly(2), false, 1, Value::NotZero),
    known(3, Length::Exactly(2), false, 1, Value::NotZero),
    known(4, Length::Exactly(2), false, 1, Value::Any),
    known(5, Length::Exactly(2), false, 1, Value::Any),
];

impl Row {
    fn types(self) -> &'static [Known] {
        match self {
            Row::Top => &TOP,
            Row::Classifier => &CLASSIFIER,
            Row::IpPart => &IP_PART,
            Row::Rule => &RULE,
            Row::Clients => &CLIENTS,
            Row::Configuration => &CONFIGURATION,
        }
    }
}

/// The number that bytes spell, big-endian.
fn number(bytes: &[u8]) -> u64 {
    bytes.iter().fold(0, |n, &b| n << 8 | u64::from(b))
}

/// The table of the empty message.
pub fn empty_table() -> Table {
    Table {
        rulecount: 0,
        classifiercount: 0,
        channelcount: 0,
        timers: TimerValues {
            tdsg1: 2,
            tdsg2: 600,
            tdsg3: 300,
            tdsg4: 1800,
        },
        channels: [0; TABLE_ROOM],
        classifiers: [Classifier::default(); TABLE_ROOM],
        rules: [Rule::default(); TABLE_ROOM],
    }
}

struct Reader<'a> {
    message: &'a [u8],
    table: Table,
    rule: Rule,
    classifier: Classifier,
}

impl Reader<'_> {
    /// Tests 6 to 8: the length of the value at `at`.
    fn head(&self, at: usize, end: usize) -> Result<usize, Refusal> {
        if end - at < 2 {
            return Err((6, at));
        }
        let length = usize::from(self.message[at + 1]);
        if length == 255 {
            return Err((7, at));
        }
        if end - at - 2 < length {
            return Err((8, at));
        }
        Ok(length)
    }

    /// One row, from `at` to `end`; its own type byte is at `own`.
    fn row(&mut self, row: Row, own: usize, mut at: usize, end: usize) -> Result<(), Refusal> {
        let types = row.types();
        let mut counts = [0u8; 6];
        while at < end {
            let length = self.head(at, end)?;
            let kind = self.message[at];
            let next = at + 2 + length;
            if let Some(place) = types.iter().position(|k| k.kind == kind) {
                self.element(row, types[place], at, next, &mut counts, place)?;
            }
            at = next;
        }
        if types.iter().zip(&counts).any(|(k, &n)| k.must && n == 0) {
            return Err((13, own));
        }
        Ok(())
    }

    /// Tests 9 to 12 of a known element, what it holds, and its row.
    fn element(
        &mut self,
        row: Row,
        known: Known,
        at: usize,
        next: usize,
        counts: &mut [u8; 6],
        place: usize,
    ) -> Result<(), Refusal> {
        // The client IDs of all kinds fill one list.
        let list = if row == Row::Clients { 0 } else { place };
        if known.room == 1 && counts[list] != 0 {
            return Err((9, at));
        }
        let value = &self.message[at + 2..next];
        let fits = match known.length {
            Length::Row => true,
            Length::Exactly(n) => value.len() == n,
            Length::ZeroOrTwo => value.is_empty() || value.len() == 2,
            Length::OneOrMore => !value.is_empty(),
        };
        if !fits {
            return Err((10, at));
        }
        let allowed = match known.value {
            Value::Any => true,
            Value::NotZero => value.is_empty() || number(value) != 0,
            Value::Channel => {
                let hertz = number(value);
                hertz.is_multiple_of(62_500) && (62_500..=1_000_000_000).contains(&hertz)
            }
        };
        if !allowed {
            return Err((11, at));
        }
        let long = matches!(known.length, Length::OneOrMore) && value.len() > 16;
        if long || known.room > 1 && counts[list] == known.room {
            return Err((12, at));
        }
        counts[list] += 1;
        self.take_up(row, known.kind, at, next)
    }

    /// What the element holds goes into the table; an inner row is read.
    fn take_up(&mut self, row: Row, kind: u8, at: usize, next: usize) -> Result<(), Refusal> {
        let value = &self.message[at + 2..next];
        match (row, kind) {
            (Row::Top, 23) => return self.classifier_row(at, next),
            (Row::Top, 50) => return self.rule_row(at, next),
            (Row::Top, _) => return self.row(Row::Configuration, at, at + 2, next),
            (Row::Classifier, 2) => self.classifier.number = number(value) as u16,
            (Row::Classifier, 5) => self.classifier.priority = value[0],
            (Row::Classifier, _) => return self.row(Row::IpPart, at, at + 2, next),
            (Row::IpPart, 3) => {
                self.classifier.source = number(value) as u32;
                self.classifier.hassource = 1;
            }
            (Row::IpPart, 4) => {
                self.classifier.mask = number(value) as u32;
                self.classifier.hasmask = 1;
            }
            (Row::IpPart, 5) => self.classifier.destination = number(value) as u32,
            (Row::IpPart, 9) => {
                self.classifier.start = number(value) as u16;
                self.classifier.hasstart = 1;
            }
            (Row::IpPart, _) => {
                self.classifier.end = number(value) as u16;
                self.classifier.hasend = 1;
            }
            (Row::Rule, 1) => self.rule.number = value[0],
            (Row::Rule, 2) => self.rule.priority = value[0],
            (Row::Rule, 3) => {
                self.rule.ucids[..value.len()].copy_from_slice(value);
                self.rule.ucidcount = value.len() as u8;
            }
            (Row::Rule, 4) => return self.row(Row::Clients, at, at + 2, next),
            (Row::Rule, 5) => self.rule.tunnel = number(value),
            (Row::Rule, _) => {
                self.rule.numbers[usize::from(self.rule.numbercount)] = number(value) as u16;
                self.rule.numbercount += 1;
            }
            (Row::Clients, _) => {
                let kind = if value.is_empty() { 0 } else { kind };
                let client = Client {
                    kind,
                    value: number(value),
                };
                self.rule.clients[usize::from(self.rule.clientcount)] = client;
                self.rule.clientcount += 1;
            }
            (Row::Configuration, 1) => {
                let n = usize::from(self.table.channelcount);
                self.table.channels[n] = number(value) as u32;
                self.table.channelcount += 1;
            }
            (Row::Configuration, 2) => self.table.timers.tdsg1 = number(value) as u16,
            (Row::Configuration, 3) => self.table.timers.tdsg2 = number(value) as u16,
            (Row::Configuration, 4) => self.table.timers.tdsg3 = number(value) as u16,
            (Row::Configuration, _) => self.table.timers.tdsg4 = number(value) as u16,
        }
        Ok(())
    }

    fn rule_row(&mut self, at: usize, next: usize) -> Result<(), Refusal> {
        self.rule = Rule::default();
        self.row(Row::Rule, at, at + 2, next)?;
        let n = usize::from(self.table.rulecount);
        if self.table.rules[..n]
            .iter()
            .any(|r| r.number == self.rule.number)
        {
            return Err((14, at));
        }
        self.table.rules[n] = self.rule;
        self.table.rulecount += 1;
        Ok(())
    }

    fn classifier_row(&mut self, at: usize, next: usize) -> Result<(), Refusal> {
        self.classifier = Classifier::default();
        self.row(Row::Classifier, at, at + 2, next)?;
        let n = usize::from(self.table.classifiercount);
        if self.table.classifiers[..n]
            .iter()
            .any(|c| c.number == self.classifier.number)
        {
            return Err((14, at));
        }
        self.table.classifiers[n] = self.classifier;
        self.table.classifiercount += 1;
        Ok(())
    }

    /// Test 15: the offset of the first 50.6 that no classifier answers.
    fn unanswered(&self) -> Option<usize> {
        let classifiers = &self.table.classifiers[..usize::from(self.table.classifiercount)];
        let rules = &self.table.rules[..usize::from(self.table.rulecount)];
        rules.iter().enumerate().find_map(|(i, rule)| {
            let numbers = &rule.numbers[..usize::from(rule.numbercount)];
            let j = numbers
                .iter()
                .position(|n| classifiers.iter().all(|c| c.number != *n))?;
            Some(self.place_of(i, j))
        })
    }

    /// Where the `j`th 50.6 of the `i`th rule stands.
    fn place_of(&self, i: usize, j: usize) -> usize {
        let all = self.message.len();
        let rule = self.nth(0, all, 50, i);
        self.nth(
            rule + 2,
            rule + 2 + usize::from(self.message[rule + 1]),
            6,
            j,
        )
    }

    /// Where the `n`th element of a type stands in a row that was read.
    fn nth(&self, mut at: usize, end: usize, kind: u8, mut n: usize) -> usize {
        while at < end {
            if self.message[at] == kind {
                if n == 0 {
                    return at;
                }
                n -= 1;
            }
            at += 2 + usize::from(self.message[at + 1]);
        }
        at
    }
}

/// Reads a message into the lent table, or refuses it and leaves the table as it was.
#[inline(never)]
pub fn read_table(lent: &mut Table, message: &[u8]) -> Result<(), Refusal> {
    if message.len() > 23_952 {
        return Err((3, 0));
    }
    let mut reader = Reader {
        message,
        table: empty_table(),
        rule: Rule::default(),
        classifier: Classifier::default(),
    };
    reader.row(Row::Top, 0, 0, message.len())?;
    if let Some(at) = reader.unanswered() {
        return Err((15, at));
    }
    *lent = reader.table;
    Ok(())
}
