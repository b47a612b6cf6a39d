//! Numbers that mean a table of the other program, with anything in all that has no meaning.
//!
//! A count is above its limit where its list is full, a mark is anything but 0 where its part is present,
//! clients have any kinds and values. What must not be looked at is a lure: it would change the answer.

use crate::plain::{number, plain, plain_client};
use dsg::records::{
    Classifier, Client, Rule, Table, RULE_CLIENTS, RULE_NUMBERS, RULE_UCIDS, TABLE_ROOM,
};
use reference::protocol::request::Request;
use reference::table as said;
use requests::frames;
use requests::random::Random;
use requests::tables::free_table;

/// What is asked of a table.
pub struct Question {
    pub client: said::Client,
    pub ucid: Option<u8>,
    pub frame: Vec<u8>,
}

/// A table and what is asked of it, as lent numbers.
#[derive(Debug)]
pub struct Lent {
    pub table: Table,
    pub client: Client,
    pub known: u8,
    pub ucid: u8,
}

/// A table of the other program and questions about it.
pub fn scenario(random: &mut Random) -> (said::Table, Vec<Question>) {
    let mut table = said::Table::default();
    let mut questions = Vec::new();
    for request in frames::scenario(random) {
        let (client, ucid, frame) = match request {
            Request::Judge(client, ucid, frame) => (client, ucid, frame),
            Request::Choose(client, ucid) => (client, ucid, Vec::new()),
            Request::TSet(lent) => {
                table = lent;
                continue;
            }
            Request::TRead(message) => {
                table = said::read_table(&message).expect("the message of a sound table");
                continue;
            }
            other => unreachable!("{other}"),
        };
        questions.push(Question {
            client,
            ucid,
            frame,
        });
    }
    (table, questions)
}

/// Numbers that mean the table and the question. A tunnel may become one of 2^48 and more, which no
/// six bytes equal; its low 48 bits stay.
pub fn disguised(random: &mut Random, table: &said::Table, question: &Question) -> Lent {
    let mut names = Names::default();
    let mut lent = plain(table);
    let client = names.name(random, plain_client(&question.client));
    let ucid = question.ucid.unwrap_or_else(|| random.byte());
    let frame = &question.frame;
    let (rules, unused) = lent.rules.split_at_mut(table.rules.len());
    for rule in rules {
        fill_places(random, rule, client, ucid, &table.classifiers);
        for client in &mut rule.clients[..usize::from(rule.clientcount)] {
            *client = names.name(random, *client);
        }
        rule.clientcount = count(random, rule.clientcount, RULE_CLIENTS);
        rule.ucidcount = count(random, rule.ucidcount, RULE_UCIDS);
        rule.numbercount = count(random, rule.numbercount, RULE_NUMBERS);
        if random.once_in(8) {
            rule.tunnel |= (random.between(1, 0xFFFF) as u64) << 48;
        }
    }
    unused.fill(Rule {
        priority: 255,
        clientcount: 1,
        clients: [client; RULE_CLIENTS],
        tunnel: number(frame.get(..6).unwrap_or_default()),
        ..Rule::default()
    });
    let named: Vec<u16> = table
        .rules
        .iter()
        .flat_map(|r| r.classifiers.clone())
        .collect();
    let (classifiers, unused) = lent.classifiers.split_at_mut(table.classifiers.len());
    for lure in &mut *unused {
        *lure = Classifier {
            destination: number(frame.get(30..34).unwrap_or_default()) as u32,
            number: named.get(random.below(named.len())).map_or(1, |&n| n),
            priority: 255,
            ..Classifier::default()
        };
    }
    for classifier in classifiers.iter_mut().chain(unused) {
        loosen_parts(random, classifier);
    }
    for channel in &mut lent.channels[table.channels.len()..] {
        *channel = random.word() as u32;
    }
    lent.rulecount = count(random, lent.rulecount, TABLE_ROOM);
    lent.classifiercount = count(random, lent.classifiercount, TABLE_ROOM);
    lent.channelcount = count(random, lent.channelcount, TABLE_ROOM);
    Lent {
        table: lent,
        client,
        known: question.ucid.map_or(0, |_| present(random)),
        ucid,
    }
}

/// Any table of the other program, and numbers that mean it.
pub fn any_table(random: &mut Random) -> (said::Table, Table) {
    let table = free_table(random);
    let question = Question {
        client: said::Client::EmptyBroadcast,
        ucid: None,
        frame: Vec::new(),
    };
    let lent = disguised(random, &table, &question).table;
    (table, lent)
}

/// Fills the unused places of a rule's lists: the client and the UCID that are asked for, and numbers
/// of classifiers.
fn fill_places(
    random: &mut Random,
    rule: &mut Rule,
    client: Client,
    ucid: u8,
    classifiers: &[said::Classifier],
) {
    rule.clients[rule.clientcount.into()..].fill(client);
    rule.ucids[rule.ucidcount.into()..].fill(ucid);
    for number in &mut rule.numbers[rule.numbercount.into()..] {
        let any = random.pair();
        *number = classifiers
            .get(random.below(TABLE_ROOM))
            .map_or(any, |c| c.number);
    }
}

/// A count that is read as this one: of a full list any number from the limit on.
fn count(random: &mut Random, used: u8, limit: usize) -> u8 {
    let over = random.between(limit, 255);
    let full = random.pick(&[limit, limit + 1, 255, over]) as u8;
    if usize::from(used) < limit {
        used
    } else {
        full
    }
}

/// A mark of what is present: anything but 0.
fn present(random: &mut Random) -> u8 {
    let any = random.between(1, 255) as u8;
    random.pick(&[1, 2, 128, 255, any])
}

/// Any value for each part that is absent, any mark but 0 for each that is present.
fn loosen_parts(random: &mut Random, classifier: &mut Classifier) {
    let c = classifier;
    loosen(random, &mut c.hassource, &mut c.source);
    loosen(random, &mut c.hasmask, &mut c.mask);
    loosen(random, &mut c.hasstart, &mut c.start);
    loosen(random, &mut c.hasend, &mut c.end);
}

fn loosen<T: From<u16>>(random: &mut Random, mark: &mut u8, value: &mut T) {
    if *mark == 0 {
        *value = T::from(random.pair());
    } else {
        *mark = present(random);
    }
}

/// Names for clients, one to one: a client fits where kind and value are equal, whatever they say.
#[derive(Default)]
struct Names(Vec<(Client, Client)>);

impl Names {
    fn name(&mut self, random: &mut Random, client: Client) -> Client {
        if let Some((_, name)) = self.0.iter().find(|(named, _)| *named == client) {
            return *name;
        }
        let mut name = any_client(random);
        while self.0.iter().any(|(_, taken)| *taken == name) {
            name = any_client(random);
        }
        self.0.push((client, name));
        name
    }
}

/// A client of any kind and value. Many differ in one bit alone.
fn any_client(random: &mut Random) -> Client {
    let (kind, value) = (random.byte(), random.word());
    let bit = 1 << random.pick(&[0, 8, 16, 31, 32, 47, 48, 63]);
    Client {
        kind: random.pick(&[0, 1, 2, 4, 5, 6, 132, 255, kind]),
        value: random.pick(&[0, 42, 42 | bit, 42 | bit, u64::MAX, value]),
    }
}
