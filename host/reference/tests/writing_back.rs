//! Reading back what was written (document 02, Req 01): the tables of messages that look like chance,
//! written and received again.

mod support;

use reference::protocol::Session;
use support::writing::{answer, hex, pieces};
use support::{bytes, element, row};

/// Numbers that follow from a seed and look like chance.
struct Dice(u64);

impl Dice {
    /// A number below `sides`.
    fn below(&mut self, sides: usize) -> usize {
        self.0 ^= self.0 << 13;
        self.0 ^= self.0 >> 7;
        self.0 ^= self.0 << 17;
        (self.0 >> 33) as usize % sides
    }

    /// A length of a list with that room, often all of it.
    fn length(&mut self, room: usize) -> usize {
        match self.below(3) {
            0 => self.below(room + 1),
            _ => room,
        }
    }

    fn one_of<T: Clone>(&mut self, items: &[T]) -> T {
        items[self.below(items.len())].clone()
    }

    fn shuffled<T>(&mut self, mut items: Vec<T>) -> Vec<T> {
        for end in (1..items.len()).rev() {
            items.swap(end, self.below(end + 1));
        }
        items
    }

    /// An element of random bytes.
    fn element(&mut self, kind: u8, length: usize) -> Vec<u8> {
        let value: Vec<u8> = (0..length).map(|_| self.below(256) as u8).collect();
        element(kind, &value)
    }

    /// Each of these elements, or not.
    fn some(&mut self, elements: &[(u8, usize)]) -> Vec<Vec<u8>> {
        let mut chosen = Vec::new();
        for &(kind, length) in elements {
            if self.below(2) == 0 {
                chosen.push(self.element(kind, length));
            }
        }
        chosen
    }

    /// A row of these elements in any order, perhaps with some that reading skips.
    fn row(&mut self, kind: u8, mut children: Vec<Vec<u8>>) -> Vec<u8> {
        children.extend(self.some(&[(99, 0), (43, 3)]));
        row(kind, &self.shuffled(children))
    }

    fn configuration(&mut self) -> Vec<u8> {
        let mut children = Vec::new();
        for _ in 0..self.length(32) {
            let hz = 62_500 * (1 + self.below(16_000) as u32);
            children.push(element(1, &hz.to_be_bytes()));
        }
        for (kind, usual, least) in [(2, 2, 1), (3, 600, 1), (4, 300, 0), (5, 1_800, 0)] {
            let timer: u16 = self.one_of(&[usual, least, 65_535, 256 + usual]);
            if self.below(3) > 0 {
                children.push(element(kind, &timer.to_be_bytes()));
            }
        }
        self.row(51, children)
    }

    fn classifier(&mut self, number: u16) -> Vec<u8> {
        let mut ip = self.some(&[(3, 4), (4, 4), (9, 2), (10, 2)]);
        ip.push(self.element(5, 4));
        let ip = self.row(9, ip);
        let children = vec![element(2, &number.to_be_bytes()), self.element(5, 1), ip];
        self.row(23, children)
    }

    fn rule(&mut self, number: u8, classifiers: &[u16]) -> Vec<u8> {
        let mut clients = Vec::new();
        for _ in 0..self.length(8) {
            let value = 1 + self.below(255) as u8;
            let (kind, length) = self.one_of(&[(1, 0), (2, 6), (3, 2), (4, 2)]);
            let broadcast = element(1, &[self.below(2) as u8, value]);
            let other = self.element(kind, length);
            clients.push(self.one_of(&[broadcast, other.clone(), other]));
        }
        let mut children = vec![
            element(1, &[number]),
            self.row(4, clients),
            self.element(5, 6),
        ];
        let ucids = self.length(16).max(1);
        children.extend(self.some(&[(2, 1), (3, ucids)]));
        for _ in 0..self.length(8).min(8 * classifiers.len()) {
            children.push(element(6, &self.one_of(classifiers).to_be_bytes()));
        }
        self.row(50, children)
    }

    /// A message that is accepted.
    fn message(&mut self) -> Vec<u8> {
        let base = self.below(60_000) as u16;
        let numbers: Vec<u16> = (1..=self.length(32) as u16)
            .map(|n| base + 97 * n)
            .collect();
        let mut top: Vec<Vec<u8>> = numbers.iter().map(|&n| self.classifier(n)).collect();
        for number in 0..self.length(32) {
            let number = usize::from(base) + 37 * number;
            top.push(self.rule(number as u8, &numbers));
        }
        top.push(self.configuration());
        top.truncate(top.len() - self.below(2));
        top.extend(self.some(&[(0, 9), (43, 3)]));
        self.shuffled(top).concat()
    }
}

/// The bodies of an answer to `write`, each but the last of which had no room for the next element.
fn bodies_of(answer: &str) -> Vec<Vec<u8>> {
    let last = answer.rsplit(' ').next().expect("a word");
    let bodies: Vec<Vec<u8>> = last.split(',').map(bytes).collect();
    for pair in bodies.windows(2) {
        let next = 2 + usize::from(pair[1][4]);
        assert!(pair[0].len() <= 1_500 && pair[0].len() + next > 1_500);
    }
    bodies
}

/// The answers to bodies that come to a new collection, each once; the last is given.
fn answers_to(bodies: &[Vec<u8>], last: String) -> Vec<String> {
    let empty = (1..bodies.len()).rev();
    let waiting = empty.map(|empty| format!("waiting {empty}"));
    waiting.chain([last]).collect()
}

/// The answer of `piece` that lends the message of these bodies.
fn complete(bodies: &[Vec<u8>]) -> String {
    let lender = if bodies.len() == 1 { "body" } else { "join" };
    let message: String = bodies.iter().map(|body| hex(&body[3..])).collect();
    let message = if message.is_empty() { "-" } else { &message };
    format!("complete {lender} {message}")
}

/// The answers to these bodies in that setting, without the records and sums behind them.
fn taken(session: &mut Session, word: &str, bodies: &[Vec<u8>], strict: u8) -> Vec<String> {
    answer(session, &format!("new 24000 24000 0 {strict}"));
    let lines = bodies.iter().map(|body| format!("{word} {}", hex(body)));
    let answers = lines.map(|line| answer(session, &line));
    let parts = answers.map(|answer| answer.split(" | ").next().expect("a part").to_string());
    parts.collect()
}

#[test]
fn reads_back_the_table_of_every_message_strict_and_loose() {
    let mut dice = Dice(0x1234_5678_9ABC_DEF1);
    let mut numbers = Vec::new();
    for _ in 0..16 {
        let mut session = Session::default();
        let message = hex(&dice.message());
        let table = answer(&mut session, &format!("read j128 {message}"));
        assert_eq!(answer(&mut session, &format!("tread j128 {message}")), "ok");
        let (count, fill) = (dice.below(256), dice.below(256) as u8);
        let line = format!("write {count} 12000 {fill}");
        let written = answer(&mut session, &line);
        let bodies = bodies_of(&written);
        assert_eq!(written, pieces(&bodies, 12_000, fill));
        for strict in [0, 1] {
            let bodies = dice.shuffled(bodies.clone());
            let accepted = answers_to(&bodies, format!("accepted {table}"));
            assert_eq!(taken(&mut session, "recv j128", &bodies, strict), accepted);
            assert_eq!(answer(&mut session, &line), written);
        }
        for strict in [0, 1] {
            let complete = answers_to(&bodies, complete(&bodies));
            assert_eq!(taken(&mut session, "piece", &bodies, strict), complete);
        }
        numbers.push(bodies.len());
    }
    assert!((1..=3).all(|number| numbers.contains(&number)));
}
