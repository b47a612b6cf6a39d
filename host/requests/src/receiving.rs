//! Random lives of a collection through `recv`: messages that are accepted and messages that are
//! refused, one after another on the same buffers, with all that may come between their pieces, and
//! questions about the table that is lent by then. Half of the collections are strict.

use crate::cuttings::{cutting, message_of_elements};
use crate::frames::questions;
use crate::messages::message;
use crate::pieces::{any_sizes, arrivals, break_record, cut_into, fewest_pieces, fitting_body};
use crate::pieces::{good_sizes, refused_body, sound_record};
use crate::random::Random;
use crate::strict::body_after;
use crate::tables::free_table;
use crate::writing::write;
use reference::collecting::{Record, SLOTS};
use reference::protocol::request::Request;
use reference::receiving::{receive_body, Received};
use reference::table::{Table, MESSAGE_MAX};
use reference::Refusal;

/// Buffers, now and then a table lent outright, then a message or some.
pub fn scenario(random: &mut Random) -> Vec<Request> {
    let mut life = Life::new(random);
    let sizes = good_sizes(life.random);
    life.renew(sizes);
    if life.random.once_in(3) {
        life.lend_outright();
    }
    for _ in 0..life.random.between(1, 3) {
        life.go_on();
    }
    life.requests
}

/// The requests so far, and what they have made of the collection and of the lent table.
struct Life<'r> {
    random: &'r mut Random,
    requests: Vec<Request>,
    record: Record,
    slots: Vec<u8>,
    join: Vec<u8>,
    /// Every byte of the buffers when they were new.
    fill: u8,
    /// The lent table, if it was lent in this life.
    lent: Option<Table>,
    /// Whether some bodies come by `piece`.
    mixed: bool,
}

impl Life<'_> {
    fn new(random: &mut Random) -> Life<'_> {
        let mixed = random.once_in(3);
        Life {
            random,
            requests: Vec::new(),
            record: Record::default(),
            slots: Vec::new(),
            join: Vec::new(),
            fill: 0,
            lent: None,
            mixed,
        }
    }

    fn renew(&mut self, [slot, join]: [usize; 2]) {
        let any = self.random.byte();
        self.fill = self.random.pick(&[0, any]);
        self.slots = vec![self.fill; slot];
        self.join = vec![self.fill; join];
        self.record = Record::empty(self.random.once_in(2));
        self.requests.push(Request::New {
            slot,
            join,
            fill: self.fill,
            strict: self.record.strict,
        });
    }

    /// Gives the record but for its setting.
    fn give(&mut self, record: Record) {
        let given = |strict| Record {
            strict,
            ..record.clone()
        };
        self.record = given(self.record.strict);
        self.requests.push(Request::Rec(given(false)));
    }

    fn lend_outright(&mut self) {
        let table = free_table(self.random);
        self.lent = Some(table.clone());
        self.requests.push(Request::TSet(table));
    }

    /// A message, often with something that comes in its way; then now and then the same one again,
    /// as repeats or under another count.
    fn go_on(&mut self) {
        let bodies = self.next_bodies();
        match self.random.below(10) {
            0 => self.find_buffers_short(&bodies),
            1 => self.leave_and_come_back(&bodies),
            2 => self.forget(&bodies),
            3..=4 => self.break_off(&bodies),
            5..=6 => self.invent(),
            _ => {}
        }
        self.carry(&bodies);
        match self.random.below(6) {
            0 => self.take_all(bodies),
            1 => self.carry(&under_next_count(bodies)),
            _ => {}
        }
    }

    /// The bodies of another message, under the count held or the one after it or any; in a strict
    /// collection cut with an aim, mostly.
    fn next_bodies(&mut self) -> Vec<Vec<u8>> {
        let message = cuttable_message(self.random);
        let (held, any) = (self.record.count, self.random.byte());
        let count = self.random.pick(&[held, held.wrapping_add(1), any]);
        if self.record.strict && !self.random.once_in(6) {
            return cutting(self.random, message).bodies(count);
        }
        let fewest = fewest_pieces(&message);
        let (more, any) = ((fewest + 1).min(SLOTS), self.random.between(fewest, SLOTS));
        let number = self.random.pick(&[fewest, more, more, any]);
        cut_into(self.random, number, count, &message)
    }

    /// The pieces in any order, some of them again, with others between; all of them once more if the
    /// others began the collection anew.
    fn carry(&mut self, bodies: &[Vec<u8>]) {
        let mut ended = false;
        for body in arrivals(self.random, bodies) {
            ended |= self.take(body);
        }
        if !ended {
            self.take_all(bodies.to_vec());
        }
    }

    fn take_all(&mut self, mut bodies: Vec<Vec<u8>>) {
        self.random.shuffle(&mut bodies);
        for body in bodies {
            self.take(body);
        }
    }

    /// Some of the pieces, any of them, in any order.
    fn take_some(&mut self, bodies: &[Vec<u8>]) {
        for _ in 0..self.random.between(1, bodies.len()) {
            let body = self.random.pick(bodies);
            self.take(body);
        }
    }

    /// Some pieces, then the same record with buffers about the least size, and buffers that do.
    fn find_buffers_short(&mut self, bodies: &[Vec<u8>]) {
        self.take_some(bodies);
        for _ in 0..self.random.between(1, 2) {
            let (held, sizes) = (self.record.clone(), any_sizes(self.random));
            self.renew(sizes);
            self.give(held);
            let body = self.random.pick(bodies);
            self.take(body);
            let refused = refused_body(self.random);
            self.take(refused);
        }
        let sizes = good_sizes(self.random);
        self.renew(sizes);
    }

    /// Some pieces, then another message.
    fn leave_and_come_back(&mut self, bodies: &[Vec<u8>]) {
        self.take_some(bodies);
        let others = self.next_bodies();
        self.take_all(others);
    }

    /// The whole message, then a record that lacks some of its pieces, so that it completes again.
    fn forget(&mut self, bodies: &[Vec<u8>]) {
        self.take_all(bodies.to_vec());
        let mut record = self.record.clone();
        for _ in 0..self.random.between(1, 3) {
            let slot = self.random.below(bodies.len());
            record.filled[slot] = false;
            record.lengths[slot] = 0;
        }
        self.give(record);
        self.take_all(bodies.to_vec());
    }

    /// Some pieces, then a record that no calls could have made of them, and one of them again.
    fn break_off(&mut self, bodies: &[Vec<u8>]) {
        self.take_some(bodies);
        let mut record = self.record.clone();
        break_record(self.random, &mut record);
        self.give(record);
        if self.random.once_in(3) {
            let refused = refused_body(self.random);
            self.take(refused);
        }
        let body = self.random.pick(bodies);
        self.take(body);
    }

    /// A record that says what the new buffers hold, or is broken, then pieces that would be repeats
    /// or would complete it.
    fn invent(&mut self) {
        let sizes = good_sizes(self.random);
        self.renew(sizes);
        let held = sound_record(self.random);
        let mut record = held.clone();
        if self.random.once_in(2) {
            break_record(self.random, &mut record);
        }
        self.give(record);
        for _ in 0..self.random.between(1, 4) {
            let body = fitting_body(self.random, &held, self.fill);
            self.take(body);
        }
    }

    /// Sends one body, and says whether it completed a message, read or dropped. Questions follow when
    /// it did, and behind a message that was dropped now and then another body.
    fn take(&mut self, body: Vec<u8>) -> bool {
        let received = receive_body(&mut self.record, &mut self.slots, &mut self.join, &body);
        let by_piece = self.mixed && self.random.once_in(3);
        self.requests.push(if by_piece {
            Request::Piece(body.clone())
        } else {
            Request::Recv(body.clone())
        });
        match received {
            Ok(Received::Accepted(table)) => {
                if !by_piece {
                    self.lent = Some(table);
                }
                self.ask(4);
                true
            }
            Ok(Received::MessageRefused(_)) => {
                self.ask(2);
                true
            }
            Err(Refusal { number: 21, .. }) => {
                self.ask(2);
                if self.random.once_in(3) {
                    let next = body_after(self.random, &[body]);
                    self.take(next);
                }
                true
            }
            _ => false,
        }
    }

    /// Some questions about the lent table, or none; now and then it is written.
    fn ask(&mut self, most: usize) {
        let many = self.random.below(most + 1);
        if let Some(table) = &self.lent {
            let questions = questions(self.random, table, many);
            self.requests.extend(questions);
            if self.random.once_in(6) {
                self.requests.push(write(self.random, table));
            }
        }
    }
}

/// A message as it comes, now and then one of any elements, cut off where sixteen pieces end.
fn cuttable_message(random: &mut Random) -> Vec<u8> {
    let mut message = if random.once_in(8) {
        message_of_elements(random)
    } else {
        message(random)
    };
    message.truncate(MESSAGE_MAX);
    message
}

fn under_next_count(mut bodies: Vec<Vec<u8>>) -> Vec<Vec<u8>> {
    for body in &mut bodies {
        body[0] = body[0].wrapping_add(1);
    }
    bodies
}
