//! Yields requests without end, scenario by scenario, from a seed.

use crate::random::Random;
use crate::{events, frames, messages, pieces, receiving, writing};
use reference::protocol::request::Request;
use std::collections::VecDeque;

/// What the requests are about.
#[derive(Clone, Copy, Debug, PartialEq, Eq)]
pub enum Area {
    Collect,
    Receive,
    Read,
    Judge,
    Modem,
    List,
    Write,
    All,
}

impl Area {
    pub fn named(word: &str) -> Option<Area> {
        match word {
            "collect" => Some(Area::Collect),
            "receive" => Some(Area::Receive),
            "read" => Some(Area::Read),
            "judge" => Some(Area::Judge),
            "modem" => Some(Area::Modem),
            "list" => Some(Area::List),
            "write" => Some(Area::Write),
            "all" => Some(Area::All),
            _ => None,
        }
    }
}

/// The requests of a seed and an area: the same on every machine.
pub struct Generator {
    random: Random,
    area: Area,
    waiting: VecDeque<Request>,
}

impl Generator {
    pub fn new(seed: u64, area: Area) -> Generator {
        Generator {
            random: Random::new(seed),
            area,
            waiting: VecDeque::new(),
        }
    }
}

impl Iterator for Generator {
    type Item = Request;

    fn next(&mut self) -> Option<Request> {
        while self.waiting.is_empty() {
            self.waiting.extend(scenario(&mut self.random, self.area));
        }
        self.waiting.pop_front()
    }
}

/// Requests that belong together. The mixture has more of the short scenarios, so that each area gets
/// its share of requests.
fn scenario(random: &mut Random, area: Area) -> Vec<Request> {
    match area {
        Area::Collect => pieces::scenario(random),
        Area::Receive => receiving::scenario(random),
        Area::Read => vec![reading(random)],
        Area::Judge => frames::scenario(random),
        Area::Modem => events::scenario(random),
        Area::List => vec![listing(random)],
        Area::Write => writing::scenario(random),
        Area::All => {
            let area = match random.below(130) {
                0..=62 => Area::Read,
                63..=84 => Area::List,
                85..=92 => Area::Collect,
                93..=99 => Area::Judge,
                100..=103 => Area::Receive,
                104..=113 => Area::Write,
                _ => Area::Modem,
            };
            scenario(random, area)
        }
    }
}

fn reading(random: &mut Random) -> Request {
    let message = messages::message(random);
    if random.once_in(4) {
        Request::TRead(message)
    } else {
        Request::Read(message)
    }
}

/// A body for `dcdlist`: mostly a message in one piece.
fn listing(random: &mut Random) -> Request {
    if random.once_in(8) {
        return Request::List(pieces::any_body(random));
    }
    let mut body = vec![random.byte(), 1, 1];
    body.extend(messages::message(random));
    Request::List(body)
}
