//! Complete runs of several pieces, by where they were cut.

use crate::pieces::spans;
use crate::places::{Place, TopRow};
use reference::collecting::{Record, SLOTS, SLOT_BYTES};

/// The refusals that a head itself gives.
const HEADS: [u8; 3] = [6, 7, 8];
/// What can be said of the empty pieces of a run that completes.
const EMPTY: [&str; 4] = [
    "empty piece first",
    "one empty piece inside",
    "several empty pieces inside",
    "empty piece last",
];
/// Which cut is bad.
const WHICH: [&str; 5] = [
    "the only cut bad",
    "the first of several cuts bad",
    "one cut in the middle bad",
    "the last of several cuts bad",
    "more than one cut bad",
];
const NO_BYTES: &str = "message of no bytes";
const AT_0: &str = "cut at 0";
const BEHIND_A_START: &str = "bad cut 1 behind a start";
const FURTHER_INSIDE: &str = "bad cut further inside";
const EMPTY_THERE: &str = "empty piece at the bad cut";
const ONE_PLACE: &str = "fifteen cuts at one place";

/// What can be said of a run that completes.
pub fn completed_cases() -> impl Iterator<Item = String> {
    let heads = HEADS.map(|n| [Place::Faulty(n), Place::End(Some(n))]);
    let places = [
        Place::Start,
        Place::Behind(7),
        Place::Behind(8),
        Place::End(None),
    ];
    let places = places.into_iter().chain(heads.concat());
    let others = [NO_BYTES, AT_0, ONE_PLACE].into_iter().chain(EMPTY);
    places.map(good_case).chain(others.map(str::to_string))
}

/// What can be said of a run that is dropped.
pub fn dropped_cases() -> impl Iterator<Item = String> {
    let faulty = HEADS.map(Place::Faulty);
    let next = [Place::Start, Place::End(None)].into_iter().chain(faulty);
    let others = [BEHIND_A_START, FURTHER_INSIDE, EMPTY_THERE, ONE_PLACE];
    let others = others.into_iter().chain(WHICH).map(str::to_string);
    let behind = HEADS.map(head_behind_case);
    next.map(before_case).chain(others).chain(behind)
}

/// A head that itself gives a refusal.
fn head(number: u8) -> String {
    format!("the head that gives {number:02}")
}

fn good_case(place: Place) -> String {
    match place {
        Place::Start => "cut at a start".to_string(),
        Place::Faulty(number) => format!("cut at {}", head(number)),
        Place::Behind(number) => format!("cut behind {}", head(number)),
        Place::End(None) => "cut at the end".to_string(),
        Place::End(Some(number)) => format!("cut at the end, behind {}", head(number)),
        Place::Inside => "cut inside an element".to_string(),
    }
}

/// A bad cut that stands one byte before such a place.
fn before_case(next: Place) -> String {
    match next {
        Place::Faulty(number) => format!("bad cut 1 before {}", head(number)),
        Place::End(_) => "bad cut 1 before the end".to_string(),
        _ => "bad cut 1 before a start".to_string(),
    }
}

fn head_behind_case(number: u8) -> String {
    format!("{} behind the bad cut", head(number))
}

/// A joined message, and the ends of all its pieces but the last.
#[derive(Clone, PartialEq, Eq)]
pub struct Run {
    pub message: Vec<u8>,
    cuts: Vec<usize>,
}

impl Run {
    /// The run that a sound record holds, if it is complete.
    pub fn held(record: &Record, slots: &[u8]) -> Option<Run> {
        let number = usize::from(record.number);
        let filled = record.filled.iter().take(number);
        if number < 2 || !filled.copied().all(|filled| filled) {
            return None;
        }
        let (mut message, mut cuts) = (Vec::new(), Vec::new());
        for (slot, &length) in record.lengths.iter().take(number).enumerate() {
            let start = slot * SLOT_BYTES;
            message.extend(&slots[start..start + usize::from(length)]);
            cuts.push(message.len());
        }
        cuts.pop();
        Some(Run { message, cuts })
    }

    /// Whether the piece in that slot has these bytes.
    pub fn has(&self, slot: usize, bytes: &[u8]) -> bool {
        let spans = spans(&self.cuts, self.message.len());
        let span = spans.get(slot).cloned();
        span.is_some_and(|span| self.message[span] == *bytes)
    }

    /// The cuts that a strict collection refuses, by their index.
    fn bad_cuts(&self, top: &TopRow) -> Vec<usize> {
        let cuts = self.cuts.iter().enumerate();
        cuts.filter(|(_, &cut)| !top.is_good(cut))
            .map(|(index, _)| index)
            .collect()
    }

    pub fn has_bad_cut(&self) -> bool {
        !self.bad_cuts(&TopRow::of(&self.message)).is_empty()
    }

    fn at_one_place(&self) -> Option<String> {
        let alike = self.cuts.windows(2).all(|pair| pair[0] == pair[1]);
        (alike && self.cuts.len() == SLOTS - 1).then(|| ONE_PLACE.to_string())
    }

    /// What can be said of it if it completes.
    pub fn completed(&self) -> Vec<String> {
        if self.message.is_empty() {
            return vec![NO_BYTES.to_string()];
        }
        let top = TopRow::of(&self.message);
        let places = self.cuts.iter().map(|&cut| match (cut, top.place(cut)) {
            (0, Place::Start) => AT_0.to_string(),
            (_, place) => good_case(place),
        });
        places
            .chain(self.empty_pieces())
            .chain(self.at_one_place())
            .collect()
    }

    /// Where its empty pieces stand.
    fn empty_pieces(&self) -> impl Iterator<Item = String> {
        let spans = spans(&self.cuts, self.message.len());
        let places = spans.into_iter().filter(|span| span.is_empty());
        let places: Vec<usize> = places.map(|span| span.start).collect();
        let end = self.message.len();
        let [first, one, several, last] = EMPTY;
        let cases: Vec<&str> = places
            .chunk_by(|place, next| place == next)
            .map(|alike| match *alike {
                [0, ..] => first,
                [place, ..] if place == end => last,
                [_] => one,
                _ => several,
            })
            .collect();
        cases.into_iter().map(str::to_string)
    }

    /// What can be said of it if it is dropped.
    pub fn dropped(&self) -> Vec<String> {
        let top = TopRow::of(&self.message);
        let bad = self.bad_cuts(&top);
        let Some(cut) = bad.first().map(|&index| self.cuts[index]) else {
            return Vec::new();
        };
        let there = self.cuts.iter().filter(|&&other| other == cut).count();
        let mut cases = beside(&top, cut);
        cases.push(self.which(&bad).to_string());
        cases.extend((there > 1).then(|| EMPTY_THERE.to_string()));
        cases.extend(top.faulty.map(|(_, number)| head_behind_case(number)));
        cases.extend(self.at_one_place());
        cases
    }

    fn which(&self, bad: &[usize]) -> &'static str {
        let [only, first, middle, last, several] = WHICH;
        match (bad, self.cuts.len() - 1) {
            ([0], 0) => only,
            ([0], _) => first,
            ([index], end) if *index == end => last,
            ([_], _) => middle,
            _ => several,
        }
    }
}

/// How a bad cut stands to the starts beside it.
fn beside(top: &TopRow, cut: usize) -> Vec<String> {
    let next = top.place(cut + 1);
    let mut cases = Vec::new();
    if top.place(cut - 1) == Place::Start {
        cases.push(BEHIND_A_START.to_string());
    }
    if next != Place::Inside {
        cases.push(before_case(next));
    }
    if cases.is_empty() {
        cases.push(FURTHER_INSIDE.to_string());
    }
    cases
}
