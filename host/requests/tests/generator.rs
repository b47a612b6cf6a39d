//! The generator: the same requests for a seed, all of them well formed, and nothing left out.

use reference::collecting::{take_piece, Record, Taken, BUFFER_MIN};
use reference::protocol::request::Request;
use reference::protocol::{Session, BAD_REQUEST};
use requests::claims::Claims;
use requests::generator::{Area, Generator};
use requests::tally::Tally;
use std::collections::BTreeSet;
use std::sync::LazyLock;

const AREAS: [Area; 8] = [
    Area::Collect,
    Area::Receive,
    Area::Read,
    Area::Judge,
    Area::Modem,
    Area::List,
    Area::Write,
    Area::All,
];

fn made(seed: u64, area: Area, count: usize) -> Vec<Request> {
    Generator::new(seed, area).take(count).collect()
}

#[test]
fn makes_the_same_requests_for_a_seed() {
    for area in AREAS {
        assert_eq!(made(5, area, 500), made(5, area, 500), "{area:?}");
        assert_ne!(made(5, area, 500), made(6, area, 500), "{area:?}");
    }
}

#[test]
fn roundtrips_what_it_makes() {
    for area in AREAS {
        for request in made(1, area, 1_000) {
            assert_eq!(Request::parse(&request.to_string()), Some(request));
        }
    }
}

#[test]
fn has_a_word_for_each_area() {
    let words = [
        "collect", "receive", "read", "judge", "modem", "list", "write", "all",
    ];
    assert_eq!(words.map(Area::named), AREAS.map(Some));
    assert_eq!(Area::named("recv"), None);
}

const NONE: [&str; 0] = [];

/// The tally of what the independent program answers, which breaks no claim.
fn tallied(seed: u64, area: Area, count: usize) -> Tally {
    let (mut session, mut tally) = (Session::default(), Tally::default());
    let mut claims = Claims::default();
    for request in Generator::new(seed, area).take(count) {
        let answer = session.answer(request.clone());
        assert_ne!(answer, BAD_REQUEST, "{request}");
        assert_eq!(claims.broken(&request, &answer), None, "{request}");
        tally.count(&request, &answer);
    }
    tally
}

/// What 60,000 requests of all areas show, for the seeds 1 and 2.
static TALLIES: [LazyLock<Tally>; 2] = [
    LazyLock::new(|| tallied(1, Area::All, 60_000)),
    LazyLock::new(|| tallied(2, Area::All, 60_000)),
];

/// The lines that were never counted, of those that `asked` picks.
fn missed(tally: &Tally, asked: impl Fn(&str) -> bool) -> Vec<&str> {
    let lines = tally.lines().filter(|&(line, _)| asked(line));
    lines
        .filter(|&(_, count)| count == 0)
        .map(|(line, _)| line)
        .collect()
}

#[test]
fn every_line_of_the_tally_is_seen_in_24000_requests_and_no_other() {
    let tally = tallied(1, Area::All, 24_000);
    assert_eq!(missed(&tally, |_| true), NONE);
    let listed = Tally::default();
    assert!(tally
        .lines()
        .map(|(line, _)| line)
        .eq(listed.lines().map(|(line, _)| line)));
}

#[test]
fn every_line_about_recv_is_seen_in_5000_requests_of_its_area() {
    let tally = tallied(1, Area::Receive, 5_000);
    let by_recv = |line: &str| line.contains("recv") && !line.starts_with("written: ");
    assert_eq!(missed(&tally, by_recv), NONE);
    assert_eq!(missed(&tally, |line| line.contains("kept over")), NONE);
}

#[test]
fn every_line_about_cuts_is_seen_in_5000_requests_of_collecting_but_those_about_recv() {
    let tally = tallied(1, Area::Collect, 5_000);
    let by_piece = |line: &str| line.starts_with("cuts: ") && !line.contains("recv");
    assert_eq!(missed(&tally, by_piece), NONE);
}

#[test]
fn every_kind_of_cut_is_judged_often_in_60000_requests() {
    let often = [
        ("piece: refused 21", 250),
        ("recv: refused 21", 250),
        ("cuts: completed", 500),
        ("cuts: completed, cut at a start", 150),
        ("cuts: completed, cut at the end", 50),
        ("cuts: completed, empty piece first", 100),
        ("cuts: completed, empty piece last", 150),
        ("cuts: dropped", 500),
        ("cuts: dropped, the only cut bad", 150),
        ("cuts: dropped, the first of several cuts bad", 70),
        ("cuts: dropped, one cut in the middle bad", 25),
        ("cuts: dropped, the last of several cuts bad", 50),
        ("cuts: dropped, bad cut 1 before a start", 100),
        ("cuts: dropped, bad cut 1 behind a start", 200),
        ("cuts: dropped, setting kept over 21", 200),
        ("cuts: after 21, the same body: waiting", 80),
        ("cuts: after 21, another body of the run: waiting", 80),
        ("cuts: after 21, a body of another run: waiting", 120),
        ("cuts: loose, completed with a bad cut", 300),
        ("judge of a table kept over a dropped message", 80),
    ];
    for (seed, tally) in (1..).zip(&TALLIES) {
        for (line, least) in often {
            let count = tally.of(line);
            assert!(count >= least, "{line}: {count}, seed {seed}");
        }
        for (line, count) in tally.lines().filter(|(line, _)| line.starts_with("cuts: ")) {
            assert!(count >= 15, "{line}: {count}, seed {seed}");
        }
    }
}

#[test]
fn half_of_the_collections_are_strict() {
    for area in [Area::Collect, Area::Receive] {
        let requests = made(1, area, 60_000);
        let settings = requests.iter().filter_map(|request| match request {
            Request::New { strict, .. } => Some(*strict),
            _ => None,
        });
        let settings: Vec<bool> = settings.collect();
        let strict = settings.iter().filter(|&&strict| strict).count();
        assert!(settings.len() >= 2_000, "{area:?}: {}", settings.len());
        let share = 100 * strict / settings.len();
        assert!((45..=60).contains(&share), "{area:?}: {share}");
    }
}

/// The messages that strict collections complete in several pieces.
fn messages_completed(seed: u64, count: usize) -> Vec<Vec<u8>> {
    let mut record = Record::default();
    let (mut slots, mut join) = (vec![0; BUFFER_MIN], vec![0; BUFFER_MIN]);
    let mut messages = Vec::new();
    for request in Generator::new(seed, Area::Collect).take(count) {
        match request {
            Request::New { strict, .. } => record = Record::empty(strict),
            Request::Rec(given) => {
                let strict = record.strict;
                record = Record { strict, ..given };
            }
            Request::Piece(body) => {
                let taken = take_piece(&mut record, &mut slots, &mut join, &body);
                if let (Ok(Taken::CompleteJoin(message)), true) = (taken, record.strict) {
                    messages.push(message.to_vec());
                }
            }
            _ => {}
        }
    }
    messages
}

#[test]
fn elements_of_every_length_stand_in_messages_that_strict_collections_complete() {
    let messages = messages_completed(1, 60_000);
    let mut lengths = BTreeSet::new();
    for message in &messages {
        let mut rest = &message[..];
        while let [_, length @ 0..=254, values @ ..] = rest {
            let Some(next) = values.get(usize::from(*length)..) else {
                break;
            };
            lengths.insert(*length);
            rest = next;
        }
    }
    assert!(lengths.iter().copied().eq(0..=254), "{lengths:?}");
    let longest = messages.iter().map(Vec::len).max();
    assert!(longest >= Some(23_900), "{longest:?}");
}

#[test]
fn every_line_about_writing_is_seen_in_10000_requests_of_its_area_but_those_about_recv() {
    let tally = tallied(1, Area::Write, 10_000);
    assert_eq!(missed(&tally, |line| line.starts_with("write: ")), NONE);
    assert_eq!(missed(&tally, |line| line.starts_with("written: ")), NONE);
}

#[test]
fn every_kind_of_writing_is_asked_for_often_in_60000_requests() {
    let often = [
        ("write: pieces", 1_200),
        ("write: refused 19", 500),
        ("write: refused 20", 700),
        ("write: refused 19, and too short a buffer", 150),
        ("write: 1 pieces, exact fit", 250),
        ("write: 1 pieces, refused 20, a byte short", 250),
        ("write: pieces, one of 1497 bytes before the last", 25),
        ("write: pieces, one begun for a byte too many", 25),
        ("write: 4 pieces, exact fit", 100),
        ("write: 4 pieces, refused 20, a byte short", 60),
        ("write of a table that recv lent", 150),
        ("write of a table kept over a refused message", 50),
    ];
    for (seed, tally) in (1..).zip(&TALLIES) {
        for (line, least) in often {
            let count = tally.of(line);
            assert!(count >= least, "{line}: {count}, seed {seed}");
        }
        for (line, count) in tally.lines().filter(|(line, _)| line.starts_with("writ")) {
            assert!(count >= 10, "{line}: {count}, seed {seed}");
        }
    }
}

#[test]
fn every_line_about_lent_tables_is_seen_in_10000_requests_of_judging() {
    let tally = tallied(1, Area::Judge, 10_000);
    assert_eq!(missed(&tally, |line| line.starts_with("question: ")), NONE);
    assert_eq!(missed(&tally, |line| line.starts_with("table ")), NONE);
    let marked = |line: &str| line.contains("classifier with") && !line.starts_with("write: ");
    assert_eq!(missed(&tally, marked), NONE);
    assert_eq!(missed(&tally, |line| line.starts_with("header: ")), NONE);
    assert_eq!(missed(&tally, |line| line.starts_with("source: ")), NONE);
    assert_eq!(missed(&tally, |line| line.starts_with("miss: ")), NONE);
}

#[test]
fn a_third_of_the_misses_is_on_the_port_on_an_address_and_on_both() {
    for seed in 1..=3 {
        let tally = tallied(seed, Area::Judge, 60_000);
        let kinds = ["the port", "an address", "both"];
        let counts = kinds.map(|kind| tally.of(&format!("miss: on {kind}")));
        let all: u64 = counts.iter().sum();
        assert!(all >= 9_000, "{all}");
        for count in counts {
            let share = 100 * count;
            assert!((31 * all..=36 * all).contains(&share), "{counts:?}");
        }
    }
}

/// The frames that classifiers let pass, and those that they did not.
fn frames_judged(seed: u64, count: usize) -> [Vec<Vec<u8>>; 2] {
    let mut session = Session::default();
    let mut judged = [Vec::new(), Vec::new()];
    for request in Generator::new(seed, Area::Judge).take(count) {
        let answer = session.answer(request.clone());
        let words: Vec<&str> = answer.split(' ').collect();
        match (request, &words[..]) {
            (Request::Judge(_, _, frame), ["forward", number, _]) if *number != "0" => {
                judged[0].push(frame);
            }
            (Request::Judge(_, _, frame), ["filtered"]) => judged[1].push(frame),
            _ => {}
        }
    }
    judged
}

#[test]
fn classifiers_let_17_in_100_of_the_judged_frames_pass() {
    let [passed, _] = frames_judged(1, 60_000).map(|frames| frames.len());
    let requests = made(1, Area::Judge, 60_000);
    let judged = requests.iter().filter(|r| matches!(r, Request::Judge(..)));
    assert!(100 * passed >= 17 * judged.count(), "{passed}");
}

#[test]
fn a_quarter_of_the_frames_that_classifiers_judge_have_options() {
    for frames in frames_judged(1, 20_000) {
        let options = |frame: &&Vec<u8>| frame.get(14).is_some_and(|first| first & 0x0F > 5);
        let with_options = frames.iter().filter(options).count();
        assert!(frames.len() >= 1_000, "{}", frames.len());
        assert!(4 * with_options >= frames.len(), "{with_options}");
    }
}

#[test]
fn ports_at_both_ends_of_a_range_decide_often() {
    let tally = tallied(1, Area::Judge, 20_000);
    let places = [
        ("port at the start: forward", 100),
        ("port at the end: forward", 100),
        ("port 1 below the start: filtered", 60),
        ("port 1 past the end: filtered", 60),
    ];
    for options in ["options", "no options"] {
        for (place, least) in places {
            let line = format!("header: {options}, {place}");
            assert!(tally.of(&line) >= least, "{line}: {}", tally.of(&line));
        }
    }
}

#[test]
fn every_line_about_modems_is_seen_in_10000_requests_of_their_area() {
    let tally = tallied(1, Area::Modem, 10_000);
    assert_eq!(missed(&tally, |line| line.contains("modem")), NONE);
}

#[test]
fn a_message_that_recv_completes_has_lines_for_06_to_15_and_none_for_03() {
    let tally = Tally::default();
    let lines = tally.lines().map(|(line, _)| line);
    let refused: Vec<&str> = lines
        .filter_map(|line| line.strip_prefix("recv: message refused "))
        .collect();
    let numbers = ["06", "07", "08", "09", "10", "11", "12", "13", "14", "15"];
    assert_eq!(refused, numbers);
}

#[test]
fn every_refusal_has_a_line_of_the_tally() {
    let tally = Tally::default();
    for number in 1..=21 {
        let ending = format!("refused {number:02}");
        assert!(
            tally.lines().any(|(line, _)| line.ends_with(&ending)),
            "{ending}"
        );
    }
}
