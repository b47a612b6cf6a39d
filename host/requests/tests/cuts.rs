//! What the tally says of runs by their cuts. Each message is written out by hand, with where its
//! elements start, and what becomes of a run by Req 04 of document 02.

use reference::collecting::Record;
use reference::protocol::request::Request;
use reference::protocol::Session;
use requests::tally::Tally;

/// Elements of 3, 2 and 4 bytes: they start at 0, 3 and 5, and the message ends at 9.
const WHOLE: [u8; 9] = [99, 1, 7, 99, 0, 99, 2, 7, 7];
/// An element of 3 bytes; at 3 a lone byte, a length of 255, and a value that passes the end.
const GIVES_06: [u8; 4] = [99, 1, 7, 50];
const GIVES_07: [u8; 7] = [99, 1, 7, 50, 255, 99, 0];
const GIVES_08: [u8; 7] = [99, 1, 7, 50, 9, 99, 0];
const FAULTY: [(&str, &[u8]); 3] = [("06", &GIVES_06), ("07", &GIVES_07), ("08", &GIVES_08)];
const NONE: [&str; 0] = [];

/// A session, and what was counted in it.
#[derive(Default)]
struct Counted {
    session: Session,
    tally: Tally,
}

impl Counted {
    fn new(strict: bool) -> Counted {
        let mut counted = Counted::default();
        counted.renew(strict);
        counted
    }

    fn renew(&mut self, strict: bool) {
        let new = Request::New {
            slot: 24_000,
            join: 24_000,
            fill: 0,
            strict,
        };
        assert_eq!(self.seen(new, "ok"), NONE);
    }

    /// The lines about cuts that a request adds to, if its answer begins so.
    fn seen(&mut self, request: Request, answer: &str) -> Vec<String> {
        let counts = |tally: &Tally| -> Vec<(String, u64)> {
            let lines = tally.lines().map(|(line, count)| (line.to_string(), count));
            lines
                .filter(|(line, _)| line.starts_with("cuts: "))
                .collect()
        };
        let before = counts(&self.tally);
        let given = self.session.answer(request.clone());
        assert!(given.starts_with(answer), "{request}: {given}");
        self.tally.count(&request, &given);
        let after = counts(&self.tally);
        assert_eq!(before.len(), after.len(), "a line that is not listed");
        let added = after.into_iter().filter(|line| !before.contains(line));
        added
            .map(|(line, _)| line["cuts: ".len()..].to_string())
            .collect()
    }

    fn piece(&mut self, body: &[u8], answer: &str) -> Vec<String> {
        self.seen(Request::Piece(body.to_vec()), answer)
    }

    /// The lines that the last piece of a run adds to, if its answer begins so.
    fn run(&mut self, message: &[u8], cuts: &[usize], answer: &str) -> Vec<String> {
        let bodies = bodies(7, message, cuts);
        let (last, before) = bodies.split_last().expect("a body");
        for body in before {
            self.piece(body, "waiting");
        }
        self.piece(last, answer)
    }
}

/// The message in pieces that end at these places and at its end.
fn bodies(count: u8, message: &[u8], cuts: &[usize]) -> Vec<Vec<u8>> {
    let (mut bodies, mut start) = (Vec::new(), 0);
    for &end in cuts.iter().chain(&[message.len()]) {
        let head = [count, cuts.len() as u8 + 1, bodies.len() as u8 + 1];
        bodies.push([&head, &message[start..end]].concat());
        start = end;
    }
    bodies
}

/// The lines of a run that completes, but for the first and without their beginning.
fn completed(message: &[u8], cuts: &[usize]) -> Vec<String> {
    let lines = Counted::new(true).run(message, cuts, "complete join");
    cases(lines, "completed")
}

/// The lines of a run that is dropped at this place.
fn dropped(message: &[u8], cuts: &[usize], at: usize) -> Vec<String> {
    let answer = format!("refused 21 {at} |");
    let lines = Counted::new(true).run(message, cuts, &answer);
    cases(lines, "dropped")
}

fn cases(lines: Vec<String>, outcome: &str) -> Vec<String> {
    let (first, cases) = lines.split_first().expect("a line");
    assert_eq!(first, outcome);
    let beginning = format!("{outcome}, ");
    let case = |line: &String| line.strip_prefix(&beginning).map(str::to_string);
    cases
        .iter()
        .map(|line| case(line).expect("a case"))
        .collect()
}

#[test]
fn tells_cuts_at_starts_from_cuts_at_the_ends() {
    assert_eq!(completed(&WHOLE, &[3]), ["cut at a start"]);
    assert_eq!(completed(&WHOLE, &[3, 5]), ["cut at a start"]);
    let at_0 = ["cut at 0", "empty piece first"];
    assert_eq!(completed(&WHOLE, &[0]), at_0);
    let at_the_end = ["cut at the end", "empty piece last"];
    assert_eq!(completed(&WHOLE, &[9]), at_the_end);
    let all = ["cut at 0", "cut at a start", "cut at the end"];
    let empty = ["empty piece first", "empty piece last"];
    assert_eq!(completed(&WHOLE, &[0, 5, 9]), [&all[..], &empty].concat());
}

#[test]
fn tells_cuts_at_a_faulty_head_and_behind_it() {
    for (number, message) in FAULTY {
        let head = format!("the head that gives {number}");
        assert_eq!(completed(message, &[3]), [format!("cut at {head}")]);
        let end = format!("cut at the end, behind {head}");
        let last = "empty piece last".to_string();
        assert_eq!(completed(message, &[message.len()]), [end, last]);
    }
    for (number, message) in &FAULTY[1..] {
        let behind = format!("cut behind the head that gives {number}");
        for cut in [4, 5, 6] {
            assert_eq!(completed(message, &[cut]), [&behind[..]]);
        }
    }
    let at_once = ["cut at the head that gives 07", "empty piece first"];
    assert_eq!(completed(&GIVES_07[3..], &[0]), at_once);
}

#[test]
fn tells_empty_pieces_by_where_they_stand() {
    let (start, one, several) = (
        "cut at a start",
        "one empty piece inside",
        "several empty pieces inside",
    );
    assert_eq!(completed(&WHOLE, &[3, 3]), [start, one]);
    assert_eq!(completed(&WHOLE, &[3, 3, 3]), [start, several]);
    assert_eq!(completed(&WHOLE, &[3, 3, 5, 5, 5]), [start, one, several]);
    let sixteen = [start, "fifteen cuts at one place", several];
    assert_eq!(completed(&WHOLE, &[5; 15]), sixteen);
    assert_eq!(completed(&WHOLE, &[5; 14]), [start, several]);
    assert_eq!(completed(&[], &[0]), ["message of no bytes"]);
}

#[test]
fn tells_which_cut_is_bad() {
    let further = "bad cut further inside";
    let message = [99, 4, 7, 7, 7, 7, 99, 0];
    let rows: [(&[usize], &str); 5] = [
        (&[3], "the only cut bad"),
        (&[3, 6], "the first of several cuts bad"),
        (&[0, 3, 6], "one cut in the middle bad"),
        (&[0, 3], "the last of several cuts bad"),
        (&[3, 4], "more than one cut bad"),
    ];
    for (cuts, which) in rows {
        assert_eq!(dropped(&message, cuts, 3), [further, which]);
    }
    let there = "empty piece at the bad cut";
    let expected = [further, there, "more than one cut bad"];
    assert_eq!(dropped(&message, &[3, 3], 3), expected);
    let sixteen = [
        further,
        there,
        "fifteen cuts at one place",
        "more than one cut bad",
    ];
    assert_eq!(dropped(&message, &[3; 15], 3), sixteen);
}

#[test]
fn tells_how_a_bad_cut_stands_to_the_starts_beside_it() {
    let (before, behind) = ("bad cut 1 before a start", "bad cut 1 behind a start");
    let (before_end, only) = ("bad cut 1 before the end", "the only cut bad");
    assert_eq!(dropped(&WHOLE, &[1], 1), [behind, only]);
    assert_eq!(dropped(&WHOLE, &[2], 2), [before, only]);
    assert_eq!(dropped(&WHOLE, &[4], 4), [before, behind, only]);
    assert_eq!(dropped(&WHOLE, &[7], 7), ["bad cut further inside", only]);
    assert_eq!(dropped(&WHOLE, &[8], 8), [before_end, only]);
}

#[test]
fn tells_a_faulty_head_behind_a_bad_cut() {
    for (number, message) in FAULTY {
        let head = format!("the head that gives {number}");
        let (before, behind) = (
            format!("bad cut 1 before {head}"),
            format!("{head} behind the bad cut"),
        );
        let only = "the only cut bad";
        let expected = ["bad cut 1 behind a start", &behind, only];
        assert_eq!(dropped(message, &[1], 1), expected);
        assert_eq!(dropped(message, &[2], 2), [&before, &behind, only]);
    }
}

#[test]
fn says_nothing_of_pieces_that_wait_and_of_good_cuts_in_a_loose_collection() {
    let mut counted = Counted::new(true);
    for body in &bodies(7, &WHOLE, &[1, 2])[..2] {
        assert_eq!(counted.piece(body, "waiting"), NONE);
        assert_eq!(counted.piece(body, "repeat"), NONE);
    }
    assert_eq!(counted.piece(&[7, 0], "refused 2"), NONE);
    let mut loose = Counted::new(false);
    assert_eq!(loose.run(&WHOLE, &[3, 5], "complete join"), NONE);
    assert_eq!(loose.run(&WHOLE, &[], "complete body"), NONE);
    assert_eq!(loose.run(&GIVES_07, &[4], "complete join"), NONE);
}

#[test]
fn tells_one_piece_and_whether_a_head_is_faulty() {
    let mut counted = Counted::new(true);
    assert_eq!(counted.run(&WHOLE, &[], "complete body"), ["one piece"]);
    for (_, message) in FAULTY {
        let expected = ["one piece", "one piece, with a faulty head"];
        assert_eq!(counted.run(message, &[], "complete body"), expected);
    }
}

#[test]
fn tells_a_run_that_comes_in_both_settings() {
    let mut counted = Counted::new(false);
    let loose = ["loose, completed with a bad cut"];
    assert_eq!(counted.run(&WHOLE, &[1], "complete join"), loose);
    counted.renew(true);
    let lines = counted.run(&WHOLE, &[1], "refused 21 1 |");
    assert!(lines.contains(&"in both settings, dropped in one".to_string()));
    let lines = counted.run(&WHOLE, &[3], "complete join");
    assert!(!lines.iter().any(|line| line.starts_with("in both")));
    counted.renew(false);
    let both = ["in both settings, completed"];
    assert_eq!(counted.run(&WHOLE, &[3], "complete join"), both);
}

#[test]
fn tells_what_the_body_after_21_is() {
    let pieces = bodies(7, &WHOLE, &[1, 3]);
    let others = bodies(8, &WHOLE, &[1, 3]);
    let changed = [&pieces[1][..], &[9]].concat();
    let rows: [(&[u8], &str, &str); 6] = [
        (&pieces[2], "waiting 2", "the same body: waiting"),
        (&pieces[0], "waiting 2", "another body of the run: waiting"),
        (&others[2], "waiting 2", "a body of another run: waiting"),
        (&changed, "waiting 2", "a body of another run: waiting"),
        (&[7, 1, 1], "complete body", "one piece: complete"),
        (&[7, 3, 4], "refused 5", "a refused body: refused"),
    ];
    for (body, answer, case) in rows {
        let mut counted = Counted::new(true);
        counted.run(&WHOLE, &[1, 3], "refused 21 1 |");
        let lines = counted.piece(body, answer);
        assert_eq!(lines[0], format!("after 21, {case}"));
        let lines = counted.piece(&pieces[1], "");
        assert!(!lines.iter().any(|line| line.starts_with("after 21")));
    }
}

/// A record of count 7 that says that all these pieces are held but those.
fn given(bodies: &[Vec<u8>], lacking: &[usize]) -> Request {
    let mut record = Record {
        count: 7,
        number: bodies.len() as u8,
        ..Record::default()
    };
    for (slot, body) in bodies.iter().enumerate() {
        if !lacking.contains(&slot) {
            record.filled[slot] = true;
            record.lengths[slot] = body.len() as u16 - 3;
        }
    }
    Request::Rec(record)
}

#[test]
fn tells_repeats_in_complete_records() {
    let mut counted = Counted::new(true);
    let good = bodies(7, &WHOLE, &[3]);
    counted.run(&WHOLE, &[3], "complete join");
    let repeat = ["repeat in a completed run"];
    assert_eq!(counted.piece(&good[0], "repeat"), repeat);
    let bad = bodies(7, &WHOLE, &[4]);
    counted.run(&WHOLE, &[4], "refused 21 4 |");
    assert_eq!(counted.seen(given(&bad, &[]), "ok"), NONE);
    let repeat = ["repeat in a given record, complete with a bad cut"];
    assert_eq!(counted.piece(&bad[1], "repeat"), repeat);
}

#[test]
fn tells_runs_that_a_given_record_began() {
    let began = "begun by a given record".to_string();
    for (cut, answer, outcome) in [(3, "complete", "completed"), (4, "refused 21", "dropped")] {
        let mut counted = Counted::new(true);
        let bodies = bodies(7, &WHOLE, &[cut]);
        let lines = counted.run(&WHOLE, &[cut], answer);
        assert!(!cases(lines, outcome).contains(&began));
        counted.seen(given(&bodies, &[1]), "ok");
        let lines = counted.piece(&bodies[1], answer);
        assert!(cases(lines, outcome).contains(&began));
        let lines = counted.run(&WHOLE, &[1], "refused 21 1 |");
        assert!(!cases(lines, "dropped").contains(&began));
    }
}

#[test]
fn tells_what_the_setting_is_kept_over() {
    let kept = |lines: Vec<String>| -> Vec<String> {
        let cases = cases(lines, "dropped").into_iter();
        cases
            .filter(|case| case.starts_with("setting kept"))
            .collect()
    };
    let (over_21, over_given, over_anew) = (
        "setting kept over 21",
        "setting kept over a given record",
        "setting kept over a run begun anew",
    );
    let bad = |counted: &mut Counted| kept(counted.run(&WHOLE, &[1], "refused 21 1 |"));
    let mut counted = Counted::new(true);
    assert_eq!(bad(&mut counted), NONE);
    assert_eq!(bad(&mut counted), [over_21]);
    counted.renew(true);
    counted.seen(given(&[], &[]), "ok");
    assert_eq!(bad(&mut counted), [over_given]);
    counted.renew(true);
    counted.piece(&[8, 3, 1], "waiting 2");
    assert_eq!(bad(&mut counted), [over_anew]);
    assert_eq!(bad(&mut counted), [over_21, over_anew]);
}

#[test]
fn tells_what_recv_leaves_unread() {
    for (message, case) in [
        (WHOLE.to_vec(), "dropped by recv, would be accepted"),
        (GIVES_07.to_vec(), "dropped by recv, would be refused"),
        ([50, 0].repeat(2), "dropped by recv, would be refused"),
    ] {
        let mut counted = Counted::new(true);
        let [first, second] = &bodies(7, &message, &[1])[..] else {
            panic!("two bodies");
        };
        counted.seen(Request::Recv(first.clone()), "waiting 1");
        let lines = counted.seen(Request::Recv(second.clone()), "refused 21 1 |");
        assert!(lines.contains(&case.to_string()), "{lines:?}");
        let by_piece = Counted::new(true).run(&message, &[1], "refused 21 1 |");
        assert!(!by_piece.contains(&case.to_string()), "{by_piece:?}");
    }
}
