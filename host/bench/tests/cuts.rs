//! Small messages cut at every place and every two places, and into sixteen pieces, in both settings, taken
//! by the library and by the other program (document 02, Req 04).
//!
//! A message is written from a list of its elements, so that where it may be cut is known without reading
//! it. What each answer, record and buffer should be is written out by hand from the document.

use dsg::lent::{self, Part, Piece, Refused};
use dsg::Collection;
use reference::collecting::{take_piece, Record, Taken};
use reference::protocol::request::Request;
use reference::protocol::Session;
use requests::programs::ask;

const COUNT: u8 = 7;
const SLOT: usize = 1_500;
const BUFFER: usize = 24_000;
/// Every byte of the buffers when they are new.
const FILL: u8 = 0xDD;

/// The lengths of whole elements.
const LENGTHS: [u8; 3] = [0, 1, 3];

/// What stands behind the whole elements, and what its head itself gives.
type Ending = (&'static [u8], Option<u8>);
const ENDINGS: [Ending; 11] = [
    (&[], None),
    (&[50], Some(6)),
    (&[50, 255], Some(7)),
    (&[50, 255, 9], Some(7)),
    (&[50, 255, 99, 0], Some(7)),
    (&[50, 255, 99, 1, 0, 50], Some(7)),
    (&[50, 1], Some(8)),
    (&[50, 254, 9], Some(8)),
    (&[50, 3, 99, 0], Some(8)),
    (&[50, 4, 99, 0, 50], Some(8)),
    (&[50, 254, 50, 255, 99, 0], Some(8)),
];

/// A message, and what is known of it from its making.
struct Message {
    bytes: Vec<u8>,
    /// Where whole elements start.
    starts: Vec<usize>,
    /// The refusal of the first faulty head, and where that starts.
    faulty: Option<(u8, usize)>,
}

impl Message {
    /// Whole elements of these lengths, then an ending. In the values stand bytes that would be sound heads and
    /// faulty ones.
    fn of(lengths: &[u8], (ending, refusal): Ending) -> Message {
        let (mut bytes, mut starts) = (Vec::new(), Vec::new());
        for &length in lengths {
            starts.push(bytes.len());
            bytes.extend([99, length]);
            bytes.extend([0, 255].iter().cycle().take(length.into()));
        }
        let faulty = refusal.map(|number| (number, bytes.len()));
        bytes.extend(ending);
        Message {
            bytes,
            starts,
            faulty,
        }
    }

    fn end(&self) -> usize {
        self.bytes.len()
    }

    /// From where on pieces may end anywhere: the faulty head, or the end.
    fn judged_to(&self) -> usize {
        self.faulty.map_or(self.end(), |(_, at)| at)
    }

    /// Whether a piece may end there.
    fn allows(&self, cut: usize) -> bool {
        self.starts.contains(&cut) || cut >= self.judged_to()
    }

    /// How many places there are, and at how many of them a piece may end: at one for each whole element, and
    /// from the faulty head or the end on at all.
    fn places(&self) -> [usize; 2] {
        let places = self.end() + 1;
        [places, self.starts.len() + places - self.judged_to()]
    }

    fn first_bad(&self, cuts: &[usize]) -> Option<usize> {
        cuts.iter().copied().find(|&cut| !self.allows(cut))
    }

    /// The bodies of the message, cut at these places.
    fn bodies(&self, cuts: &[usize]) -> Vec<Vec<u8>> {
        let (mut bodies, mut start) = (Vec::new(), 0);
        for &end in cuts.iter().chain(&[self.end()]) {
            let head = [COUNT, cuts.len() as u8 + 1, bodies.len() as u8 + 1];
            bodies.push([&head, &self.bytes[start..end]].concat());
            start = end;
        }
        bodies
    }
}

/// All lists of up to so many of the lengths.
fn rows(most: usize) -> Vec<Vec<u8>> {
    let mut rows = vec![vec![]];
    let mut last = rows.clone();
    for _ in 0..most {
        let longer = last
            .iter()
            .flat_map(|row| LENGTHS.map(|length| [&row[..], &[length]].concat()));
        last = longer.collect();
        rows.extend(last.clone());
    }
    rows
}

fn messages(most: usize) -> impl Iterator<Item = Message> {
    let rows = rows(most).into_iter();
    rows.flat_map(|row| ENDINGS.map(|ending| Message::of(&row, ending)))
}

/// Every two places in order, the same one twice among them.
fn pairs(end: usize) -> impl Iterator<Item = [usize; 2]> {
    (0..=end).flat_map(move |first| (first..=end).map(move |second| [first, second]))
}

/// Every cut, and every two.
fn one_or_two_cuts(end: usize) -> impl Iterator<Item = Vec<usize>> {
    let one = (0..=end).map(|cut| vec![cut]);
    one.chain(pairs(end).map(|cuts| cuts.to_vec()))
}

/// How many pairs so many places make.
fn pair_count(places: usize) -> usize {
    places * (places + 1) / 2
}

/// What a body of several pieces is answered.
#[derive(Debug, PartialEq)]
enum Answer {
    Repeat,
    Waiting(usize),
    /// The bytes of the join buffer that are lent.
    Complete(usize),
    Dropped(usize),
    Other(String),
}

/// A record and its buffers.
struct Lent<R> {
    record: R,
    slots: Vec<u8>,
    join: Vec<u8>,
}

impl<R> Lent<R> {
    fn new(record: R) -> Lent<R> {
        Lent {
            record,
            slots: vec![FILL; BUFFER],
            join: vec![FILL; BUFFER],
        }
    }
}

impl Lent<Collection> {
    fn take(&mut self, body: &[u8]) -> Answer {
        match lent::collect(&mut self.record, &mut self.slots, &mut self.join, body) {
            Ok(Piece::Repeat) => Answer::Repeat,
            Ok(Piece::Waiting(empty)) => Answer::Waiting(empty),
            Ok(Piece::Complete(Part::Join(part))) if part.start == 0 => Answer::Complete(part.end),
            Err(Refused::Dropped(refusal)) if refusal.number == 21 => {
                Answer::Dropped(refusal.offset)
            }
            other => Answer::Other(format!("{other:?}")),
        }
    }
}

impl Lent<Record> {
    fn take(&mut self, body: &[u8]) -> Answer {
        match take_piece(&mut self.record, &mut self.slots, &mut self.join, body) {
            Ok(Taken::Repeat) => Answer::Repeat,
            Ok(Taken::Waiting(empty)) => Answer::Waiting(empty),
            Ok(Taken::CompleteJoin(message)) => Answer::Complete(message.len()),
            Err(refusal) if refusal.number == 21 => Answer::Dropped(refusal.offset),
            other => Answer::Other(format!("{other:?}")),
        }
    }
}

/// The library, the other program, and what both should have.
struct Three {
    library: Lent<Collection>,
    other: Lent<Record>,
    said: Lent<Record>,
}

impl Three {
    fn new() -> Three {
        Three {
            library: Lent::new(Collection::empty(false)),
            other: Lent::new(Record::default()),
            said: Lent::new(Record::default()),
        }
    }

    /// Chooses the setting; the buffers stay.
    fn renew(&mut self, strict: bool) {
        self.library.record = Collection::empty(strict);
        self.said.record = nothing(strict);
        self.other.record = nothing(strict);
    }

    /// Gives both a record; the buffers stay.
    fn give(&mut self, record: &Record) {
        self.library.record = numbers(record);
        self.said.record = record.clone();
        self.other.record = record.clone();
    }

    /// Both take the body, and answer so.
    fn take(&mut self, body: &[u8], said: Answer, cuts: &[usize]) {
        let case = || format!("{body:02x?} of a message cut at {cuts:?}");
        assert_eq!(self.library.take(body), said, "{}", case());
        assert_eq!(self.other.take(body), said, "{}", case());
    }

    /// The whole run, in order or the other way round, and what becomes of it. Gives whether it is dropped.
    fn run(&mut self, message: &Message, cuts: &[usize], backward: bool) -> bool {
        let strict = self.said.record.strict;
        let bad = message.first_bad(cuts).filter(|_| strict);
        let mut bodies = message.bodies(cuts);
        if backward {
            bodies.reverse();
        }
        let number = bodies.len();
        for (taken, body) in (1..).zip(&bodies) {
            self.store(body);
            let said = match (number - taken, bad) {
                (0, None) => Answer::Complete(message.end()),
                (0, Some(cut)) => Answer::Dropped(cut),
                (empty, _) => Answer::Waiting(empty),
            };
            self.take(body, said, cuts);
        }
        self.said.join[..message.end()].copy_from_slice(&message.bytes);
        if bad.is_some() {
            self.said.record = nothing(strict);
        }
        self.compare(cuts);
        bad.is_some()
    }

    /// What a body leaves before its run is judged.
    fn store(&mut self, body: &[u8]) {
        let (slot, piece) = (usize::from(body[2] - 1), &body[3..]);
        let record = &mut self.said.record;
        (record.count, record.number) = (body[0], body[1]);
        record.filled[slot] = true;
        record.lengths[slot] = piece.len() as u16;
        self.said.slots[slot * SLOT..][..piece.len()].copy_from_slice(piece);
    }

    fn compare(&self, cuts: &[usize]) {
        let said = &self.said;
        let (library, other) = (&self.library, &self.other);
        assert_eq!(meant(&library.record), said.record, "cut at {cuts:?}");
        assert_eq!(other.record, said.record, "cut at {cuts:?}");
        assert!(library.slots == said.slots, "slots, cut at {cuts:?}");
        assert!(other.slots == said.slots, "slots, cut at {cuts:?}");
        assert!(library.join == said.join, "join, cut at {cuts:?}");
        assert!(other.join == said.join, "join, cut at {cuts:?}");
    }
}

/// Nothing collected, in that setting.
fn nothing(strict: bool) -> Record {
    Record {
        count: 0,
        number: 0,
        filled: [false; 16],
        lengths: [0; 16],
        strict,
    }
}

/// What the numbers of a record mean.
fn meant(held: &Collection) -> Record {
    assert!(held.filled.iter().all(|&flag| flag <= 1) && held.strict <= 1);
    Record {
        count: held.count,
        number: held.number,
        filled: held.filled.map(|flag| flag == 1),
        lengths: held.lengths,
        strict: held.strict == 1,
    }
}

fn numbers(record: &Record) -> Collection {
    Collection {
        count: record.count,
        number: record.number,
        filled: record.filled.map(u8::from),
        lengths: record.lengths,
        strict: record.strict.into(),
    }
}

/// How many runs there were, and how many of them were dropped.
#[derive(Debug, Default, PartialEq)]
struct Counts {
    runs: usize,
    dropped: usize,
}

/// Takes the run in both settings, in order and the other way round.
fn take_all_ways(three: &mut Three, counts: &mut Counts, message: &Message, cuts: &[usize]) {
    for (strict, backward) in [(false, false), (false, true), (true, false), (true, true)] {
        three.renew(strict);
        counts.runs += 1;
        counts.dropped += usize::from(three.run(message, cuts, backward));
    }
}

#[test]
fn same_as_other_program_and_document_on_every_cut_and_every_two() {
    let (mut three, mut counts, mut said) = (Three::new(), Counts::default(), Counts::default());
    for message in messages(3) {
        for cuts in one_or_two_cuts(message.end()) {
            take_all_ways(&mut three, &mut counts, &message, &cuts);
        }
        let [places, good] = message.places();
        let all = places + pair_count(places);
        said.runs += 4 * all;
        said.dropped += 2 * (all - good - pair_count(good));
    }
    assert_eq!(counts, said);
    assert!(
        counts.runs > 150_000 && counts.dropped > 50_000,
        "{counts:?}"
    );
}

/// Fifteen cuts at two places: one, eight or all but one of them at the first.
fn fifteen_cuts([first, second]: [usize; 2]) -> [Vec<usize>; 3] {
    [1, 8, 14].map(|many| [vec![first; many], vec![second; 15 - many]].concat())
}

#[test]
fn same_as_other_program_and_document_on_sixteen_pieces() {
    let (mut three, mut counts, mut said) = (Three::new(), Counts::default(), Counts::default());
    for message in messages(2) {
        for cuts in pairs(message.end()).flat_map(fifteen_cuts) {
            take_all_ways(&mut three, &mut counts, &message, &cuts);
        }
        let [places, good] = message.places();
        said.runs += 3 * 4 * pair_count(places);
        said.dropped += 3 * 2 * (pair_count(places) - pair_count(good));
    }
    assert_eq!(counts, said);
    assert!(
        counts.runs > 40_000 && counts.dropped > 10_000,
        "{counts:?}"
    );
}

#[test]
fn same_as_other_program_and_document_on_every_cut_of_long_elements() {
    let (mut three, mut counts) = (Three::new(), Counts::default());
    let rows: [&[u8]; 4] = [&[254, 0, 253], &[127, 128], &[0, 129, 1], &[200, 254]];
    for message in rows
        .iter()
        .flat_map(|row| ENDINGS.map(|ending| Message::of(row, ending)))
    {
        let (runs, dropped) = (counts.runs, counts.dropped);
        for cut in 0..=message.end() {
            take_all_ways(&mut three, &mut counts, &message, &[cut]);
        }
        let [places, good] = message.places();
        assert_eq!(counts.runs - runs, 4 * places);
        assert_eq!(counts.dropped - dropped, 2 * (places - good));
    }
}

#[test]
fn a_run_that_was_dropped_is_dropped_again_and_a_complete_one_repeats() {
    let mut three = Three::new();
    let mut counts = Counts::default();
    for message in messages(2) {
        for cuts in one_or_two_cuts(message.end()) {
            three.renew(true);
            counts.runs += 1;
            if three.run(&message, &cuts, false) {
                assert!(three.run(&message, &cuts, true));
                assert!(three.run(&message, &cuts, false));
                counts.dropped += 1;
            } else {
                for body in message.bodies(&cuts) {
                    three.take(&body, Answer::Repeat, &cuts);
                }
                three.compare(&cuts);
            }
        }
    }
    assert!(counts.runs > 8_000 && counts.dropped > 2_000, "{counts:?}");
}

#[test]
fn a_given_record_is_judged_by_the_body_that_completes_it_and_by_no_repeat() {
    let (mut three, mut dropped) = (Three::new(), 0);
    for message in messages(2) {
        for cuts in one_or_two_cuts(message.end()) {
            three.renew(false);
            three.run(&message, &cuts, false);
            let whole = Record {
                strict: true,
                ..three.said.record.clone()
            };
            let bad = message.first_bad(&cuts);
            for (slot, body) in message.bodies(&cuts).iter().enumerate() {
                three.give(&whole);
                three.take(body, Answer::Repeat, &cuts);
                three.compare(&cuts);
                let mut lacking = whole.clone();
                (lacking.filled[slot], lacking.lengths[slot]) = (false, 0);
                three.give(&lacking);
                let said = bad.map_or(Answer::Complete(message.end()), Answer::Dropped);
                three.take(body, said, &cuts);
                three.said.record = bad.map_or(whole.clone(), |_| nothing(true));
                three.compare(&cuts);
                dropped += usize::from(bad.is_some());
            }
        }
    }
    assert!(dropped > 8_000, "{dropped}");
}

#[test]
fn one_piece_is_never_judged() {
    let mut three = Three::new();
    three.renew(true);
    for message in messages(3) {
        let body = &message.bodies(&[])[0];
        three.store(body);
        let Lent {
            record,
            slots,
            join,
        } = &mut three.library;
        // the message before is still held, so each body begins a run anew
        let answer = lent::collect(record, slots, join, body);
        let lent = Piece::Complete(Part::Body(3..body.len()));
        assert_eq!(answer, Ok(lent), "{body:02x?}");
        let Lent {
            record,
            slots,
            join,
        } = &mut three.other;
        let answer = take_piece(record, slots, join, body);
        assert_eq!(answer, Ok(Taken::CompleteBody(&message.bytes)));
        three.compare(&[]);
    }
}

/// A request of the protocol, and what its answer begins with: all but the sums of the buffers.
type Line = (Request, String);

/// A record in the protocol's words: so many bytes in each of these slots that is filled.
fn record_text(count: u8, slots: &[Option<usize>]) -> String {
    let mut all = slots.to_vec();
    all.resize(16, None);
    let flags = all
        .iter()
        .map(|length| if length.is_some() { "1" } else { "0" });
    let lengths = all.iter().map(|length| length.unwrap_or(0).to_string());
    let (flags, lengths): (String, Vec<String>) = (flags.collect(), lengths.collect());
    format!("{count} {} {flags} {}", slots.len(), lengths.join(","))
}

fn hex(bytes: &[u8]) -> String {
    let digits = bytes.iter().map(|byte| format!("{byte:02x}"));
    let digits: String = digits.collect();
    if digits.is_empty() {
        "-".to_string()
    } else {
        digits
    }
}

/// What a complete message is answered: it is lent by `piece` and read by `recv`, which knows no element of it.
fn complete_text(message: &Message, read: bool) -> String {
    match (read, message.faulty) {
        (false, _) => format!("complete join {}", hex(&message.bytes)),
        (true, Some((number, at))) => format!("message refused {number} {at}"),
        (true, None) => "accepted table j128 2 600 300 1800 -".to_string(),
    }
}

/// The run in a collection of that setting, by `piece` or by `recv`.
fn run_lines(message: &Message, cuts: &[usize], strict: bool, read: bool) -> Vec<Line> {
    let new = Request::New {
        slot: BUFFER,
        join: BUFFER,
        fill: FILL,
        strict,
    };
    let mut lines = vec![(new, "ok".to_string())];
    let bodies = message.bodies(cuts);
    let mut lengths = vec![None; bodies.len()];
    for (slot, body) in bodies.into_iter().enumerate() {
        lengths[slot] = Some(body.len() - 3);
        let empty = lengths.len() - slot - 1;
        let bad = message.first_bad(cuts).filter(|_| strict && empty == 0);
        let (answer, record) = match (empty, bad) {
            (0, None) => (complete_text(message, read), record_text(COUNT, &lengths)),
            (0, Some(cut)) => (format!("refused 21 {cut}"), record_text(0, &[])),
            _ => (format!("waiting {empty}"), record_text(COUNT, &lengths)),
        };
        let request = if read {
            Request::Recv(body)
        } else {
            Request::Piece(body)
        };
        lines.push((request, format!("{answer} | {record} | ")));
    }
    lines
}

/// Every run loose and then strict: by `piece` every cut and every two, by `recv` every cut.
fn sweep() -> Vec<[Vec<Line>; 2]> {
    let messages = ENDINGS.map(|ending| Message::of(&[1, 0], ending));
    let mut sweep = Vec::new();
    for message in &messages {
        for cuts in one_or_two_cuts(message.end()) {
            for read in [false, true] {
                if !read || cuts.len() == 1 {
                    sweep.push([false, true].map(|strict| run_lines(message, &cuts, strict, read)));
                }
            }
        }
    }
    sweep
}

/// The sums of the buffers, behind what an answer begins with.
fn sums(answer: &str) -> &str {
    answer.rsplit(" | ").next().unwrap_or_default()
}

#[test]
fn bench_answers_so_and_a_dropped_run_leaves_the_buffers_of_a_complete_one() {
    let asked = || sweep().into_iter().flatten().flatten();
    let requests = asked().map(|(request, _)| request);
    let mut answers = ask(env!("CARGO_BIN_EXE_bench"), requests).expect("bench starts");
    let mut session = Session::default();
    let mut dropped = 0;
    for runs in sweep() {
        let mut left = Vec::new();
        for lines in &runs {
            let mut sums_after = Vec::new();
            for (request, said) in lines {
                let answer = answers.next().expect("an answer");
                assert_eq!(session.answer(request.clone()), answer, "{request}");
                assert!(answer.starts_with(said), "{request}: {answer}, not {said}");
                sums_after.push(sums(&answer).to_string());
                dropped += usize::from(said.starts_with("refused 21"));
            }
            left.push(sums_after);
        }
        assert_eq!(left[0], left[1]);
    }
    assert_eq!(answers.next(), None);
    assert!(answers.ended_well());
    // The first two elements are of 3 and 2 bytes, so places 1, 2 and 4 are bad. Of p places 3 p single cuts and
    // pairs have one of them; the messages have 6 places each and one more for each of the 36 bytes of their endings.
    // By `recv` come the single cuts alone.
    assert_eq!(dropped, 3 * (11 * 6 + 36) + 3 * 11);
}
