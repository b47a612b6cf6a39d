//! The plain peers do the library's work: on every input that is measured both give the same answers.

use dsg::lent::{self, Piece, Refused, Verdict};
use dsg::records::Client;
use dsg::{Collection, Event, Modem, Table, BUFFER_BYTES};
use measure::inputs::{
    frame, long_rows, ports_at, ports_message, sixteen_bodies, sixteen_bodies_of_elements,
    table_message, unlisted, with_alert, without_port, LONGEST, PORTS_DESTINATION,
};
use measure::plain;
use measure::plain::collect::Answer;

fn messages() -> Vec<Vec<u8>> {
    let mut messages: Vec<Vec<u8>> = [0, 1, 8, 32].map(table_message).into();
    messages.extend([Vec::new(), long_rows(), unlisted(LONGEST), unlisted(1_500)]);
    messages
}

#[test]
fn reads_the_same_tables_and_refuses_alike_at_every_cut() {
    for message in messages() {
        assert!(message.len() <= LONGEST);
        let step = (message.len() / 500).max(1);
        for end in (0..=message.len()).step_by(step).chain([message.len()]) {
            let (mut ours, mut theirs) = (Table::default(), Table::default());
            let answer = lent::read_table(&mut ours, &message[..end]);
            let plain = plain::read::read_table(&mut theirs, &message[..end]);
            assert_eq!(
                answer.map_err(|r| (r.number, r.offset)),
                plain,
                "cut at {end}"
            );
            assert_eq!(ours, theirs, "cut at {end}");
        }
    }
}

#[test]
fn refuses_the_same_damaged_messages() {
    let message = table_message(32);
    for at in 0..message.len() {
        for byte in [0, 1, 9, 255] {
            let mut damaged = message.clone();
            damaged[at] = byte;
            let (mut ours, mut theirs) = (Table::default(), Table::default());
            let answer = lent::read_table(&mut ours, &damaged);
            let plain = plain::read::read_table(&mut theirs, &damaged);
            assert_eq!(
                answer.map_err(|r| (r.number, r.offset)),
                plain,
                "byte {at} is {byte}"
            );
            assert_eq!(ours, theirs, "byte {at} is {byte}");
        }
    }
}

/// The library and plain Rust, each with a record and buffers.
struct Both {
    ours: (Collection, Vec<u8>, Vec<u8>),
    theirs: (Collection, Vec<u8>, Vec<u8>),
}

impl Both {
    fn new(strict: bool) -> Both {
        let buffer = || vec![0u8; BUFFER_BYTES];
        let lent = || (Collection::empty(strict), buffer(), buffer());
        Both {
            ours: lent(),
            theirs: lent(),
        }
    }

    /// What both answer, and leave alike.
    fn take(&mut self, body: &[u8]) -> Answer {
        let (held, slots, join) = &mut self.ours;
        let ours = match lent::collect(held, slots, join, body) {
            Err(Refused::Dropped(refusal)) => {
                assert_eq!(refusal.number, 21);
                Answer::Dropped(refusal.offset)
            }
            Err(refused) => Answer::Refused(refused.refusal().number),
            Ok(Piece::Repeat) => Answer::Repeat,
            Ok(Piece::Waiting(empty)) => Answer::Waiting(empty),
            Ok(Piece::Complete(lent::Part::Body(part) | lent::Part::Join(part))) => {
                Answer::Complete(part.len())
            }
        };
        let (held, slots, join) = &mut self.theirs;
        assert_eq!(plain::collect::collect(held, slots, join, body), ours);
        assert!(self.ours == self.theirs, "what {ours:?} leaves");
        ours
    }

    /// What the last of these bodies is answered.
    fn take_all<'a>(&mut self, bodies: impl IntoIterator<Item = &'a Vec<u8>>) -> Option<Answer> {
        bodies.into_iter().map(|body| self.take(body)).last()
    }
}

#[test]
fn collects_the_same_messages() {
    for strict in [false, true] {
        let bodies = sixteen_bodies(&long_rows());
        let mut both = Both::new(strict);
        // the first piece ends inside an element
        let complete = [Answer::Complete(LONGEST), Answer::Dropped(1_497)][usize::from(strict)];
        let again = [Answer::Repeat, Answer::Dropped(1_497)][usize::from(strict)];
        assert_eq!(both.take_all(bodies.iter().rev()), Some(complete));
        assert_eq!(both.take_all(&bodies), Some(again));
        assert_eq!(both.take(&[7]), Answer::Refused(2));
        assert_eq!(both.take(&[8, 2, 3]), Answer::Refused(5));
        assert_eq!(both.take(&[8, 2, 2]), Answer::Waiting(1));
        assert_eq!(both.take(&[9, 1, 1, 50]), Answer::Complete(1));
        assert_eq!(both.take(&[9, 1, 1, 50]), Answer::Repeat);
    }
}

#[test]
fn sixteen_pieces_between_elements_are_complete_in_both_settings() {
    // real rows: a configuration of 210 bytes and five rows of 256, then five to a piece
    let inputs = [
        (long_rows(), 1_490, 1_280),
        (unlisted(LONGEST), 1_496, 1_496),
    ];
    for (message, first, each) in inputs {
        let bodies = sixteen_bodies_of_elements(&message);
        let pieces: Vec<&[u8]> = bodies.iter().map(|body| &body[3..]).collect();
        let lengths: Vec<usize> = pieces.iter().map(|piece| piece.len()).collect();
        assert_eq!(lengths[0], first);
        assert_eq!(lengths[1..], [each; 15]);
        let joined = pieces.concat();
        assert!(message.starts_with(&joined));
        for strict in [false, true] {
            let mut both = Both::new(strict);
            let complete = Some(Answer::Complete(joined.len()));
            assert_eq!(both.take_all(&bodies), complete);
            let (held, _, join) = &both.theirs;
            assert_eq!(join[..joined.len()], joined);
            assert_eq!(
                held.lengths[..],
                lengths.iter().map(|&n| n as u16).collect::<Vec<_>>()
            );
            let judged = plain::cuts::first_bad_cut(&joined, &held.lengths);
            assert_eq!(judged, None);
        }
    }
}

/// The bodies of a message that is cut at these places.
fn bodies_cut_at(message: &[u8], cuts: &[usize]) -> Vec<Vec<u8>> {
    let bounds = [&[0], cuts, &[message.len()]].concat();
    let pieces = bounds.windows(2).map(|pair| &message[pair[0]..pair[1]]);
    let number = cuts.len() as u8 + 1;
    let body = |(piece, sequence): (&[u8], u8)| [&[7, number, sequence], piece].concat();
    pieces.zip(1..).map(body).collect()
}

/// Messages that two pieces carry: whole elements, and such that at some place have a faulty head.
fn messages_to_cut() -> Vec<Vec<u8>> {
    let rows = table_message(8)[..1_400].to_vec();
    let lone = [&unlisted(300)[..], &[50]].concat();
    // where the configuration has its length byte, and the first and the fourteenth classifier
    let damaged = [1, 211, 692].map(|at| {
        let mut damaged = rows.clone();
        damaged[at] = 255;
        damaged
    });
    [vec![unlisted(700), lone, rows], damaged.to_vec()].concat()
}

#[test]
fn judges_the_same_cuts() {
    let (mut good, mut bad) = (0, 0);
    for message in messages_to_cut() {
        let places = 0..=message.len();
        let cuttings = places.flat_map(|cut| {
            let behind = cut + (message.len() - cut) / 2;
            [vec![cut], vec![0, cut], vec![cut, behind]]
        });
        for cuts in cuttings {
            let bodies = bodies_cut_at(&message, &cuts);
            let lengths: Vec<u16> = bodies.iter().map(|body| body.len() as u16 - 3).collect();
            let answer = Both::new(true).take_all(&bodies);
            let judged = plain::cuts::first_bad_cut(&message, &lengths);
            let said = judged.map_or(Answer::Complete(message.len()), Answer::Dropped);
            assert_eq!(answer, Some(said), "cut at {cuts:?}");
            *(if judged.is_some() {
                &mut bad
            } else {
                &mut good
            }) += 1;
        }
    }
    assert!(good > 1_000 && bad > 5_000, "{good} good, {bad} bad");
}

#[test]
fn judges_alike_with_and_without_a_prepared_tunnel() {
    use plain::judge::Verdict as Plain;
    let tables = [table_message(32), ports_message()].map(|message| {
        let mut table = Table::default();
        table.read(&message).expect("accepted");
        table
    });
    let mut frames = vec![
        frame(9, 17, 0x1234),
        frame(8, 17, 0x1234),
        frame(9, 99, 0x1234),
        frame(9, 12, 0x0FFF),
        vec![0; 13],
        vec![0; 1519],
    ];
    for cut in [33, 34, 37, 38, 41, 42, 132] {
        let mut frame = with_alert(frame(9, 17, 0x1234));
        frame.truncate(cut);
        frames.push(frame);
    }
    for words in [0, 4, 7, 15] {
        let mut frame = frame(9, 17, 0x1234);
        frame[14] = 0x40 | words;
        frames.push(frame);
    }
    for ports in (0..8).map(ports_at) {
        let (start, end) = ports.into_inner();
        let at = |port| frame(9, PORTS_DESTINATION, port);
        frames.extend([start - 1, start, end, end + 1].map(at));
        frames.push(frame(9, PORTS_DESTINATION + 1, start));
        frames.push(without_port(at(start)));
    }
    let cases = frames
        .iter()
        .flat_map(|frame| tables.iter().map(move |table| (table, frame)));
    for ((table, frame), rule) in cases.flat_map(|case| (0..34u8).map(move |rule| (case, rule))) {
        let client = Client {
            kind: 4,
            value: u64::from(rule) << 8 | 3,
        };
        for ucid in [None, Some(4), Some(99)] {
            let ours = lent::judge_frame(table, client, ucid, frame);
            let theirs = match plain::judge::judge_frame(table, client, ucid, frame) {
                Plain::Refused(number) => Err(number),
                Plain::Other => Ok(Verdict::Other),
                Plain::Filtered => Ok(Verdict::Filtered),
                Plain::Forward(classifier) => Ok(Verdict::Forward {
                    classifier,
                    payload: &frame[14..],
                }),
            };
            assert_eq!(ours.map_err(|r| r.number), theirs);
            let prepared = lent::prepare_tunnel(table, client, ucid).judge(frame);
            assert_eq!(prepared, ours);
            let chosen = lent::choose_rule(table, client, ucid).ok();
            assert_eq!(chosen, plain::judge::choose_rule(table, client, ucid));
        }
    }
}

#[test]
fn steps_the_modem_alike() {
    let events = [
        Event::Start { permitted: true },
        Event::Locked,
        Event::ScanEmpty,
        Event::TableAccepted([0, 5, 1, 2]),
        Event::Packet,
        Event::Tick,
        Event::Enable,
        Event::UpstreamUp(4),
        Event::UpstreamLost,
        Event::Disable,
        Event::Hunt,
        Event::DownstreamLost,
    ];
    let (mut m1, mut m2) = (Modem::idle(), Modem::idle());
    let (mut clock, mut turn) = (0u32, 12345usize);
    for _ in 0..20_000 {
        turn = turn
            .wrapping_mul(6_364_136_223_846_793_005)
            .wrapping_add(1_442_695_040_888_963_407);
        let event = events[(turn >> 33) % events.len()];
        clock = clock.wrapping_add((turn >> 40) as u32 % 3_000);
        let answer = m1.on_event(clock, event).map_or_else(|r| r.number, |()| 0);
        let (number, [a, b, c, d]) = event.numbers();
        let plain = plain::modem::on_event(&mut m2, clock, number, a, b, c, d);
        assert_eq!(u32::from(answer), plain);
        assert_eq!(m1, m2);
    }
}

#[test]
fn lists_the_same_text() {
    for message in messages() {
        let mut table = Table::default();
        if table.read(&message).is_ok() {
            let mut out = vec![0; 4096];
            let length = plain::list::list_table(7, &table, &mut out).expect("it fits");
            assert_eq!(dsg::list_table(7, &table).as_bytes(), &out[..length]);
        }
    }
}
