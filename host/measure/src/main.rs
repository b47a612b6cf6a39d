//! `make measure`: one run, a line for each piece of work, the library beside plain Rust and, where it
//! applies, beside a plain copy of the same bytes. The library is called as a C host calls it. Times are
//! medians of interleaved rounds.

use dsg::ffi;
use dsg::records::Client;
use dsg::{Collection, Event, Modem, Table, Tunnel, BUFFER_BYTES};
use measure::inputs::{
    frame, long_rows, ports_at, ports_message, sixteen_bodies, sixteen_bodies_of_elements,
    table_message, unlisted, with_alert, without_port, LONGEST, PORTS_DESTINATION,
};
use measure::plain;
use measure::rounds::{longer, median, medians, print_line, report, runner, samples, Runner};
use measure::writing::writing_all;
use std::cell::RefCell;
use std::hint::black_box;

/// The client that only rule `n` of the measured tables lists.
fn client(n: u8) -> Client {
    Client {
        kind: 4,
        value: u64::from(n) << 8 | 3,
    }
}

fn table_of(message: &[u8]) -> Table {
    let mut table = Table::default();
    table.read(message).expect("the message is accepted");
    table
}

fn full_table() -> Table {
    table_of(&table_message(32))
}

fn reading(what: &str, message: &[u8]) {
    let (mut ours, mut theirs) = (Table::default(), Table::default());
    report(
        what,
        1,
        vec![
            runner("library", || {
                black_box(ffi::read(&mut ours, black_box(message)));
            }),
            runner("plain", || {
                black_box(plain::read::read_table(&mut theirs, black_box(message)).is_ok());
            }),
        ],
    );
}

/// Sixteen pieces from nothing to the whole message, and the same bytes copied twice.
fn collecting() {
    let message = long_rows();
    let bodies = sixteen_bodies(&message);
    let buffers = || (vec![0u8; BUFFER_BYTES], vec![0u8; BUFFER_BYTES]);
    let ((mut s1, mut j1), (mut s2, mut j2), (mut s3, mut j3)) = (buffers(), buffers(), buffers());
    report(
        "collecting sixteen pieces of 1,497 bytes",
        1,
        vec![
            runner("library", || {
                let mut held = Collection::default();
                for body in &bodies {
                    black_box(ffi::collect(&mut held, &mut s1, &mut j1, black_box(body)));
                }
            }),
            runner("plain", || {
                let mut held = Collection::default();
                for body in &bodies {
                    black_box(plain::collect::collect(
                        &mut held,
                        &mut s2,
                        &mut j2,
                        black_box(body),
                    ));
                }
            }),
            runner("memcpy", || {
                for (k, body) in bodies.iter().enumerate() {
                    let piece = black_box(&body[3..]);
                    s3[k * 1500..k * 1500 + piece.len()].copy_from_slice(piece);
                }
                let mut at = 0;
                for (k, body) in bodies.iter().enumerate() {
                    let n = body.len() - 3;
                    j3[at..at + n].copy_from_slice(&black_box(&s3)[k * 1500..k * 1500 + n]);
                    at += n;
                }
                black_box(&mut j3);
            }),
        ],
    );
}

/// A record of that setting and two buffers that hold these bodies.
fn collected_in(strict: bool, bodies: &[Vec<u8>]) -> (Collection, Vec<u8>, Vec<u8>) {
    let (mut slots, mut join) = (vec![0u8; BUFFER_BYTES], vec![0u8; BUFFER_BYTES]);
    let mut held = Collection::empty(strict);
    for body in bodies {
        ffi::collect(&mut held, &mut slots, &mut join, body);
    }
    (held, slots, join)
}

/// A loose record and two buffers that hold these bodies.
fn collected(bodies: &[Vec<u8>]) -> (Collection, Vec<u8>, Vec<u8>) {
    collected_in(false, bodies)
}

/// A slot buffer and a join buffer that several runners are lent in turn, so that they differ in nothing but their work.
type Lent = RefCell<(Vec<u8>, Vec<u8>)>;

/// What takes a body: the library, or plain Rust.
type Collect<A> = fn(&mut Collection, &mut [u8], &mut [u8], &[u8]) -> A;

/// These bodies behind those that are held; the slot buffer has them already.
fn takes<'a, A: 'a>(
    (name, collect): (&'static str, Collect<A>),
    lent: &'a Lent,
    strict: bool,
    held: &'a [Vec<u8>],
    bodies: &'a [Vec<u8>],
) -> Runner<'a> {
    let (before, ..) = collected_in(strict, held);
    runner(name, move || {
        let mut held = before;
        let (slots, join) = &mut *lent.borrow_mut();
        again(bodies, |b| collect(&mut held, slots, join, b));
    })
}

/// Sixteen pieces that end between elements, in both settings. The cuts alone are what the last piece takes longer in a strict
/// collection; beside them plain Rust judges the joined message and does nothing else.
fn collecting_strictly(what: &str, message: &[u8]) {
    let bodies = sixteen_bodies_of_elements(message);
    let (fifteen, last) = bodies.split_at(15);
    let (whole, slots, join) = collected_in(true, &bodies);
    let message = join.clone();
    let lent = &RefCell::new((slots, join));
    let length: usize = bodies.iter().map(|body| body.len() - 3).sum();
    let library: (_, Collect<_>) = ("library", ffi::collect);
    let plain: (_, Collect<_>) = ("plain", plain::collect::collect);
    let times = samples(&mut [
        takes(library, lent, false, &[], &bodies),
        takes(plain, lent, false, &[], &bodies),
        takes(library, lent, true, &[], &bodies),
        takes(plain, lent, true, &[], &bodies),
        takes(library, lent, false, fifteen, last),
        takes(library, lent, true, fifteen, last),
        runner("plain", || {
            let (message, lengths) = (black_box(&message[..length]), black_box(&whole.lengths));
            black_box(plain::cuts::first_bad_cut(message, lengths));
        }),
    ]);
    let all = |name, k: usize| (name, median(times[k].clone()));
    let cuts = ("library", longer(&times[5], &times[4]));
    let collecting = format!("collecting {what}, {length} bytes");
    print_line(
        &format!("{collecting}, loose"),
        &[all("library", 0), all("plain", 1)],
    );
    print_line(
        &format!("{collecting}, strict"),
        &[all("library", 2), all("plain", 3)],
    );
    print_line(
        &format!("collecting {what}, strict to loose"),
        &[all("strict", 2), all("loose", 0)],
    );
    print_line(
        &format!("judging the cuts of {what}, alone"),
        &[cuts, all("plain", 6)],
    );
}

/// A repeated piece, and the same bytes compared.
fn repeating() {
    let bodies = sixteen_bodies(&long_rows());
    let ((mut h1, mut s1, mut j1), (mut h2, mut s2, mut j2)) =
        (collected(&bodies), collected(&bodies));
    let slot = s1[..1497].to_vec();
    report(
        "a repeated piece of 1,497 bytes",
        1,
        vec![
            runner("library", || {
                black_box(ffi::collect(
                    &mut h1,
                    &mut s1,
                    &mut j1,
                    black_box(&bodies[0]),
                ));
            }),
            runner("plain", || {
                black_box(plain::collect::collect(
                    &mut h2,
                    &mut s2,
                    &mut j2,
                    black_box(&bodies[0]),
                ));
            }),
            runner("memcmp", || {
                black_box(black_box(&bodies[0])[3..] == *black_box(&slot));
            }),
        ],
    );
}

/// The sixteen pieces of a message once more, and the same bytes compared. What the record takes by itself is
/// the time for sixteen empty pieces once more: the second line is without it.
fn repeating_all() {
    let full = sixteen_bodies(&long_rows());
    let empty: Vec<Vec<u8>> = (1..=16).map(|sequence| vec![7, 16, sequence]).collect();
    let mut library = [collected(&full), collected(&empty)];
    let mut plain = [collected(&full), collected(&empty)];
    let [(h1, s1, j1), (h2, s2, j2)] = &mut library;
    let [(h3, s3, j3), (h4, s4, j4)] = &mut plain;
    let slots = s1.clone();
    let times = medians(&mut [
        runner("library", || again(&full, |b| ffi::collect(h1, s1, j1, b))),
        runner("library", || again(&empty, |b| ffi::collect(h2, s2, j2, b))),
        runner("plain", || {
            again(&full, |b| plain::collect::collect(h3, s3, j3, b))
        }),
        runner("plain", || {
            again(&empty, |b| plain::collect::collect(h4, s4, j4, b))
        }),
        runner("memcmp", || {
            for (k, body) in full.iter().enumerate() {
                let piece = black_box(&body[3..]);
                black_box(*piece == black_box(&slots)[k * 1500..k * 1500 + piece.len()]);
            }
        }),
    ]);
    let all = |name, k: usize| (name, times[k]);
    let bytes = |name, k: usize| (name, times[k] - times[k + 1]);
    print_line(
        "sixteen repeated pieces of 1,497 bytes",
        &[all("library", 0), all("plain", 2), all("memcmp", 4)],
    );
    print_line(
        "their comparison, without the record's work",
        &[bytes("library", 0), bytes("plain", 2), all("memcmp", 4)],
    );
}

/// Each body once.
fn again<T>(bodies: &[Vec<u8>], mut take: impl FnMut(&[u8]) -> T) {
    for body in bodies {
        black_box(take(black_box(body)));
    }
}

fn choosing(rules: u8) {
    let table = table_of(&table_message(rules));
    report(
        &format!("choosing, {rules} rules of 8 clients"),
        1,
        vec![
            runner("library", || {
                black_box(ffi::choose(
                    black_box(&table),
                    4,
                    client(rules - 1).value,
                    1,
                    4,
                ));
            }),
            runner("plain", || {
                black_box(plain::judge::choose_rule(
                    black_box(&table),
                    client(rules - 1),
                    Some(4),
                ));
            }),
        ],
    );
}

/// Frames for the tunnel of rule 9, whose eight classifiers have one range of ports and a destination each: one that the
/// best of them takes, the same with IP options, one for another tunnel, one to a destination that none has.
fn frames() -> [(&'static str, Vec<u8>); 4] {
    let best = 17;
    [
        ("forward", frame(9, best, 0x1234)),
        ("forward, with options", with_alert(frame(9, best, 0x1234))),
        ("other", frame(8, best, 0x1234)),
        ("all miss on the destination", frame(9, 99, 0x1234)),
    ]
}

fn judging() {
    let table = full_table();
    for (name, frame) in frames() {
        report(
            &format!("judging with the table, {name}"),
            1,
            vec![
                runner("library", || {
                    let id = client(9).value;
                    black_box(ffi::judge(
                        black_box(&table),
                        4,
                        id,
                        1,
                        4,
                        black_box(&frame),
                    ));
                }),
                runner("plain", || {
                    let verdict = plain::judge::judge_frame(
                        black_box(&table),
                        client(9),
                        Some(4),
                        black_box(&frame),
                    );
                    black_box(verdict);
                }),
            ],
        );
    }
}

/// How many frames a call judges with a prepared tunnel, one after the other as a board does.
const FRAMES: usize = 16;

/// Frames for the tunnel of rule 9, judged with that tunnel, which was prepared beforehand.
fn judging_with(what: &str, table: &Table, frames: &[(&str, Vec<u8>)]) {
    let ours = Tunnel::prepare(table, dsg::ClientId::Application(0x0903), Some(4));
    let theirs = plain::judge::prepare_tunnel(table, client(9), Some(4));
    for (name, frame) in frames {
        report(
            &format!("{what}, {name}"),
            FRAMES,
            vec![
                runner("library", || {
                    for _ in 0..FRAMES {
                        black_box(ffi::judge_prepared(black_box(&ours), black_box(frame)));
                    }
                }),
                runner("plain", || {
                    for _ in 0..FRAMES {
                        let verdict =
                            plain::judge::judge_prepared(black_box(&theirs), black_box(frame));
                        black_box(verdict);
                    }
                }),
            ],
        );
    }
}

/// Frames for a tunnel of eight classifiers of one destination, each with ports of its own. Where all miss on the port,
/// half of them do on their end and half on their start.
fn judging_ports() {
    let at = |port: &u16| frame(9, PORTS_DESTINATION, *port);
    let frames = [
        ("all miss on the port", at(&(ports_at(4).start() - 1))),
        ("forward by the last", at(ports_at(7).start())),
        ("forward by the first", at(ports_at(0).start())),
        (
            "a frame without a port",
            without_port(at(ports_at(0).start())),
        ),
    ];
    judging_with(
        "judging by eight ports",
        &table_of(&ports_message()),
        &frames,
    );
}

fn judging_prepared() {
    let table = full_table();
    judging_with("judging with a prepared tunnel", &table, &frames());
    report(
        "preparing a tunnel in a full table",
        1,
        vec![
            runner("library", || {
                black_box(ffi::prepare(black_box(&table), 4, client(9).value, 1, 4));
            }),
            runner("plain", || {
                black_box(plain::judge::prepare_tunnel(
                    black_box(&table),
                    client(9),
                    Some(4),
                ));
            }),
        ],
    );
}

/// A day of a modem: from Start through every state and back.
fn modem_events() {
    let events = [
        Event::Locked,
        Event::TableAccepted([2, 600, 300, 1800]),
        Event::Packet,
        Event::UpstreamUp(4),
        Event::Packet,
        Event::Tick,
        Event::UpstreamLost,
        Event::Tick,
        Event::Enable,
        Event::Hunt,
    ];
    let numbers = events.map(Event::numbers);
    let (mut m1, mut m2) = (Modem::idle(), Modem::idle());
    let _ = m1.on_event(0, Event::Start { permitted: true });
    plain::modem::on_event(&mut m2, 0, 1, 1, 0, 0, 0);
    let (mut c1, mut c2) = (0u32, 0u32);
    report(
        "a modem event",
        events.len(),
        vec![
            runner("library", || {
                for (event, values) in numbers {
                    c1 = c1.wrapping_add(7);
                    black_box(ffi::event(&mut m1, c1, black_box(event), values));
                }
            }),
            runner("plain", || {
                for (event, [a, b, c, d]) in numbers {
                    c2 = c2.wrapping_add(7);
                    let event = black_box(event);
                    black_box(plain::modem::on_event(&mut m2, c2, event, a, b, c, d));
                }
            }),
        ],
    );
}

fn listing() {
    let table = full_table();
    let (mut o1, mut o2) = (vec![0u8; 4096], vec![0u8; 4096]);
    report(
        "listing a full table",
        1,
        vec![
            runner("library", || {
                black_box(ffi::list_table(black_box(&table), 7, &mut o1));
            }),
            runner("plain", || {
                black_box(plain::list::list_table(7, black_box(&table), &mut o2));
            }),
        ],
    );
}

fn reading_all() {
    reading("reading the empty message", &[]);
    for rules in [1, 4, 8, 16, 32] {
        let message = table_message(rules);
        let what = format!("reading {rules} rules, {} bytes", message.len());
        reading(&what, &message);
    }
    reading(&format!("reading real rows, {LONGEST} bytes"), &long_rows());
    for bytes in [1_500, 6_000, 12_000, LONGEST] {
        let what = format!("reading unlisted elements, {bytes} bytes");
        reading(&what, &unlisted(bytes));
    }
}

fn collecting_all() {
    collecting();
    collecting_strictly("real rows", &long_rows());
    collecting_strictly("two-byte elements", &unlisted(LONGEST));
    repeating();
    repeating_all();
}

fn judging_all() {
    for rules in [1, 8, 32] {
        choosing(rules);
    }
    judging();
    judging_prepared();
    judging_ports();
}

/// What can be measured, by the word that names it.
const PARTS: [(&str, fn()); 6] = [
    ("read", reading_all),
    ("collect", collecting_all),
    ("judge", judging_all),
    ("modem", modem_events),
    ("list", listing),
    ("write", writing_all),
];

/// Measures every part, or the one that the first argument names.
fn main() {
    let only = std::env::args().nth(1);
    println!("on {}", measure::processor::named());
    for (name, measure) in PARTS {
        if only.as_deref().is_none_or(|only| only == name) {
            measure();
        }
    }
}
