//! What the tally says of tables that are written.

use crate::tables::{longest_table, table_m, table_of_two};
use reference::protocol::request::Request;
use reference::protocol::Session;
use reference::table::{Client, Table};
use requests::tally::Tally;
use requests::written::{bodies, elements};

/// A session, and what was counted in it.
#[derive(Default)]
struct Counted {
    session: Session,
    tally: Tally,
}

impl Counted {
    fn lending(table: Table) -> Counted {
        let mut counted = Counted::default();
        counted.seen(Request::TSet(table));
        counted
    }

    /// The lines about writing that a request adds to.
    fn seen(&mut self, request: Request) -> Vec<String> {
        let counts = |tally: &Tally| -> Vec<(String, u64)> {
            let lines = tally.lines().map(|(line, count)| (line.to_string(), count));
            lines.filter(|(line, _)| line.starts_with("writ")).collect()
        };
        let before = counts(&self.tally);
        let answer = self.session.answer(request.clone());
        self.tally.count(&request, &answer);
        let after = counts(&self.tally);
        assert_eq!(before.len(), after.len(), "a line that is not listed");
        let added = after.into_iter().filter(|line| !before.contains(line));
        added.map(|(line, _)| line).collect()
    }

    fn write(&mut self, out: usize, fill: u8) -> Vec<String> {
        let count = 7;
        self.seen(Request::Write { count, out, fill })
    }
}

#[test]
fn tells_an_exact_fit_from_room_to_spare_and_a_byte_short() {
    // the body of M has 55 bytes
    let mut counted = Counted::lending(table_m());
    let exact = counted.write(55, 0);
    assert!(exact.contains(&"write: 1 pieces, exact fit".to_string()));
    assert!(exact.contains(&"write: pieces, over 0".to_string()));
    let roomy = counted.write(56, 255);
    assert!(roomy.contains(&"write: 1 pieces, room to spare".to_string()));
    assert!(roomy.contains(&"write: pieces, over 255".to_string()));
    let short = [
        "write: 1 pieces, refused 20, a byte short",
        "write: refused 20",
    ];
    assert_eq!(counted.write(54, 0), short);
    assert_eq!(counted.write(53, 0), ["write: refused 20"]);
    let none = ["write: refused 20", "write: refused 20, no buffer"];
    assert_eq!(counted.write(0, 0), none);
}

#[test]
fn names_the_only_reason_of_a_19() {
    let mut table = table_of_two();
    table.timers[0] = 0;
    let mut counted = Counted::lending(table.clone());
    let lines = ["write: refused 19", "write: refused 19, Tdsg1Of0"];
    assert_eq!(counted.write(12_000, 0), lines);
    let short = [
        lines[0],
        lines[1],
        "write: refused 19, and too short a buffer",
    ];
    assert_eq!(counted.write(0, 0), short);
    table.channels.push(0);
    let mut counted = Counted::lending(table);
    assert_eq!(counted.write(12_000, 0), ["write: refused 19"]);
}

#[test]
fn counts_the_pieces_of_the_longest_table() {
    let mut counted = Counted::lending(longest_table());
    let lines = counted.write(5_823, 9);
    assert!(lines.contains(&"write: 4 pieces, exact fit".to_string()));
    assert!(lines.contains(&"write: pieces, over another byte".to_string()));
    let short = counted.write(5_822, 9);
    assert!(short.contains(&"write: 4 pieces, refused 20, a byte short".to_string()));
}

/// The longest table with so many UCIDs less in its first rules. Of the second piece, eleven rules of 132
/// bytes fill 1,452, and a twelfth would end at 1,584.
fn with_fewer_ucids(many: usize) -> Table {
    let mut table = longest_table();
    let of_rules = (0..12).flat_map(|rule| [rule; 15]);
    for rule in of_rules.take(many) {
        table.rules[rule].ucids.pop();
    }
    table
}

#[test]
fn tells_where_a_full_piece_ends() {
    let begun = "write: pieces, one begun for a byte too many".to_string();
    let full = |bytes| format!("write: pieces, one of {bytes} bytes before the last");
    let lines = |many| Counted::lending(with_fewer_ucids(many)).write(12_000, 0);
    let seen = |many| [&begun, &full(1_497), &full(1_496)].map(|line| lines(many).contains(line));
    assert_eq!(seen(0), [false, false, false]);
    assert_eq!(seen(86), [true, false, false]);
    assert_eq!(seen(87), [false, true, false]);
    assert_eq!(seen(88), [false, false, true]);
}

#[test]
fn names_what_is_odd_about_a_written_table() {
    let mut table = table_of_two();
    table.timers = [2, 600, 300, 600];
    table.rules[0].clients = vec![Client::CaSystem(0), Client::EmptyBroadcast];
    table.rules[1].priority = 0;
    table.classifiers[1].mask = Some([0; 4]);
    let lines = Counted::lending(table).write(12_000, 0);
    let odd = lines
        .iter()
        .filter_map(|line| line.strip_prefix("write: pieces, "));
    let wanted = [
        "CA system 0",
        "a source or a mask of 0",
        "a timer that is usual for another",
        "broadcast of length 0",
        "classifier with - - - -",
        "classifier with - mask - -",
        "client IDs of falling types",
        "no UCID",
        "over 0",
        "rule priority 0",
    ];
    assert!(odd.eq(wanted), "{lines:?}");
}

#[test]
fn tells_how_written_pieces_are_taken_back() {
    let table = longest_table();
    let mut counted = Counted::lending(table.clone());
    counted.write(12_000, 0);
    let renew = |strict| Request::New {
        slot: 24_000,
        join: 24_000,
        fill: 0,
        strict,
    };
    let takers: [(fn(Vec<u8>) -> Request, &str, bool); 2] = [
        (Request::Piece, "piece, strict", true),
        (Request::Recv, "recv, loose", false),
    ];
    for (take, taker, strict) in takers {
        counted.seen(renew(strict));
        let mut bodies = bodies(200, &table);
        let last = bodies.pop().expect("a body");
        for body in bodies {
            assert_eq!(counted.seen(take(body)), Vec::<String>::new());
        }
        let several = format!("written: several pieces taken back by {taker}");
        let lines = ["written: 4 pieces taken back".to_string(), several];
        assert_eq!(counted.seen(take(last)), lines);
    }
    let message = elements(&table).concat();
    let read = counted.seen(Request::Read(message.clone()));
    assert_eq!(read, ["written: message read back by read"]);
    let read = counted.seen(Request::TRead(message));
    assert_eq!(read, ["written: message read back by tread"]);
}
