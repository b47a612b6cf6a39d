//! Tables that were written: by the reason of a 19, by their pieces and the room that these had, by where
//! pieces end, by what is odd about a table that was written all the same (`edges`), and what becomes of
//! the pieces when they are taken back.

mod edges;

use super::marks::{all_marks, marks_line, marks_of};
use crate::unreadable::{reasons, Reason};
use crate::written::{bodies, elements, needed, pieces, PIECES_MOST, PIECE_MOST};
use reference::protocol::request::Request;
use reference::table::Table;

/// The room that written pieces had, or lacked.
const ROOMS: [&str; 3] = [EXACT, MORE, LESS];
const EXACT: &str = "exact fit";
const MORE: &str = "room to spare";
const LESS: &str = "refused 20, a byte short";
/// The bytes of a piece but the last that is filled as far as can be, or nearly.
const FULL: [usize; 2] = [PIECE_MOST - 1, PIECE_MOST];
/// What the buffer held before.
const FILLS: [(&str, u8); 2] = [("0", 0), ("255", 255)];
const OTHER_FILL: &str = "another byte";
const TAKERS: [&str; 2] = ["piece", "recv"];
const SETTINGS: [&str; 2] = ["loose", "strict"];
const EMPTY: &str = "pieces, of no element";
const NO_BUFFER: &str = "refused 20, no buffer";
const SHORT_AND_19: &str = "refused 19, and too short a buffer";
const NEXT_BY_A_BYTE: &str = "pieces, one begun for a byte too many";

pub fn lines() -> impl Iterator<Item = String> {
    let rooms = (1..=PIECES_MOST).flat_map(|number| ROOMS.map(|room| room_line(number, room)));
    let takers = TAKERS.into_iter();
    let taken = takers.flat_map(|taker| SETTINGS.map(|setting| taken_line(taker, setting)));
    let taken = taken.chain((1..=PIECES_MOST).map(complete_line));
    let fills = FILLS.into_iter().map(|(fill, _)| fill).chain([OTHER_FILL]);
    let others = [EMPTY, NO_BUFFER, SHORT_AND_19, NEXT_BY_A_BYTE];
    rooms
        .chain(taken)
        .chain(fills.map(fill_line))
        .chain(Reason::ALL.map(reason_line))
        .chain(FULL.map(full_line))
        .chain(others.map(line))
        .chain(all_marks().map(|marks| marks_line(&line("pieces"), marks)))
        .chain(edges::names().map(edge_line))
        .chain([read_line("tread"), read_line("read")])
}

fn line(case: &str) -> String {
    format!("write: {case}")
}

fn room_line(number: usize, room: &str) -> String {
    line(&format!("{number} pieces, {room}"))
}

fn taken_line(taker: &str, setting: &str) -> String {
    format!("written: several pieces taken back by {taker}, {setting}")
}

fn complete_line(number: usize) -> String {
    format!("written: {number} pieces taken back")
}

fn read_line(reader: &str) -> String {
    format!("written: message read back by {reader}")
}

fn fill_line(fill: &str) -> String {
    line(&format!("pieces, over {fill}"))
}

fn reason_line(reason: Reason) -> String {
    line(&format!("refused 19, {reason:?}"))
}

fn full_line(bytes: usize) -> String {
    line(&format!("pieces, one of {bytes} bytes before the last"))
}

fn edge_line(edge: &str) -> String {
    line(&format!("pieces, {edge}"))
}

/// The lines of a `write` of this table.
pub fn seen(table: &Table, out: usize, fill: u8, answer: &str) -> Vec<String> {
    let bodies = bodies(0, table);
    let need = needed(&bodies);
    match answer.split(' ').collect::<Vec<_>>()[..] {
        ["refused", "19", _] => refused_19(table, out < need),
        ["refused", "20", _] => {
            let short = (out + 1 == need).then(|| room_line(bodies.len(), LESS));
            let none = (out == 0).then(|| line(NO_BUFFER));
            short.into_iter().chain(none).collect()
        }
        ["pieces", lengths, _, _] => {
            let number = lengths.split(',').count();
            let room = if out == need { EXACT } else { MORE };
            let known = FILLS.into_iter().find(|(_, byte)| *byte == fill);
            let fill = known.map_or(OTHER_FILL, |(fill, _)| fill);
            let mut lines = vec![room_line(number, room), fill_line(fill)];
            lines.extend(written(table, &bodies));
            lines
        }
        _ => Vec::new(),
    }
}

/// The reason if it is the only one.
fn refused_19(table: &Table, short: bool) -> Vec<String> {
    let reason = match reasons(table)[..] {
        [reason] => Some(reason_line(reason)),
        _ => None,
    };
    let short = short.then(|| line(SHORT_AND_19));
    reason.into_iter().chain(short).collect()
}

/// What a written table shows.
fn written(table: &Table, bodies: &[Vec<u8>]) -> Vec<String> {
    let elements = elements(table);
    let pieces: Vec<&[u8]> = bodies.iter().map(|body| &body[3..]).collect();
    let full = FULL.into_iter().filter(|&bytes| {
        let but_last = &pieces[..pieces.len() - 1];
        but_last.iter().any(|piece| piece.len() == bytes)
    });
    let marks = table.classifiers.iter().map(marks_of);
    let marks = marks.map(|marks| marks_line(&line("pieces"), marks));
    let mut lines: Vec<String> = full.map(full_line).chain(marks).collect();
    if elements.is_empty() {
        lines.push(line(EMPTY));
    }
    if begun_for_a_byte(&elements, &pieces) {
        lines.push(line(NEXT_BY_A_BYTE));
    }
    lines.extend(edges::of(table).into_iter().map(edge_line));
    lines
}

/// Whether some element would have made the piece before it 1,498 bytes long.
fn begun_for_a_byte(elements: &[Vec<u8>], pieces: &[&[u8]]) -> bool {
    let mut rest = elements.iter().map(Vec::len);
    pieces.windows(2).any(|pair| {
        let mut left = pair[0].len();
        while left > 0 {
            left -= rest.next().unwrap_or(left);
        }
        let first = rest.clone().next().unwrap_or(0);
        pair[0].len() + first == PIECE_MOST + 1
    })
}

/// What was written last, to be taken back.
#[derive(Default)]
pub struct Written {
    pieces: Vec<Vec<u8>>,
    /// The setting of the collection.
    strict: bool,
}

impl Written {
    /// Notes a `write` that gave pieces.
    pub fn note(&mut self, table: &Table, answer: &str) {
        if answer.starts_with("pieces") {
            self.pieces = pieces(&elements(table));
        }
    }

    /// The lines of a request that takes back, or reads, what was written.
    pub fn seen(&mut self, request: &Request, answer: &str) -> Vec<String> {
        match request {
            Request::New { strict, .. } => self.strict = *strict,
            Request::Piece(body) | Request::Recv(body) if self.has(body) => {
                let complete = answer.starts_with("complete") || answer.starts_with("accepted");
                if complete {
                    return self.taken(request.word());
                }
            }
            Request::TRead(message) | Request::Read(message) => {
                let read = !answer.starts_with("refused") && *message == self.pieces.concat();
                return read
                    .then(|| read_line(request.word()))
                    .into_iter()
                    .collect();
            }
            _ => {}
        }
        Vec::new()
    }

    /// Whether this is one of the bodies, under any count.
    fn has(&self, body: &[u8]) -> bool {
        match body {
            [_, number, sequence, piece @ ..] if usize::from(*number) == self.pieces.len() => {
                let place = usize::from(*sequence).wrapping_sub(1);
                self.pieces.get(place).is_some_and(|own| own == piece)
            }
            _ => false,
        }
    }

    fn taken(&self, taker: &str) -> Vec<String> {
        let number = self.pieces.len();
        let setting = SETTINGS[usize::from(self.strict)];
        let several = (number > 1).then(|| taken_line(taker, setting));
        several.into_iter().chain([complete_line(number)]).collect()
    }
}
