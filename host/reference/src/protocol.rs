//! The bench protocol: what each request line is answered. The rules below fill what the protocol's
//! paper leaves open; every program that speaks it follows them.
//!
//! # Lines
//! - A line ends at a newline byte, which is not part of it; the last line may lack its newline. A
//!   carriage return is a byte like others, so a line that ends in one is a bad request.
//! - A line without a byte other than spaces is blank. Blank lines and lines whose first byte is `#`
//!   get no answer. Every other line gets one, also one that is not UTF-8 (`bad request`).
//! - Words are separated by one space; a space at the start or end, or two together, make an empty
//!   word, which nothing allows. Too few or too many words are a bad request. Letter case counts.
//! - Lines have no greatest length.
//!
//! # Words
//! - Number: decimal digits, no sign, no leading zero (`0` itself stands), within its range:
//!   SLOT, JOIN and OUTLEN 0 to 65,536; FILL, COUNT, NUMBER of `rec`, rule NUM and PRIO, classifier
//!   PRIO and every UCID 8 bits; LENS, T1 to T4, classifier NUM, CLASSIFIERS, START, END and the
//!   values of client kinds 1, 3 and 4 16 bits; HZ, LAST, NOW, RECEIVE and RETRY 32 bits. Within its
//!   range a number may say anything: a limit of document 01 is for the answer, not for the parser.
//! - Byte string: an even, non-zero number of lowercase hex digits, or `-` for no bytes; of any
//!   length for HEX and FRAME, of just 6 bytes for TUNNEL and a MAC, of 4 for SRC, MASK and DST.
//! - List: items separated by one comma, or `-` for none. LENS has sixteen items, FLAGS sixteen
//!   characters `0` or `1`.
//! - PERM, P and STRICT are `0` or `1`. `adv` and `j128` are the only words in their places.
//!
//! # Tables in text
//! - Parts are separated by the word `;`, none of them empty. The head comes first, then rules, then
//!   classifiers, then channels; any other order is a bad request, as is more than document 01's room.
//! - PLACE is the rule's index, from 0; another number is a bad request. Both lone `-` are just that.
//! - TABLE begins with the word `table`, in a request and in an answer: `tset table j128 ..`,
//!   `accepted table j128 ..`.
//! - DST is a must in document 01, so it is never `-`. SRC, MASK, START and END may be `-` each by
//!   itself.
//!
//! # State
//! - A bad request changes nothing.
//! - Before the first request: the collection is as after `new 24000 24000 0 0`; the lent table is
//!   that of the empty message (no rules, classifiers and channels, timers 2 600 300 1800); the modem
//!   record is `idle 0 0 - 2 600 300 1800 - - adv`.
//! - `new` makes the record count 0, number 0, all flags 0 and all lengths 0, strict where STRICT is
//!   1 and loose where it is 0. No other request changes that setting, and no answer shows it: `rec`
//!   sets the rest of the record. `rec` leaves the buffers, `new` leaves the lent table and the modem
//!   record. A refused `tread` leaves the lent table; `read` and `list` leave everything. So does
//!   `write`, whose buffer is made for the one request.
//! - `piece` and `recv` share the record and the buffers, and may take turns: a piece that one of
//!   them stored is a repeat for the other. `recv` lends a new table only where it answers `accepted`.
//!   At `message refused` the body was accepted: the record and the buffers are what `piece` would
//!   have made of them, and only the lent table stays as it was.
//! - At `refused 21 OFF` of `piece` or `recv` the record is that of `new`, with the setting that it
//!   had; the buffers are what the same request loose would have made of them; the lent table stays.
//!
//! # Writing
//! - The words after `pieces` are the lengths, the sum of the buffer, and the bodies; lengths and
//!   bodies are lists of one or more items in piece order. Each body begins at its place in the buffer
//!   and has the length returned.

pub mod crc;
pub mod records;
pub mod request;
pub mod tables;
pub mod words;

use crate::choosing::{choose_rule, judge_frame, Verdict};
use crate::collecting::{self, take_piece, Taken, BUFFER_MIN};
use crate::listing::list_body;
use crate::modem;
use crate::receiving::{receive_body, Received};
use crate::table::{read_table, Client, Table};
use crate::writing::{write_dcd, BODY_STEP};
use crate::Refusal;
use crc::crc32;
use records::{write_collection, write_modem};
use request::Request;
use tables::write_table;
use words::{commas, hex};

/// The answer to what cannot be parsed.
pub const BAD_REQUEST: &str = "bad request";

/// What is kept between requests.
pub struct Session {
    record: collecting::Record,
    slots: Vec<u8>,
    join: Vec<u8>,
    table: Table,
    modem: modem::Record,
}

impl Default for Session {
    fn default() -> Session {
        Session {
            record: collecting::Record::default(),
            slots: vec![0; BUFFER_MIN],
            join: vec![0; BUFFER_MIN],
            table: Table::default(),
            modem: modem::Record::default(),
        }
    }
}

impl Session {
    /// The answer to a line without its newline; `None` if it gets none.
    pub fn answer_line(&mut self, line: &[u8]) -> Option<String> {
        let blank = line.iter().all(|&byte| byte == b' ');
        if blank || line.starts_with(b"#") {
            return None;
        }
        let request = std::str::from_utf8(line).ok().and_then(Request::parse);
        Some(match request {
            Some(request) => self.answer(request),
            None => BAD_REQUEST.to_string(),
        })
    }

    /// The answer to a request.
    pub fn answer(&mut self, request: Request) -> String {
        match request {
            Request::New {
                slot,
                join,
                fill,
                strict,
            } => self.renew(slot, join, fill, strict),
            Request::Rec(record) => self.overwrite(record),
            Request::Piece(body) => self.take(&body),
            Request::Recv(body) => self.receive(&body),
            Request::Read(message) => written(read_table(&message), |table| write_table(&table)),
            Request::TSet(table) => set(&mut self.table, table),
            Request::TRead(message) => {
                written(read_table(&message), |table| set(&mut self.table, table))
            }
            Request::List(body) => list_body(&body).join(" / "),
            Request::Choose(client, ucid) => self.choose(client, ucid),
            Request::Judge(client, ucid, frame) => written(
                judge_frame(&self.table, client, ucid, &frame),
                write_verdict,
            ),
            Request::Write { count, out, fill } => self.write(count, out, fill),
            Request::MRec(record) => set(&mut self.modem, record),
            Request::MEv(now, event) => self.step(now, event),
        }
    }

    fn renew(&mut self, slot: usize, join: usize, fill: u8, strict: bool) -> String {
        self.slots = vec![fill; slot];
        self.join = vec![fill; join];
        set(&mut self.record, collecting::Record::empty(strict))
    }

    /// Sets the record but for its setting.
    fn overwrite(&mut self, record: collecting::Record) -> String {
        let strict = self.record.strict;
        set(&mut self.record, collecting::Record { strict, ..record })
    }

    fn take(&mut self, body: &[u8]) -> String {
        let taken = take_piece(&mut self.record, &mut self.slots, &mut self.join, body);
        let answer = written(taken, write_taken);
        self.with_collection(answer)
    }

    fn receive(&mut self, body: &[u8]) -> String {
        let received = receive_body(&mut self.record, &mut self.slots, &mut self.join, body);
        let answer = written(received, |received| self.lend_received(received));
        self.with_collection(answer)
    }

    /// Says what was received; an accepted table becomes the lent one.
    fn lend_received(&mut self, received: Received) -> String {
        match received {
            Received::Repeat => "repeat".to_string(),
            Received::Waiting(empty) => format!("waiting {empty}"),
            Received::Accepted(table) => {
                self.table = table;
                format!("accepted {}", write_table(&self.table))
            }
            Received::MessageRefused(refusal) => format!("message {}", write_refusal(refusal)),
        }
    }

    /// The answer, then the record and the sums of both buffers as they are now.
    fn with_collection(&self, answer: String) -> String {
        format!(
            "{answer} | {} | {} {}",
            write_collection(&self.record),
            crc32(&self.slots),
            crc32(&self.join)
        )
    }

    fn choose(&self, client: Client, ucid: Option<u8>) -> String {
        written(choose_rule(&self.table, client, ucid), |index| {
            let rule = &self.table.rules[index];
            format!("rule {} {index} {}", rule.number, hex(&rule.tunnel))
        })
    }

    fn write(&self, count: u8, out: usize, fill: u8) -> String {
        let mut output = vec![fill; out];
        let lengths = write_dcd(&self.table, count, &mut output);
        written(lengths, |lengths| write_bodies(&lengths, &output))
    }

    fn step(&mut self, now: u32, event: modem::Event) -> String {
        let next = modem::step(&self.modem, now, event);
        let answer = written(next, |record| set(&mut self.modem, record));
        format!(
            "{answer} | {} | {} {}",
            write_modem(&self.modem),
            u8::from(self.modem.transmits()),
            u8::from(self.modem.forwards())
        )
    }
}

/// Puts a value in its place, and says so.
fn set<T>(place: &mut T, value: T) -> String {
    *place = value;
    "ok".to_string()
}

/// The answer for a value, or the refusal.
fn written<T>(answer: Result<T, Refusal>, write: impl FnOnce(T) -> String) -> String {
    match answer {
        Ok(value) => write(value),
        Err(refusal) => write_refusal(refusal),
    }
}

fn write_refusal(refusal: Refusal) -> String {
    format!("refused {} {}", refusal.number, refusal.offset)
}

fn write_taken(taken: Taken) -> String {
    match taken {
        Taken::Repeat => "repeat".to_string(),
        Taken::Waiting(empty) => format!("waiting {empty}"),
        Taken::CompleteBody(message) => format!("complete body {}", hex(message)),
        Taken::CompleteJoin(message) => format!("complete join {}", hex(message)),
    }
}

fn write_verdict(verdict: Verdict) -> String {
    match verdict {
        Verdict::Other => "other".to_string(),
        Verdict::Filtered => "filtered".to_string(),
        Verdict::Forward(number, payload) => format!("forward {number} {}", hex(payload)),
    }
}

/// The bodies of these lengths, as they stand in the output buffer.
fn write_bodies(lengths: &[usize], output: &[u8]) -> String {
    let places = output.chunks(BODY_STEP).zip(lengths);
    let bodies = places.map(|(place, &length)| hex(&place[..length]));
    format!(
        "pieces {} {} {}",
        commas(lengths),
        crc32(output),
        commas(bodies)
    )
}
