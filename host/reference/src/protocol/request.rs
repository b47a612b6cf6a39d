//! A request: read from its line, and written back as one.

use super::records::{
    parse_collection, parse_event, parse_modem, write_collection, write_event, write_modem,
};
use super::tables::{parse_client, parse_table, write_client, write_table};
use super::words::{bytes, flag, hex, number, optional, or_dash};
use crate::table::{Client, Table};
use crate::{collecting, modem};
use std::fmt::{self, Display, Formatter};

/// The longest buffer that `new` or `write` makes.
pub const BUFFER_MAX: usize = 65_536;

#[derive(Clone, Debug, PartialEq, Eq)]
pub enum Request {
    New {
        slot: usize,
        join: usize,
        fill: u8,
        strict: bool,
    },
    /// The record but for its setting, which the line does not carry.
    Rec(collecting::Record),
    Piece(Vec<u8>),
    Recv(Vec<u8>),
    Read(Vec<u8>),
    TSet(Table),
    TRead(Vec<u8>),
    List(Vec<u8>),
    Choose(Client, Option<u8>),
    Judge(Client, Option<u8>, Vec<u8>),
    Write {
        count: u8,
        /// The length of the output buffer.
        out: usize,
        fill: u8,
    },
    MRec(modem::Record),
    MEv(u32, modem::Event),
}

impl Request {
    /// Reads a line; `None` is a bad request.
    pub fn parse(line: &str) -> Option<Request> {
        let words: Vec<&str> = line.split(' ').collect();
        let (kind, rest) = words.split_first()?;
        match (*kind, rest) {
            ("new", [slot, join, fill, strict]) => Some(Request::New {
                slot: buffer_size(slot)?,
                join: buffer_size(join)?,
                fill: number(fill)?,
                strict: flag(strict)?,
            }),
            ("rec", rest) => parse_collection(rest).map(Request::Rec),
            ("piece", [body]) => bytes(body).map(Request::Piece),
            ("recv", ["j128", body]) => bytes(body).map(Request::Recv),
            ("read", ["j128", message]) => bytes(message).map(Request::Read),
            ("tset", rest) => parse_table(rest).map(Request::TSet),
            ("tread", ["j128", message]) => bytes(message).map(Request::TRead),
            ("list", [body]) => bytes(body).map(Request::List),
            ("choose", [client, ucid]) => Some(Request::Choose(
                parse_client(client)?,
                optional(ucid, number)?,
            )),
            ("judge", [client, ucid, frame]) => Some(Request::Judge(
                parse_client(client)?,
                optional(ucid, number)?,
                bytes(frame)?,
            )),
            ("write", [count, out, fill]) => Some(Request::Write {
                count: number(count)?,
                out: buffer_size(out)?,
                fill: number(fill)?,
            }),
            ("mrec", rest) => parse_modem(rest).map(Request::MRec),
            ("mev", [now, event @ ..]) => Some(Request::MEv(number(now)?, parse_event(event)?)),
            _ => None,
        }
    }
}

fn buffer_size(word: &str) -> Option<usize> {
    number(word).filter(|&size| size <= BUFFER_MAX)
}

impl Request {
    /// The word that the line begins with.
    pub fn word(&self) -> &'static str {
        match self {
            Request::New { .. } => "new",
            Request::Rec(_) => "rec",
            Request::Piece(_) => "piece",
            Request::Recv(_) => "recv",
            Request::Read(_) => "read",
            Request::TSet(_) => "tset",
            Request::TRead(_) => "tread",
            Request::List(_) => "list",
            Request::Choose(..) => "choose",
            Request::Judge(..) => "judge",
            Request::Write { .. } => "write",
            Request::MRec(_) => "mrec",
            Request::MEv(..) => "mev",
        }
    }
}

impl Display for Request {
    /// The request's line, without a newline.
    fn fmt(&self, f: &mut Formatter<'_>) -> fmt::Result {
        write!(f, "{} ", self.word())?;
        match self {
            Request::New {
                slot,
                join,
                fill,
                strict,
            } => write!(f, "{slot} {join} {fill} {}", u8::from(*strict)),
            Request::Rec(record) => write!(f, "{}", write_collection(record)),
            Request::Piece(body) | Request::List(body) => write!(f, "{}", hex(body)),
            Request::Recv(bytes) | Request::Read(bytes) | Request::TRead(bytes) => {
                write!(f, "j128 {}", hex(bytes))
            }
            Request::TSet(table) => write!(f, "{}", write_table(table)),
            Request::Choose(client, ucid) => {
                write!(f, "{} {}", write_client(*client), or_dash(*ucid))
            }
            Request::Judge(client, ucid, frame) => {
                write!(
                    f,
                    "{} {} {}",
                    write_client(*client),
                    or_dash(*ucid),
                    hex(frame)
                )
            }
            Request::Write { count, out, fill } => write!(f, "{count} {out} {fill}"),
            Request::MRec(record) => write!(f, "{}", write_modem(record)),
            Request::MEv(now, event) => write!(f, "{now} {}", write_event(*event)),
        }
    }
}
