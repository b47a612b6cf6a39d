//! The library's functions on records and buffers that the caller owns, with Rust's answers.

use crate::ffi;
use crate::records::{Client, Collection, Modem, Table, Tunnel};
use std::error::Error;
use std::fmt;
use std::ops::Range;

/// How large a buffer every listing fits in.
pub const LISTING_BYTES: usize = 3755;

/// Refuses a buffer that is too short for a listing. It is none of the documents' numbers.
pub const REFUSED_SHORT_LISTING: u8 = 100;

/// A refusal: the documents' number, and for 6 to 15 and 21 the offset in the message.
#[derive(Clone, Copy, Debug, PartialEq, Eq)]
pub struct Refusal {
    /// The number of the refusal.
    pub number: u8,
    /// The offset of the type byte concerned, or of the cut; 0 for the others.
    pub offset: usize,
}

impl fmt::Display for Refusal {
    fn fmt(&self, f: &mut fmt::Formatter) -> fmt::Result {
        write!(f, "refused {} at {}", self.number, self.offset)
    }
}

impl Error for Refusal {}

/// Why a body gave no message or no table: what was refused, and so what is left of what is lent.
#[derive(Clone, Copy, Debug, PartialEq, Eq)]
pub enum Refused {
    /// The body, with 1 to 5: all that is lent is as it was.
    Body(Refusal),
    /// The message that the body completed, with 6 to 15 and the offset in it: its pieces stay collected, and the table is as
    /// it was.
    Message(Refusal),
    /// The collection that the body filled, with 21 and the offset of the first bad cut in the joined message: it is strict,
    /// and was cut inside an element. It is dropped: the record is empty and keeps its setting, both buffers hold what they
    /// would hold had the message been complete, and the table is as it was. The next body that is not refused starts a run.
    Dropped(Refusal),
}

impl Refused {
    /// The number and the offset, whatever was refused.
    #[must_use]
    pub fn refusal(self) -> Refusal {
        match self {
            Refused::Body(refusal) | Refused::Message(refusal) | Refused::Dropped(refusal) => {
                refusal
            }
        }
    }
}

impl fmt::Display for Refused {
    fn fmt(&self, f: &mut fmt::Formatter) -> fmt::Result {
        match self {
            Refused::Body(refusal) => write!(f, "body {refusal}"),
            Refused::Message(refusal) => write!(f, "message {refusal}"),
            Refused::Dropped(refusal) => write!(f, "collection {refusal}"),
        }
    }
}

impl Error for Refused {}

/// A refusal by its number and offset.
pub(crate) fn refusal(number: u32, offset: usize) -> Refusal {
    Refusal {
        number: number as u8,
        offset,
    }
}

/// Fine where the number is 0, else the refusal.
fn checked(number: u32, offset: usize) -> Result<(), Refusal> {
    if number == 0 {
        Ok(())
    } else {
        Err(refusal(number, offset))
    }
}

/// A client ID.
#[derive(Clone, Copy, Debug, PartialEq, Eq)]
pub enum ClientId {
    /// A broadcast of length 0.
    BroadcastAll,
    /// A broadcast with a value.
    Broadcast(u16),
    /// A well-known MAC address.
    WellKnownMac([u8; 6]),
    /// A CA system.
    CaSystem(u16),
    /// An application.
    Application(u16),
}

impl From<ClientId> for Client {
    fn from(id: ClientId) -> Client {
        let (kind, value) = match id {
            ClientId::BroadcastAll => (0, 0),
            ClientId::Broadcast(n) => (1, u64::from(n)),
            ClientId::WellKnownMac(mac) => (2, mac.iter().fold(0, |n, &b| n << 8 | u64::from(b))),
            ClientId::CaSystem(n) => (3, u64::from(n)),
            ClientId::Application(n) => (4, u64::from(n)),
        };
        Client { kind, value }
    }
}

/// Where a complete message stands.
#[derive(Clone, Debug, PartialEq, Eq)]
pub enum Part {
    /// In the body.
    Body(Range<usize>),
    /// In the join buffer.
    Join(Range<usize>),
}

/// What a body is answered that is not refused.
#[derive(Clone, Debug, PartialEq, Eq)]
pub enum Piece {
    /// The slot held these bytes already.
    Repeat,
    /// The piece is stored; so many slots are empty.
    Waiting(usize),
    /// The message is complete.
    Complete(Part),
}

/// What a body is answered that goes all the way and is not refused.
#[derive(Clone, Copy, Debug, PartialEq, Eq)]
pub enum Received {
    /// The slot held these bytes already.
    Repeat,
    /// The piece is stored; so many slots are empty.
    Waiting(usize),
    /// The message is complete and the table is its own.
    Accepted,
}

/// What a frame is.
#[derive(Clone, Copy, Debug, PartialEq, Eq)]
pub enum Verdict<'f> {
    /// For another address than the tunnel's.
    Other,
    /// For the client.
    Forward {
        /// The number of the classifier that matches; 0 where the rule names none.
        classifier: u16,
        /// The frame from byte 14 on.
        payload: &'f [u8],
    },
    /// For the tunnel, but no classifier matches.
    Filtered,
}

/// What happens to a modem.
#[derive(Clone, Copy, Debug, PartialEq, Eq)]
pub enum Event {
    /// Begin anew.
    Start {
        /// Whether transmitting is permitted.
        permitted: bool,
    },
    /// A channel was found.
    Locked,
    /// No channel was found.
    ScanEmpty,
    /// A table was accepted; its Tdsg1 to Tdsg4.
    TableAccepted([u16; 4]),
    /// A packet came through a tunnel.
    Packet,
    /// Time has passed.
    Tick,
    /// Transmitting is permitted from now on.
    Enable,
    /// The return path works, on this UCID.
    UpstreamUp(u8),
    /// The return path is gone.
    UpstreamLost,
    /// Transmitting is forbidden from now on.
    Disable,
    /// The client asks for another channel.
    Hunt,
    /// The channel is gone.
    DownstreamLost,
}

impl Event {
    /// The event's number and its values, as the header has them.
    #[must_use]
    pub fn numbers(self) -> (u8, [u16; 4]) {
        match self {
            Event::Start { permitted } => (1, [u16::from(permitted), 0, 0, 0]),
            Event::Locked => (2, [0; 4]),
            Event::ScanEmpty => (3, [0; 4]),
            Event::TableAccepted(values) => (4, values),
            Event::Packet => (5, [0; 4]),
            Event::Tick => (6, [0; 4]),
            Event::Enable => (7, [0; 4]),
            Event::UpstreamUp(ucid) => (8, [u16::from(ucid), 0, 0, 0]),
            Event::UpstreamLost => (9, [0; 4]),
            Event::Disable => (10, [0; 4]),
            Event::Hunt => (11, [0; 4]),
            Event::DownstreamLost => (12, [0; 4]),
        }
    }
}

/// The UCID as the library takes it: whether it is known, and its value.
fn ucid_numbers(ucid: Option<u8>) -> (u8, u8) {
    ucid.map_or((0, 0), |u| (1, u))
}

/// One body: the record and the buffers afterwards are what the documents say.
///
/// # Errors
/// [`Refused::Body`]: nothing lent changes. [`Refused::Dropped`]: the record is empty and keeps its setting. No message is read
/// here, so none is refused.
pub fn collect(
    held: &mut Collection,
    slots: &mut [u8],
    join: &mut [u8],
    body: &[u8],
) -> Result<Piece, Refused> {
    let answer = ffi::collect(held, slots, join, body);
    let part = answer.start..answer.start + answer.length;
    match answer.kind {
        0 => Err(Refused::Body(refusal(answer.number, 0))),
        1 => Ok(Piece::Repeat),
        2 => Ok(Piece::Waiting(answer.empty)),
        3 => Ok(Piece::Complete(Part::Body(part))),
        4 => Ok(Piece::Complete(Part::Join(part))),
        _ => Err(Refused::Dropped(refusal(answer.number, answer.offset))),
    }
}

/// Reads a message into the table.
///
/// # Errors
/// 3 and 6 to 15; the table stays as it was.
pub fn read_table(table: &mut Table, message: &[u8]) -> Result<(), Refusal> {
    let answer = ffi::read(table, message);
    checked(answer.number, answer.offset)
}

/// One body all the way.
///
/// # Errors
/// The body is refused: nothing lent changes. The message that it completed is refused: the record and the buffers hold its
/// pieces, so that one of them again is a repeat, and the table stays as it was. The collection is dropped: the record is
/// empty and keeps its setting, and the table stays as it was.
pub fn receive(
    held: &mut Collection,
    table: &mut Table,
    slots: &mut [u8],
    join: &mut [u8],
    body: &[u8],
) -> Result<Received, Refused> {
    let answer = ffi::receive(held, table, slots, join, body);
    match answer.kind {
        0 => Err(Refused::Body(refusal(answer.number, 0))),
        1 => Ok(Received::Repeat),
        2 => Ok(Received::Waiting(answer.empty)),
        3 => Ok(Received::Accepted),
        4 => Err(Refused::Message(refusal(answer.number, answer.offset))),
        _ => Err(Refused::Dropped(refusal(answer.number, answer.offset))),
    }
}

/// The place of the rule for a client.
///
/// # Errors
/// 17: no rule fits.
pub fn choose_rule(
    table: &Table,
    client: impl Into<Client>,
    ucid: Option<u8>,
) -> Result<usize, Refusal> {
    let Client { kind, value } = client.into();
    let (known, ucid) = ucid_numbers(ucid);
    let answer = ffi::choose(table, kind, value, known, ucid);
    checked(answer.number, 0).map(|()| answer.place)
}

/// The verdict that the library's answer stands for.
fn verdict(answer: ffi::Judged, frame: &[u8]) -> Result<Verdict<'_>, Refusal> {
    match answer.kind {
        0 => Err(refusal(answer.number, 0)),
        1 => Ok(Verdict::Other),
        2 => Ok(Verdict::Forward {
            classifier: answer.number as u16,
            payload: &frame[answer.start..answer.start + answer.length],
        }),
        _ => Ok(Verdict::Filtered),
    }
}

/// Judges a frame for a client.
///
/// # Errors
/// 16 and 17.
pub fn judge_frame<'f>(
    table: &Table,
    client: impl Into<Client>,
    ucid: Option<u8>,
    frame: &'f [u8],
) -> Result<Verdict<'f>, Refusal> {
    let Client { kind, value } = client.into();
    let (known, ucid) = ucid_numbers(ucid);
    verdict(ffi::judge(table, kind, value, known, ucid, frame), frame)
}

/// Chooses the rule for a client and looks its classifiers up.
#[must_use]
pub fn prepare_tunnel(table: &Table, client: impl Into<Client>, ucid: Option<u8>) -> Tunnel {
    let Client { kind, value } = client.into();
    let (known, ucid) = ucid_numbers(ucid);
    ffi::prepare(table, kind, value, known, ucid)
}

/// Judges a frame with a prepared tunnel.
///
/// # Errors
/// 16 and 17.
pub fn judge_prepared<'f>(tunnel: &Tunnel, frame: &'f [u8]) -> Result<Verdict<'f>, Refusal> {
    verdict(ffi::judge_prepared(tunnel, frame), frame)
}

/// Advances a modem record by an event.
///
/// # Errors
/// 18; the record stays as it was.
pub fn on_event(modem: &mut Modem, clock: u32, event: Event) -> Result<(), Refusal> {
    let (kind, values) = event.numbers();
    checked(ffi::event(modem, clock, kind, values), 0)
}

/// Whether the transmitter is on.
#[must_use]
pub fn transmits(modem: &Modem) -> bool {
    ffi::transmits(modem)
}

/// Whether tunnels are forwarded.
#[must_use]
pub fn forwards(modem: &Modem) -> bool {
    ffi::forwards(modem)
}

/// Writes what `dcdlist` writes for a body, and says how many bytes.
///
/// # Errors
/// [`REFUSED_SHORT_LISTING`]; the buffer stays as it was.
pub fn list_body(body: &[u8], out: &mut [u8]) -> Result<usize, Refusal> {
    let answer = ffi::list_body(body, out);
    checked(answer.number, 0).map(|()| answer.length)
}

/// Writes the listing of a table, and says how many bytes.
///
/// # Errors
/// [`REFUSED_SHORT_LISTING`]; the buffer stays as it was.
pub fn list_table(count: u8, table: &Table, out: &mut [u8]) -> Result<usize, Refusal> {
    let answer = ffi::list_table(table, count, out);
    checked(answer.number, 0).map(|()| answer.length)
}

/// The text that a listing writes into a buffer that is large enough.
pub(crate) fn as_text(list: impl FnOnce(&mut [u8]) -> Result<usize, Refusal>) -> String {
    let mut out = [0; LISTING_BYTES];
    let length = list(&mut out).unwrap_or(0);
    String::from_utf8_lossy(&out[..length]).into_owned()
}
