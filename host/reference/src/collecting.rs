//! Collects the pieces of a message (document 01, "Collecting pieces" and refusals 1 to 5; document
//! 02, Req 04, refusal 21).
//!
//! The caller lends a record and two buffers. A body that is refused 1 to 5 changes nothing. An
//! accepted one changes the record and its own slot, unless it is a repeat; the join buffer changes
//! only when a message of two or more pieces completes, and only where the joined bytes stand.
//!
//! Where the record is strict, the cuts are judged then, after the join. At a bad one the body is
//! refused 21: the buffers keep what completing has written, and the record is emptied. No body
//! changes the setting.

use crate::cuts::first_bad_cut;
use crate::Refusal;

pub const SLOTS: usize = 16;
/// Where slots begin in the slot buffer: slot s (from 0) at s x 1,500.
pub const SLOT_BYTES: usize = 1_500;
/// Change count, number of fragments and fragment sequence number.
pub const HEAD_BYTES: usize = 3;
pub const BODY_MAX: usize = 1_500;
pub const PIECE_MAX: usize = BODY_MAX - HEAD_BYTES;
/// Sixteen slots.
pub const BUFFER_MIN: usize = SLOTS * SLOT_BYTES;

/// The lent collection record. Number 0 means nothing collected.
#[derive(Clone, Debug, Default, PartialEq, Eq)]
pub struct Record {
    pub count: u8,
    pub number: u8,
    pub filled: [bool; SLOTS],
    pub lengths: [u16; SLOTS],
    /// Whether cuts are judged. No fault of a record concerns it.
    pub strict: bool,
}

/// Why no calls could have made a record; such a record counts as nothing collected.
#[derive(Clone, Copy, Debug, PartialEq, Eq, PartialOrd, Ord)]
pub enum Fault {
    NumberOver16,
    LengthOver1497,
    LengthOnEmptySlot,
    FilledBeyondNumber,
    NumberWithNothingFilled,
}

impl Fault {
    pub const ALL: [Fault; 5] = [
        Fault::NumberOver16,
        Fault::LengthOver1497,
        Fault::LengthOnEmptySlot,
        Fault::FilledBeyondNumber,
        Fault::NumberWithNothingFilled,
    ];
}

impl Record {
    /// Nothing collected, in that setting.
    pub fn empty(strict: bool) -> Record {
        Record {
            strict,
            ..Record::default()
        }
    }

    pub fn has(&self, fault: Fault) -> bool {
        let number = usize::from(self.number);
        let mut slots = (0..SLOTS).map(|slot| (slot, self.filled[slot], self.lengths[slot]));
        match fault {
            Fault::NumberOver16 => number > SLOTS,
            Fault::LengthOver1497 => slots.any(|(_, _, length)| usize::from(length) > PIECE_MAX),
            Fault::LengthOnEmptySlot => slots.any(|(_, filled, length)| !filled && length > 0),
            Fault::FilledBeyondNumber => slots.any(|(slot, filled, _)| filled && slot >= number),
            Fault::NumberWithNothingFilled => number > 0 && !self.filled.contains(&true),
        }
    }

    fn holds_something(&self) -> bool {
        self.number > 0 && !Fault::ALL.iter().any(|&fault| self.has(fault))
    }

    /// A run that the piece starts, before it is stored.
    fn begun_by(piece: &Piece, strict: bool) -> Record {
        Record {
            count: piece.count,
            number: piece.number,
            ..Record::empty(strict)
        }
    }

    /// Empty slots, counted up to the number.
    fn empty_slots(&self) -> usize {
        let counted = self.filled.iter().take(self.number.into());
        counted.filter(|&&filled| !filled).count()
    }

    /// The ends of all pieces but the last, as offsets in the joined message.
    fn cuts(&self) -> Vec<usize> {
        let but_last = usize::from(self.number).saturating_sub(1);
        let mut end = 0;
        let mut cuts = Vec::new();
        for &length in self.lengths.iter().take(but_last) {
            end += usize::from(length);
            cuts.push(end);
        }
        cuts
    }
}

/// The answer to an accepted body.
#[derive(Debug, PartialEq, Eq)]
pub enum Taken<'b, 'j> {
    Repeat,
    /// The number of empty slots.
    Waiting(usize),
    /// The message came in one piece and is lent from the body.
    CompleteBody(&'b [u8]),
    /// The message is lent from the join buffer.
    CompleteJoin(&'j [u8]),
}

/// A body that passes tests 2 to 5, in its parts.
pub struct Piece<'b> {
    pub count: u8,
    pub number: u8,
    /// The sequence number less 1.
    pub slot: usize,
    pub bytes: &'b [u8],
}

impl<'b> Piece<'b> {
    /// Tests 2 to 5.
    pub fn of(body: &'b [u8]) -> Result<Piece<'b>, Refusal> {
        let [count, number, sequence, bytes @ ..] = body else {
            return Err(Refusal::whole(2));
        };
        if body.len() > BODY_MAX {
            return Err(Refusal::whole(3));
        }
        if *number == 0 || usize::from(*number) > SLOTS {
            return Err(Refusal::whole(4));
        }
        if *sequence == 0 || sequence > number {
            return Err(Refusal::whole(5));
        }
        Ok(Piece {
            count: *count,
            number: *number,
            slot: usize::from(*sequence) - 1,
            bytes,
        })
    }
}

/// Takes one body.
pub fn take_piece<'b, 'j>(
    record: &mut Record,
    slots: &mut [u8],
    join: &'j mut [u8],
    body: &'b [u8],
) -> Result<Taken<'b, 'j>, Refusal> {
    if slots.len() < BUFFER_MIN || join.len() < BUFFER_MIN {
        return Err(Refusal::whole(1));
    }
    let piece = Piece::of(body)?;
    if !continues(record, slots, &piece) {
        *record = Record::begun_by(&piece, record.strict);
    } else if record.filled[piece.slot] {
        return Ok(Taken::Repeat);
    }
    store(record, slots, &piece);
    match record.empty_slots() {
        0 if record.number == 1 => Ok(Taken::CompleteBody(piece.bytes)),
        0 => complete(record, slots, join).map(Taken::CompleteJoin),
        empty => Ok(Taken::Waiting(empty)),
    }
}

/// Whether the piece belongs to the run that the record holds.
fn continues(record: &Record, slots: &[u8], piece: &Piece) -> bool {
    record.holds_something()
        && (record.count, record.number) == (piece.count, piece.number)
        && (!record.filled[piece.slot] || held(record, slots, piece.slot) == piece.bytes)
}

/// The bytes that a slot of a sound record holds now.
fn held<'s>(record: &Record, slots: &'s [u8], slot: usize) -> &'s [u8] {
    let start = slot * SLOT_BYTES;
    &slots[start..start + usize::from(record.lengths[slot])]
}

fn store(record: &mut Record, slots: &mut [u8], piece: &Piece) {
    let start = piece.slot * SLOT_BYTES;
    slots[start..start + piece.bytes.len()].copy_from_slice(piece.bytes);
    record.filled[piece.slot] = true;
    record.lengths[piece.slot] = piece.bytes.len() as u16;
}

/// Joins the pieces and, in the strict setting, judges the cuts; a bad one empties the record.
fn complete<'j>(
    record: &mut Record,
    slots: &[u8],
    join: &'j mut [u8],
) -> Result<&'j [u8], Refusal> {
    let message = join_slots(record, slots, join);
    if !record.strict {
        return Ok(message);
    }
    match first_bad_cut(message, &record.cuts()) {
        Some(cut) => {
            *record = Record::empty(record.strict);
            Err(Refusal::at(21, cut))
        }
        None => Ok(message),
    }
}

/// Writes the pieces one after another to the start of the join buffer.
fn join_slots<'j>(record: &Record, slots: &[u8], join: &'j mut [u8]) -> &'j [u8] {
    let mut end = 0;
    for slot in 0..usize::from(record.number) {
        let bytes = held(record, slots, slot);
        join[end..end + bytes.len()].copy_from_slice(bytes);
        end += bytes.len();
    }
    &join[..end]
}
