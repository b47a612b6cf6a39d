//! The boundary: the only unsafe code. One safe function for each function of the library, with the
//! library's own answers; [`crate::lent`] gives them Rust's types.
//!
//! Every function of the library takes any bytes and any numbers, has no state of its own, allocates
//! nothing and keeps no pointer after it returns (`include/dsg.h`). What is left to show is that the
//! pointers are good, that nothing lent as `&mut` is lent twice, and that the declarations below are
//! the header's; the last is held by `tests/layout.rs` and by every answer that the tests compare.
//! An answer of more than 16 bytes is written where the first pointer points, as in the header:
//! x86-64 and aarch64 return such a struct in different ways, and pass a pointer in the same.

use crate::records::{Collection, Modem, Table, Tunnel};
use std::mem::MaybeUninit;

/// The answer to a body.
#[repr(C)]
#[derive(Clone, Copy, Debug, PartialEq, Eq)]
pub struct Collected {
    /// 0 refused, 1 repeat, 2 waiting, 3 complete in the body, 4 complete in the join buffer, 5 dropped.
    pub kind: u32,
    /// The refusal's number.
    pub number: u32,
    /// The empty slots of a collection that waits.
    pub empty: usize,
    /// Where the message begins.
    pub start: usize,
    /// How many bytes it has.
    pub length: usize,
    /// The offset of the cut for which a collection is dropped.
    pub offset: usize,
}

/// The answer to a message: number 0, or the refusal and its offset.
#[repr(C)]
#[derive(Clone, Copy, Debug, PartialEq, Eq)]
pub struct ReadAnswer {
    /// 0, or the refusal's number.
    pub number: u32,
    /// The refusal's offset.
    pub offset: usize,
}

/// The answer to a body that goes all the way.
#[repr(C)]
#[derive(Clone, Copy, Debug, PartialEq, Eq)]
pub struct Received {
    /// 0 body refused, 1 repeat, 2 waiting, 3 table accepted, 4 message refused, 5 dropped.
    pub kind: u32,
    /// The refusal's number.
    pub number: u32,
    /// The empty slots of a collection that waits.
    pub empty: usize,
    /// The refusal's offset.
    pub offset: usize,
}

/// The answer to a choice: number 0 and the rule's place, or the refusal.
#[repr(C)]
#[derive(Clone, Copy, Debug, PartialEq, Eq)]
pub struct Choice {
    /// 0, or the refusal's number.
    pub number: u32,
    /// The rule's place in the table.
    pub place: usize,
}

/// The answer to a frame.
#[repr(C)]
#[derive(Clone, Copy, Debug, PartialEq, Eq)]
pub struct Judged {
    /// 0 refused, 1 other, 2 forward, 3 filtered.
    pub kind: u32,
    /// The refusal's number, or the classifier's.
    pub number: u32,
    /// Where the payload begins.
    pub start: usize,
    /// How many bytes it has.
    pub length: usize,
}

/// The answer to a listing: number 0 and its length, or the refusal.
#[repr(C)]
#[derive(Clone, Copy, Debug, PartialEq, Eq)]
pub struct Listed {
    /// 0, or the refusal's number.
    pub number: u32,
    /// How many bytes the text has.
    pub length: usize,
}

/// The answer to a table that is written: number 0 and the bodies' lengths, or the refusal.
#[repr(C)]
#[derive(Clone, Copy, Debug, PartialEq, Eq)]
pub struct Written {
    /// 0, or the refusal's number.
    pub number: u32,
    /// How many bodies were written.
    pub pieces: u32,
    /// How many bytes each has; 0 behind the last.
    pub lengths: [u16; 16],
}

mod raw {
    use super::{Choice, Collected, Judged, Listed, ReadAnswer, Received, Written};
    use crate::records::{Collection, Modem, Table, Tunnel};

    extern "C" {
        pub fn dsg_empty_collection(held: *mut Collection, strict: u16) -> *mut Collection;
        pub fn dsg_empty_table(table: *mut Table) -> *mut Table;
        pub fn dsg_empty_modem(modem: *mut Modem) -> *mut Modem;
        pub fn dsg_collect(
            answer: *mut Collected,
            held: *mut Collection,
            slots: *mut u8,
            slots_length: usize,
            join: *mut u8,
            join_length: usize,
            body: *const u8,
            body_length: usize,
        ) -> *mut Collected;
        pub fn dsg_read(table: *mut Table, message: *const u8, length: usize) -> ReadAnswer;
        pub fn dsg_receive(
            answer: *mut Received,
            held: *mut Collection,
            table: *mut Table,
            slots: *mut u8,
            slots_length: usize,
            join: *mut u8,
            join_length: usize,
            body: *const u8,
            body_length: usize,
        ) -> *mut Received;
        pub fn dsg_choose(table: *const Table, kind: u8, value: u64, known: u8, ucid: u8)
            -> Choice;
        pub fn dsg_judge(
            answer: *mut Judged,
            table: *const Table,
            kind: u8,
            value: u64,
            known: u8,
            ucid: u8,
            frame: *const u8,
            length: usize,
        ) -> *mut Judged;
        pub fn dsg_prepare(
            tunnel: *mut Tunnel,
            table: *const Table,
            kind: u8,
            value: u64,
            known: u8,
            ucid: u8,
        ) -> *mut Tunnel;
        pub fn dsg_judge_prepared(
            answer: *mut Judged,
            tunnel: *const Tunnel,
            frame: *const u8,
            length: usize,
        ) -> *mut Judged;
        pub fn dsg_event(
            modem: *mut Modem,
            clock: u32,
            event: u8,
            a: u16,
            b: u16,
            c: u16,
            d: u16,
        ) -> u32;
        pub fn dsg_transmits(modem: *const Modem) -> bool;
        pub fn dsg_forwards(modem: *const Modem) -> bool;
        pub fn dsg_list_body(
            body: *const u8,
            body_length: usize,
            out: *mut u8,
            out_length: usize,
        ) -> Listed;
        pub fn dsg_list_table(
            table: *const Table,
            count: u8,
            out: *mut u8,
            out_length: usize,
        ) -> Listed;
        pub fn dsg_write(
            answer: *mut Written,
            table: *const Table,
            count: u8,
            out: *mut u8,
            out_length: usize,
        ) -> *mut Written;
    }
}

/// What a call of the library writes.
///
/// # Safety
/// `call` writes every field of the record that it is given, and does not read it. Records are numbers
/// alone, and the bytes between their fields may hold anything.
unsafe fn written<T>(call: impl FnOnce(*mut T) -> *mut T) -> T {
    let mut answer = MaybeUninit::uninit();
    call(answer.as_mut_ptr());
    // SAFETY: the caller promises that every field is written.
    unsafe { answer.assume_init() }
}

/// A collection record with nothing collected, loose (0) or strict.
pub fn empty_collection(strict: u16) -> Collection {
    // SAFETY: it writes the whole record.
    unsafe { written(|held| raw::dsg_empty_collection(held, strict)) }
}

/// The table of the empty message.
pub fn empty_table() -> Table {
    // SAFETY: it writes the whole record.
    unsafe { written(|table| raw::dsg_empty_table(table)) }
}

/// An idle modem record.
pub fn empty_modem() -> Modem {
    // SAFETY: it writes the whole record.
    unsafe { written(|modem| raw::dsg_empty_modem(modem)) }
}

/// One body for a lent record and two lent buffers.
pub fn collect(held: &mut Collection, slots: &mut [u8], join: &mut [u8], body: &[u8]) -> Collected {
    // SAFETY: each pointer comes from a reference that lives through the call, each length is its
    // slice's, and the borrow checker keeps the four apart. The answer is written whole.
    unsafe {
        written(|answer| {
            raw::dsg_collect(
                answer,
                held,
                slots.as_mut_ptr(),
                slots.len(),
                join.as_mut_ptr(),
                join.len(),
                body.as_ptr(),
                body.len(),
            )
        })
    }
}

/// A message for a lent table.
pub fn read(table: &mut Table, message: &[u8]) -> ReadAnswer {
    // SAFETY: both pointers come from references that live through the call and are kept apart; the
    // length is the slice's.
    unsafe { raw::dsg_read(table, message.as_ptr(), message.len()) }
}

/// One body all the way: for a lent record, a lent table and two lent buffers.
pub fn receive(
    held: &mut Collection,
    table: &mut Table,
    slots: &mut [u8],
    join: &mut [u8],
    body: &[u8],
) -> Received {
    // SAFETY: as for `collect`, with the table as a fifth reference.
    unsafe {
        written(|answer| {
            raw::dsg_receive(
                answer,
                held,
                table,
                slots.as_mut_ptr(),
                slots.len(),
                join.as_mut_ptr(),
                join.len(),
                body.as_ptr(),
                body.len(),
            )
        })
    }
}

/// The rule for a client.
pub fn choose(table: &Table, kind: u8, value: u64, known: u8, ucid: u8) -> Choice {
    // SAFETY: the pointer comes from a reference that lives through the call; it is only read.
    unsafe { raw::dsg_choose(table, kind, value, known, ucid) }
}

/// The verdict on a frame.
pub fn judge(table: &Table, kind: u8, value: u64, known: u8, ucid: u8, frame: &[u8]) -> Judged {
    // SAFETY: both pointers come from references that live through the call and are only read; the
    // length is the slice's. The answer is written whole.
    unsafe {
        written(|answer| {
            raw::dsg_judge(
                answer,
                table,
                kind,
                value,
                known,
                ucid,
                frame.as_ptr(),
                frame.len(),
            )
        })
    }
}

/// The tunnel of a client, prepared.
pub fn prepare(table: &Table, kind: u8, value: u64, known: u8, ucid: u8) -> Tunnel {
    // SAFETY: the pointer comes from a reference that lives through the call; it is only read. The
    // tunnel is written whole.
    unsafe { written(|tunnel| raw::dsg_prepare(tunnel, table, kind, value, known, ucid)) }
}

/// The verdict on a frame with a prepared tunnel.
pub fn judge_prepared(tunnel: &Tunnel, frame: &[u8]) -> Judged {
    // SAFETY: both pointers come from references that live through the call and are only read; the
    // length is the slice's. The answer is written whole.
    unsafe {
        written(|answer| raw::dsg_judge_prepared(answer, tunnel, frame.as_ptr(), frame.len()))
    }
}

/// One event for a lent modem record: 0, or the refusal's number.
pub fn event(modem: &mut Modem, clock: u32, event: u8, values: [u16; 4]) -> u32 {
    let [a, b, c, d] = values;
    // SAFETY: the pointer comes from a reference that lives through the call and is the only one.
    unsafe { raw::dsg_event(modem, clock, event, a, b, c, d) }
}

/// Whether the transmitter is on.
pub fn transmits(modem: &Modem) -> bool {
    // SAFETY: the pointer comes from a reference that lives through the call; it is only read.
    unsafe { raw::dsg_transmits(modem) }
}

/// Whether tunnels are forwarded.
pub fn forwards(modem: &Modem) -> bool {
    // SAFETY: the pointer comes from a reference that lives through the call; it is only read.
    unsafe { raw::dsg_forwards(modem) }
}

/// What `dcdlist` writes for a body.
pub fn list_body(body: &[u8], out: &mut [u8]) -> Listed {
    // SAFETY: both pointers come from references that live through the call and are kept apart; each
    // length is its slice's.
    unsafe { raw::dsg_list_body(body.as_ptr(), body.len(), out.as_mut_ptr(), out.len()) }
}

/// The listing of a table.
pub fn list_table(table: &Table, count: u8, out: &mut [u8]) -> Listed {
    // SAFETY: both pointers come from references that live through the call and are kept apart; the
    // length is the slice's.
    unsafe { raw::dsg_list_table(table, count, out.as_mut_ptr(), out.len()) }
}

/// A table as the bodies of a message.
pub fn write(table: &Table, count: u8, out: &mut [u8]) -> Written {
    // SAFETY: both pointers come from references that live through the call and are kept apart; the
    // length is the slice's. The answer is written whole.
    unsafe { written(|answer| raw::dsg_write(answer, table, count, out.as_mut_ptr(), out.len())) }
}
