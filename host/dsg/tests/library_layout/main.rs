//! The layout of every record and answer, held to the library itself.
//!
//! `layout.rs` compares the header with the mirror. Here the library writes and the mirror reads, and the
//! mirror writes and the library reads. What is expected follows by documents 01 and 02 from the bytes, events
//! and numbers that a test chose; `places::tell_apart` sees to it that they tell every place from every other.
//!
//!   places      every field of every record and answer, by name
//!   messages    tables of chosen numbers, and their messages        numbers   numbers to choose
//!   tables      Client, Rule, Classifier, TimerValues, Table; ReadAnswer, Choice, Listed
//!   judging     the same tables, read by dsg_judge; Judged          tunnels   Tunnel
//!   pieces      Collection; Collected, Received                     modem     Modem
//!   writing     the same tables, read by dsg_write; Written
//!   untouched   what is only read is lent from memory that cannot be written
//!
//! Not shown, and why:
//!   - Tunnel, written: dsg.h leaves the meaning of its fields to the library. Entries are expected in matching
//!     order, their addresses with source and mask present, their ports where both are present; `ports` is
//!     only told to be 0 or not, and `mode` to be over 1 where entries decide.
//!   - Modem.ucid, read: no answer depends on it. That it is kept is shown.
//!   - Modem.receive, .retry and .ucid, written beside a mark that is off: nothing says what stands there.
//!   - Written.lengths behind the fourth place, other than 0: no table takes more pieces. The longest configuration and
//!     classifiers fit into one, and of the longest rules eleven.

#![forbid(unsafe_code)]

mod judging;
mod messages;
mod modem;
mod numbers;
mod pieces;
mod places;
mod tables;
mod tunnels;
mod untouched;
mod writing;
