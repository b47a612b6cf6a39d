//! Makes bench requests from a seed, and compares the answers that programs give to them.
//!
//!   generator    requests of an area, scenario by scenario
//!   pieces, strict, receiving, messages, cuttings, rows, tables, frames, headers, misses, events,
//!   writing, limits, filled   the scenarios' parts
//!   packets      what classifiers look at in a frame
//!   places       where a message may be cut
//!   written, unreadable   what is written of a table, and which tables no message gives
//!   lent         the table that requests lend
//!   claims       what must hold of an answer by itself
//!   random       the numbers behind them
//!   programs     a program that answers requests through pipes
//!   tally        how often each answer, row and broken record was seen
//!   shortening   fewer and shorter requests that still show a difference
//!
//! The generator aims by the independent program `reference`: where that errs, the aim suffers, and
//! the tally shows it; no expectation is taken from it.

#![forbid(unsafe_code)]

pub mod claims;
pub mod cuttings;
pub mod events;
pub mod filled;
pub mod frames;
pub mod generator;
pub mod headers;
pub mod lent;
pub mod limits;
pub mod messages;
pub mod misses;
pub mod packets;
pub mod pieces;
pub mod places;
pub mod programs;
pub mod random;
pub mod receiving;
pub mod rows;
pub mod shortening;
pub mod strict;
pub mod tables;
pub mod tally;
pub mod unreadable;
pub mod writing;
pub mod written;
