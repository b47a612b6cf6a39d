//! The independent program: a DSG receiver and a head end's writer, written from documents 01 and 02
//! and our readings of them.
//!
//! It shares no code, no table and no test data with the proved library, and exists to be compared
//! with it. It is written to be read beside the documents; speed comes second.
//!
//!   collecting   pieces into a message        document 01, "Collecting pieces"; Req 04
//!   cuts         where pieces may end         Req 04
//!   elements     a message into elements      "Elements", refusals 6 to 14
//!   table        elements into a table        "Elements", refusals 3 and 15
//!   receiving    a body all the way to a table   both of the sections above
//!   choosing     a rule for a client, and the verdict on a frame   "Choosing and judging"; Req 02
//!   modem        one event on the record      "Modem record"
//!   listing      what `dcdlist` writes        "Listing"
//!   writing      a table into bodies          Req 01
//!   protocol     the bench protocol's lines
//!
//! Every function takes any input; bad input is an answer.

#![forbid(unsafe_code)]

pub mod choosing;
pub mod collecting;
pub mod cuts;
pub mod elements;
pub mod listing;
pub mod modem;
pub mod protocol;
pub mod receiving;
pub mod table;
pub mod writing;

/// A refusal of document 01, "Refusal numbers", or of a request of document 02.
#[derive(Clone, Copy, Debug, PartialEq, Eq)]
pub struct Refusal {
    pub number: u8,
    /// Offset in the message: for 6 to 15 of the type byte concerned, for 21 of the cut; else 0.
    pub offset: usize,
}

impl Refusal {
    /// A refusal that concerns no byte of a message.
    pub fn whole(number: u8) -> Refusal {
        Refusal::at(number, 0)
    }

    pub fn at(number: u8, offset: usize) -> Refusal {
        Refusal { number, offset }
    }
}
