//! Judges where a joined message was cut into its pieces (document 02, Req 04).
//!
//! A cut is the end of a piece but the last, as an offset in the message. It is good where a
//! top-level element starts, and at the message's end. The first top-level element that itself gives
//! 6, 7 or 8 starts like any other, but no cut behind its start is judged. Nothing else counts:
//! neither what a type says, nor a value or the row in it, nor refusals 9 to 15.

use crate::elements::value_span;

/// The first of these cuts, which come in piece order, that is bad.
pub fn first_bad_cut(message: &[u8], cuts: &[usize]) -> Option<usize> {
    let top = TopRow::of(message);
    cuts.iter().copied().find(|&cut| !top.allows(cut))
}

/// What the top-level elements of a message say about cuts.
struct TopRow {
    /// Where elements start, up to and with the faulty one.
    starts: Vec<usize>,
    /// Where the first element that itself gives 6, 7 or 8 starts.
    faulty: Option<usize>,
    /// The message's end.
    end: usize,
}

impl TopRow {
    fn of(message: &[u8]) -> TopRow {
        let mut top = TopRow {
            starts: Vec::new(),
            faulty: None,
            end: message.len(),
        };
        let mut at = 0;
        while at < top.end && top.faulty.is_none() {
            top.starts.push(at);
            match value_span(message, at, top.end) {
                Ok(value) => at = value.end,
                Err(_) => top.faulty = Some(at),
            }
        }
        top
    }

    fn allows(&self, cut: usize) -> bool {
        let unjudged = self.faulty.is_some_and(|start| cut > start);
        unjudged || cut == self.end || self.starts.contains(&cut)
    }
}
