//! The head end's half: a table written as the bodies of a message.

use crate::ffi;
use crate::lent::{refusal, Refusal};
use crate::records::Table;

/// How large a buffer is never too short for the bodies of a table.
pub const WRITE_BYTES: usize = 12_000;

/// How many bytes of the buffer lie between the starts of two bodies.
pub const PIECE_STEP: usize = 1_500;

/// The bodies of a table that was written, as they stand in the buffer.
#[derive(Clone, Copy, Debug, PartialEq, Eq)]
pub struct Pieces<'o> {
    out: &'o [u8],
    number: usize,
    lengths: [u16; 16],
}

impl<'o> Pieces<'o> {
    /// How many bodies there are: 1 to 16.
    #[must_use]
    pub fn number(&self) -> usize {
        self.number
    }

    /// How many bytes each body has, the three of its head among them.
    #[must_use]
    pub fn lengths(&self) -> &[u16] {
        &self.lengths[..self.number]
    }

    /// The body at a place, from 0.
    #[must_use]
    pub fn body(&self, place: usize) -> Option<&'o [u8]> {
        let length = *self.lengths().get(place)?;
        Some(&self.out[place * PIECE_STEP..][..length.into()])
    }

    /// The bodies, in their order.
    #[must_use]
    pub fn iter(&self) -> Bodies<'o> {
        Bodies {
            pieces: *self,
            place: 0,
        }
    }
}

impl<'o> IntoIterator for Pieces<'o> {
    type Item = &'o [u8];
    type IntoIter = Bodies<'o>;

    fn into_iter(self) -> Bodies<'o> {
        self.iter()
    }
}

impl<'o> IntoIterator for &Pieces<'o> {
    type Item = &'o [u8];
    type IntoIter = Bodies<'o>;

    fn into_iter(self) -> Bodies<'o> {
        self.iter()
    }
}

/// What goes over the bodies of [`Pieces`].
#[derive(Clone, Debug)]
pub struct Bodies<'o> {
    pieces: Pieces<'o>,
    place: usize,
}

impl<'o> Iterator for Bodies<'o> {
    type Item = &'o [u8];

    fn next(&mut self) -> Option<&'o [u8]> {
        let body = self.pieces.body(self.place)?;
        self.place += 1;
        Some(body)
    }

    fn size_hint(&self) -> (usize, Option<usize>) {
        let left = self.pieces.number - self.place;
        (left, Some(left))
    }
}

impl ExactSizeIterator for Bodies<'_> {}

impl Table {
    /// Writes this table into a buffer as the bodies of a message under a change count: the s-th, from 1, at
    /// `(s - 1) * PIECE_STEP`. The other bytes of the buffer stay as they were. [`crate::Receiver::receive`] of the bodies, in
    /// any order, gives the table back; a table that changed wants another count.
    ///
    /// ```
    /// use dsg::{Received, Receiver, Table, WRITE_BYTES};
    ///
    /// let mut table = Table::default();
    /// table.timers.tdsg2 = 5;
    /// let mut out = [0; WRITE_BYTES];
    /// let pieces = table.write(7, &mut out)?;
    /// assert_eq!(pieces.lengths(), [9]);
    /// assert_eq!(pieces.body(0), Some(&[7, 1, 1, 51, 4, 3, 2, 0, 5][..]));
    ///
    /// let mut receiver = Receiver::strict();
    /// for body in pieces {
    ///     assert_eq!(receiver.receive(body), Ok(Received::Accepted));
    /// }
    /// assert_eq!(*receiver.table(), table);
    ///
    /// table.timers.tdsg2 = 0; // which no message gives
    /// assert_eq!(table.write(7, &mut out).unwrap_err().number, 19);
    /// # Ok::<(), dsg::Refusal>(())
    /// ```
    ///
    /// # Errors
    /// 19: no message gives this table; `include/dsg.h` lists the reasons. 20: the buffer is shorter than the bodies need;
    /// [`WRITE_BYTES`] are always enough. The buffer stays as it was.
    pub fn write<'o>(&self, count: u8, out: &'o mut [u8]) -> Result<Pieces<'o>, Refusal> {
        let answer = ffi::write(self, count, out);
        if answer.number != 0 {
            return Err(refusal(answer.number, 0));
        }
        Ok(Pieces {
            out,
            number: answer.pieces as usize,
            lengths: answer.lengths,
        })
    }
}
