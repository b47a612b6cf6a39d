//! What must hold of an answer by itself, whatever two programs agree on: a `write` is answered as
//! `written` and `unreadable` have it, and a written message is read back as the table that was lent.

use crate::lent::lent_by;
use crate::unreadable::is_readable;
use crate::written::{bodies, elements, needed, STEP};
use reference::protocol::request::Request;
use reference::protocol::tables::write_table;
use reference::protocol::words::{commas, hex};
use reference::table::Table;

/// The lent table before the next request.
#[derive(Default)]
pub struct Claims {
    table: Table,
}

impl Claims {
    /// What an answer should have been, if it is another.
    pub fn broken(&mut self, request: &Request, answer: &str) -> Option<String> {
        if let Some(table) = lent_by(request, answer) {
            self.table = table;
        }
        let claimed = match request {
            Request::Write { count, out, fill } => write_answer(&self.table, *count, *out, *fill),
            Request::Read(message) => self.read_back(message)?,
            _ => return None,
        };
        let lent = write_table(&self.table);
        (claimed != answer).then(|| format!("{answer}\nand not {claimed}\nof {lent}\n"))
    }

    /// The table, if the message is what is written of it.
    fn read_back(&self, message: &[u8]) -> Option<String> {
        let written = is_readable(&self.table) && elements(&self.table).concat() == message;
        written.then(|| write_table(&self.table))
    }
}

/// The answer to a `write` of the table.
fn write_answer(table: &Table, count: u8, out: usize, fill: u8) -> String {
    if !is_readable(table) {
        return "refused 19 0".to_string();
    }
    let bodies = bodies(count, table);
    if out < needed(&bodies) {
        return "refused 20 0".to_string();
    }
    let mut buffer = vec![fill; out];
    for (at, body) in (0..).step_by(STEP).zip(&bodies) {
        buffer[at..at + body.len()].copy_from_slice(body);
    }
    let lengths = commas(bodies.iter().map(Vec::len));
    let bytes = commas(bodies.iter().map(|body| hex(body)));
    format!("pieces {lengths} {} {bytes}", crc32(&buffer))
}

/// The CRC-32 of zlib, bit by bit.
fn crc32(bytes: &[u8]) -> u32 {
    let mut crc = u32::MAX;
    for &byte in bytes {
        crc ^= u32::from(byte);
        for _ in 0..8 {
            crc = crc >> 1 ^ 0xEDB8_8320 * (crc & 1);
        }
    }
    !crc
}

#[cfg(test)]
mod tests {
    use super::crc32;

    #[test]
    fn gives_the_check_value_of_the_polynomial() {
        assert_eq!(crc32(b"123456789"), 0xCBF4_3926);
        assert_eq!(crc32(b""), 0);
    }
}
