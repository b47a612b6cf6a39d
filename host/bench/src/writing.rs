//! `write COUNT OUTLEN FILL`: the lent table, written into a buffer.

use crate::crc::crc32;
use crate::session::{refused, BUFFER_MOST};
use crate::words::{byte, commas, hex, number};
use dsg::Table;

/// The lengths, the CRC of the whole buffer and the pieces as they stand in it, or the refusal. One that changed the buffer is
/// an answer that no other program gives.
pub fn write(table: &Table, words: &[&str]) -> Option<String> {
    let [count, length, fill] = words else {
        return None;
    };
    let (count, length, fill) = (byte(count)?, number(length, BUFFER_MOST)?, byte(fill)?);
    let mut out = vec![fill; length as usize];
    let written = table.write(count, &mut out).map(|pieces| {
        let bodies = commas(pieces.into_iter().map(hex));
        (commas(pieces.lengths()), bodies)
    });
    let changed = out.iter().any(|&b| b != fill);
    Some(match written {
        Ok((lengths, bodies)) => format!("pieces {lengths} {} {bodies}", crc32(&out)),
        Err(refusal) if changed => format!("{}, buffer changed", refused(refusal)),
        Err(refusal) => refused(refusal),
    })
}

#[cfg(test)]
mod tests {
    use crate::crc::crc32;
    use crate::session::Session;
    use crate::words::bytes;

    fn ask(session: &mut Session, request: &str) -> String {
        let answer = session.answer(request.as_bytes());
        answer.expect("every request gets an answer")
    }

    /// The CRC of a buffer of so many bytes, the fill in all but the pieces.
    fn crc(pieces: &[&str], length: usize, fill: u8) -> u32 {
        let mut buffer = vec![fill; length];
        for (at, piece) in pieces.iter().enumerate() {
            let piece = bytes(piece).expect("hex");
            buffer[at * 1_500..][..piece.len()].copy_from_slice(&piece);
        }
        crc32(&buffer)
    }

    #[test]
    fn writes_the_table_of_the_empty_message_as_one_head() {
        let mut session = Session::new();
        for (length, fill) in [(3, 0), (4, 255), (12_000, 9), (65_536, 0)] {
            let expected = format!("pieces 3 {} ff0101", crc(&["ff0101"], length, fill));
            let request = format!("write 255 {length} {fill}");
            assert_eq!(ask(&mut session, &request), expected);
        }
        for length in 0..3 {
            let request = format!("write 255 {length} 0");
            assert_eq!(ask(&mut session, &request), "refused 20 0");
        }
    }

    /// Document 01's message M behind a classifier: the configuration comes first, then the classifier, then the rules, and
    /// the children of each in the order of their types.
    #[test]
    fn writes_a_table_in_the_order_of_document_02() {
        let rules = "32140101050201500404040200\
                     2a050601005e050505321401010602010904040402002a050601005e060606";
        let channel = "3306010423f10cc0";
        let given = "1713050101090a0a0200070504e00000010202000a";
        let classifier = "17130202000a050101090a0504e00000010a020007";
        let mut session = Session::new();
        let read = format!("tread j128 {given}{rules}{channel}");
        assert_eq!(ask(&mut session, &read), "ok");
        let body = format!("070101{channel}{classifier}{rules}");
        assert_eq!(body.len() / 2, 3 + 8 + 21 + 44);
        let expected = format!("pieces 76 {} {body}", crc(&[&body], 90, 7));
        assert_eq!(ask(&mut session, "write 7 90 7"), expected);
        assert_eq!(ask(&mut session, "write 7 75 7"), "refused 20 0");
    }

    /// Classifiers of 21 bytes and rules of 36: behind 25 classifiers 27 rules fill the first piece to its last byte, behind 26
    /// another rule would pass it by 21.
    #[test]
    fn writes_two_pieces_at_their_places() {
        for (count, fitting, lengths) in [(25, 27, [1_500, 183]), (26, 26, [1_485, 219])] {
            let classifier = |n| format!("1713020200{n:02x}050100090a0504e00000010a020000");
            let rule = |n| format!("32220101{n:02x}0201000310{n:032x}04000506{n:012x}");
            let classifiers: String = (1..=count).map(classifier).collect();
            let rules: String = (0..32).map(rule).collect();
            let mut session = Session::new();
            let read = format!("tread j128 {classifiers}{rules}");
            assert_eq!(ask(&mut session, &read), "ok");
            let (fitting, rest) = rules.split_at(2 * 36 * fitting);
            let first = format!("080201{classifiers}{fitting}");
            let second = format!("080202{rest}");
            assert_eq!([first.len() / 2, second.len() / 2], lengths);
            let [length, last] = lengths;
            let (need, crc) = (1_500 + last, crc(&[&first, &second], 1_500 + last, 9));
            let expected = format!("pieces {length},{last} {crc} {first},{second}");
            assert_eq!(ask(&mut session, &format!("write 8 {need} 9")), expected);
            let short = format!("write 8 {} 9", need - 1);
            assert_eq!(ask(&mut session, &short), "refused 20 0");
        }
    }

    #[test]
    fn refuses_19_before_20() {
        let mut session = Session::new();
        assert_eq!(ask(&mut session, "tset table j128 2 0 300 1800 -"), "ok");
        for length in [0, 2, 3, 12_000] {
            let request = format!("write 0 {length} 1");
            assert_eq!(ask(&mut session, &request), "refused 19 0");
        }
    }

    #[test]
    fn write_has_a_count_a_length_and_a_fill() {
        let mut session = Session::new();
        for words in [
            "",
            " 7",
            " 7 3",
            " 7 3 0 0",
            " 256 3 0",
            " 7 65537 0",
            " 7 3 256",
            " - 3 0",
            " 7 - 0",
            " 7 3 -",
            " 07 3 0",
            " 7 -1 0",
            " 7  0",
            " 7 3 0 ",
        ] {
            let request = format!("write{words}");
            assert_eq!(ask(&mut session, &request), "bad request", "{request}");
        }
    }
}
