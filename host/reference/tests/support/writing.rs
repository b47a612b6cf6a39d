//! What tests of writing want: a session's answers, and the answer to `write` for bodies that are
//! worked out by hand.

use reference::protocol::Session;

pub fn answer(session: &mut Session, line: &str) -> String {
    session.answer_line(line.as_bytes()).expect("an answer")
}

/// What a request is answered when the table, in text behind `table j128`, is lent.
pub fn answered(table: &str, request: &str) -> String {
    let mut session = Session::default();
    let lent = answer(&mut session, &format!("tset table j128 {table}"));
    assert_eq!(lent, "ok", "{table}");
    answer(&mut session, request)
}

/// The rest of dividing the bits of the bytes, lowest first, by the polynomial of CRC-32.
pub fn crc(bytes: &[u8]) -> u32 {
    let mut rest = u32::MAX;
    for byte in bytes {
        rest ^= u32::from(byte.reverse_bits()) << 24;
        for _ in 0..8 {
            let out = rest >> 31;
            rest = (rest << 1) ^ (out * 0x04C1_1DB7);
        }
    }
    !rest.reverse_bits()
}

pub fn hex(bytes: &[u8]) -> String {
    bytes.iter().map(|byte| format!("{byte:02x}")).collect()
}

/// The answer that has these bodies, in a buffer of so many bytes that held the fill.
pub fn pieces(bodies: &[Vec<u8>], out: usize, fill: u8) -> String {
    let mut buffer = vec![fill; out];
    for (place, body) in (0..).step_by(1_500).zip(bodies) {
        buffer[place..place + body.len()].copy_from_slice(body);
    }
    let lengths: Vec<String> = bodies.iter().map(|body| body.len().to_string()).collect();
    let bodies: Vec<String> = bodies.iter().map(|body| hex(body)).collect();
    let sum = crc(&buffer);
    format!("pieces {} {sum} {}", lengths.join(","), bodies.join(","))
}
