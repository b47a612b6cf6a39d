//! The words of a request: numbers, byte strings, lists. What does not parse is none.

use std::fmt::Display;

/// A decimal number without sign or leading zero, at most `most`.
pub fn number(word: &str, most: u64) -> Option<u64> {
    let digits = word.bytes().all(|b| b.is_ascii_digit());
    let plain = word == "0" || !word.starts_with('0');
    if word.is_empty() || !digits || !plain {
        return None;
    }
    word.parse().ok().filter(|&n| n <= most)
}

/// A number of 8 bits.
pub fn byte(word: &str) -> Option<u8> {
    number(word, u8::MAX.into()).map(|n| n as u8)
}

/// A number of 16 bits.
pub fn short(word: &str) -> Option<u16> {
    number(word, u16::MAX.into()).map(|n| n as u16)
}

/// A number of 32 bits.
pub fn long(word: &str) -> Option<u32> {
    number(word, u32::MAX.into()).map(|n| n as u32)
}

/// 0 or 1.
pub fn flag(word: &str) -> Option<u8> {
    number(word, 1).map(|n| n as u8)
}

/// A value, or `-` for none.
pub fn optional<T>(word: &str, parse: impl Fn(&str) -> Option<T>) -> Option<Option<T>> {
    if word == "-" {
        Some(None)
    } else {
        parse(word).map(Some)
    }
}

/// Items separated by commas, at most `most`, or `-` for none.
pub fn list<T>(word: &str, most: usize, parse: impl Fn(&str) -> Option<T>) -> Option<Vec<T>> {
    if word == "-" {
        return Some(Vec::new());
    }
    let items: Option<Vec<T>> = word.split(',').map(parse).collect();
    items.filter(|items| items.len() <= most)
}

fn digit(b: u8) -> Option<u8> {
    match b {
        b'0'..=b'9' => Some(b - b'0'),
        b'a'..=b'f' => Some(b - b'a' + 10),
        _ => None,
    }
}

/// Lower-case hex digits in pairs, or `-` for no bytes.
pub fn bytes(word: &str) -> Option<Vec<u8>> {
    if word == "-" {
        return Some(Vec::new());
    }
    let digits = word.as_bytes();
    if digits.is_empty() || !digits.len().is_multiple_of(2) {
        return None;
    }
    digits
        .chunks(2)
        .map(|pair| Some(digit(pair[0])? << 4 | digit(pair[1])?))
        .collect()
}

/// The number that `width` bytes in hex spell.
pub fn hex_number(word: &str, width: usize) -> Option<u64> {
    let bytes = bytes(word).filter(|bytes| bytes.len() == width)?;
    Some(bytes.iter().fold(0, |n, &b| n << 8 | u64::from(b)))
}

/// Bytes in hex, `-` for none.
pub fn hex(bytes: &[u8]) -> String {
    const DIGITS: &[u8; 16] = b"0123456789abcdef";
    if bytes.is_empty() {
        return "-".into();
    }
    let digits = bytes.iter().flat_map(|&b| [b >> 4, b & 15]);
    digits.map(|d| char::from(DIGITS[usize::from(d)])).collect()
}

/// Items joined by commas, `-` for none.
pub fn commas<T: Display>(items: impl IntoIterator<Item = T>) -> String {
    let items: Vec<String> = items.into_iter().map(|item| item.to_string()).collect();
    if items.is_empty() {
        "-".into()
    } else {
        items.join(",")
    }
}

/// A value, `-` for none.
pub fn or_dash<T: Display>(value: Option<T>) -> String {
    value.map_or("-".into(), |v| v.to_string())
}
