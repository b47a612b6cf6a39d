//! The words of the protocol's lines: numbers, byte strings and absent values.

use std::fmt::{Display, Write};
use std::str::FromStr;

/// A decimal number within its type's range: digits only, no sign, no leading zero.
pub fn number<T: FromStr>(word: &str) -> Option<T> {
    let digits = !word.is_empty() && word.bytes().all(|byte| byte.is_ascii_digit());
    let padded = word.len() > 1 && word.starts_with('0');
    if digits && !padded {
        word.parse().ok()
    } else {
        None
    }
}

/// `0` or `1`.
pub fn flag(word: &str) -> Option<bool> {
    match word {
        "0" => Some(false),
        "1" => Some(true),
        _ => None,
    }
}

/// `-` for an absent value, or the value as `read` reads it.
pub fn optional<T>(word: &str, read: impl Fn(&str) -> Option<T>) -> Option<Option<T>> {
    match word {
        "-" => Some(None),
        word => read(word).map(Some),
    }
}

/// `-` for an empty list, or items separated by commas, at most `most`.
pub fn list<T>(word: &str, most: usize, read: impl Fn(&str) -> Option<T>) -> Option<Vec<T>> {
    let items = match word {
        "-" => Some(Vec::new()),
        word => word.split(',').map(read).collect::<Option<Vec<T>>>(),
    };
    items.filter(|items| items.len() <= most)
}

/// `-` for the empty byte string, or lowercase hex digits, two to a byte.
pub fn bytes(word: &str) -> Option<Vec<u8>> {
    match word {
        "-" => Some(Vec::new()),
        "" => None,
        word => word.as_bytes().chunks(2).map(byte).collect(),
    }
}

/// Just `N` bytes.
pub fn array<const N: usize>(word: &str) -> Option<[u8; N]> {
    bytes(word)?.try_into().ok()
}

fn byte(digits: &[u8]) -> Option<u8> {
    match digits {
        [high, low] => Some(digit(*high)? << 4 | digit(*low)?),
        _ => None,
    }
}

fn digit(character: u8) -> Option<u8> {
    match character {
        b'0'..=b'9' => Some(character - b'0'),
        b'a'..=b'f' => Some(character - b'a' + 10),
        _ => None,
    }
}

/// Hex digits, or `-` for no bytes.
pub fn hex(bytes: &[u8]) -> String {
    if bytes.is_empty() {
        return "-".to_string();
    }
    let mut text = String::with_capacity(2 * bytes.len());
    for &byte in bytes {
        text.push(hex_digit(byte >> 4));
        text.push(hex_digit(byte & 15));
    }
    text
}

fn hex_digit(value: u8) -> char {
    char::from(b"0123456789abcdef"[usize::from(value)])
}

/// The value, or `-`.
pub fn or_dash(value: Option<impl Display>) -> String {
    value.map_or("-".to_string(), |value| value.to_string())
}

/// Items with commas between, or `-` for none.
pub fn commas<T: Display>(items: impl IntoIterator<Item = T>) -> String {
    let mut text = String::new();
    for item in items {
        let comma = if text.is_empty() { "" } else { "," };
        let _ = write!(text, "{comma}{item}");
    }
    if text.is_empty() {
        text.push('-');
    }
    text
}
