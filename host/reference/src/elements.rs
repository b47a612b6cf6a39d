//! Reads a message into its known elements (document 01, "Elements" and refusals 6 to 14).
//!
//! `read_message` gives the top row as a tree: each known element with its offset, its value and,
//! where the value is a row, its known children. Elements that are not listed under their parent
//! are tested 6 to 8, skipped, and leave no trace. What the values mean is `table`'s business.

use crate::Refusal;
use std::ops::Range;

/// Which row an element stands in.
#[derive(Clone, Copy, Debug, PartialEq, Eq)]
pub enum Row {
    Top,
    Classifier,
    IpPart,
    Rule,
    ClientIds,
    Configuration,
}

/// The lengths that the table allows.
#[derive(Clone, Copy)]
enum Length {
    Row(Row),
    Is(usize),
    ZeroOr(usize),
    AtLeast(usize),
}

/// The values that the table allows.
#[derive(Clone, Copy)]
enum Values {
    Any,
    NotZero,
    Channel,
}

/// What limits an element beyond its own length and value.
#[derive(Clone, Copy)]
enum Room {
    Free,
    /// At most so many elements of these types in the row, all counted together.
    List(&'static [u8], usize),
    /// At most so many bytes in the value.
    Bytes(usize),
}

/// A line of the table of known types.
struct Known {
    row: Row,
    kind: u8,
    length: Length,
    must: bool,
    repeats: bool,
    values: Values,
    room: Room,
}

const fn once(row: Row, kind: u8, length: Length) -> Known {
    Known {
        row,
        kind,
        length,
        must: false,
        repeats: false,
        values: Values::Any,
        room: Room::Free,
    }
}

const fn must(row: Row, kind: u8, length: Length) -> Known {
    Known {
        must: true,
        ..once(row, kind, length)
    }
}

const fn list(row: Row, kind: u8, length: Length, kinds: &'static [u8], most: usize) -> Known {
    Known {
        repeats: true,
        room: Room::List(kinds, most),
        ..once(row, kind, length)
    }
}

impl Known {
    const fn with(self, values: Values) -> Known {
        Known { values, ..self }
    }

    const fn within(self, bytes: usize) -> Known {
        Known {
            room: Room::Bytes(bytes),
            ..self
        }
    }
}

const CLIENT_KINDS: &[u8] = &[1, 2, 3, 4];

/// The known types, in the order of document 01's table.
const KNOWN: &[Known] = &[
    list(Row::Top, 23, Length::Row(Row::Classifier), &[23], 32),
    must(Row::Classifier, 2, Length::Is(2)).with(Values::NotZero),
    must(Row::Classifier, 5, Length::Is(1)),
    must(Row::Classifier, 9, Length::Row(Row::IpPart)),
    once(Row::IpPart, 3, Length::Is(4)),
    once(Row::IpPart, 4, Length::Is(4)),
    must(Row::IpPart, 5, Length::Is(4)),
    once(Row::IpPart, 9, Length::Is(2)),
    once(Row::IpPart, 10, Length::Is(2)),
    list(Row::Top, 50, Length::Row(Row::Rule), &[50], 32),
    must(Row::Rule, 1, Length::Is(1)),
    once(Row::Rule, 2, Length::Is(1)),
    once(Row::Rule, 3, Length::AtLeast(1)).within(16),
    must(Row::Rule, 4, Length::Row(Row::ClientIds)),
    list(Row::ClientIds, 1, Length::ZeroOr(2), CLIENT_KINDS, 8).with(Values::NotZero),
    list(Row::ClientIds, 2, Length::Is(6), CLIENT_KINDS, 8),
    list(Row::ClientIds, 3, Length::Is(2), CLIENT_KINDS, 8),
    list(Row::ClientIds, 4, Length::Is(2), CLIENT_KINDS, 8),
    must(Row::Rule, 5, Length::Is(6)),
    list(Row::Rule, 6, Length::Is(2), &[6], 8).with(Values::NotZero),
    once(Row::Top, 51, Length::Row(Row::Configuration)),
    list(Row::Configuration, 1, Length::Is(4), &[1], 32).with(Values::Channel),
    once(Row::Configuration, 2, Length::Is(2)).with(Values::NotZero),
    once(Row::Configuration, 3, Length::Is(2)).with(Values::NotZero),
    once(Row::Configuration, 4, Length::Is(2)),
    once(Row::Configuration, 5, Length::Is(2)),
];

/// A known element of a message.
#[derive(Debug, PartialEq, Eq)]
pub struct Element<'m> {
    pub kind: u8,
    /// Offset of the type byte in the message.
    pub at: usize,
    pub value: &'m [u8],
    /// The known children, where the value is a row.
    pub children: Vec<Element<'m>>,
}

/// The first element of that kind in a row.
pub fn find<'r, 'm>(row: &'r [Element<'m>], kind: u8) -> Option<&'r Element<'m>> {
    row.iter().find(|element| element.kind == kind)
}

/// The elements of that kind in a row, in message order.
pub fn all<'r, 'm>(row: &'r [Element<'m>], kind: u8) -> impl Iterator<Item = &'r Element<'m>> {
    row.iter().filter(move |element| element.kind == kind)
}

/// Reads a whole message in byte order, up to the first refusal of 6 to 14.
pub fn read_message(message: &[u8]) -> Result<Vec<Element<'_>>, Refusal> {
    read_row(message, 0..message.len(), Row::Top)
}

fn read_row(message: &[u8], span: Range<usize>, row: Row) -> Result<Vec<Element<'_>>, Refusal> {
    let mut elements = Vec::new();
    let mut at = span.start;
    while at < span.end {
        let value = value_span(message, at, span.end)?;
        at = value.end;
        if let Some(element) = read_element(message, value, row, &elements)? {
            elements.push(element);
        }
    }
    Ok(elements)
}

/// Tests 6 to 8: where the value of the element at `at` lies.
pub(crate) fn value_span(
    message: &[u8],
    at: usize,
    row_end: usize,
) -> Result<Range<usize>, Refusal> {
    let start = at + 2;
    if start > row_end {
        return Err(Refusal::at(6, at));
    }
    let length = message[at + 1];
    if length == 255 {
        return Err(Refusal::at(7, at));
    }
    let end = start + usize::from(length);
    if end > row_end {
        return Err(Refusal::at(8, at));
    }
    Ok(start..end)
}

/// Tests 9 to 14 on the element with that value, and its children; `None` if it is not listed.
fn read_element<'m>(
    message: &'m [u8],
    span: Range<usize>,
    row: Row,
    before: &[Element<'m>],
) -> Result<Option<Element<'m>>, Refusal> {
    let at = span.start - 2;
    let kind = message[at];
    let Some(known) = KNOWN.iter().find(|k| k.row == row && k.kind == kind) else {
        return Ok(None);
    };
    let mut element = Element {
        kind,
        at,
        value: &message[span.clone()],
        children: Vec::new(),
    };
    test_element(known, &element, before)?;
    if let Length::Row(inner) = known.length {
        element.children = read_row(message, span, inner)?;
        test_ended_row(inner, &element, before)?;
    }
    Ok(Some(element))
}

/// Tests 9 to 12: the element's own, before its children.
fn test_element(known: &Known, element: &Element, before: &[Element]) -> Result<(), Refusal> {
    let refusal = if !known.repeats && find(before, element.kind).is_some() {
        9
    } else if !length_allowed(known.length, element.value.len()) {
        10
    } else if !value_allowed(known.values, element.value) {
        11
    } else if !has_room(known.room, element.value.len(), before) {
        12
    } else {
        return Ok(());
    };
    Err(Refusal::at(refusal, element.at))
}

fn length_allowed(allowed: Length, length: usize) -> bool {
    match allowed {
        Length::Row(_) => true,
        Length::Is(n) => length == n,
        Length::ZeroOr(n) => length == 0 || length == n,
        Length::AtLeast(n) => length >= n,
    }
}

fn value_allowed(allowed: Values, value: &[u8]) -> bool {
    match allowed {
        Values::Any => true,
        Values::NotZero => value.is_empty() || value.iter().any(|&byte| byte != 0),
        Values::Channel => {
            let hz = number(value);
            hz.is_multiple_of(62_500) && (62_500..=1_000_000_000).contains(&hz)
        }
    }
}

fn has_room(room: Room, length: usize, before: &[Element]) -> bool {
    match room {
        Room::Free => true,
        Room::Bytes(most) => length <= most,
        Room::List(kinds, most) => {
            let listed = before.iter().filter(|other| kinds.contains(&other.kind));
            listed.count() < most
        }
    }
}

/// Tests 13 and 14, on a row that has ended.
fn test_ended_row(row: Row, element: &Element, before: &[Element]) -> Result<(), Refusal> {
    let mut musts = KNOWN.iter().filter(|known| known.row == row && known.must);
    if !musts.all(|known| find(&element.children, known.kind).is_some()) {
        return Err(Refusal::at(13, element.at));
    }
    let numbered_by = match row {
        Row::Classifier => 2,
        Row::Rule => 1,
        _ => return Ok(()),
    };
    let number_of =
        |row: &Element| find(&row.children, numbered_by).map(|child| number(child.value));
    if all(before, element.kind).any(|other| number_of(other) == number_of(element)) {
        return Err(Refusal::at(14, element.at));
    }
    Ok(())
}

/// The number that up to four bytes carry, the first the most significant.
pub fn number(bytes: &[u8]) -> u32 {
    bytes
        .iter()
        .fold(0, |sum, &byte| sum << 8 | u32::from(byte))
}
