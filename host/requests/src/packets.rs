//! What classifiers look at in a frame, and which of their tests it passes.

use reference::table::Classifier;
use std::ops::RangeInclusive;

/// Where the source address of a frame stands.
pub const SOURCE: usize = 26;
/// Where the destination address stands.
pub const DESTINATION: usize = 30;
/// Where a header without options ends.
pub const LEAST_END: usize = 34;

/// Where the IP header of a frame ends, by the length that its first byte gives.
pub fn header_end(frame: &[u8]) -> Option<usize> {
    let first = frame.get(14)?;
    Some(14 + 4 * usize::from(first & 15))
}

pub fn is_ipv4(frame: &[u8]) -> bool {
    frame.len() > 14 && frame[12..14] == [0x08, 0x00] && frame[14] >> 4 == 4
}

/// Whether the frame is an IPv4 packet whose header has five words or more and ends within it.
pub fn has_header(frame: &[u8]) -> bool {
    let ends_within = |end| (LEAST_END..=frame.len()).contains(&end);
    is_ipv4(frame) && header_end(frame).is_some_and(ends_within)
}

/// Whether the frame's protocol has ports.
pub fn has_ports(frame: &[u8]) -> bool {
    [Some(&6), Some(&17)].contains(&frame.get(23))
}

/// Whether the frame is a fragment behind the first.
pub fn is_fragment(frame: &[u8]) -> bool {
    pair(frame, 20).is_some_and(|word| word & 0x1FFF != 0)
}

/// What stands where TCP and UDP have the destination port, if the frame has it.
pub fn port_of(frame: &[u8]) -> Option<u16> {
    port_behind(frame, header_end(frame)?)
}

/// The destination port behind a header that ends there, if the frame has it.
pub fn port_behind(frame: &[u8], end: usize) -> Option<u16> {
    pair(frame, end + 2)
}

/// The number at a place, if the frame has its two bytes.
fn pair(frame: &[u8], at: usize) -> Option<u16> {
    let bytes = frame.get(at..at + 2)?.try_into().ok()?;
    Some(u16::from_be_bytes(bytes))
}

pub fn names_port(classifier: &Classifier) -> bool {
    classifier.port_start.is_some() || classifier.port_end.is_some()
}

pub fn range_of(classifier: &Classifier) -> RangeInclusive<u16> {
    classifier.port_start.unwrap_or(0)..=classifier.port_end.unwrap_or(u16::MAX)
}

/// The mask for a packet's source, and what it must leave of it. A mask alone is ignored.
pub fn source_test(classifier: &Classifier) -> [[u8; 4]; 2] {
    let mask = classifier.mask.unwrap_or([255; 4]);
    let every = [[0; 4]; 2];
    classifier.source.map_or(every, |source| [mask, source])
}

/// What a mask leaves of an address.
pub fn under(mask: [u8; 4], address: [u8; 4]) -> [u8; 4] {
    std::array::from_fn(|i| mask[i] & address[i])
}

pub fn source_of(frame: &[u8]) -> Option<[u8; 4]> {
    frame.get(SOURCE..SOURCE + 4)?.try_into().ok()
}

pub fn source_fits(classifier: &Classifier, frame: &[u8]) -> bool {
    let [mask, wanted] = source_test(classifier);
    source_of(frame).is_some_and(|source| under(mask, source) == wanted)
}

pub fn destination_fits(classifier: &Classifier, frame: &[u8]) -> bool {
    frame.get(DESTINATION..DESTINATION + 4) == Some(&classifier.destination)
}

pub fn addresses_fit(classifier: &Classifier, frame: &[u8]) -> bool {
    source_fits(classifier, frame) && destination_fits(classifier, frame)
}

/// Whether the frame passes the port test; by a classifier that names no port every frame does.
pub fn port_fits(classifier: &Classifier, frame: &[u8]) -> bool {
    let inside = |port| range_of(classifier).contains(&port);
    let has_port = has_ports(frame) && !is_fragment(frame);
    !names_port(classifier) || has_port && port_of(frame).is_some_and(inside)
}
