//! Chooses the rule for a client and judges a frame (document 01, "Choosing and judging",
//! refusals 16 and 17; document 02, Req 02, for the IP header's length).
//!
//! The table is a lent one: it may repeat rule and classifier numbers and hold values that no
//! message gives. Nothing is written.

use crate::table::{Classifier, Client, Rule, Table};
use crate::Refusal;
use std::cmp::Reverse;

pub const FRAME_MIN: usize = 14;
pub const FRAME_MAX: usize = 1_518;

/// What becomes of a frame.
#[derive(Debug, PartialEq, Eq)]
pub enum Verdict<'f> {
    /// Not for the client's tunnel.
    Other,
    /// The rule names classifiers and none matches.
    Filtered,
    /// The matching classifier's number, 0 for none, and the frame from byte 14.
    Forward(u16, &'f [u8]),
}

/// The index in the table of the client's rule.
pub fn choose_rule(table: &Table, client: Client, ucid: Option<u8>) -> Result<usize, Refusal> {
    let fitting = (0..table.rules.len()).filter(|&i| fits(&table.rules[i], client, ucid));
    let best = fitting.min_by_key(|&i| {
        let rule = &table.rules[i];
        (Reverse(rule.priority), rule.number, i)
    });
    best.ok_or(Refusal::whole(17))
}

fn fits(rule: &Rule, client: Client, ucid: Option<u8>) -> bool {
    let reached = rule.ucids.is_empty() || ucid.is_some_and(|ucid| rule.ucids.contains(&ucid));
    reached && rule.clients.contains(&client)
}

/// The verdict on a frame for a client.
pub fn judge_frame<'f>(
    table: &Table,
    client: Client,
    ucid: Option<u8>,
    frame: &'f [u8],
) -> Result<Verdict<'f>, Refusal> {
    if !(FRAME_MIN..=FRAME_MAX).contains(&frame.len()) {
        return Err(Refusal::whole(16));
    }
    let rule = &table.rules[choose_rule(table, client, ucid)?];
    let payload = &frame[FRAME_MIN..];
    if frame[..6] != rule.tunnel {
        return Ok(Verdict::Other);
    }
    if rule.classifiers.is_empty() {
        return Ok(Verdict::Forward(0, payload));
    }
    Ok(match best_match(table, rule, frame) {
        Some(number) => Verdict::Forward(number, payload),
        None => Verdict::Filtered,
    })
}

/// The number of the best classifier that the rule names and the frame matches.
fn best_match(table: &Table, rule: &Rule, frame: &[u8]) -> Option<u16> {
    let named = table
        .classifiers
        .iter()
        .filter(|c| rule.classifiers.contains(&c.number));
    let matching = named.filter(|c| matches(c, frame));
    let best = matching.min_by_key(|c| (Reverse(c.priority), c.number));
    best.map(|classifier| classifier.number)
}

fn matches(classifier: &Classifier, frame: &[u8]) -> bool {
    Packet::of(frame).is_some_and(|packet| {
        packet.destination == classifier.destination
            && source_matches(classifier, packet.source)
            && port_matches(classifier, &packet)
    })
}

/// The fields of an IPv4 frame that classifiers look at.
struct Packet {
    source: [u8; 4],
    destination: [u8; 4],
    protocol: u8,
    fragment_offset: u16,
    /// The second pair of bytes after the header, where TCP and UDP have the destination port, if
    /// the frame has it.
    port: Option<u16>,
}

impl Packet {
    /// `None` unless EtherType, length, IP version and header length let a classifier match.
    ///
    /// The header's length is the low half of its first byte, in words of four bytes, and ports
    /// stand after the header (document 02, Req 02). Options change no other field's place.
    fn of(frame: &[u8]) -> Option<Packet> {
        if frame.len() < 34 {
            return None;
        }
        let ether_type = pair(frame, 12)?;
        let version = frame[14] >> 4;
        let words = usize::from(frame[14] & 0x0F);
        let header_end = 14 + 4 * words;
        if ether_type != 0x0800 || version != 4 || words < 5 || header_end > frame.len() {
            return None;
        }
        Some(Packet {
            source: address(frame, 26)?,
            destination: address(frame, 30)?,
            protocol: frame[23],
            fragment_offset: pair(frame, 20)? & 0x1FFF,
            port: pair(frame, header_end + 2),
        })
    }
}

fn address(frame: &[u8], at: usize) -> Option<[u8; 4]> {
    frame.get(at..at + 4)?.try_into().ok()
}

fn pair(frame: &[u8], at: usize) -> Option<u16> {
    let bytes = frame.get(at..at + 2)?.try_into().ok()?;
    Some(u16::from_be_bytes(bytes))
}

fn source_matches(classifier: &Classifier, source: [u8; 4]) -> bool {
    let Some(wanted) = classifier.source else {
        return true;
    };
    let mask = u32::from_be_bytes(classifier.mask.unwrap_or([255; 4]));
    u32::from_be_bytes(source) & mask == u32::from_be_bytes(wanted)
}

fn port_matches(classifier: &Classifier, packet: &Packet) -> bool {
    if classifier.port_start.is_none() && classifier.port_end.is_none() {
        return true;
    }
    let ports = classifier.port_start.unwrap_or(0)..=classifier.port_end.unwrap_or(65_535);
    [6, 17].contains(&packet.protocol)
        && packet.fragment_offset == 0
        && packet.port.is_some_and(|port| ports.contains(&port))
}
