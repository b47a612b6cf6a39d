//! Frames that miss, by what they miss on (`crate::misses`). A frame counts once, with the classifier
//! that it comes nearest to, and once for each reason why it misses one that is as near.

use crate::misses::{miss_of, Miss};
use crate::packets::{addresses_fit, destination_fits, has_ports, is_fragment};
use crate::packets::{port_fits, port_of, range_of, source_fits};
use reference::table::Classifier;

/// Why a classifier whose addresses fit is missed, if it is for one reason alone.
const PORT_REASONS: [&str; 6] = [
    "protocol without ports",
    "fragment offset",
    "under four bytes behind the header",
    "empty range",
    "port below the start",
    "port past the end",
];
/// Which address misses a classifier whose port test is passed.
const ADDRESS_REASONS: [&str; 4] = [
    "destination alone",
    "source alone, no mask named",
    "source alone, mask named",
    "both addresses",
];

pub fn lines() -> impl Iterator<Item = String> {
    let port = PORT_REASONS.map(|reason| reason_line(Miss::Port, reason));
    let address = ADDRESS_REASONS.map(|reason| reason_line(Miss::Address, reason));
    Miss::ALL.map(line).into_iter().chain(port).chain(address)
}

fn line(miss: Miss) -> String {
    let on = match miss {
        Miss::Port => "the port",
        Miss::Address => "an address",
        Miss::Both => "both",
    };
    format!("miss: on {on}")
}

fn reason_line(miss: Miss, reason: &str) -> String {
    format!("{}, {reason}", line(miss))
}

/// The lines of a frame that none of these classifiers matched.
pub fn seen(frame: &[u8], asked: &[&Classifier]) -> Vec<String> {
    let Some(miss) = miss_of(frame, asked) else {
        return Vec::new();
    };
    let reasons = asked.iter().filter_map(|classifier| match miss {
        Miss::Port => port_reason(frame, classifier),
        Miss::Address => address_reason(frame, classifier),
        Miss::Both => None,
    });
    let mut lines = vec![line(miss)];
    lines.extend(reasons.map(|reason| reason_line(miss, reason)));
    lines
}

fn port_reason(frame: &[u8], classifier: &Classifier) -> Option<&'static str> {
    let (port, range) = (port_of(frame), range_of(classifier));
    let outside = port.filter(|_| !range.is_empty());
    let holds = [
        !has_ports(frame),
        is_fragment(frame),
        port.is_none(),
        range.is_empty(),
        outside.is_some_and(|port| port < *range.start()),
        outside.is_some_and(|port| port > *range.end()),
    ];
    let reasons = PORT_REASONS.iter().zip(holds).filter(|(_, holds)| *holds);
    match reasons.collect::<Vec<_>>()[..] {
        [(reason, _)] if addresses_fit(classifier, frame) => Some(reason),
        _ => None,
    }
}

fn address_reason(frame: &[u8], classifier: &Classifier) -> Option<&'static str> {
    let [destination, unmasked, masked, both] = ADDRESS_REASONS;
    let fits = [
        destination_fits(classifier, frame),
        source_fits(classifier, frame),
    ];
    let reason = match fits {
        [false, true] => destination,
        [true, false] if classifier.mask.is_none() => unmasked,
        [true, _] => masked,
        [false, false] => both,
    };
    port_fits(classifier, frame).then_some(reason)
}
