//! The port behind a header, about the ends of the range that a classifier names.

use super::{when, Outcomes, FILTERED, FORWARD};
use crate::packets::range_of;
use reference::table::Classifier;

/// Ports about the ends of a range that is not empty.
const PLACES: [(&str, Outcomes); 4] = [
    ("at the start", FORWARD),
    ("1 below the start", FILTERED),
    ("at the end", FORWARD),
    ("1 past the end", FILTERED),
];
const CASES: [(&str, Outcomes); 6] = [
    (EMPTY_START, FILTERED),
    (EMPTY_END, FILTERED),
    (NO_START, FORWARD),
    (NO_END, FORWARD),
    (OTHER_INSIDE, FILTERED),
    (OTHER_OUTSIDE, FORWARD),
];
const EMPTY_START: &str = "port at the start, which is past the end";
const EMPTY_END: &str = "port at the end, which is below the start";
const NO_START: &str = "port 0, no start named";
const NO_END: &str = "port 65535, no end named";
const OTHER_INSIDE: &str = "options, port outside the range, one inside at byte 36";
const OTHER_OUTSIDE: &str = "options, port inside the range, one outside at byte 36";

pub fn all_cases() -> impl Iterator<Item = (String, Outcomes)> {
    let places = PLACES.into_iter().flat_map(|(place, outcomes)| {
        [true, false].map(|options| (place_case(place, options), outcomes))
    });
    places.chain(CASES.map(|(case, outcomes)| (case.to_string(), outcomes)))
}

fn place_case(place: &str, options: bool) -> String {
    let options = if options { "options" } else { "no options" };
    format!("{options}, port {place}")
}

/// The cases of a port. If the header has options, `other` is what stands where the port would be
/// without them.
pub fn cases(classifier: &Classifier, port: u16, other: Option<u16>) -> Vec<String> {
    let mut cases = place_cases(classifier, port, other.is_some());
    cases.extend(open_case(classifier, port));
    cases.extend(other.and_then(|other| other_case(classifier, port, other)));
    cases
}

/// The ends that are named and at or beside which the port stands.
fn place_cases(classifier: &Classifier, port: u16, options: bool) -> Vec<String> {
    let (start, end) = (classifier.port_start, classifier.port_end);
    let stands = [
        start == Some(port),
        start.and_then(|start| start.checked_sub(1)) == Some(port),
        end == Some(port),
        end.and_then(|end| end.checked_add(1)) == Some(port),
    ];
    if range_of(classifier).is_empty() {
        let cases = [when(stands[0], EMPTY_START), when(stands[2], EMPTY_END)];
        return cases.into_iter().flatten().collect();
    }
    let places = PLACES.iter().zip(stands).filter(|(_, stands)| *stands);
    let places = places.map(|((place, _), _)| place_case(place, options));
    places.collect()
}

/// The end that is not named and at which the port stands.
fn open_case(classifier: &Classifier, port: u16) -> Option<String> {
    match (classifier.port_start, classifier.port_end, port) {
        (None, Some(_), 0) => when(true, NO_START),
        (Some(_), None, u16::MAX) => when(true, NO_END),
        _ => None,
    }
}

/// The case of another port that would say otherwise.
fn other_case(classifier: &Classifier, port: u16, other: u16) -> Option<String> {
    let inside = [port, other].map(|port| range_of(classifier).contains(&port));
    match inside {
        [false, true] => when(true, OTHER_INSIDE),
        [true, false] => when(true, OTHER_OUTSIDE),
        _ => None,
    }
}
