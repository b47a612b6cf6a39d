//! Judged frames by the classifier's source and mask, if these decide: destination and port fit.

use crate::packets::{destination_fits, has_header, port_fits, source_of, under};
use reference::table::Classifier;

/// What can be said of source and mask, and what becomes of the frame.
const CASES: [(&str, &str); 3] = [
    (OUTSIDE, "filtered"),
    (NOTHING, "forward"),
    (ALONE, "forward"),
];
const OUTSIDE: &str = "bits outside the mask, the frame's alike under it";
const NOTHING: &str = "0 and mask 0, the frame's not 0";
const ALONE: &str = "none, a mask alone that has bits of the frame's";

pub fn lines() -> impl Iterator<Item = String> {
    CASES.into_iter().map(|(case, outcome)| line(case, outcome))
}

fn line(case: &str, outcome: &str) -> String {
    format!("source: {case}: {outcome}")
}

/// The line of a frame and a classifier that let it pass, or did not.
pub fn seen(frame: &[u8], classifier: &Classifier, outcome: &str) -> Option<String> {
    let decides =
        has_header(frame) && destination_fits(classifier, frame) && port_fits(classifier, frame);
    let source = source_of(frame).filter(|_| decides)?;
    case(classifier, source).map(|case| line(case, outcome))
}

fn case(classifier: &Classifier, source: [u8; 4]) -> Option<&'static str> {
    let none = [0; 4];
    let mask = classifier.mask?;
    match classifier.source {
        None => (under(mask, source) != none).then_some(ALONE),
        Some(wanted) if under(mask, wanted) != wanted => {
            (under(mask, wanted) == under(mask, source)).then_some(OUTSIDE)
        }
        Some(_) => (mask == none && source != none).then_some(NOTHING),
    }
}
