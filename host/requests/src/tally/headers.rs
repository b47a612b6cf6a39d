//! Judged frames by their IP header: its length, where the frame ends, the port behind it (`ports`).
//!
//! A frame counts with the classifier that let it pass, or with each that did not, if EtherType, IP
//! version and addresses fit that classifier: then the header's length and the port decide. One that
//! no classifier was asked about counts if its header is too short or too long.

mod ports;

use crate::packets::{addresses_fit, has_ports, header_end, is_fragment, is_ipv4, names_port};
use crate::packets::{port_behind, port_of, range_of, LEAST_END};
use reference::table::Classifier;

/// What can become of a frame.
type Outcomes = &'static [&'static str];
const FORWARD: Outcomes = &["forward"];
const FILTERED: Outcomes = &["filtered"];
const EITHER: Outcomes = &["forward", "filtered"];

/// Ends of a frame with options, counted from its header's end, and whether the classifier names a
/// port.
const ENDS: [(isize, bool, Outcomes); 8] = [
    (-1, false, FILTERED),
    (-1, true, FILTERED),
    (0, false, FORWARD),
    (0, true, FILTERED),
    (3, false, FORWARD),
    (3, true, FILTERED),
    (4, false, FORWARD),
    (4, true, EITHER),
];
const CASES: [(&str, Outcomes); 6] = [
    (SHORT_UNASKED, FORWARD),
    (PAST_UNASKED, FORWARD),
    (SHORT, FILTERED),
    (OTHER_PROTOCOL, FORWARD),
    (FRAGMENT, FORWARD),
    (FRAGMENT_INSIDE, FILTERED),
];
const SHORT_UNASKED: &str = "under 5 words, no classifier named";
const PAST_UNASKED: &str = "past the frame's end, no classifier named";
const SHORT: &str = "under 5 words, no port named";
const OTHER_PROTOCOL: &str = "protocol without ports, no port named";
const FRAGMENT: &str = "options, fragment offset, no port named";
const FRAGMENT_INSIDE: &str = "options, fragment offset, port inside the range";

pub fn lines() -> impl Iterator<Item = String> {
    let words = (0..16).map(|words| (words_case(words), if words < 5 { FILTERED } else { EITHER }));
    let ends = ENDS.map(|(behind, named, outcomes)| (end_case(behind, named), outcomes));
    let cases = CASES.map(|(case, outcomes)| (case.to_string(), outcomes));
    let all = words.chain(ends).chain(cases).chain(ports::all_cases());
    all.flat_map(|(case, outcomes)| outcomes.iter().map(move |outcome| line(&case, outcome)))
}

fn line(case: &str, outcome: &str) -> String {
    format!("header: {case}: {outcome}")
}

fn words_case(words: usize) -> String {
    format!("{words:02} words")
}

fn end_case(behind: isize, named: bool) -> String {
    let named = if named { "port named" } else { "no port named" };
    format!("options, frame ends {behind:+} from the header's end, {named}")
}

/// The lines of a frame and a classifier that let it pass, or did not.
pub fn seen(frame: &[u8], classifier: &Classifier, outcome: &str) -> Vec<String> {
    let fitting = Fitting::of(frame, classifier);
    let cases = fitting.map(|fitting| fitting.cases()).unwrap_or_default();
    cases.iter().map(|case| line(case, outcome)).collect()
}

/// The lines of a frame that no classifier was asked about.
pub fn seen_unasked(frame: &[u8], outcome: &str) -> Vec<String> {
    let end = header_end(frame).filter(|_| is_ipv4(frame));
    let cases = [
        end.and_then(|end| when(end < LEAST_END, SHORT_UNASKED)),
        end.and_then(|end| when(end > frame.len(), PAST_UNASKED)),
    ];
    let cases = cases.iter().flatten();
    cases.map(|case| line(case, outcome)).collect()
}

/// The case, if it holds.
fn when(holds: bool, case: &str) -> Option<String> {
    holds.then(|| case.to_string())
}

/// A frame whose addresses fit the classifier.
struct Fitting<'q> {
    frame: &'q [u8],
    classifier: &'q Classifier,
    /// Where the header ends.
    end: usize,
}

impl<'q> Fitting<'q> {
    fn of(frame: &'q [u8], classifier: &'q Classifier) -> Option<Fitting<'q>> {
        let fits = is_ipv4(frame) && addresses_fit(classifier, frame);
        let end = header_end(frame).filter(|_| fits)?;
        Some(Fitting {
            frame,
            classifier,
            end,
        })
    }

    fn cases(&self) -> Vec<String> {
        let words = (self.end - 14) / 4;
        let named = names_port(self.classifier);
        let mut cases = vec![words_case(words)];
        if words < 5 {
            cases.extend(when(!named, SHORT));
        } else if named {
            cases.extend(self.cases_with_port());
        } else {
            cases.extend(self.cases_without_port());
        }
        cases
    }

    fn options(&self) -> bool {
        self.end > LEAST_END
    }

    /// The cases of a classifier that names no port.
    fn cases_without_port(&self) -> Vec<String> {
        let whole = self.end <= self.frame.len();
        let fragment = whole && self.options() && is_fragment(self.frame);
        let cases = [
            self.end_case(false),
            when(whole && !has_ports(self.frame), OTHER_PROTOCOL),
            when(fragment, FRAGMENT),
        ];
        cases.into_iter().flatten().collect()
    }

    /// The cases of a classifier that names one, if the protocol has ports.
    fn cases_with_port(&self) -> Vec<String> {
        let port = port_of(self.frame);
        if !has_ports(self.frame) {
            return Vec::new();
        }
        if is_fragment(self.frame) {
            let range = range_of(self.classifier);
            let inside = port.is_some_and(|port| range.contains(&port));
            return Vec::from_iter(when(self.options() && inside, FRAGMENT_INSIDE));
        }
        let other = port_behind(self.frame, LEAST_END).filter(|_| self.options());
        let ports = port.map(|port| ports::cases(self.classifier, port, other));
        let ends = self.end_case(true);
        ends.into_iter()
            .chain(ports.into_iter().flatten())
            .collect()
    }

    fn end_case(&self, named: bool) -> Option<String> {
        let behind = self.frame.len() as isize - self.end as isize;
        let shown = self.options() && ENDS.iter().any(|&(listed, ..)| listed == behind);
        shown.then(|| end_case(behind, named))
    }
}
