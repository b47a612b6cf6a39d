//! Which of a classifier's four parts are present.

use reference::table::Classifier;

/// Whether source, mask, start and end are present.
pub type Marks = [bool; 4];

pub fn all_marks() -> impl Iterator<Item = Marks> {
    (0..16).map(|bits: u8| std::array::from_fn(|place| bits >> place & 1 == 1))
}

pub fn marks_of(classifier: &Classifier) -> Marks {
    [
        classifier.source.is_some(),
        classifier.mask.is_some(),
        classifier.port_start.is_some(),
        classifier.port_end.is_some(),
    ]
}

/// The line of what is said about a classifier with those marks.
pub fn marks_line(said: &str, marks: Marks) -> String {
    let words = ["source", "mask", "start", "end"];
    let marked = |(word, present)| if present { word } else { "-" };
    let marks: Vec<&str> = words.into_iter().zip(marks).map(marked).collect();
    format!("{said}, classifier with {}", marks.join(" "))
}
