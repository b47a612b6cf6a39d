//! The answers of each request kind, without their values.

use reference::protocol::request::Request;

/// The answers of each request kind, and the refusals that it can give.
const ANSWERS: [(&str, &[&str], &[u8]); 13] = [
    ("new", &["ok"], &[]),
    ("rec", &["ok"], &[]),
    (
        "piece",
        &["repeat", "waiting", "complete body", "complete join"],
        &[1, 2, 3, 4, 5, 21],
    ),
    (
        "recv",
        &["repeat", "waiting", "accepted"],
        &[1, 2, 3, 4, 5, 21],
    ),
    ("read", &["table"], &[3, 6, 7, 8, 9, 10, 11, 12, 13, 14, 15]),
    ("tset", &["ok"], &[]),
    ("tread", &["ok"], &[3, 6, 7, 8, 9, 10, 11, 12, 13, 14, 15]),
    (
        "list",
        &["dcd", "waiting"],
        &[2, 3, 4, 5, 6, 7, 8, 9, 10, 11, 12, 13, 14, 15],
    ),
    ("choose", &["rule"], &[17]),
    (
        "judge",
        &["other", "filtered", FORWARD_FREE, FORWARD_MATCHED],
        &[16, 17],
    ),
    ("write", &["pieces"], &[19, 20]),
    ("mrec", &["ok"], &[]),
    ("mev", &["ok"], &[18]),
];
/// The refusals of a message that `recv` completes. 3 is none of them: sixteen pieces of 1,497 bytes
/// are 23,952, the most that a message may have.
const MESSAGE_REFUSALS: [u8; 10] = [6, 7, 8, 9, 10, 11, 12, 13, 14, 15];
const FORWARD_FREE: &str = "forward without classifier";
const FORWARD_MATCHED: &str = "forward by classifier";
const BROADCAST_0: &str = "message with client 1:0";

pub fn lines() -> impl Iterator<Item = String> {
    let answered = ANSWERS.into_iter().flat_map(|(kind, words, refusals)| {
        let words = words.iter().map(|word| word.to_string());
        let refused = refusals.iter().map(|&number| refused(number));
        words
            .chain(refused)
            .map(move |outcome| format!("{kind}: {outcome}"))
    });
    answered
        .chain(MESSAGE_REFUSALS.map(|number| format!("recv: message {}", refused(number))))
        .chain([BROADCAST_0.to_string()])
}

/// The lines that a request adds to.
pub fn seen(request: &Request, answer: &str) -> Vec<String> {
    let mut lines = vec![format!("{}: {}", request.word(), outcome(answer))];
    if let Request::Read(message) | Request::TRead(message) = request {
        lines.extend(broadcast_0(message, answer));
    }
    lines
}

/// The line of a message that is refused for a broadcast client of value 0. No other element has
/// type 1 and length 2.
fn broadcast_0(message: &[u8], answer: &str) -> Option<String> {
    let offset: usize = answer.strip_prefix("refused 11 ")?.parse().ok()?;
    let refused = message.get(offset..)?.starts_with(&[1, 2, 0, 0]);
    refused.then(|| BROADCAST_0.to_string())
}

fn refused(number: u8) -> String {
    format!("refused {number:02}")
}

/// What an answer says, without its values.
fn outcome(answer: &str) -> String {
    if let Some(refusal) = answer.strip_prefix("message ") {
        return format!("message {}", outcome(refusal));
    }
    let words: Vec<&str> = answer.splitn(3, ' ').collect();
    match words[..] {
        ["refused", number, ..] => number.parse().map_or(answer.to_string(), refused),
        ["complete", lender, ..] => format!("complete {lender}"),
        ["forward", "0", ..] => FORWARD_FREE.to_string(),
        ["forward", ..] => FORWARD_MATCHED.to_string(),
        ["bad", ..] => answer.to_string(),
        [first, ..] => first.to_string(),
        [] => String::new(),
    }
}
