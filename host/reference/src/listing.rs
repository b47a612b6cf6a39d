//! What `dcdlist` writes for one body (document 01, "Listing").
//!
//! The body comes to a collection that holds nothing, so it is refused, or completes a message of
//! one piece, or leaves all slots but its own empty.

use crate::collecting::Piece;
use crate::table::{read_table, Classifier, Rule, Table};
use crate::Refusal;

/// The lines for a body, without their newlines.
pub fn list_body(body: &[u8]) -> Vec<String> {
    listed(body)
        .unwrap_or_else(|refusal| vec![format!("refused {} at {}", refusal.number, refusal.offset)])
}

fn listed(body: &[u8]) -> Result<Vec<String>, Refusal> {
    let piece = Piece::of(body)?;
    if piece.number > 1 {
        return Ok(vec![format!("waiting {}", piece.number - 1)]);
    }
    Ok(table_lines(piece.count, &read_table(piece.bytes)?))
}

fn table_lines(count: u8, table: &Table) -> Vec<String> {
    let mut lines = vec![format!(
        "dcd {count} rules {} classifiers {} channels {}",
        table.rules.len(),
        table.classifiers.len(),
        table.channels.len()
    )];
    lines.extend(table.rules.iter().map(rule_line));
    lines.extend(table.classifiers.iter().map(classifier_line));
    lines.extend(table.channels.iter().map(|hz| format!("channel {hz}")));
    let [t1, t2, t3, t4] = table.timers;
    lines.push(format!("timers {t1} {t2} {t3} {t4}"));
    lines
}

fn rule_line(rule: &Rule) -> String {
    let tunnel: String = rule
        .tunnel
        .iter()
        .map(|byte| format!("{byte:02x}"))
        .collect();
    format!(
        "rule {} priority {} tunnel {tunnel} clients {} classifiers {}",
        rule.number,
        rule.priority,
        rule.clients.len(),
        rule.classifiers.len()
    )
}

fn classifier_line(classifier: &Classifier) -> String {
    format!(
        "classifier {} priority {}",
        classifier.number, classifier.priority
    )
}
