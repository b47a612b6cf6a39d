//! Choosing and judging by lent tables: counts above their limits, marks and kinds of any value, tunnels
//! that no frame has.

use crate::disguise::{disguised, scenario, Lent, Question};
use crate::from_seeds;
use dsg::ffi::{self, Choice, Judged};
use reference::choosing::{choose_rule, judge_frame, Verdict};
use reference::table as said;
use std::collections::BTreeSet;
use std::hint::black_box;

/// The least number that is no six bytes'.
const NO_ADDRESS: u64 = 1 << 48;

pub const OTHER: Judged = Judged {
    kind: 1,
    number: 0,
    start: 0,
    length: 0,
};
pub const FILTERED: Judged = Judged { kind: 3, ..OTHER };

pub fn refused(number: u32) -> Judged {
    Judged {
        kind: 0,
        number,
        ..OTHER
    }
}

/// The answer that lends a frame from byte 14 on.
pub fn forward(classifier: u16, frame: &[u8]) -> Judged {
    Judged {
        kind: 2,
        number: classifier.into(),
        start: 14,
        length: frame.len() - 14,
    }
}

/// The answer to a choice, by the other program.
fn chosen(table: &said::Table, question: &Question) -> Choice {
    match choose_rule(table, question.client, question.ucid) {
        Ok(place) => Choice { number: 0, place },
        Err(refusal) => Choice {
            number: refusal.number.into(),
            place: 0,
        },
    }
}

/// The verdict by the other program; where the rule's tunnel is no address, every frame is another's.
pub fn judged(table: &said::Table, lent: &Lent, question: &Question) -> Judged {
    let frame = &question.frame;
    let rule = &lent.table.rules[chosen(table, question).place];
    match judge_frame(table, question.client, question.ucid, frame) {
        Err(refusal) => refused(refusal.number.into()),
        Ok(_) if rule.tunnel >= NO_ADDRESS => OTHER,
        Ok(Verdict::Other) => OTHER,
        Ok(Verdict::Forward(number, _)) => forward(number, frame),
        Ok(Verdict::Filtered) => FILTERED,
    }
}

#[test]
fn same_as_other_program_on_any_lent_table() {
    let mut seen = BTreeSet::new();
    from_seeds(|seed, random| {
        let (table, questions) = scenario(random);
        for question in &questions {
            let lent = disguised(random, &table, question);
            let Lent { known, ucid, .. } = lent;
            let (kind, value, frame) = (lent.client.kind, lent.client.value, &question.frame);
            let case = || format!("seed {seed}: frame {frame:02x?} of {lent:?}");
            let given = lent.table;
            let choice = ffi::choose(&lent.table, kind, value, known, ucid);
            let verdict = ffi::judge(&lent.table, kind, value, known, ucid, frame);
            let tunnel = ffi::prepare(&lent.table, kind, value, known, ucid);
            let prepared = ffi::judge_prepared(&tunnel, frame);
            assert_eq!(choice, chosen(&table, question), "{}", case());
            let expected = judged(&table, &lent, question);
            assert_eq!(verdict, expected, "{}", case());
            assert_eq!(prepared, expected, "prepared, {}", case());
            assert_eq!(*black_box(&lent.table), given, "{}", case());
            // Of a classifier that matches it is enough that there is one.
            let most = if expected.kind == 2 { 1 } else { 17 };
            seen.insert((expected.kind, expected.number.min(most)));
        }
        questions.len()
    });
    let all = [(0, 16), (0, 17), (1, 0), (2, 0), (2, 1), (3, 0)];
    assert_eq!(seen, BTreeSet::from(all));
}
