//! The bench protocol's lines, and what cannot be parsed (header of `protocol`).

use reference::protocol::request::Request;
use reference::protocol::{Session, BAD_REQUEST};
use std::io::{Read, Write};
use std::process::{Command, Stdio};

const M_HEX: &str = "321401010502015004040402002a050601005e050505\
                     321401010602010904040402002a050601005e0606063306010423f10cc0";
/// The table of M in text.
const M_TABLE: &str = "table j128 2 600 300 1800 - \
    ; rule 5 80 01005e050505 - 4:42 - - 0 ; rule 6 9 01005e060606 - 4:42 - - 1 \
    ; channel 603000000";

/// A collection record in text that holds nothing.
const NOTHING: &str = "0 0 0000000000000000 0,0,0,0,0,0,0,0,0,0,0,0,0,0,0,0";

/// The answers of one session.
fn answers(lines: &[&str]) -> Vec<String> {
    let mut session = Session::default();
    let answered = lines
        .iter()
        .filter_map(|line| session.answer_line(line.as_bytes()));
    answered.collect()
}

fn answer(line: &str) -> String {
    answers(&[line]).concat()
}

/// An answer without the record and the sums behind it.
fn answer_part(answer: &str) -> &str {
    answer.split(" | ").next().unwrap_or_default()
}

#[test]
fn gives_no_answer_to_blank_lines_and_remarks() {
    assert!(answers(&["", " ", "   ", "#", "# new 0 0 0 0", "#new"]).is_empty());
}

#[test]
fn answers_examples_in_text() {
    let listed = "dcd 7 rules 2 classifiers 0 channels 1 \
        / rule 5 priority 80 tunnel 01005e050505 clients 1 classifiers 0 \
        / rule 6 priority 9 tunnel 01005e060606 clients 1 classifiers 0 \
        / channel 603000000 / timers 2 600 300 1800";
    assert_eq!(answer(&format!("list 070101{M_HEX}")), listed);
    assert_eq!(answer("list 070201"), "waiting 1");
    assert_eq!(answer("list 0701013200"), "refused 13 at 0");
    assert_eq!(answer(&format!("read j128 {M_HEX}")), M_TABLE);
    assert_eq!(answer("read j128 -"), "table j128 2 600 300 1800 -");
    assert_eq!(answer("read j128 33003300"), "refused 9 2");
}

#[test]
fn answers_pieces_with_the_record_and_both_sums() {
    let lines = [
        "new 24000 24000 0 0",
        "piece 070202a0",
        "piece 07020132",
        "piece 07020132",
        "piece -",
    ];
    let record = "7 2 1100000000000000 1,1,0,0,0,0,0,0,0,0,0,0,0,0,0,0 | 418886415 2293120022";
    let expected = [
        "ok".to_string(),
        "waiting 1 | 7 2 0100000000000000 0,1,0,0,0,0,0,0,0,0,0,0,0,0,0,0 | 484396942 4152666804"
            .to_string(),
        format!("complete join 32a0 | {record}"),
        format!("repeat | {record}"),
        format!("refused 2 0 | {record}"),
    ];
    assert_eq!(answers(&lines), expected);
}

#[test]
fn answers_a_message_of_one_piece_received_all_the_way() {
    let body = format!("recv j128 070101{M_HEX}");
    let record = "7 1 1000000000000000 52,0,0,0,0,0,0,0,0,0,0,0,0,0,0,0 | 3481633734 4152666804";
    let expected = [
        format!("accepted {M_TABLE} | {record}"),
        "rule 5 0 01005e050505".to_string(),
        format!("repeat | {record}"),
        format!("refused 5 0 | {record}"),
        "rule 5 0 01005e050505".to_string(),
    ];
    let lines = [
        &body,
        "choose 4:42 -",
        &body,
        "recv j128 070102",
        "choose 4:42 -",
    ];
    assert_eq!(answers(&lines), expected);
}

#[test]
fn answers_an_accepted_and_a_refused_message_of_several_pieces() {
    let (first, second) = M_HEX.split_at(20);
    let lines = [
        &format!("recv j128 070202{second}"),
        "choose 4:42 -",
        &format!("recv j128 070201{first}"),
        "choose 4:42 -",
        "recv j128 08020133",
        "recv j128 080202003300",
        "recv j128 080202003300",
        "choose 4:42 -",
    ];
    let refused = "8 2 1100000000000000 1,3,0,0,0,0,0,0,0,0,0,0,0,0,0,0 | 3403002044 881730705";
    let expected = [
        "waiting 1 | 7 2 0100000000000000 0,42,0,0,0,0,0,0,0,0,0,0,0,0,0,0 | 3389115540 4152666804",
        "refused 17 0",
        &format!("accepted {M_TABLE} | 7 2 1100000000000000 10,42,0,0,0,0,0,0,0,0,0,0,0,0,0,0 | 3670521984 3481633734"),
        "rule 5 0 01005e050505",
        "waiting 1 | 8 2 1000000000000000 1,0,0,0,0,0,0,0,0,0,0,0,0,0,0,0 | 2613490589 3481633734",
        &format!("message refused 9 2 | {refused}"),
        &format!("repeat | {refused}"),
        "rule 5 0 01005e050505",
    ];
    assert_eq!(answers(&lines), expected);
}

#[test]
fn keeps_the_lent_table_after_a_refused_message_of_one_piece() {
    let lines = [
        "tset table j128 1 2 3 4 - ; rule 9 9 000000000009 - 0 - - 0",
        "recv j128 07010133003300",
        "recv j128 07010133003300",
        "choose 0 -",
        "recv j128 080101",
        "choose 0 -",
    ];
    let record = "7 1 1000000000000000 4,0,0,0,0,0,0,0,0,0,0,0,0,0,0,0 | 2690788349 4152666804";
    let expected = [
        "ok",
        &format!("message refused 9 2 | {record}"),
        &format!("repeat | {record}"),
        "rule 9 0 000000000009",
        "accepted table j128 2 600 300 1800 - \
         | 8 1 1000000000000000 0,0,0,0,0,0,0,0,0,0,0,0,0,0,0,0 | 2690788349 4152666804",
        "refused 17 0",
    ];
    assert_eq!(answers(&lines), expected);
}

#[test]
fn takes_turns_of_piece_and_recv_on_one_collection() {
    let lines = [
        "piece 07020133",
        "recv j128 07020133",
        "recv j128 07020200",
        "piece 07020200",
        "recv j128 08020133",
        "piece 08020200",
        "recv j128 08020200",
    ];
    let answered = answers(&lines);
    let answered: Vec<&str> = answered.iter().map(|line| answer_part(line)).collect();
    let expected = [
        "waiting 1",
        "repeat",
        "accepted table j128 2 600 300 1800 -",
        "repeat",
        "waiting 1",
        "complete join 3300",
        "repeat",
    ];
    assert_eq!(answered, expected);
}

#[test]
fn refuses_21_a_piece_of_a_strict_collection() {
    let lines = [
        "new 24000 24000 238 1",
        "piece 0702016301",
        "piece 07020200",
        "piece 07020200",
        "piece 0702016301",
        "piece 080201630100",
        "piece 080202",
        "piece 080202",
    ];
    let expected = [
        "ok",
        "waiting 1 | 7 2 1000000000000000 2,0,0,0,0,0,0,0,0,0,0,0,0,0,0,0 | 3211734703 1718746098",
        &format!("refused 21 2 | {NOTHING} | 2454526340 3906514589"),
        "waiting 1 | 7 2 0100000000000000 0,1,0,0,0,0,0,0,0,0,0,0,0,0,0,0 | 2454526340 3906514589",
        &format!("refused 21 2 | {NOTHING} | 2454526340 3906514589"),
        "waiting 1 | 8 2 1000000000000000 3,0,0,0,0,0,0,0,0,0,0,0,0,0,0,0 | 3321534902 3906514589",
        "complete join 630100 | 8 2 1100000000000000 3,0,0,0,0,0,0,0,0,0,0,0,0,0,0,0 | 3321534902 3906514589",
        "repeat | 8 2 1100000000000000 3,0,0,0,0,0,0,0,0,0,0,0,0,0,0,0 | 3321534902 3906514589",
    ];
    assert_eq!(answers(&lines), expected);
}

#[test]
fn refuses_21_with_the_sums_that_the_same_line_has_loose() {
    for request in ["piece", "recv j128"] {
        let (first, second) = M_HEX.split_at(20);
        let first = format!("{request} 070201{first}");
        let second = format!("{request} 070202{second}");
        for [early, late] in [[&first, &second], [&second, &first]] {
            let loose = answers(&["new 24000 24000 9 0", early, late]);
            let strict = answers(&["new 24000 24000 9 1", early, late]);
            assert_eq!(strict[..2], loose[..2]);
            let (_, sums) = loose[2].rsplit_once(" | ").expect("sums");
            assert_eq!(strict[2], format!("refused 21 10 | {NOTHING} | {sums}"));
        }
    }
}

#[test]
fn keeps_the_lent_table_after_21() {
    let (first, second) = M_HEX.split_at(20);
    let (rule, rest) = M_HEX.split_at(44);
    let lines = [
        "new 24000 24000 0 1",
        "tset table j128 1 2 3 4 - ; rule 9 9 000000000009 - 4:42 - - 0",
        &format!("recv j128 070201{first}"),
        &format!("recv j128 070202{second}"),
        "choose 4:42 -",
        &format!("recv j128 070202{rest}"),
        "choose 4:42 -",
        &format!("recv j128 070201{rule}"),
        "choose 4:42 -",
        "recv j128 08020133",
        "recv j128 08020200",
        "choose 4:42 -",
    ];
    let answered = answers(&lines);
    let answered: Vec<&str> = answered.iter().map(|line| answer_part(line)).collect();
    let accepted = format!("accepted {M_TABLE}");
    let expected = [
        "ok",
        "ok",
        "waiting 1",
        "refused 21 10",
        "rule 9 0 000000000009",
        "waiting 1",
        "rule 9 0 000000000009",
        &accepted,
        "rule 5 0 01005e050505",
        "waiting 1",
        "refused 21 1",
        "rule 5 0 01005e050505",
    ];
    assert_eq!(answered, expected);
}

#[test]
fn refuses_21_before_06_and_leaves_cuts_behind_06_to_08() {
    let answered = |first: &str, second: &str| {
        let lines = [
            "new 24000 24000 0 1",
            &format!("recv j128 070202{second}"),
            &format!("recv j128 070201{first}"),
        ];
        answer_part(&answers(&lines)[2]).to_string()
    };
    assert_eq!(answered("63", "010032"), "refused 21 1");
    assert_eq!(answered("630100", "32"), "message refused 6 3");
    assert_eq!(answered("63010032", ""), "message refused 6 3");
    assert_eq!(answered("63010032", "ff"), "message refused 7 3");
    assert_eq!(answered("6301", "0032ff"), "refused 21 2");
    assert_eq!(answered("63010032", "01"), "message refused 8 3");
    assert_eq!(answered("630100", "3201"), "message refused 8 3");
}

#[test]
fn keeps_the_setting_through_rec_new_runs_and_bad_requests() {
    let one_held = "rec 7 2 1000000000000000 1,0,0,0,0,0,0,0,0,0,0,0,0,0,0,0";
    let all_held = "rec 7 2 1100000000000000 1,1,0,0,0,0,0,0,0,0,0,0,0,0,0,0";
    let broken = "rec 7 17 1000000000000000 1,0,0,0,0,0,0,0,0,0,0,0,0,0,0,0";
    let lines = [
        one_held,
        "piece 07020200",
        all_held,
        "piece 07020200",
        "recv j128 07020100",
        broken,
        "piece 07020200",
        "piece 07020100",
        "piece 08020100",
        "piece 09020100",
        "new 24000 24000 0",
        "piece 09020200",
        "piece 070101630100",
    ];
    let answered = |strict: &str| {
        let start = format!("new 24000 24000 0 {strict}");
        let answered = answers(&[&[start.as_str()], lines.as_slice()].concat());
        let parts = answered.iter().map(|line| answer_part(line).to_string());
        parts.collect::<Vec<String>>()
    };
    let expected = |at_completion| {
        [
            "ok",
            "ok",
            at_completion,
            "ok",
            "repeat",
            "repeat",
            "ok",
            "waiting 1",
            at_completion,
            "waiting 1",
            "waiting 1",
            BAD_REQUEST,
            at_completion,
            "complete body 630100",
        ]
    };
    assert_eq!(answered("1"), expected("refused 21 1"));
    assert_eq!(answered("0"), expected("complete join 0000"));
}

#[test]
fn new_changes_the_setting_either_way() {
    let lines = [
        "new 24000 24000 0 1",
        "new 24000 24000 0 0",
        "piece 07020133",
        "piece 07020200",
        "new 24000 24000 0 1",
        "piece 07020133",
        "piece 07020200",
    ];
    let answered = answers(&lines);
    assert_eq!(answer_part(&answered[3]), "complete join 3300");
    assert_eq!(answer_part(&answered[6]), "refused 21 1");
}

#[test]
fn repeats_a_strict_record_that_is_given_as_complete() {
    let record = "7 2 1100000000000000 1,1,0,0,0,0,0,0,0,0,0,0,0,0,0,0";
    let lines = [
        "new 24000 24000 0 1",
        &format!("rec {record}"),
        "piece 07020200",
    ];
    let last = format!("repeat | {record} | 4152666804 4152666804");
    assert_eq!(answers(&lines), ["ok", "ok", &last]);
}

#[test]
fn lists_the_same_beside_a_strict_collection() {
    let lines = ["new 24000 24000 0 1", "list 07020133", "list 0701013200"];
    assert_eq!(answers(&lines), ["ok", "waiting 1", "refused 13 at 0"]);
}

#[test]
fn lends_buffers_and_records_as_given() {
    let lines = [
        "new 3 24000 255 0",
        "rec 9 255 1010000000000001 65535,0,1,2,3,4,5,6,7,8,9,10,11,12,13,14",
        "piece 000101",
    ];
    let last = "refused 1 0 | 9 255 1010000000000001 65535,0,1,2,3,4,5,6,7,8,9,10,11,12,13,14 \
        | 4294967040 2119478911";
    assert_eq!(answers(&lines), ["ok", "ok", last]);
}

#[test]
fn starts_with_nothing_collected_the_empty_table_and_idle() {
    let piece = answer("piece 070202a0");
    assert_eq!(
        piece,
        "waiting 1 | 7 2 0100000000000000 0,1,0,0,0,0,0,0,0,0,0,0,0,0,0,0 | 484396942 4152666804"
    );
    assert_eq!(answer("choose 0 -"), "refused 17 0");
    assert_eq!(
        answer("mev 5 tick"),
        "ok | idle 0 0 - 2 600 300 1800 - - adv | 0 0"
    );
}

#[test]
fn keeps_the_lent_table_after_a_refused_tread() {
    let lines = [
        &format!("tread j128 {M_HEX}"),
        "tread j128 3200",
        "read j128 -",
        "new 0 0 0 0",
        "choose 4:42 -",
        "judge 4:42 - 01005e0505050000000000000800",
        "judge 4:42 9 01005e0505050000000000000800ab",
        "judge 4:42 - 01005e0606060000000000000800",
        "judge 4:41 - 01005e0606060000000000000800",
        "judge 4:41 - -",
    ];
    let expected = [
        "ok",
        "refused 13 0",
        "table j128 2 600 300 1800 -",
        "ok",
        "rule 5 0 01005e050505",
        "forward 0 -",
        "forward 0 ab",
        "other",
        "refused 17 0",
        "refused 16 0",
    ];
    assert_eq!(answers(&lines), expected);
}

#[test]
fn lends_tables_that_no_message_gives() {
    let table = "tset table j128 0 0 0 0 - ; rule 1 9 000000000001 0,255 0,1:0,2:0a0b0c0d0e0f,3:65535 0,0 - 0 \
        ; rule 1 9 000000000002 - 1:0 - - 1 ; classifier 0 0 - ffffffff e0000009 9 1 ; channel 1";
    let lines = [
        table,
        "choose 1:0 255",
        "choose 1:0 -",
        "choose 2:0a0b0c0d0e0f 0",
        "choose 3:65535 1",
    ];
    let expected = [
        "ok",
        "rule 1 0 000000000001",
        "rule 1 1 000000000002",
        "rule 1 0 000000000001",
        "refused 17 0",
    ];
    assert_eq!(answers(&lines), expected);
}

#[test]
fn answers_modem_events_with_the_record_and_outputs() {
    let lines = [
        "mrec checking 4294967040 1 - 2 600 300 1800 2000 - adv",
        "mev 256 table 0 0 0 0",
        "mev 256 up 7",
        "mev 2147483904 packet",
        "mev 257 lost",
        "mev 257 start 0",
    ];
    let expected = [
        "ok",
        "ok | ranging 256 1 - 2 600 0 0 600000 - adv | 1 1",
        "ok | twoway 256 1 7 2 600 0 0 600000 - adv | 1 1",
        "refused 18 0 | twoway 256 1 7 2 600 0 0 600000 - adv | 1 1",
        "ok | oneway 257 1 - 2 600 0 0 599999 0 adv | 0 1",
        "ok | scanning 257 0 - 2 600 300 1800 - - adv | 0 0",
    ];
    assert_eq!(answers(&lines), expected);
}

#[test]
fn gives_back_a_broken_modem_record() {
    let broken = "twoway 4294967295 0 - 0 0 65535 65535 4294967295 4294967295 adv";
    let lines = [&format!("mrec {broken}"), "mev 0 tick"];
    assert_eq!(
        answers(&lines),
        ["ok".to_string(), format!("ok | {broken} | 0 0")]
    );
}

/// Lines that parse, each with some that nearly do.
const NEARLY: [(&str, &[&str]); 15] = [
    (
        "new 65536 0 255 1",
        &[
            "new 65537 0 0 0",
            "new 0 65537 0 0",
            "new 0 0 256 0",
            "new 0 0",
            "new 0 0 0",
            "new 0 0 0 ",
            "new 0 0 0 2",
            "new 0 0 0 255",
            "new 0 0 0 00",
            "new 0 0 0 01",
            "new 0 0 0 -",
            "new 0 0 0 strict",
            "new 0 0 0 0 0",
            "NEW 0 0 0 0",
        ],
    ),
    (
        "new 0 65536 0 0",
        &["new 0 65536 0", "new 65536 0", "new 0 65536 0 0 "],
    ),
    (
        "rec 255 0 0000000000000000 0,0,0,0,0,0,0,0,0,0,0,0,0,0,0,65535",
        &[
            "rec 256 0 0000000000000000 0,0,0,0,0,0,0,0,0,0,0,0,0,0,0,0",
            "rec 0 256 0000000000000000 0,0,0,0,0,0,0,0,0,0,0,0,0,0,0,0",
            "rec 0 0 000000000000000 0,0,0,0,0,0,0,0,0,0,0,0,0,0,0,0",
            "rec 0 0 0000000000000002 0,0,0,0,0,0,0,0,0,0,0,0,0,0,0,0",
            "rec 0 0 0000000000000000 0,0,0,0,0,0,0,0,0,0,0,0,0,0,0",
            "rec 0 0 0000000000000000 0,0,0,0,0,0,0,0,0,0,0,0,0,0,0,0,0",
            "rec 0 0 0000000000000000 0,0,0,0,0,0,0,0,0,0,0,0,0,0,0,65536",
            "rec 0 0 0000000000000000 -",
        ],
    ),
    (
        "piece 0a",
        &[
            "piece 0A",
            "piece 0",
            "piece 0g",
            "piece",
            "piece ",
            "piece 0a ",
            " piece 0a",
            "piece  0a",
        ],
    ),
    (
        "read j128 -",
        &[
            "read - -",
            "read j128",
            "read J128 -",
            "read j128 - -",
            "read j112 -",
            "read j128 --",
        ],
    ),
    (
        "recv j128 000101",
        &[
            "recv 000101",
            "recv j128",
            "recv i25 000101",
            "recv J128 000101",
            "recv j128 000101 000101",
            "recv j128 000101 ",
            "recv j128  000101",
            "recv 000101 j128",
            "recv j128 00010",
            "recv j128 00010G",
        ],
    ),
    (
        "tread j128 -",
        &["tread -", "tread j128 0x", "tread j128 é"],
    ),
    ("list 00", &["list", "list 00 00", "list 000"]),
    (
        "choose 1:65535 255",
        &[
            "choose 1:65536 -",
            "choose 5:0 -",
            "choose 1 -",
            "choose 0: -",
            "choose 0:0 -",
            "choose - -",
            "choose 0 256",
            "choose 0",
            "choose 1:01 -",
            "choose 1:+1 -",
            "choose 2:0 -",
        ],
    ),
    (
        "judge 2:000000000000 - 00",
        &[
            "judge 2:0000000000 - 00",
            "judge 2:00000000000A - 00",
            "judge 0 -",
            "judge 0 - 00 00",
            "judge 4:-1 - 00",
        ],
    ),
    (
        "write 255 65536 255",
        &[
            "write 256 0 0",
            "write 0 65537 0",
            "write 0 18446744073709551616 0",
            "write 0 0 256",
            "write 0 0",
            "write",
            "write ",
            "write 0 0 0 0",
            "write 0 0 0 ",
            "write 0  0 0",
            "write -1 0 0",
            "write - 0 0",
            "write 0 - 0",
            "write 0 0 -",
            "write 00 0 0",
            "write 0 01 0",
            "write 0 0 ff",
            "write j128 0 0 0",
            "WRITE 0 0 0",
        ],
    ),
    (
        "mrec idle 4294967295 1 255 0 0 0 65535 4294967295 0 adv",
        &[
            "mrec lost 0 0 - 0 0 0 0 - - adv",
            "mrec idle 4294967296 0 - 0 0 0 0 - - adv",
            "mrec idle 0 2 - 0 0 0 0 - - adv",
            "mrec idle 0 0 256 0 0 0 0 - - adv",
            "mrec idle 0 0 - 0 0 0 65536 - - adv",
            "mrec idle 0 0 - 0 0 0 0 4294967296 - adv",
            "mrec idle 0 0 - 0 0 0 0 - - ",
            "mrec idle 0 0 - 0 0 0 0 - -",
            "mrec idle 0 0 - 0 0 0 0 - - basic",
        ],
    ),
    (
        "mev 4294967295 start 1",
        &[
            "mev 4294967296 tick",
            "mev 0 start",
            "mev 0 start 2",
            "mev 0 tick 0",
            "mev tick",
            "mev -1 tick",
            "mev 00 tick",
            "mev 18446744073709551616 tick",
        ],
    ),
    (
        "mev 0 table 0 0 0 65535",
        &[
            "mev 0 table 0 0 0 65536",
            "mev 0 table 0 0 0",
            "mev 0 table 0 0 0 0 0",
        ],
    ),
    (
        "mev 0 up 255",
        &["mev 0 up 256", "mev 0 up -", "mev 0 up", "mev 0 UP 1"],
    ),
];

#[test]
fn refuses_lines_that_nearly_parse() {
    for (good, bad) in NEARLY {
        assert_ne!(answer(good), BAD_REQUEST, "{good}");
        for line in bad {
            assert_eq!(answer(line), BAD_REQUEST, "{line}");
        }
    }
}

#[test]
fn refuses_lines_of_no_kind() {
    for line in [
        "x",
        "quit",
        "new\t0 0 0 0",
        "piece 00\r",
        "mev",
        "- -",
        ";",
        "bad request",
        "\u{0}",
    ] {
        assert_eq!(answer(line), BAD_REQUEST, "{line}");
    }
}

#[test]
fn refuses_what_is_not_utf8() {
    let mut session = Session::default();
    let line = session.answer_line(b"piece \xFF\xFE");
    assert_eq!(line.as_deref(), Some(BAD_REQUEST));
    assert_eq!(session.answer_line(b"#\xFF"), None);
}

#[test]
fn a_bad_request_changes_nothing() {
    let lines = [
        "mrec scanning 5 1 - 2 600 300 1800 - - adv",
        "mrec idle",
        "mev 6 tick",
    ];
    let last = "ok | scanning 6 1 - 2 600 300 1800 - - adv | 0 0";
    assert_eq!(answers(&lines), ["ok", BAD_REQUEST, last]);
    let received = answers(&["recv i25 070101", "recv j128 070101"]);
    assert_eq!(received[0], BAD_REQUEST);
    assert!(received[1].starts_with("accepted"));
}

const RULE: &str = "rule 1 9 000000000001 - - - - 0";
const CLASSIFIER: &str = "classifier 1 0 - - e0000009 - -";

#[test]
fn refuses_tables_that_nearly_parse() {
    let head = "tset table j128 2 600 300 1800 -";
    for parts in [
        "",
        &format!(" ; {RULE} ; {CLASSIFIER} ; channel 4294967295"),
    ] {
        assert_eq!(answer(&format!("{head}{parts}")), "ok", "{parts}");
    }
    for parts in [
        " ;",
        " ; ",
        " ; ;",
        ";",
        " ; channel 1 ;",
        " ; channel",
        " ; channel 4294967296",
        " ; channel 1 1",
        " ; vendor 1",
        &format!(" ; {CLASSIFIER} ; {RULE}"),
        &format!(" ; channel 1 ; {CLASSIFIER}"),
        &format!(" ; {RULE} ; {RULE}"),
        " ; rule 1 9 000000000001 - - - - 1",
        " ; rule 1 9 000000000001 - - - 0 0",
        " ; rule 256 9 000000000001 - - - - 0",
        " ; rule 1 256 000000000001 - - - - 0",
        " ; rule 1 9 - - - - - 0",
        " ; rule 1 9 0000000001 - - - - 0",
        " ; rule 1 9 000000000001 256 - - - 0",
        " ; rule 1 9 000000000001 1, - - - 0",
        " ; rule 1 9 000000000001 - - 65536 - 0",
        " ; classifier 65536 0 - - e0000009 - -",
        " ; classifier 1 256 - - e0000009 - -",
        " ; classifier 1 0 00 - e0000009 - -",
        " ; classifier 1 0 - E0000009 e0000009 - -",
        " ; classifier 1 0 - - - - -",
        " ; classifier 1 0 - - e0000009 65536 -",
        " ; classifier 1 0 - - e0000009 - 65536",
        " ; classifier 1 0 - - e0000009 -",
    ] {
        assert_eq!(answer(&format!("{head}{parts}")), BAD_REQUEST, "{parts}");
    }
    for head in [
        "tset",
        "tset table",
        "tset table j128 2 600 300 -",
        "tset table j128 2 600 300 1800",
        "tset table j128 2 600 300 65536 -",
        "tset table j128 2 600 300 1800 0",
        "tset table j112 2 600 300 1800 -",
    ] {
        assert_eq!(answer(head), BAD_REQUEST, "{head}");
    }
}

/// A table in text with so many of each thing.
fn crowded(rules: usize, classifiers: usize, channels: usize, in_rule: [usize; 3]) -> String {
    let list = |item: &str, count| {
        if count == 0 {
            "-".to_string()
        } else {
            vec![item; count].join(",")
        }
    };
    let [ucids, clients, numbers] = in_rule;
    let (ucids, clients, numbers) = (list("1", ucids), list("0", clients), list("1", numbers));
    let mut parts = vec!["tset table j128 2 600 300 1800 -".to_string()];
    let rule = |place| format!("rule 1 9 000000000001 {ucids} {clients} {numbers} - {place}");
    parts.extend((0..rules).map(rule));
    parts.extend(vec![CLASSIFIER.to_string(); classifiers]);
    parts.extend(vec!["channel 0".to_string(); channels]);
    parts.join(" ; ")
}

#[test]
fn refuses_tables_beyond_document_01s_room() {
    assert_eq!(answer(&crowded(32, 32, 32, [16, 8, 8])), "ok");
    for beyond in [
        crowded(33, 0, 0, [0, 0, 0]),
        crowded(0, 33, 0, [0, 0, 0]),
        crowded(0, 0, 33, [0, 0, 0]),
        crowded(1, 0, 0, [17, 0, 0]),
        crowded(1, 0, 0, [0, 9, 0]),
        crowded(1, 0, 0, [0, 0, 9]),
    ] {
        assert_eq!(answer(&beyond), BAD_REQUEST);
    }
}

#[test]
fn roundtrips_every_request() {
    let crowded = crowded(32, 32, 32, [16, 8, 8]);
    let lines = NEARLY
        .iter()
        .map(|(good, _)| *good)
        .chain([crowded.as_str(), "judge 3:1 0 -"]);
    for line in lines {
        let request = Request::parse(line).expect("parses");
        assert_eq!(request.to_string(), line);
    }
}

/// What the program writes for an input.
fn output(input: &[u8]) -> Vec<u8> {
    let mut child = Command::new(env!("CARGO_BIN_EXE_reference"))
        .stdin(Stdio::piped())
        .stdout(Stdio::piped())
        .spawn()
        .expect("starts");
    child
        .stdin
        .take()
        .expect("a pipe")
        .write_all(input)
        .expect("takes the input");
    let mut output = Vec::new();
    child
        .stdout
        .take()
        .expect("a pipe")
        .read_to_end(&mut output)
        .expect("answers");
    assert!(child.wait().expect("ends").success());
    output
}

#[test]
fn the_program_answers_line_by_line_to_the_end_of_input() {
    let input = b"# remark\n\nread j128 32\n\xFF\nchoose 0 -\r\nread j128 32ff";
    assert_eq!(
        output(input),
        b"refused 6 0\nbad request\nbad request\nrefused 7 0\n"
    );
    assert_eq!(output(b""), b"");
}

#[test]
fn the_program_takes_a_line_of_a_million_bytes() {
    let long = [
        b"read j128 ".as_slice(),
        &vec![b'0'; 1_000_000],
        b"\nlist -\n",
    ]
    .concat();
    assert_eq!(output(&long), b"refused 3 0\nrefused 2 at 0\n");
}

#[test]
fn the_program_answers_before_the_next_request() {
    let mut child = Command::new(env!("CARGO_BIN_EXE_reference"))
        .stdin(Stdio::piped())
        .stdout(Stdio::piped())
        .spawn()
        .expect("starts");
    let mut input = child.stdin.take().expect("a pipe");
    let mut answers = child.stdout.take().expect("a pipe");
    for _ in 0..3 {
        input
            .write_all(b"read j128 32\nread")
            .expect("takes the request");
        let mut answer = [0; 12];
        answers.read_exact(&mut answer).expect("answers");
        assert_eq!(&answer, b"refused 6 0\n");
        input.write_all(b" j128 32\n").expect("takes the rest");
        answers.read_exact(&mut answer).expect("answers");
    }
    drop(input);
    assert!(child.wait().expect("ends").success());
}
