//! Writing a DCD from the lent table (document 02, Req 01, refusals 19 and 20): what `write` answers,
//! byte by byte.

mod support;

use reference::protocol::Session;
use reference::table::{Client, Rule, Table};
use reference::writing::write_dcd;
use reference::Refusal;
use support::judging::{classified, classifier, rule, table};
use support::writing::{answer, answered, crc, hex, pieces};
use support::{accepted, body, bytes, element, message_m, row};

/// The table, in text, is written as one body with this message, which gives the same table.
fn assert_writes(table: &str, message: &str) {
    let message = bytes(message);
    let expected = pieces(&[body(7, 1, 1, &message)], 1_500, 238);
    assert_eq!(answered(table, "write 7 1500 238"), expected, "{table}");
    assert_gives(&message, table);
}

/// Reading the message gives the table in text.
fn assert_gives(message: &[u8], table: &str) {
    let line = match message {
        [] => "read j128 -".to_string(),
        message => format!("read j128 {}", hex(message)),
    };
    let read = answer(&mut Session::default(), &line);
    assert_eq!(read, format!("table j128 {table}"));
}

#[test]
fn the_sum_is_that_of_zlib() {
    assert_eq!(crc(b"123456789"), 3_421_780_262);
    assert_eq!(crc(b""), 0);
}

#[test]
fn writes_the_table_lent_at_the_start_as_one_empty_piece() {
    let mut session = Session::default();
    let exact = answer(&mut session, "write 7 3 0");
    assert_eq!(exact, "pieces 3 2484260416 070101");
    let longer = answer(&mut session, "write 255 8 255");
    assert_eq!(longer, "pieces 3 983426801 ff0101");
    assert_eq!(answer(&mut session, "write 7 2 0"), "refused 20 0");
    assert_writes("2 600 300 1800 -", "");
}

#[test]
fn writes_one_rule() {
    let table = "2 600 300 1800 - ; rule 5 80 01005e050505 - 4:42 - - 0";
    let message = "32 14 01 01 05 02 01 50 04 04 04 02 00 2A 05 06 01 00 5E 05 05 05";
    assert_writes(table, message);
    assert_eq!(
        answered(table, "write 9 30 170"),
        "pieces 25 1722892228 090101321401010502015004040402002a050601005e050505"
    );
}

#[test]
fn writes_m_with_its_configuration_first() {
    let message = message_m();
    let (rules, configuration) = message.split_at(44);
    let mut session = Session::default();
    let line = format!("tread j128 {}", hex(&message));
    assert_eq!(answer(&mut session, &line), "ok");
    let bodies = [body(0, 1, 1, &[configuration, rules].concat())];
    let expected = pieces(&bodies, 55, 1);
    assert_eq!(answer(&mut session, "write 0 55 1"), expected);
}

#[test]
fn writes_each_timer_that_differs_from_its_default() {
    assert_writes("1 600 300 1800 -", "33 04 02 02 00 01");
    assert_writes("2 601 300 1800 -", "33 04 03 02 02 59");
    assert_writes("2 600 0 1800 -", "33 04 04 02 00 00");
    assert_writes("2 600 300 65535 -", "33 04 05 02 FF FF");
    assert_writes("3 600 300 0 -", "33 08 02 02 00 03 05 02 00 00");
    assert_writes("2 1 299 1800 -", "33 08 03 02 00 01 04 02 01 2B");
}

#[test]
fn writes_a_timer_that_has_another_ones_default() {
    let message = "33 10 02 02 02 58 03 02 00 02 04 02 07 08 05 02 01 2C";
    assert_writes("600 2 1800 300 -", message);
}

#[test]
fn writes_channels_in_list_order_before_timers() {
    assert_writes(
        "2 600 0 1800 - ; channel 603000000 ; channel 62500 ; channel 1000000000",
        "33 16 01 04 23 F1 0C C0 01 04 00 00 F4 24 01 04 3B 9A CA 00 04 02 00 00",
    );
    assert_writes(
        "2 600 300 1800 - ; channel 62500 ; channel 62500",
        "33 0C 01 04 00 00 F4 24 01 04 00 00 F4 24",
    );
}

#[test]
fn writes_a_classifier_with_and_without_each_part() {
    for (parts, length, ip) in [
        ("- - e0000009 - -", "0F", "06 05 04 E0 00 00 09"),
        (
            "0a010200 - e0000009 - -",
            "15",
            "0C 03 04 0A 01 02 00 05 04 E0 00 00 09",
        ),
        (
            "- ffffff00 e0000009 - -",
            "15",
            "0C 04 04 FF FF FF 00 05 04 E0 00 00 09",
        ),
        (
            "- - e0000009 8192 -",
            "13",
            "0A 05 04 E0 00 00 09 09 02 20 00",
        ),
        ("- - e0000009 - 1", "13", "0A 05 04 E0 00 00 09 0A 02 00 01"),
        (
            "0a010200 ffffff00 e0000009 8192 1",
            "23",
            "1A 03 04 0A 01 02 00 04 04 FF FF FF 00 05 04 E0 00 00 09 09 02 20 00 0A 02 00 01",
        ),
    ] {
        let table = format!("2 600 300 1800 - ; classifier 258 3 {parts}");
        assert_writes(&table, &format!("17 {length} 02 02 01 02 05 01 03 09 {ip}"));
    }
}

#[test]
fn writes_parts_of_value_0_that_are_present() {
    assert_writes(
        "2 600 300 1800 - ; classifier 1 0 00000000 00000000 00000000 0 0",
        "17 23 02 02 00 01 05 01 00 09 1A \
         03 04 00 00 00 00 04 04 00 00 00 00 05 04 00 00 00 00 09 02 00 00 0A 02 00 00",
    );
    assert_writes(
        "2 600 300 1800 - ; rule 0 0 000000000000 0 3:0,4:0,2:000000000000 - - 0",
        "32 23 01 01 00 02 01 00 03 01 00 \
         04 10 03 02 00 00 04 02 00 00 02 06 00 00 00 00 00 00 05 06 00 00 00 00 00 00",
    );
}

#[test]
fn writes_client_ids_of_every_kind_in_list_order() {
    assert_writes(
        "2 600 300 1800 - ; rule 1 9 000000000001 - 4:42,2:0a0b0c0d0e0f,0,3:4660,1:3,0,1:65535,4:1 - - 0",
        "32 30 01 01 01 02 01 09 04 20 \
         04 02 00 2A 02 06 0A 0B 0C 0D 0E 0F 01 00 03 02 12 34 01 02 00 03 01 00 01 02 FF FF 04 02 00 01 \
         05 06 00 00 00 00 00 01",
    );
    assert_writes(
        "2 600 300 1800 - ; rule 1 9 000000000001 - 4:2,3:1,4:2 - - 0",
        "32 1C 01 01 01 02 01 09 04 0C 04 02 00 02 03 02 00 01 04 02 00 02 05 06 00 00 00 00 00 01",
    );
}

#[test]
fn writes_an_empty_50_4_for_a_rule_without_client_ids() {
    assert_writes(
        "2 600 300 1800 - ; rule 255 255 010203040506 - - - - 0",
        "32 10 01 01 FF 02 01 FF 04 00 05 06 01 02 03 04 05 06",
    );
}

#[test]
fn writes_ucids_in_list_order() {
    assert_writes(
        "2 600 300 1800 - ; rule 1 9 000000000001 7 0 - - 0",
        "32 15 01 01 01 02 01 09 03 01 07 04 02 01 00 05 06 00 00 00 00 00 01",
    );
    assert_writes(
        "2 600 300 1800 - ; rule 1 9 000000000001 16,15,14,13,12,11,10,9,8,7,6,5,255,255,0,1 - - - 0",
        "32 22 01 01 01 02 01 09 03 10 10 0F 0E 0D 0C 0B 0A 09 08 07 06 05 FF FF 00 01 04 00 \
         05 06 00 00 00 00 00 01",
    );
}

#[test]
fn writes_the_numbers_that_a_rule_names_in_list_order() {
    assert_writes(
        "2 600 300 1800 - ; rule 1 9 000000000001 - - 9,3,9 - 0 \
         ; classifier 3 0 - - e0000009 - - ; classifier 9 0 - - e0000009 - -",
        "17 0F 02 02 00 03 05 01 00 09 06 05 04 E0 00 00 09 \
         17 0F 02 02 00 09 05 01 00 09 06 05 04 E0 00 00 09 \
         32 1C 01 01 01 02 01 09 04 00 05 06 00 00 00 00 00 01 06 02 00 09 06 02 00 03 06 02 00 09",
    );
}

#[test]
fn writes_configuration_classifiers_and_rules_each_in_table_order() {
    assert_writes(
        "2 600 300 7 - ; rule 6 1 000000000006 - - - - 0 ; rule 5 9 000000000005 - - 5 - 1 \
         ; classifier 6 1 - - e0000006 - - ; classifier 5 9 - - e0000005 - - ; channel 125000",
        "33 0A 01 04 00 01 E8 48 05 02 00 07 \
         17 0F 02 02 00 06 05 01 01 09 06 05 04 E0 00 00 06 \
         17 0F 02 02 00 05 05 01 09 09 06 05 04 E0 00 00 05 \
         32 10 01 01 06 02 01 01 04 00 05 06 00 00 00 00 00 06 \
         32 14 01 01 05 02 01 09 04 00 05 06 00 00 00 00 00 05 06 02 00 05",
    );
}

#[test]
fn writes_what_was_read_without_what_was_skipped() {
    let mut session = Session::default();
    for (read, message) in [
        ("33 00", ""),
        ("63 01 00", ""),
        (
            "63 00 33 07 2B 01 00 02 02 00 02 \
             32 12 2B 00 05 06 00 00 00 00 00 01 04 03 07 01 FF 01 01 08",
            "32 10 01 01 08 02 01 00 04 00 05 06 00 00 00 00 00 01",
        ),
    ] {
        let line = format!("tread j128 {}", hex(&bytes(read)));
        assert_eq!(answer(&mut session, &line), "ok");
        let expected = pieces(&[body(1, 1, 1, &bytes(message))], 99, 9);
        assert_eq!(answer(&mut session, "write 1 99 9"), expected);
    }
}

/// A rule in text with so many UCIDs and eight MACs; its place is its number.
fn long_rule(number: usize, ucids: usize, named: &str) -> String {
    let macs = ["2:0a0b0c0d0e0f"; 8].join(",");
    let ucids = vec!["5"; ucids].join(",");
    format!("rule {number} 9 000000000001 {ucids} {macs} {named} - {number}")
}

/// That rule as it is written: 84 bytes, one for each UCID, four for each classifier number.
fn long_element(number: u8, ucids: usize, named: &[u8]) -> Vec<u8> {
    let mut children = vec![
        element(1, &[number]),
        element(2, &[9]),
        element(3, &vec![5; ucids]),
        row(4, &vec![bytes("02 06 0A 0B 0C 0D 0E 0F"); 8]),
        bytes("05 06 00 00 00 00 00 01"),
    ];
    children.extend(named.iter().map(|&number| element(6, &[0, number])));
    let written = row(50, &children);
    assert_eq!(written.len(), 84 + ucids + 4 * named.len());
    written
}

/// The table is written in these pieces, whose bodies need just so many bytes.
fn assert_cut(table: &str, cut: &[Vec<u8>], need: usize) {
    assert_gives(&cut.concat(), table);
    let number = cut.len() as u8;
    let bodies: Vec<Vec<u8>> = (1..)
        .zip(cut)
        .map(|(sequence, piece)| body(7, number, sequence, piece))
        .collect();
    for out in [need, need + 1, 12_000] {
        let line = format!("write 7 {out} 170");
        assert_eq!(answered(table, &line), pieces(&bodies, out, 170));
    }
    let short = [0, 3, 1_500, 1_503, 3_000, need - 1];
    for out in short.into_iter().filter(|&out| out < need) {
        let line = format!("write 7 {out} 170");
        assert_eq!(answered(table, &line), "refused 20 0", "{line}");
    }
}

/// Long rules with so many UCIDs are written in these pieces.
fn assert_rules_cut(ucids: &[&[usize]], need: usize) {
    let rules = ucids.concat();
    let rules = rules.iter().enumerate().map(|(n, &u)| long_rule(n, u, "-"));
    let parts = ["2 600 300 1800 -".to_string()].into_iter().chain(rules);
    let mut numbers = 0..;
    let piece_of = |ucids: &&[usize]| -> Vec<u8> {
        let rules = ucids.iter().zip(&mut numbers);
        rules.flat_map(|(&u, n)| long_element(n, u, &[])).collect()
    };
    let cut: Vec<Vec<u8>> = ucids.iter().map(piece_of).collect();
    assert_cut(&parts.collect::<Vec<_>>().join(" ; "), &cut, need);
}

#[test]
fn fills_a_piece_to_1497_bytes() {
    // Fourteen rules of 100 bytes, and one of 96 or 97.
    let fourteen = [16; 14].as_slice();
    assert_rules_cut(&[&[fourteen, &[12]].concat()], 3 + 1_496);
    assert_rules_cut(&[&[fourteen, &[13]].concat()], 3 + 1_497);
}

#[test]
fn begins_the_next_piece_with_the_element_that_would_make_it_1498() {
    let fourteen = [16; 14].as_slice();
    assert_rules_cut(&[fourteen, &[14]], 1_500 + 3 + 98);
    let full = [fourteen, &[13]].concat();
    assert_rules_cut(&[&full, &[1]], 1_500 + 3 + 85);
}

#[test]
fn fills_no_piece_with_an_element_behind_one_that_had_no_room() {
    // 1,400 bytes, then 98 that have no room, then 85 that would have.
    let fourteen = [16; 14].as_slice();
    assert_rules_cut(&[fourteen, &[14, 1]], 1_500 + 3 + 98 + 85);
}

#[test]
fn places_pieces_at_steps_of_1500() {
    let fourteen = [16; 14].as_slice();
    let full = [fourteen, &[13]].concat();
    assert_rules_cut(&[fourteen, &full, &[16, 16, 1]], 3_000 + 3 + 285);
    assert_rules_cut(&[&full, fourteen, &[14, 1, 1]], 3_000 + 3 + 268);
}

/// The table of the longest message, in text; its last rule names this number last.
fn full_table(last: &str) -> String {
    let mut parts = vec!["65535 65535 65535 65535 -".to_string()];
    parts.extend((0..31).map(|n| long_rule(n, 16, "1,2,3,4,5,6,7,8")));
    parts.push(long_rule(31, 16, &format!("1,2,3,4,5,6,7,{last}")));
    parts.extend((1..=32).map(|n| format!("classifier {n} 9 0a010200 ffffff00 e0000009 1 2")));
    parts.extend(vec!["channel 1000000000".to_string(); 32]);
    parts.join(" ; ")
}

#[test]
fn writes_the_longest_message_in_four_pieces() {
    let mut children = vec![bytes("01 04 3B 9A CA 00"); 32];
    children.push(bytes("02 02 FF FF 03 02 FF FF 04 02 FF FF 05 02 FF FF"));
    let mut first = row(51, &children);
    for number in 1..=32 {
        first.extend(bytes(&format!(
            "17 23 02 02 00 {number:02X} 05 01 09 09 1A 03 04 0A 01 02 00 04 04 FF FF FF 00 \
             05 04 E0 00 00 09 09 02 00 01 0A 02 00 02"
        )));
    }
    let rules = |numbers: std::ops::Range<u8>| -> Vec<u8> {
        let named = [1, 2, 3, 4, 5, 6, 7, 8];
        numbers.flat_map(|n| long_element(n, 16, &named)).collect()
    };
    let cut = [first, rules(0..11), rules(11..22), rules(22..32)];
    let lengths: Vec<usize> = cut.iter().map(Vec::len).collect();
    // A configuration of 210 and classifiers of 37; then rules of 132.
    assert_eq!(lengths, [1_394, 1_452, 1_452, 1_320]);
    assert_cut(&full_table("8"), &cut, 4_500 + 3 + 1_320);
}

/// Parts, behind the usual timers, of tables that reading can produce; each with some that differ in
/// little and make a table that it cannot.
const NEARLY: [(&str, &[&str]); 9] = [
    (
        "channel 62500",
        &["channel 0", "channel 1", "channel 62499", "channel 62501", "channel 93750"],
    ),
    (
        "channel 125000 ; channel 1000000000",
        &[
            "channel 125000 ; channel 999999999",
            "channel 125000 ; channel 1000000001",
            "channel 125000 ; channel 1000062500",
            "channel 125000 ; channel 4294967295",
            "channel 0 ; channel 1000000000",
        ],
    ),
    (
        "classifier 1 0 - - 00000000 - - ; classifier 65535 0 - - 00000000 - -",
        &[
            "classifier 0 0 - - 00000000 - - ; classifier 65535 0 - - 00000000 - -",
            "classifier 1 0 - - 00000000 - - ; classifier 0 0 - - 00000000 - -",
            "classifier 1 0 - - 00000000 - - ; classifier 1 0 - - 00000000 - -",
        ],
    ),
    (
        "classifier 1 0 - - 0a000001 - - ; classifier 2 0 - - 0a000002 - - ; classifier 3 9 - - 0a000003 - 1",
        &["classifier 1 0 - - 0a000001 - - ; classifier 2 0 - - 0a000002 - - ; classifier 1 9 - - 0a000003 - 1"],
    ),
    (
        "rule 0 0 000000000000 - - - - 0 ; rule 1 0 000000000000 - - - - 1",
        &[
            "rule 0 0 000000000000 - - - - 0 ; rule 0 0 000000000000 - - - - 1",
            "rule 1 7 000000000007 7 0 - - 0 ; rule 1 0 000000000000 - - - - 1",
        ],
    ),
    (
        "rule 1 0 000000000000 - 1:1 - - 0",
        &["rule 1 0 000000000000 - 1:0 - - 0"],
    ),
    (
        "rule 1 0 000000000000 - 0,0,0,0,0,0,0,1:65535 - - 0",
        &[
            "rule 1 0 000000000000 - 0,0,0,0,0,0,0,1:0 - - 0",
            "rule 1 0 000000000000 - 1:0,0,0,0,0,0,0,1:65535 - - 0",
        ],
    ),
    (
        "rule 1 0 000000000000 - - 2 - 0 ; classifier 2 0 - - 00000000 - -",
        &[
            "rule 1 0 000000000000 - - 2 - 0",
            "rule 1 0 000000000000 - - 0 - 0",
            "rule 1 0 000000000000 - - 1 - 0 ; classifier 2 0 - - 00000000 - -",
            "rule 1 0 000000000000 - - 0 - 0 ; classifier 2 0 - - 00000000 - -",
            "rule 1 0 000000000000 - - 0 - 0 ; classifier 0 0 - - 00000000 - -",
            "rule 1 0 000000000000 - - 2,2,3 - 0 ; classifier 2 0 - - 00000000 - -",
        ],
    ),
    (
        "rule 1 0 000000000000 - - - - 0 ; rule 2 0 000000000000 - - 2 - 1 ; classifier 2 0 - - 00000000 - -",
        &["rule 1 0 000000000000 - - - - 0 ; rule 2 0 000000000000 - - 258 - 1 ; classifier 2 0 - - 00000000 - -"],
    ),
];

/// Whether a table, in text, is refused 19, which it then is whatever the buffer; if not, it is written
/// or, where the buffer has no byte, refused 20.
fn refused_19(table: &str) -> bool {
    let [long, none] = ["write 7 12000 0", "write 7 0 0"].map(|line| answered(table, line));
    match long.as_str() {
        "refused 19 0" => assert_eq!(none, "refused 19 0", "{table}"),
        long => {
            assert!(long.starts_with("pieces "), "{table}: {long}");
            assert_eq!(none, "refused 20 0", "{table}");
        }
    }
    long == "refused 19 0"
}

#[test]
fn refuses_19_tables_that_reading_cannot_produce_whatever_the_buffer() {
    let refused_behind_timers = |parts| refused_19(&format!("2 600 300 1800 - ; {parts}"));
    for (good, bad) in NEARLY {
        assert!(!refused_behind_timers(good), "{good}");
        for parts in bad {
            assert!(refused_behind_timers(parts), "{parts}");
        }
    }
}

#[test]
fn refuses_19_tdsg1_or_tdsg2_of_0() {
    for good in ["1 1 0 0 -", "2 600 0 0 -", "65535 65535 65535 65535 -"] {
        assert!(!refused_19(good), "{good}");
    }
    for bad in [
        "0 1 0 0 -",
        "1 0 0 0 -",
        "0 600 300 1800 -",
        "2 0 300 1800 -",
        "0 0 0 0 -",
    ] {
        assert!(refused_19(bad), "{bad}");
    }
}

#[test]
fn refuses_19_for_the_last_number_of_a_full_table() {
    for (last, refused) in [("8", false), ("32", false), ("33", true), ("0", true)] {
        assert_eq!(refused_19(&full_table(last)), refused, "{last}");
    }
}

#[test]
fn writes_what_is_odd_but_not_refused() {
    for parts in [
        // Rule number 0, priority 0; no client IDs; a rule and a classifier of one number.
        "rule 0 0 000000000000 - - - - 0",
        "rule 9 0 ffffffffffff 255 - - - 0 ; classifier 9 255 - - ffffffff - -",
        // Start above end, a mask without source, a source outside its mask.
        "classifier 1 0 - - e0000009 9 1 ; classifier 2 0 - ffffffff e0000009 - -",
        "classifier 1 0 ffffffff 00000000 e0000009 65535 0",
        // Equal entries in lists.
        "rule 1 0 000000000000 5,5,5 - - - 0 ; channel 62500 ; channel 62500",
        "rule 1 0 000000000000 - 0,0,4:1,4:1,3:1,3:1,2:000000000000,2:000000000000 - - 0",
        "rule 1 0 000000000000 - 1:1,1:1 2,2,2,2,2,2,2,2 - 0 ; classifier 2 0 - - e0000009 - -",
        // Equal rules and equal classifiers but for the number.
        "rule 1 9 000000000001 - 0 - - 0 ; rule 2 9 000000000001 - 0 - - 1",
        "classifier 1 0 - - e0000009 - - ; classifier 2 0 - - e0000009 - -",
        // Values at their ends.
        "rule 255 255 ffffffffffff - 1:65535,2:ffffffffffff,3:65535,4:65535 - - 0",
        "rule 1 0 000000000000 - 2:000000000000,3:0,4:0 - - 0",
    ] {
        for timers in ["2 600 300 1800", "1 1 0 0", "65535 65535 65535 65535"] {
            let table = format!("{timers} - ; {parts}");
            assert!(!refused_19(&table), "{table}");
        }
    }
}

/// A table of so many channels.
fn channels(count: usize) -> Table {
    Table {
        channels: vec![62_500; count],
        ..Table::default()
    }
}

/// A table of one rule with so many UCIDs, client IDs and classifier numbers.
fn crowded(ucids: usize, clients: usize, numbers: usize) -> Table {
    let mut table = classified(&[classifier(3, 1)]);
    table.rules[0] = Rule {
        ucids: vec![0; ucids],
        clients: vec![Client::Mac([1, 0, 2, 0, 3, 0]); clients],
        classifiers: vec![3; numbers],
        ..rule(5, 80)
    };
    table
}

#[test]
fn refuses_19_lists_beyond_their_room() {
    let rules = |count| table(&(0..count).map(|n| rule(n, 0)).collect::<Vec<_>>());
    let classifiers = |count| classifier_table(&(1..=count).collect::<Vec<u16>>());
    for fitting in [rules(32), classifiers(32), channels(32), crowded(16, 8, 8)] {
        assert!(write_dcd(&fitting, 7, &mut [0; 12_000]).is_ok());
    }
    // The longer of these lists make values of over 254 bytes.
    let mut beyond = vec![rules(33), rules(255), classifiers(33), classifiers(2_000)];
    beyond.extend([33, 42, 43, 75, 10_000].map(channels));
    beyond.extend([17, 254, 255, 256, 257, 272, 70_000].map(|n| crowded(n, 0, 0)));
    beyond.extend([9, 31, 32, 33, 40, 10_000].map(|n| crowded(0, n, 0)));
    beyond.extend([9, 62, 64, 72, 10_000].map(|n| crowded(0, 0, n)));
    for table in beyond {
        let refused = write_dcd(&table, 7, &mut [0; 12_000]);
        assert_eq!(refused, Err(Refusal::whole(19)));
    }
}

/// A table of classifiers alone.
fn classifier_table(numbers: &[u16]) -> Table {
    Table {
        classifiers: numbers.iter().map(|&n| classifier(n, 1)).collect(),
        ..Table::default()
    }
}

#[test]
fn leaves_the_buffer_at_a_refusal() {
    let full = crowded(16, 8, 8);
    let length = 3 + 17 + 132;
    for (table, out, number) in [
        (channels(33), 12_000, 19),
        (classifier_table(&[0]), 12_000, 19),
        (classifier_table(&[0]), 2, 19),
        (full.clone(), length - 1, 20),
        (Table::default(), 2, 20),
    ] {
        let mut buffer = vec![0xEE; out];
        let refused = write_dcd(&table, 7, &mut buffer);
        assert_eq!(refused, Err(Refusal::whole(number)));
        assert_eq!(buffer, vec![0xEE; out]);
    }
    let mut buffer = vec![0xEE; length + 1];
    assert_eq!(write_dcd(&full, 7, &mut buffer), Ok(vec![length]));
    assert_eq!(buffer[length], 0xEE);
    assert_eq!(accepted(&buffer[3..length]), full);
}

#[test]
fn writes_the_table_that_is_lent_now_and_leaves_everything() {
    let mut session = Session::default();
    let configuration = |timer| pieces(&[body(7, 1, 1, &[51, 4, 4, 2, 0, timer])], 9, 0);
    for (line, expected) in [
        ("tset table j128 2 600 5 1800 -", "ok".to_string()),
        ("new 24000 24000 0 1", "ok".to_string()),
        ("write 7 9 0", configuration(5)),
        ("write 7 8 0", "refused 20 0".to_string()),
        ("write 7 9 0", configuration(5)),
        ("tread j128 330404020006", "ok".to_string()),
        ("write 7 9 0", configuration(6)),
        ("tread j128 3304040200", "refused 8 0".to_string()),
        ("write 7 9 256", "bad request".to_string()),
        ("write 7 9 0", configuration(6)),
        ("tset table j128 0 600 5 1800 -", "ok".to_string()),
        ("write 7 9 0", "refused 19 0".to_string()),
        ("choose 0 -", "refused 17 0".to_string()),
        (
            "mev 5 tick",
            "ok | idle 0 0 - 2 600 300 1800 - - adv | 0 0".to_string(),
        ),
    ] {
        assert_eq!(answer(&mut session, line), expected, "{line}");
    }
    let before = answer(&mut session, "piece 070201330404");
    answer(&mut session, "write 7 12000 9");
    let repeat = answer(&mut session, "piece 070201330404");
    assert_eq!(repeat, before.replace("waiting 1", "repeat"));
    let received = answer(&mut session, "recv j128 070202020007");
    assert!(received.starts_with("refused 21 3"), "{received}");
    answer(&mut session, "recv j128 080101330404020007");
    assert_eq!(answer(&mut session, "write 7 9 0"), configuration(7));
}
