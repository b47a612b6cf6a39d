//! Elements, pieces and bodies.

use crate::tables::{classifier, longest_table, rule, table_m};
use reference::table::{Classifier, Client, Rule, Table};
use requests::written::{bodies, elements, needed, pieces, PIECES_MOST};

/// The elements of a table as hexadecimal text.
fn hex(table: &Table) -> Vec<String> {
    let text = |bytes: &Vec<u8>| -> String {
        let digits = bytes.iter().map(|byte| format!("{byte:02x}"));
        digits.collect()
    };
    elements(table).iter().map(text).collect()
}

#[test]
fn the_table_of_document_01_has_its_configuration_first_and_then_its_rules() {
    let written = [
        "3306010423f10cc0",
        "321401010502015004040402002a050601005e050505",
        "321401010602010904040402002a050601005e060606",
    ];
    assert_eq!(hex(&table_m()), written);
}

#[test]
fn a_rule_has_its_children_by_rising_type_and_its_clients_in_list_order() {
    let rule = Rule {
        ucids: vec![9, 3],
        clients: vec![
            Client::Application(42),
            Client::CaSystem(7),
            Client::Mac([1, 0x23, 0x45, 0x67, 0x89, 0xAB]),
            Client::EmptyBroadcast,
            Client::Broadcast(3),
        ],
        classifiers: vec![20, 10],
        ..rule(0, 0, [0xFF; 6])
    };
    let written = concat!(
        "3232",
        "010100",
        "020100",
        "03020903",
        "0416",
        "0402002a",
        "03020007",
        "02060123456789ab",
        "0100",
        "01020003",
        "0506ffffffffffff",
        "06020014",
        "0602000a",
    );
    let table = Table {
        rules: vec![rule],
        ..Table::default()
    };
    assert_eq!(hex(&table), [written]);
}

#[test]
fn a_rule_without_lists_has_an_empty_row_of_clients_and_its_priority() {
    let rule = Rule {
        clients: vec![],
        ..rule(255, 0, [0; 6])
    };
    let table = Table {
        rules: vec![rule],
        ..Table::default()
    };
    assert_eq!(hex(&table), ["32100101ff02010004000506000000000000"]);
}

#[test]
fn a_classifier_has_the_parts_that_it_has() {
    let alone = "170f0202000105010109060504ef010203";
    let all = Classifier {
        source: Some([10, 0, 0, 0]),
        mask: Some([255, 0, 0, 0]),
        port_start: Some(0),
        port_end: Some(0x1392),
        ..classifier(0xFFFF)
    };
    let all_written = concat!(
        "17230202ffff050101091a",
        "03040a000000",
        "0404ff000000",
        "0504ef010203",
        "09020000",
        "0a021392",
    );
    let mask = Classifier {
        mask: Some([0; 4]),
        ..classifier(2)
    };
    let mask_written = "171502020002050101090c0404000000000504ef010203";
    let table = Table {
        classifiers: vec![classifier(1), all, mask],
        ..Table::default()
    };
    assert_eq!(hex(&table), [alone, all_written, mask_written]);
}

#[test]
fn a_timer_is_written_where_it_is_not_the_usual_one() {
    let with = |timers| Table {
        timers,
        ..Table::default()
    };
    let nothing: [String; 0] = [];
    assert_eq!(hex(&with([2, 600, 300, 1800])), nothing);
    assert_eq!(hex(&with([600, 600, 300, 1800])), ["330402020258"]);
    assert_eq!(hex(&with([2, 300, 300, 1800])), ["33040302012c"]);
    assert_eq!(hex(&with([2, 600, 0, 1800])), ["330404020000"]);
    assert_eq!(hex(&with([2, 600, 300, 65_535])), ["33040502ffff"]);
    let all = "331002020001030200010402000105020001";
    assert_eq!(hex(&with([1; 4])), [all]);
}

#[test]
fn channels_stand_before_timers_and_may_stand_twice() {
    let table = Table {
        timers: [5, 600, 300, 1800],
        channels: vec![62_500, 62_500],
        ..Table::default()
    };
    let written = "331001040000f42401040000f42402020005";
    assert_eq!(hex(&table), [written]);
}

#[test]
fn the_empty_table_is_one_body_of_three_bytes() {
    let bodies = bodies(7, &Table::default());
    assert_eq!(bodies, [[7, 1, 1]]);
    assert_eq!(needed(&bodies), 3);
}

/// The lengths of the pieces of elements of these lengths.
fn cut(lengths: &[usize]) -> Vec<usize> {
    let elements: Vec<Vec<u8>> = lengths.iter().map(|&length| vec![0; length]).collect();
    pieces(&elements).iter().map(Vec::len).collect()
}

#[test]
fn a_piece_takes_1497_bytes_and_no_more() {
    assert_eq!(cut(&[]), [0]);
    assert_eq!(cut(&[1_400, 97]), [1_497]);
    assert_eq!(cut(&[1_400, 98]), [1_400, 98]);
    assert_eq!(cut(&[1_400, 97, 2]), [1_497, 2]);
    assert_eq!(cut(&[250; 6]), [1_250, 250]);
}

#[test]
fn no_element_is_taken_ahead_of_another() {
    assert_eq!(cut(&[1_400, 100, 50]), [1_400, 150]);
}

#[test]
fn the_longest_table_has_5618_bytes_in_four_pieces() {
    let table = longest_table();
    let elements = elements(&table);
    let lengths: Vec<usize> = elements.iter().map(Vec::len).collect();
    assert_eq!(lengths[0], 210);
    assert_eq!(lengths[1..33], [37; 32]);
    assert_eq!(lengths[33..], [132; 32]);
    assert_eq!(lengths.iter().sum::<usize>(), 5_618);
    let bodies = bodies(9, &table);
    let lengths: Vec<usize> = bodies.iter().map(Vec::len).collect();
    // 210 + 32 * 37; eleven rules, eleven and ten
    assert_eq!(lengths, [1_394 + 3, 1_452 + 3, 1_452 + 3, 1_320 + 3]);
    assert_eq!(bodies.len(), PIECES_MOST);
    assert_eq!(needed(&bodies), 3 * 1_500 + 1_323);
    for (body, sequence) in bodies.iter().zip(1..) {
        assert_eq!(body[..3], [9, 4, sequence]);
    }
}
