//! Random messages: whole ones from sound tables, then with a fault in their rows, with damaged
//! bytes, cut short, or filled up to and beyond the greatest length.

use crate::random::Random;
use crate::rows::{encode, leaf, parent, table_nodes, Form, Node};
use crate::tables::{full_table, marked_table, sound_table};
use reference::table::{Table, MESSAGE_MAX};

/// A message: one in three whole, the others with something wrong or at least odd.
pub fn message(random: &mut Random) -> Vec<u8> {
    let table = match random.below(24) {
        0 => full_table(random),
        1 => marked_table(random),
        _ => sound_table(random),
    };
    let mut top = table_nodes(random, &table);
    if random.once_in(3) {
        return encode(&top);
    }
    if !random.once_in(4) {
        for _ in 0..random.pick(&[1, 1, 1, 2, 4]) {
            disturb(random, &mut top);
        }
        return encode(&top);
    }
    let mut bytes = encode(&top);
    match random.below(8) {
        0 => fill_up(random, &mut bytes),
        1..=3 => bytes.truncate(random.below(bytes.len() + 1)),
        _ => damage(random, &mut bytes),
    }
    bytes
}

/// A message that gives just this table.
pub fn message_of(random: &mut Random, table: &Table) -> Vec<u8> {
    encode(&table_nodes(random, table))
}

/// Makes one change somewhere in the message.
fn disturb(random: &mut Random, top: &mut Vec<Node>) {
    if random.once_in(4) {
        return disturb_row(random, top);
    }
    let row = some_row(random, top);
    let at = random.below(row.len() + 1);
    let other = random.below(row.len());
    match random.below(16) {
        0 => row.insert(at, odd_node(random)),
        1 => row.insert(at, leaf(43, &[0; 3])),
        2 => row.push(lone_node(random)),
        3 => row.clear(),
        _ if row.is_empty() => row.insert(at, odd_node(random)),
        4 => row.insert(at, row[other].clone()),
        5..=8 => crowd(random, row, other),
        9 => drop(row.remove(other)),
        10 => row[other].form = Form::Claiming(wrong_length(random, &row[other])),
        11..=14 => spoil_value(random, &mut row[other].bytes),
        _ => row[other].kind = random.pick(&KINDS),
    }
}

/// Repeats a row of the top with its number, or gives it a child at or beyond some limit.
fn disturb_row(random: &mut Random, top: &mut Vec<Node>) {
    let kind = random.pick(&[23, 50, 51]);
    let alike: Vec<usize> = (0..top.len()).filter(|&at| top[at].kind == kind).collect();
    if alike.is_empty() {
        return top.push(parent(kind, vec![child_at_limit(random, kind)]));
    }
    let at = random.pick(&alike);
    if random.once_in(3) {
        return top.push(top[at].clone());
    }
    let child = child_at_limit(random, kind);
    if ![(50, 6), (51, 1)].contains(&(kind, child.kind)) {
        top[at].row.retain(|other| other.kind != child.kind);
    }
    top[at].row.push(child);
}

/// A child for a row of that type.
fn child_at_limit(random: &mut Random, row: u8) -> Node {
    let pair = random.pair().to_be_bytes();
    let ucids = random.pick(&[0, 1, 15, 16, 17, 100]);
    let timer = random.pick(&[2, 3, 4, 5]);
    let broadcast = random.pick(&[vec![], vec![0, 0], vec![0, 1], pair.to_vec()]);
    match (row, random.below(6)) {
        (50, 0..=1) => leaf(6, &pair),
        (50, 2..=3) => leaf(3, &vec![7; ucids]),
        (50, _) => parent(4, vec![leaf(1, &broadcast)]),
        (51, 0..=2) => leaf(1, &random.pick(&CHANNELS).to_be_bytes()),
        (51, _) => leaf(timer, &pair),
        _ => leaf(2, &pair),
    }
}

/// Channels about the ends of their range, in it and beyond.
const CHANNELS: [u32; 10] = [
    0,
    62_499,
    62_500,
    62_501,
    125_000,
    999_937_500,
    1_000_000_000,
    1_000_000_001,
    1_000_062_500,
    4_294_937_500,
];

/// Repeats an element until there are as many as a list holds, or one more. Rows that carry a number
/// get another each time.
fn crowd(random: &mut Random, row: &mut Vec<Node>, at: usize) {
    let most = random.pick(&[8, 9, 32, 33]);
    let mut copy = row[at].clone();
    let alike = row.iter().filter(|node| node.kind == copy.kind).count();
    for number in alike..most {
        renumber(&mut copy, number as u8);
        row.push(copy.clone());
    }
}

/// Gives a rule or a classifier the number.
fn renumber(node: &mut Node, number: u8) {
    for child in &mut node.row {
        match (node.kind, child.kind) {
            (50, 1) => child.bytes = vec![number],
            (23, 2) => child.bytes = vec![100, number],
            _ => {}
        }
    }
}

/// Types that stand in some row, and some that stand in none.
const KINDS: [u8; 16] = [0, 1, 2, 3, 4, 5, 6, 7, 9, 10, 23, 43, 50, 51, 99, 255];

fn some_row<'n>(random: &mut Random, row: &'n mut Vec<Node>) -> &'n mut Vec<Node> {
    let inner: Vec<usize> = (0..row.len()).filter(|&i| !row[i].row.is_empty()).collect();
    if inner.is_empty() || random.once_in(3) {
        return row;
    }
    let at = random.pick(&inner);
    some_row(random, &mut row[at].row)
}

fn odd_node(random: &mut Random) -> Node {
    let length = random.pick(&[0, 0, 1, 2, 4, 6, 17]);
    leaf(random.pick(&KINDS), &random.bytes(length))
}

fn lone_node(random: &mut Random) -> Node {
    Node {
        form: Form::Lone,
        ..leaf(random.pick(&KINDS), &[])
    }
}

fn wrong_length(random: &mut Random, node: &Node) -> u8 {
    let length = (node.bytes.len() + encode(&node.row).len()) as u8;
    let any = random.byte();
    random.pick(&[
        length.wrapping_add(1),
        length.wrapping_sub(1),
        0,
        254,
        255,
        255,
        any,
    ])
}

fn spoil_value(random: &mut Random, bytes: &mut Vec<u8>) {
    match random.below(8) {
        0 => bytes.push(random.byte()),
        1 => drop(bytes.pop()),
        2 => bytes.clear(),
        3 => bytes.resize(random.pick(&[16, 17, 254]), 1),
        4..=6 => bytes.fill(0),
        _ => *bytes = random.bytes(bytes.len()),
    }
}

/// Changes one to three bytes.
fn damage(random: &mut Random, bytes: &mut Vec<u8>) {
    for _ in 0..random.between(1, 3) {
        let at = random.below(bytes.len());
        let any = random.byte();
        match bytes.get_mut(at) {
            Some(byte) => *byte = random.pick(&[any, byte.wrapping_add(1), 0, 255]),
            None => bytes.push(any),
        }
    }
}

/// Adds unlisted elements up to about the greatest length.
fn fill_up(random: &mut Random, bytes: &mut Vec<u8>) {
    let any = random.below(MESSAGE_MAX);
    let target = random.pick(&[
        MESSAGE_MAX - 1,
        MESSAGE_MAX,
        MESSAGE_MAX + 1,
        MESSAGE_MAX + 1,
        any,
    ]);
    let longest = random.pick(&[0, 0, 1, 100, 254]);
    while bytes.len() + 2 <= target {
        let rest = target - bytes.len() - 2;
        let length = if rest > longest + 1 {
            longest
        } else {
            rest.min(254)
        };
        bytes.extend([99, length as u8]);
        bytes.resize(bytes.len() + length, 0);
    }
}
