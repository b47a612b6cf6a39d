//! Random cuttings for strict collections: messages of elements, whole ones and some with a faulty
//! head, cut where pieces may end or a byte beside (document 02, Req 04).

use crate::pieces::{cut_at, spans};
use crate::places::TopRow;
use crate::random::Random;
use crate::rows::{encode, leaf, table_nodes, Form, Node};
use crate::tables::sound_table;
use reference::collecting::{PIECE_MAX, SLOTS};

/// The most cuts that a message can have.
const CUTS_MAX: usize = SLOTS - 1;
/// How often a cut is moved before the cutting stays as it is.
const TRIES: usize = 8;

/// A message, and the ends of all its pieces but the last.
#[derive(Clone)]
pub struct Cutting {
    pub message: Vec<u8>,
    pub cuts: Vec<usize>,
}

impl Cutting {
    /// Whether a strict collection drops it.
    pub fn is_bad(&self) -> bool {
        let top = TopRow::of(&self.message);
        self.cuts.iter().any(|&cut| !top.is_good(cut))
    }

    pub fn bodies(&self, count: u8) -> Vec<Vec<u8>> {
        cut_at(count, &self.message, &self.cuts)
    }
}

/// A cutting of a message of elements.
pub fn any_cutting(random: &mut Random) -> Cutting {
    let message = message_of_elements(random);
    cutting(random, message)
}

/// A cutting of such a message that a strict collection drops.
pub fn bad_cutting(random: &mut Random) -> Cutting {
    loop {
        let cutting = any_cutting(random);
        if cutting.is_bad() {
            return cutting;
        }
    }
}

/// A cutting of the message, or of as much of it as sixteen pieces can carry: half of the cuttings are
/// good, and most others have one bad cut.
pub fn cutting(random: &mut Random, mut message: Vec<u8>) -> Cutting {
    let needed = needed_cuts(&TopRow::of(&message));
    if let Some(&end) = needed.get(CUTS_MAX) {
        message.truncate(end);
    }
    let top = TopRow::of(&message);
    let mut cuts = needed_cuts(&top);
    let more = more_cuts(random, &top, CUTS_MAX - cuts.len());
    cuts.extend(more);
    cuts.sort_unstable();
    let moved = match random.below(8) {
        0..=3 => None,
        4..=5 => moved(random, &top, &cuts, true),
        _ => moved(random, &top, &cuts, false),
    };
    Cutting {
        cuts: moved.unwrap_or(cuts),
        message,
    }
}

/// The cuts that a piece's greatest length asks for, each as far on as the elements allow.
fn needed_cuts(top: &TopRow) -> Vec<usize> {
    let (mut cuts, mut at) = (Vec::new(), 0);
    while top.end - at > PIECE_MAX {
        at = top.last_good(at + PIECE_MAX);
        cuts.push(at);
    }
    cuts
}

/// Cuts where pieces may end, as many as there is room for, fewer or none: at either end, all at one
/// place, or anywhere.
fn more_cuts(random: &mut Random, top: &TopRow, room: usize) -> Vec<usize> {
    let some = random.pick(&[0, 1, 1, 1, 2, 2, 3, 3, 4, room]).min(room);
    let place = good_place(random, top);
    match random.below(9) {
        0 => vec![0; some],
        1 => vec![top.end; some],
        2 => vec![place; some],
        3 => vec![place; room],
        _ => (0..some).map(|_| good_place(random, top)).collect(),
    }
}

/// A place where a piece may end, often about a faulty head.
fn good_place(random: &mut Random, top: &TopRow) -> usize {
    let (heads, end) = (top.heads(), top.end);
    let head = heads.get(random.below(heads.len())).copied().unwrap_or(0);
    let Some((fault, _)) = top.faulty else {
        return random.pick(&[head, head, head, head, head, 0, end]);
    };
    let behind = random.between(fault + 1, end);
    random.pick(&[head, fault, fault, fault, fault + 1, behind, end])
}

/// The cuts with one of them, the first, the last or one in the middle, moved a byte to where no piece
/// may end; or all that stand at its place. `None` if none was found that can be moved.
fn moved(random: &mut Random, top: &TopRow, cuts: &[usize], together: bool) -> Option<Vec<usize>> {
    let last = cuts.len().checked_sub(1)?;
    let at_fault = |&cut: &usize| top.faulty.is_some_and(|(fault, _)| fault == cut);
    let at_fault = cuts.iter().position(at_fault);
    (0..TRIES).find_map(|_| {
        let any = random.between(0, last);
        let index = random.pick(&[0, any, cuts.len() / 2, at_fault.unwrap_or(any), last]);
        let from = cuts[index];
        let to = random.pick(&[from + 1, from.saturating_sub(1)]);
        let mut moved = cuts.to_vec();
        for (other, cut) in moved.iter_mut().enumerate() {
            if other == index || together && *cut == from {
                *cut = to;
            }
        }
        (!top.is_good(to) && can_be(&moved, top.end)).then_some(moved)
    })
}

/// Whether the cuts stand in order, with pieces between them that are not too long.
fn can_be(cuts: &[usize], end: usize) -> bool {
    let mut spans = spans(cuts, end).into_iter();
    spans.all(|span| (span.start..=span.start + PIECE_MAX).contains(&span.end))
}

/// A message of elements: none, ones without a value, the rows of a table, or ones of many lengths;
/// most messages with a faulty head or two.
pub fn message_of_elements(random: &mut Random) -> Vec<u8> {
    let mut top = match random.below(16) {
        0..=1 => Vec::new(),
        2..=4 => elements_without_value(random),
        5..=7 => {
            let table = sound_table(random);
            table_nodes(random, &table)
        }
        _ => elements(random),
    };
    for _ in 0..random.pick(&[0, 0, 1, 1, 1, 2]) {
        add_faulty_head(random, &mut top);
    }
    encode(&top)
}

/// Types that stand in the top row, and some that do not.
const KINDS: [u8; 9] = [0, 1, 23, 43, 50, 51, 99, 254, 255];

/// Few, or about as many as a piece or a message has room for.
fn elements_without_value(random: &mut Random) -> Vec<Node> {
    let few = random.between(1, 24);
    let many = random.pick(&[748, 749, 1_500, 11_968]);
    let count = if random.once_in(24) { many } else { few };
    (0..count).map(|_| leaf(random.pick(&KINDS), &[])).collect()
}

fn elements(random: &mut Random) -> Vec<Node> {
    let few = random.between(1, 8);
    let count = random.pick(&[1, 2, 3, few, few, few, few, 40]);
    (0..count).map(|_| element(random)).collect()
}

fn element(random: &mut Random) -> Node {
    let any = random.below(255);
    let length = random.pick(&[0, 0, 1, 1, 2, 3, 9, 253, 254, any, any, any]);
    leaf(random.pick(&KINDS), &random.bytes(length))
}

/// Adds a head that itself gives 6, 7 or 8: a lone byte at the end, a length of 255 anywhere, or a value
/// that passes the end.
fn add_faulty_head(random: &mut Random, top: &mut Vec<Node>) {
    let few = random.pick(&[0, 1, 2, 5, 20, 60, 253]);
    let node = leaf(random.pick(&KINDS), &random.bytes(few));
    let formed = |form| Node { form, ..node };
    match random.below(8) {
        0..=3 => top.push(formed(Form::Lone)),
        4..=5 => top.insert(random.below(top.len() + 1), formed(Form::Claiming(255))),
        _ => {
            let any = random.between(few + 1, 254);
            let claimed = random.pick(&[few + 1, any, 254]) as u8;
            top.push(formed(Form::Claiming(claimed)));
        }
    }
}
