//! Tables that fill several pieces when they are written, some of them to the last byte (document 02,
//! Req 01).

use crate::random::Random;
use crate::tables::full_table;
use crate::written::{elements, rule, PIECE_MOST};
use reference::table::{Client, Rule, Table, CLIENTS_MAX, RULES_MAX};

/// A sound table of many bytes.
pub fn large_table(random: &mut Random) -> Table {
    let mut table = full_table(random);
    let some = random.between(1, table.rules.len());
    table.rules.truncate(random.pick(&[some, RULES_MAX]));
    if random.once_in(3) {
        lengthen(random, &mut table);
    }
    if !random.once_in(4) {
        level(random, &mut table);
    }
    table
}

/// Gives most rules client IDs of the longest kind, and every timer a value that is not the usual one.
fn lengthen(random: &mut Random, table: &mut Table) {
    table.timers = [1, 1, 1, 1];
    for (number, rule) in table.rules.iter_mut().enumerate() {
        if !random.once_in(8) {
            let mac = |place| Client::Mac([0, 0x10, 0x20, 0x30, number as u8, place]);
            rule.clients = (0..CLIENTS_MAX as u8).map(mac).collect();
        }
    }
}

/// Takes UCIDs from the rules of a piece until the first rule that it has no room for ends a byte behind
/// its end, at it, or a byte before; so for each piece.
fn level(random: &mut Random, table: &mut Table) {
    let ahead = table.rules.len();
    let heads = elements(table);
    let heads = &heads[..heads.len() - ahead];
    let mut filled: usize = heads.iter().map(Vec::len).sum();
    let mut first = 0;
    for at in 0..table.rules.len() {
        filled += rule(&table.rules[at]).len();
        if filled <= PIECE_MOST {
            continue;
        }
        let end = random.pick(&[PIECE_MOST - 1, PIECE_MOST, PIECE_MOST, PIECE_MOST + 1]);
        let levelled = take_ucids(random, &mut table.rules[first..=at], filled - end);
        filled = if levelled && end <= PIECE_MOST {
            0
        } else {
            rule(&table.rules[at]).len()
        };
        first = at + 1;
    }
}

/// Takes so many UCIDs from the rules, none of them the last one of its rule; or says that they have
/// not so many.
fn take_ucids(random: &mut Random, rules: &mut [Rule], many: usize) -> bool {
    let spare = |rule: &Rule| rule.ucids.len().saturating_sub(1);
    if rules.iter().map(spare).sum::<usize>() < many {
        return false;
    }
    for _ in 0..many {
        let rich: Vec<usize> = (0..rules.len())
            .filter(|&at| spare(&rules[at]) > 0)
            .collect();
        rules[random.pick(&rich)].ucids.pop();
    }
    true
}
