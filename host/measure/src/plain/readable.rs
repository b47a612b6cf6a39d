//! Whether some message gives a table: refusal 19 where none does.

use dsg::records::{Classifier, Client, Rule, Table, TABLE_ROOM};

/// Addresses of six bytes are below it.
const SIX_BYTES: u64 = 1 << 48;

/// The used places of a list, if its count is within its room and nothing stands behind them.
fn used<T: Default + PartialEq>(places: &[T], count: u8) -> Option<&[T]> {
    let (used, unused) = places.split_at_checked(count.into())?;
    let nothing = T::default();
    unused.iter().all(|place| *place == nothing).then_some(used)
}

fn is_channel(hertz: &u32) -> bool {
    hertz.is_multiple_of(62_500) && (62_500..=1_000_000_000).contains(hertz)
}

/// Whether a part is marked present, or absent and 0.
fn is_part(mark: u8, value: u32) -> bool {
    mark == 1 || mark == 0 && value == 0
}

fn is_classifier(c: &Classifier) -> bool {
    c.number != 0
        && is_part(c.hassource, c.source)
        && is_part(c.hasmask, c.mask)
        && is_part(c.hasstart, c.start.into())
        && is_part(c.hasend, c.end.into())
}

fn is_client(client: &Client) -> bool {
    match client.kind {
        0 => client.value == 0,
        1 => (1..=65_535).contains(&client.value),
        2 => client.value < SIX_BYTES,
        3 | 4 => client.value <= 65_535,
        _ => false,
    }
}

/// Whether a rule is sound beside classifiers of these numbers.
fn is_rule(rule: &Rule, classifiers: &[u16]) -> bool {
    let clients = used(&rule.clients, rule.clientcount);
    let numbers = used(&rule.numbers, rule.numbercount);
    rule.tunnel < SIX_BYTES
        && used(&rule.ucids, rule.ucidcount).is_some()
        && clients.is_some_and(|clients| clients.iter().all(is_client))
        && numbers.is_some_and(|numbers| numbers.iter().all(|n| classifiers.contains(n)))
}

/// Whether some message gives the table.
pub fn is_readable(table: &Table) -> bool {
    let (Some(channels), Some(classifiers), Some(rules)) = (
        used(&table.channels, table.channelcount),
        used(&table.classifiers, table.classifiercount),
        used(&table.rules, table.rulecount),
    ) else {
        return false;
    };
    let mut numbers = [0; TABLE_ROOM];
    for (place, classifier) in classifiers.iter().enumerate() {
        if !is_classifier(classifier) || numbers[..place].contains(&classifier.number) {
            return false;
        }
        numbers[place] = classifier.number;
    }
    let numbers = &numbers[..classifiers.len()];
    let mut taken = [false; 256];
    for rule in rules {
        let taken = &mut taken[usize::from(rule.number)];
        if *taken || !is_rule(rule, numbers) {
            return false;
        }
        *taken = true;
    }
    table.timers.tdsg1 != 0 && table.timers.tdsg2 != 0 && channels.iter().all(is_channel)
}
