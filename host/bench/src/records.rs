//! The lent records as text, and back.

use crate::words::{byte, commas, flag, hex_number, list, long, optional, or_dash, short};
use dsg::records::{
    Classifier, Client, Rule, TimerValues, RULE_CLIENTS, RULE_NUMBERS, RULE_UCIDS, TABLE_ROOM,
};
use dsg::{Collection, Modem, Table};

const STATES: [&str; 7] = [
    "idle", "scanning", "checking", "oneway", "ranging", "twoway", "resting",
];

/// `COUNT NUMBER FLAGS LENS`, and the setting, which the words do not carry.
pub fn collection(words: &[&str], strict: u16) -> Option<Collection> {
    let [count, number, flags, lengths] = words else {
        return None;
    };
    let flags: Option<Vec<u8>> = flags.chars().map(|c| flag(&c.to_string())).collect();
    Some(Collection {
        count: byte(count)?,
        number: byte(number)?,
        filled: flags?.try_into().ok()?,
        lengths: list(lengths, 16, short)?.try_into().ok()?,
        strict,
    })
}

/// The text of a collection record; it does not say the setting.
pub fn collection_text(c: &Collection) -> String {
    let flags: String = c.filled.iter().map(u8::to_string).collect();
    format!("{} {} {flags} {}", c.count, c.number, commas(c.lengths))
}

/// `STATE LAST PERM UCID T1 T2 T3 T4 RECEIVE RETRY adv`.
pub fn modem(words: &[&str]) -> Option<Modem> {
    let [state, last, permission, ucid, t1, t2, t3, t4, receive, retry, "adv"] = words else {
        return None;
    };
    let (ucid, receive, retry) = (
        optional(ucid, byte)?,
        optional(receive, long)?,
        optional(retry, long)?,
    );
    Some(Modem {
        last: long(last)?,
        receive: receive.unwrap_or(0),
        retry: retry.unwrap_or(0),
        tdsg1: short(t1)?,
        tdsg2: short(t2)?,
        tdsg3: short(t3)?,
        tdsg4: short(t4)?,
        receiveon: receive.is_some().into(),
        retryon: retry.is_some().into(),
        state: STATES.iter().position(|s| s == state)? as u8,
        permission: flag(permission)?,
        hasucid: ucid.is_some().into(),
        ucid: ucid.unwrap_or(0),
    })
}

/// The text of a modem record.
pub fn modem_text(m: &Modem) -> String {
    format!(
        "{} {} {} {} {} {} {} {} {} {} adv",
        STATES[usize::from(m.state)],
        m.last,
        m.permission,
        or_dash((m.hasucid != 0).then_some(m.ucid)),
        m.tdsg1,
        m.tdsg2,
        m.tdsg3,
        m.tdsg4,
        or_dash((m.receiveon != 0).then_some(m.receive)),
        or_dash((m.retryon != 0).then_some(m.retry)),
    )
}

/// A client ID: its kind, and behind a colon its value.
pub fn client(word: &str) -> Option<Client> {
    if word == "0" {
        return Some(Client { kind: 0, value: 0 });
    }
    let (kind, value) = word.split_once(':')?;
    let value = match kind {
        "1" | "3" | "4" => short(value)?.into(),
        "2" => hex_number(value, 6)?,
        _ => return None,
    };
    Some(Client {
        kind: byte(kind)?,
        value,
    })
}

fn client_text(c: &Client) -> String {
    match c.kind {
        0 => "0".into(),
        2 => format!("2:{:012x}", c.value),
        kind => format!("{kind}:{}", c.value),
    }
}

/// An array with the items at its start and empty places behind them.
fn filled<T: Copy + Default, const N: usize>(items: &[T]) -> [T; N] {
    let mut all = [T::default(); N];
    all[..items.len()].copy_from_slice(items);
    all
}

fn rule(words: &[&str], place: usize) -> Option<Rule> {
    let [number, priority, tunnel, ucids, clients, numbers, "-", own] = words else {
        return None;
    };
    if *own != place.to_string() {
        return None;
    }
    let ucids = list(ucids, RULE_UCIDS, byte)?;
    let clients = list(clients, RULE_CLIENTS, client)?;
    let numbers = list(numbers, RULE_NUMBERS, short)?;
    Some(Rule {
        number: byte(number)?,
        priority: byte(priority)?,
        ucidcount: ucids.len() as u8,
        clientcount: clients.len() as u8,
        numbercount: numbers.len() as u8,
        ucids: filled(&ucids),
        numbers: filled(&numbers),
        tunnel: hex_number(tunnel, 6)?,
        clients: filled(&clients),
    })
}

fn rule_text(r: &Rule, place: usize) -> String {
    format!(
        " ; rule {} {} {:012x} {} {} {} - {place}",
        r.number,
        r.priority,
        r.tunnel,
        commas(&r.ucids[..usize::from(r.ucidcount)]),
        commas(
            r.clients[..usize::from(r.clientcount)]
                .iter()
                .map(client_text)
        ),
        commas(&r.numbers[..usize::from(r.numbercount)]),
    )
}

fn address(word: &str) -> Option<u32> {
    hex_number(word, 4).map(|n| n as u32)
}

fn classifier(words: &[&str]) -> Option<Classifier> {
    let [number, priority, source, mask, destination, start, end] = words else {
        return None;
    };
    let (source, mask) = (optional(source, address)?, optional(mask, address)?);
    let (start, end) = (optional(start, short)?, optional(end, short)?);
    Some(Classifier {
        destination: address(destination)?,
        source: source.unwrap_or(0),
        mask: mask.unwrap_or(0),
        number: short(number)?,
        start: start.unwrap_or(0),
        end: end.unwrap_or(0),
        priority: byte(priority)?,
        hassource: source.is_some().into(),
        hasmask: mask.is_some().into(),
        hasstart: start.is_some().into(),
        hasend: end.is_some().into(),
    })
}

fn classifier_text(c: &Classifier) -> String {
    let address = |mark: u8, value: u32| or_dash((mark != 0).then(|| format!("{value:08x}")));
    let port = |mark: u8, value: u16| or_dash((mark != 0).then_some(value));
    format!(
        " ; classifier {} {} {} {} {:08x} {} {}",
        c.number,
        c.priority,
        address(c.hassource, c.source),
        address(c.hasmask, c.mask),
        c.destination,
        port(c.hasstart, c.start),
        port(c.hasend, c.end),
    )
}

fn timers(words: &[&str]) -> Option<TimerValues> {
    let ["table", "j128", t1, t2, t3, t4, "-"] = words else {
        return None;
    };
    Some(TimerValues {
        tdsg1: short(t1)?,
        tdsg2: short(t2)?,
        tdsg3: short(t3)?,
        tdsg4: short(t4)?,
    })
}

/// A table in text: its head, then rules, classifiers and channels.
pub fn table(words: &[&str]) -> Option<Table> {
    let mut parts = words.split(|word| *word == ";");
    let timers = timers(parts.next()?)?;
    let (mut rules, mut classifiers, mut channels) = (Vec::new(), Vec::new(), Vec::new());
    for part in parts {
        match part.split_first()? {
            (&"rule", words) if classifiers.is_empty() && channels.is_empty() => {
                rules.push(rule(words, rules.len())?);
            }
            (&"classifier", words) if channels.is_empty() => classifiers.push(classifier(words)?),
            (&"channel", [hertz]) => channels.push(long(hertz)?),
            _ => return None,
        }
    }
    if rules.len().max(classifiers.len()).max(channels.len()) > TABLE_ROOM {
        return None;
    }
    Some(Table {
        rulecount: rules.len() as u8,
        classifiercount: classifiers.len() as u8,
        channelcount: channels.len() as u8,
        timers,
        channels: filled(&channels),
        classifiers: filled(&classifiers),
        rules: filled(&rules),
    })
}

/// The text of a table.
pub fn table_text(t: &Table) -> String {
    let v = t.timers;
    let mut text = format!(
        "table j128 {} {} {} {} -",
        v.tdsg1, v.tdsg2, v.tdsg3, v.tdsg4
    );
    for (place, r) in t.rules[..usize::from(t.rulecount)].iter().enumerate() {
        text += &rule_text(r, place);
    }
    for c in &t.classifiers[..usize::from(t.classifiercount)] {
        text += &classifier_text(c);
    }
    for hertz in &t.channels[..usize::from(t.channelcount)] {
        text += &format!(" ; channel {hertz}");
    }
    text
}
