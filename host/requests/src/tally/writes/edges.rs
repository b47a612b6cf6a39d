//! What is odd about a table, or at an end, and no reason for a 19.

use reference::table::{Classifier, Client, Rule, Table, DEFAULT_TIMERS};
use reference::table::{
    CHANNELS_MAX, CLASSIFIERS_MAX, CLIENTS_MAX, NUMBERS_MAX, RULES_MAX, UCIDS_MAX,
};

/// What can be said of something, and whether it holds.
type Edge<T> = (&'static str, fn(&T) -> bool);

const OF_TABLES: [Edge<Table>; 20] = [
    ("no rule", |table| table.rules.is_empty()),
    ("no classifier", |table| table.classifiers.is_empty()),
    ("rules and no configuration", has_rules_alone),
    ("usual timers and channels", has_channels_alone),
    ("Tdsg1 and no channel", |table| has_timer_alone(table, 0)),
    ("Tdsg2 and no channel", |table| has_timer_alone(table, 1)),
    ("Tdsg3 and no channel", |table| has_timer_alone(table, 2)),
    ("Tdsg4 and no channel", |table| has_timer_alone(table, 3)),
    ("four unusual timers", |table| unusual(table) == [true; 4]),
    ("a timer that is usual for another", has_swapped_timer),
    ("Tdsg1 of 1", |table| table.timers[0] == 1),
    ("Tdsg2 of 1", |table| table.timers[1] == 1),
    ("Tdsg3 of 0", |table| table.timers[2] == 0),
    ("Tdsg4 of 0", |table| table.timers[3] == 0),
    ("channel 62500", |table| table.channels.contains(&62_500)),
    ("channel 1000000000", |table| {
        table.channels.contains(&1_000_000_000)
    }),
    ("a channel twice", |table| has_twice(&table.channels)),
    ("32 channels", |table| table.channels.len() == CHANNELS_MAX),
    ("32 classifiers", |table| {
        table.classifiers.len() == CLASSIFIERS_MAX
    }),
    ("32 rules", |table| table.rules.len() == RULES_MAX),
];

const OF_CLASSIFIERS: [Edge<Classifier>; 5] = [
    ("classifier number 1", |c| c.number == 1),
    ("classifier number 65535", |c| c.number == 65_535),
    ("classifier priority 0", |c| c.priority == 0),
    ("start port above the end", |c| {
        c.port_start.is_some() && c.port_end.is_some() && c.port_start > c.port_end
    }),
    ("a source or a mask of 0", |c| {
        [c.source, c.mask].contains(&Some([0; 4]))
    }),
];

const OF_RULES: [Edge<Rule>; 14] = [
    ("rule number 0", |rule| rule.number == 0),
    ("rule number 255", |rule| rule.number == 255),
    ("rule priority 0", |rule| rule.priority == 0),
    ("tunnel 000000000000", |rule| rule.tunnel == [0; 6]),
    ("tunnel ffffffffffff", |rule| rule.tunnel == [255; 6]),
    ("no UCID", |rule| rule.ucids.is_empty()),
    ("16 UCIDs", |rule| rule.ucids.len() == UCIDS_MAX),
    ("a UCID twice", |rule| has_twice(&rule.ucids)),
    ("no client ID", |rule| rule.clients.is_empty()),
    ("8 client IDs", |rule| rule.clients.len() == CLIENTS_MAX),
    ("a client ID twice", |rule| has_twice(&rule.clients)),
    ("client IDs of falling types", |rule| {
        has_falling_types(&rule.clients)
    }),
    ("8 numbers", |rule| rule.classifiers.len() == NUMBERS_MAX),
    ("a number twice", |rule| has_twice(&rule.classifiers)),
];

const OF_CLIENTS: [(&str, Client); 9] = [
    ("broadcast of length 0", Client::EmptyBroadcast),
    ("broadcast 1", Client::Broadcast(1)),
    ("broadcast 65535", Client::Broadcast(65_535)),
    ("MAC 000000000000", Client::Mac([0; 6])),
    ("MAC ffffffffffff", Client::Mac([255; 6])),
    ("CA system 0", Client::CaSystem(0)),
    ("CA system 65535", Client::CaSystem(65_535)),
    ("application 0", Client::Application(0)),
    ("application 65535", Client::Application(65_535)),
];

pub fn names() -> impl Iterator<Item = &'static str> {
    let of_tables = OF_TABLES.into_iter().map(|(name, _)| name);
    of_tables
        .chain(OF_CLASSIFIERS.into_iter().map(|(name, _)| name))
        .chain(OF_RULES.into_iter().map(|(name, _)| name))
        .chain(OF_CLIENTS.into_iter().map(|(name, _)| name))
}

/// The names of what holds for a table, or for something in it.
pub fn of(table: &Table) -> Vec<&'static str> {
    let clients: Vec<&Client> = table.rules.iter().flat_map(|rule| &rule.clients).collect();
    let listed = OF_CLIENTS
        .into_iter()
        .filter(|(_, client)| clients.contains(&client));
    let mut names = holding(&OF_TABLES, std::slice::from_ref(table));
    names.extend(holding(&OF_CLASSIFIERS, &table.classifiers));
    names.extend(holding(&OF_RULES, &table.rules));
    names.extend(listed.map(|(name, _)| name));
    names
}

/// The names of what holds for one of these at least.
fn holding<T>(edges: &[Edge<T>], things: &[T]) -> Vec<&'static str> {
    let holding = edges.iter().filter(|(_, holds)| things.iter().any(holds));
    holding.map(|(name, _)| *name).collect()
}

/// For each timer whether it is other than usual.
fn unusual(table: &Table) -> [bool; 4] {
    std::array::from_fn(|at| table.timers[at] != DEFAULT_TIMERS[at])
}

fn has_rules_alone(table: &Table) -> bool {
    !table.rules.is_empty() && table.channels.is_empty() && unusual(table) == [false; 4]
}

fn has_channels_alone(table: &Table) -> bool {
    !table.channels.is_empty() && unusual(table) == [false; 4]
}

/// Whether the configuration says nothing but this timer.
fn has_timer_alone(table: &Table, timer: usize) -> bool {
    table.channels.is_empty() && unusual(table) == std::array::from_fn(|at| at == timer)
}

fn has_swapped_timer(table: &Table) -> bool {
    let timers = table.timers.iter().zip(unusual(table));
    let mut others = timers.filter(|(_, unusual)| *unusual);
    others.any(|(timer, _)| DEFAULT_TIMERS.contains(timer))
}

fn has_twice<T: PartialEq>(items: &[T]) -> bool {
    (0..items.len()).any(|at| items[..at].contains(&items[at]))
}

/// Whether a client ID comes before one of a smaller type.
fn has_falling_types(clients: &[Client]) -> bool {
    let kind = |client: &Client| match client {
        Client::EmptyBroadcast | Client::Broadcast(_) => 1,
        Client::Mac(_) => 2,
        Client::CaSystem(_) => 3,
        Client::Application(_) => 4,
    };
    !clients.is_sorted_by_key(kind)
}
