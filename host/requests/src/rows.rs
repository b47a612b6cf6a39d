//! Elements as trees: those of a sound table, and how trees are written as bytes.

use crate::random::Random;
use reference::table::{Classifier, Client, Rule, Table, DEFAULT_TIMERS};

/// An element: its value is the bytes, then the row.
#[derive(Clone, Default)]
pub struct Node {
    pub kind: u8,
    pub bytes: Vec<u8>,
    pub row: Vec<Node>,
    pub form: Form,
}

/// How an element is written.
#[derive(Clone, Copy, Default)]
pub enum Form {
    #[default]
    Whole,
    /// With this length byte, whatever the value.
    Claiming(u8),
    /// The type byte and nothing more.
    Lone,
}

pub fn leaf(kind: u8, bytes: &[u8]) -> Node {
    Node {
        kind,
        bytes: bytes.to_vec(),
        ..Node::default()
    }
}

pub fn parent(kind: u8, row: Vec<Node>) -> Node {
    Node {
        kind,
        row,
        ..Node::default()
    }
}

/// The bytes of a row.
pub fn encode(row: &[Node]) -> Vec<u8> {
    let mut bytes = Vec::new();
    for node in row {
        let value = [node.bytes.clone(), encode(&node.row)].concat();
        bytes.push(node.kind);
        match node.form {
            Form::Whole => bytes.push(value.len().min(255) as u8),
            Form::Claiming(length) => bytes.push(length),
            Form::Lone => continue,
        }
        bytes.extend(value);
    }
    bytes
}

/// The elements of a sound table. Rows of one kind keep the table's order, which the message fixes;
/// the order of everything else is free.
pub fn table_nodes(random: &mut Random, table: &Table) -> Vec<Node> {
    let rules = table
        .rules
        .iter()
        .map(|rule| rule_node(random, rule))
        .collect();
    let classifiers = table
        .classifiers
        .iter()
        .map(|c| classifier_node(random, c))
        .collect();
    let configuration = configuration_node(random, table).into_iter().collect();
    let mut groups = [rules, classifiers, configuration];
    random.shuffle(&mut groups);
    mix(random, groups)
}

/// All nodes, group after group or mixed, those of a group in their order.
fn mix(random: &mut Random, groups: [Vec<Node>; 3]) -> Vec<Node> {
    let sizes = groups.iter().map(Vec::len).enumerate();
    let mut order: Vec<usize> = sizes.flat_map(|(group, size)| vec![group; size]).collect();
    if random.once_in(2) {
        random.shuffle(&mut order);
    }
    let mut rests = groups.map(Vec::into_iter);
    order
        .into_iter()
        .filter_map(|group| rests[group].next())
        .collect()
}

fn rule_node(random: &mut Random, rule: &Rule) -> Node {
    let mut row = vec![
        leaf(1, &[rule.number]),
        parent(4, rule.clients.iter().map(client_node).collect()),
        leaf(5, &rule.tunnel),
    ];
    if rule.priority > 0 || random.once_in(2) {
        row.push(leaf(2, &[rule.priority]));
    }
    if !rule.ucids.is_empty() {
        row.push(leaf(3, &rule.ucids));
    }
    random.shuffle(&mut row);
    let named = rule
        .classifiers
        .iter()
        .map(|number| leaf(6, &number.to_be_bytes()));
    let at = random.below(row.len() + 1);
    row.splice(at..at, named);
    parent(50, row)
}

fn client_node(client: &Client) -> Node {
    match client {
        Client::EmptyBroadcast => leaf(1, &[]),
        Client::Broadcast(value) => leaf(1, &value.to_be_bytes()),
        Client::Mac(address) => leaf(2, address),
        Client::CaSystem(value) => leaf(3, &value.to_be_bytes()),
        Client::Application(value) => leaf(4, &value.to_be_bytes()),
    }
}

fn classifier_node(random: &mut Random, classifier: &Classifier) -> Node {
    let mut ip = vec![leaf(5, &classifier.destination)];
    ip.extend(classifier.source.map(|bytes| leaf(3, &bytes)));
    ip.extend(classifier.mask.map(|bytes| leaf(4, &bytes)));
    ip.extend(
        classifier
            .port_start
            .map(|port| leaf(9, &port.to_be_bytes())),
    );
    ip.extend(
        classifier
            .port_end
            .map(|port| leaf(10, &port.to_be_bytes())),
    );
    random.shuffle(&mut ip);
    let mut row = vec![
        leaf(2, &classifier.number.to_be_bytes()),
        leaf(5, &[classifier.priority]),
        parent(9, ip),
    ];
    random.shuffle(&mut row);
    parent(23, row)
}

fn configuration_node(random: &mut Random, table: &Table) -> Option<Node> {
    let channels = table.channels.iter().map(|hz| leaf(1, &hz.to_be_bytes()));
    let mut row: Vec<Node> = channels.collect();
    for ((kind, timer), default) in (2..).zip(table.timers).zip(DEFAULT_TIMERS) {
        if timer != default || random.once_in(3) {
            row.insert(
                random.below(row.len() + 1),
                leaf(kind, &timer.to_be_bytes()),
            );
        }
    }
    (!row.is_empty() || random.once_in(2)).then(|| parent(51, row))
}
