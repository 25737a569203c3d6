//! What two states of the model differ in.

use std::fmt::Debug;

use model::network::{ChannelEnd, Link, Network, Node, Port};

/// The first thing in which they differ, with what each has there; none where they are equal.
pub fn first(left: &Network, right: &Network) -> Option<String> {
    if left == right {
        return None;
    }
    let pairs = facts(left).into_iter().zip(facts(right));
    let mut differing = pairs.filter(|(one, other)| one != other);
    let found = differing.next().map(|(one, other)| {
        let (place, what) = one;
        format!("{place}: {what} against {} at {}", other.1, other.0)
    });
    found.or(Some("one has more nodes".to_owned()))
}

/// A place in the state and what is there.
type Fact = (String, String);

fn facts(network: &Network) -> Vec<Fact> {
    let mut facts = vec![
        fact("nodes", &network.nodes.len()),
        fact("memory words", &network.memory_words),
        fact("crossing", &network.crossing),
    ];
    for (slot, node) in network.nodes.iter().enumerate() {
        let of_node = node_facts(node).into_iter();
        facts.extend(of_node.map(|(place, what)| (format!("slot {slot} {place}"), what)));
    }
    facts
}

fn fact(place: &str, what: &impl Debug) -> Fact {
    (place.to_owned(), format!("{what:?}"))
}

fn node_facts(node: &Node) -> Vec<Fact> {
    let mut facts = vec![
        fact("number", &node.number),
        fact("width", &node.width),
        fact("directions", &node.directions),
    ];
    facts.extend(of_each("link", &node.links, link_facts));
    facts.extend(of_each("tile link", &node.tile_links, |user| {
        vec![fact("user", user)]
    }));
    facts.extend(of_each("port", &node.ports, port_facts));
    facts.extend(of_each("channel-end", &node.channel_ends, end_facts));
    facts.push(fact("control unit serves", &node.control_unit.serves));
    facts.push(fact("control unit heard", &node.control_unit.heard));
    facts
}

/// The facts of each record of a kind, under its name and place.
fn of_each<T>(name: &str, records: &[T], facts: impl Fn(&T) -> Vec<Fact>) -> Vec<Fact> {
    let each = records.iter().enumerate();
    each.flat_map(|(index, record)| {
        let of_one = facts(record).into_iter();
        of_one.map(move |(place, what)| (format!("{name} {index} {place}"), what))
    })
    .collect()
}

fn link_facts(link: &Link) -> Vec<Fact> {
    vec![
        fact("far end", &link.far),
        fact("enabled", &link.enabled),
        fact("direction", &link.direction),
        fact("network", &link.network),
        fact("greeted", &link.greeted),
        fact("credit", &link.credit),
        fact("user", &link.used_by),
        fact("issued", &link.issued),
        fact("line", &link.line),
    ]
}

fn port_facts(port: &Port) -> Vec<Fact> {
    vec![
        fact("hop", &port.hop),
        fact("network", &port.network),
        fact("tokens", &port.tokens),
    ]
}

fn end_facts(end: &ChannelEnd) -> Vec<Fact> {
    vec![
        fact("aim", &end.aim),
        fact("sending", &end.sending),
        fact("claim", &end.claim),
        fact("tokens", &end.tokens),
    ]
}
