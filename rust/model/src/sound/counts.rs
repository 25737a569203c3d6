//! Sound: the length of the memory, counts and indices.

use crate::lines::{self, Crossing};
use crate::network::{
    memory_words, Aim, ChannelEnd, Claim, Hop, Link, Network, Node, Port, Sending,
};
use crate::sizes::{
    CHANNEL_ENDS, CHANNEL_END_CAPACITY, HIGHEST_DIRECTION, HIGHEST_NETWORK, HIGHEST_NUMBER,
    LINE_CAPACITY, LINKS, MOST_CREDIT, MOST_NODES, PORTS, PORT_CAPACITY, TILE_PORTS,
};
use crate::tokens::{is_channel, Destination, ONE_BYTE, SINK, THREE_BYTES};

/// Unsound is also "memory of the wrong length": of either memory, for the second "is
/// token memory too wherever the demands and document 01 name that".
pub(super) fn memory_has_its_length(network: &Network) -> bool {
    let nodes = network.nodes.len();
    let second = match network.crossing {
        Crossing::AtOnce => true,
        Crossing::ByLine { line_words } => lines::line_words(nodes) == Some(line_words),
    };
    second && memory_words(nodes) == Some(network.memory_words)
}

/// "counts within their limits": every number of the state, and every index.
pub(super) fn counts_within_limits(network: &Network) -> bool {
    let count = network.nodes.len();
    (1..=MOST_NODES).contains(&count) && network.nodes.iter().all(|node| node_counts(node, count))
}

fn node_counts(node: &Node, count: usize) -> bool {
    node.number <= HIGHEST_NUMBER
        && [ONE_BYTE, THREE_BYTES].contains(&node.width)
        && node.directions.iter().all(|d| *d <= HIGHEST_DIRECTION)
        && node.links.iter().all(|link| link_counts(link, count))
        && node.tile_links.iter().flatten().all(|port| *port < PORTS)
        && node.ports.iter().all(port_counts)
        && TILE_PORTS
            .into_iter()
            .all(|port| circuit_network_counts(&node.ports[port]))
        && node.channel_ends.iter().all(channel_end_counts)
        && node.control_unit.serves.is_none_or(|port| port < PORTS)
}

fn link_counts(link: &Link, count: usize) -> bool {
    link.far
        .is_none_or(|far| far.slot < count && far.link < LINKS)
        && link.direction <= HIGHEST_DIRECTION
        && link.network <= HIGHEST_NETWORK
        && link.credit <= MOST_CREDIT
        && link.used_by.is_none_or(|port| port < PORTS)
        && link.issued <= MOST_CREDIT
        && link.line.len() <= LINE_CAPACITY
}

/// A channel-end of the node, or the sink.
fn is_there(channel: usize) -> bool {
    channel < CHANNEL_ENDS || channel == SINK
}

fn port_counts(port: &Port) -> bool {
    let hop = match port.hop {
        Some(Hop::Outward(link)) => link < LINKS,
        Some(Hop::Channel(channel)) => is_there(channel),
        Some(Hop::Control | Hop::Dropped(_)) | None => true,
    };
    hop && port.tokens.len() <= PORT_CAPACITY
}

/// The network of the circuit that has taken a tile port; nothing reads that of a
/// free one.
fn circuit_network_counts(port: &Port) -> bool {
    !port.is_taken() || port.network <= HIGHEST_NETWORK
}

fn channel_end_counts(end: &ChannelEnd) -> bool {
    let sending = match end.sending {
        Some(Sending::ByPort(port)) => port < PORTS,
        Some(Sending::Straight(channel)) => is_there(channel),
        None => true,
    };
    let claim = match end.claim {
        Some(Claim::ByPort(port)) => port < PORTS,
        Some(Claim::ByChannelEnd(sender)) => sender < CHANNEL_ENDS,
        None => true,
    };
    sending && claim && end.aim.is_none_or(aim_counts) && end.tokens.len() <= CHANNEL_END_CAPACITY
}

fn aim_counts(aim: Aim) -> bool {
    let channel = match aim.destination {
        Destination::Channel { channel, .. } => is_channel(channel),
        Destination::Control { .. } => true,
    };
    channel && aim.destination.number() <= HIGHEST_NUMBER && aim.network <= HIGHEST_NETWORK
}
