//! Sound: circuits, and who names them.

use crate::network::{ChannelEnd, Claim, Hop, Network, Node, Sending};
use crate::sizes::{CHANNEL_ENDS, PORTS, REPLY_PORT, TILE_PORTS};
use crate::tokens::SINK;

/// "a port's output names that port back and no other": links, tile links and the
/// control unit match the ports one to one, both ways (open point 4).
pub(super) fn outputs_name_back(network: &Network) -> bool {
    network.nodes.iter().all(|node| {
        (0..PORTS).all(|port| output_names_back(node, port)) && named_ports_use_it(node)
    })
}

/// The output of this port's hop names the port.
fn output_names_back(node: &Node, port: usize) -> bool {
    match node.ports[port].hop {
        Some(Hop::Outward(link)) => node.links[link].used_by == Some(port),
        Some(Hop::Channel(_)) => {
            let users = node.tile_links.iter().flatten();
            users.filter(|user| **user == port).count() == 1
        }
        Some(Hop::Control) => node.control_unit.serves == Some(port),
        Some(Hop::Dropped(_)) | None => true,
    }
}

/// Each port that an output names goes out by it.
fn named_ports_use_it(node: &Node) -> bool {
    let hop = |port: usize| node.ports[port].hop;
    let links = (0..).zip(&node.links).all(|(link, state)| {
        let user = state.used_by;
        user.is_none_or(|port| hop(port) == Some(Hop::Outward(link)))
    });
    let mut users = node.tile_links.iter().flatten();
    let tile_links = users.all(|port| matches!(hop(*port), Some(Hop::Channel(_))));
    let served = node.control_unit.serves;
    links && tile_links && served.is_none_or(|port| hop(port) == Some(Hop::Control))
}

/// "each claim [...] names one circuit that exists", and each circuit to a channel
/// but the sink has its claim (open point 3).
pub(super) fn claims_name_circuits(network: &Network) -> bool {
    network.nodes.iter().all(|node| {
        let mut ends = (0..).zip(&node.channel_ends);
        ends.all(|(channel, end)| claim_names_circuit(node, channel, end))
            && (0..PORTS).all(|port| port_has_claim(node, port))
            && (0..CHANNEL_ENDS).all(|sender| sender_has_claim(node, sender))
    })
}

fn claim_names_circuit(node: &Node, channel: usize, end: &ChannelEnd) -> bool {
    match end.claim {
        None => true,
        Some(Claim::ByPort(port)) => node.ports[port].hop == Some(Hop::Channel(channel)),
        Some(Claim::ByChannelEnd(sender)) => {
            node.channel_ends[sender].sending == Some(Sending::Straight(channel))
        }
    }
}

fn port_has_claim(node: &Node, port: usize) -> bool {
    match node.ports[port].hop {
        Some(Hop::Channel(channel)) if channel != SINK => {
            node.channel_ends[channel].claim == Some(Claim::ByPort(port))
        }
        _ => true,
    }
}

fn sender_has_claim(node: &Node, sender: usize) -> bool {
    match node.channel_ends[sender].sending {
        Some(Sending::Straight(channel)) if channel != SINK => {
            node.channel_ends[channel].claim == Some(Claim::ByChannelEnd(sender))
        }
        _ => true,
    }
}

/// "each [...] open channel-end names one circuit that exists": it is aimed, and if
/// it sends by a port that is a tile port, taken, and named by no other channel-end
/// (open point 3). Its local circuit is looked at with the claims.
pub(super) fn open_ends_name_circuits(network: &Network) -> bool {
    network.nodes.iter().all(|node| {
        let mut ends = node.channel_ends.iter();
        ends.all(|end| match end.sending {
            None => true,
            Some(Sending::Straight(_)) => end.aim.is_some(),
            Some(Sending::ByPort(port)) => end.aim.is_some() && port_has_one_sender(node, port),
        })
    })
}

fn port_has_one_sender(node: &Node, port: usize) -> bool {
    let by_it = Some(Sending::ByPort(port));
    let senders = node.channel_ends.iter().filter(|end| end.sending == by_it);
    TILE_PORTS.contains(&port) && node.ports[port].is_taken() && senders.count() == 1
}

/// "port 12 is empty while the control unit serves a circuit"
pub(super) fn reply_port_empty_while_serving(network: &Network) -> bool {
    network
        .nodes
        .iter()
        .all(|node| node.control_unit.serves.is_none() || node.ports[REPLY_PORT].tokens.is_empty())
}
