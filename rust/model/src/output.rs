//! Output: what a channel-end puts out, straight or by a port.

use crate::answers::{Answer, No};
use crate::network::{Aim, Claim, Network, Node, Sending};
use crate::routing::highest_differing_bit;
use crate::sizes::{CHANNEL_END_CAPACITY, PORT_CAPACITY, TILE_PORTS};
use crate::tokens::{class, header, Class, Destination, Kind, Token, READC, SINK, WRITEC};

/// The call Output, on a state that is known to be sound. "After 1 and 2, Output
/// looks at the destination before the token: an unaimed channel-end leaves at once
/// with 5, also for a hardware token."
pub(crate) fn output(
    network: &mut Network,
    slot: usize,
    channel_end: usize,
    token: Token,
) -> Result<Answer, No> {
    let sender = network.channel_end(slot, channel_end)?;
    let aim = sender.aim.ok_or(No::Unaimed)?;
    let sending = sender.sending;
    may_be_put_out(token, aim.destination)?;
    let node = &mut network.nodes[slot];
    match sending {
        None => open(node, channel_end, aim, token)?,
        Some(Sending::Straight(channel)) => hand_straight(node, channel_end, channel, token)?,
        Some(Sending::ByPort(port)) => put_behind(node, channel_end, port, token)?,
    }
    Ok(Answer::Done)
}

/// Hardware: "Output of control 0xE0..0xFF". Privileged: "Output of control
/// 0xC0..0xDF, but for 0xC0 and 0xC1 towards a control unit".
fn may_be_put_out(token: Token, destination: Destination) -> Result<(), No> {
    if token.kind == Kind::Data {
        return Ok(());
    }
    let to_control_unit = matches!(destination, Destination::Control { .. });
    let command = token.value == WRITEC || token.value == READC;
    match class(token.value) {
        Class::Application | Class::Special => Ok(()),
        Class::Privileged if to_control_unit && command => Ok(()),
        Class::Privileged => Err(No::Privileged),
        Class::Hardware => Err(No::Hardware),
    }
}

/// "The first opens a circuit. It has the node's width at that moment." Narrow:
/// "opening at one-byte width towards channel 255 or a control unit", that is
/// where the width has no header for the destination.
fn open(node: &mut Node, channel_end: usize, aim: Aim, token: Token) -> Result<(), No> {
    let header = header(aim.destination, node.width).ok_or(No::Narrow)?;
    match local_channel(node, aim.destination) {
        Some(channel) => open_straight(node, channel_end, channel, token),
        None => open_by_port(node, channel_end, aim.network, header, token),
    }
}

/// The channel of this node that a circuit goes straight to: "If the destination
/// matches this node at that width and is a channel".
fn local_channel(node: &Node, destination: Destination) -> Option<usize> {
    let Destination::Channel { number, channel } = destination else {
        return None;
    };
    let elsewhere = highest_differing_bit(number, node.number, node.width).is_some();
    (!elsewhere).then_some(channel)
}

/// "tokens go straight to that channel-end with no header and no link, and the
/// channel-end is claimed until END or PAUSE." Full, locally: "another circuit
/// claims the channel".
fn open_straight(
    node: &mut Node,
    channel_end: usize,
    channel: usize,
    token: Token,
) -> Result<(), No> {
    if channel != SINK && node.channel_ends[channel].claim.is_some() {
        return Err(No::Full);
    }
    hand_straight(node, channel_end, channel, token)
}

/// Hands one token of a local circuit to its channel. Full, locally: "8 are held
/// and the token is not PAUSE (the sink is never full)".
fn hand_straight(
    node: &mut Node,
    channel_end: usize,
    channel: usize,
    token: Token,
) -> Result<(), No> {
    let open = !token.ends_circuit();
    if channel != SINK {
        let receiver = &mut node.channel_ends[channel];
        if !token.is_pause() && receiver.tokens.len() >= CHANNEL_END_CAPACITY {
            return Err(No::Full);
        }
        if !token.is_pause() {
            receiver.tokens.push_back(token);
        }
        receiver.claim = open.then_some(Claim::ByChannelEnd(channel_end));
    }
    node.channel_ends[channel_end].sending = open.then_some(Sending::Straight(channel));
    Ok(())
}

/// "Otherwise the lowest free port 8..11 is taken and receives header and token."
/// Full: "no port 8..11 free".
fn open_by_port(
    node: &mut Node,
    channel_end: usize,
    network: u32,
    header: Vec<Token>,
    token: Token,
) -> Result<(), No> {
    let mut ports = TILE_PORTS;
    let port = ports.find(|port| !node.ports[*port].is_taken());
    let port = port.ok_or(No::Full)?;
    node.ports[port].tokens.extend(header);
    node.ports[port].network = network;
    put_behind(node, channel_end, port, token)
}

/// Puts one more token of a circuit into its port. Full: "the taken port holds
/// 64".
fn put_behind(node: &mut Node, channel_end: usize, port: usize, token: Token) -> Result<(), No> {
    let tokens = &mut node.ports[port].tokens;
    if tokens.len() >= PORT_CAPACITY {
        return Err(No::Full);
    }
    tokens.push_back(token);
    let open = !token.ends_circuit();
    node.channel_ends[channel_end].sending = open.then_some(Sending::ByPort(port));
    Ok(())
}
