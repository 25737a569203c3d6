//! What a Step does.

use crate::answers::{Answer, Cause, No, Opening};
use crate::messages;
use crate::network::{Claim, Hop, LinkEnd, Network};
use crate::routing::{highest_differing_bit, route, Route};
use crate::sizes::{CHANNEL_END_CAPACITY, REPLY_PORT};
use crate::tokens::{read_header, Destination, Front, Token, SINK};

/// The call Step, on a state that is known to be sound. "Empty: Idle." Else with
/// no circuit the switch looks at the header, and with a circuit one token goes.
pub fn step(network: &mut Network, slot: usize, port: usize) -> Result<Answer, No> {
    let here = network.port(slot, port)?;
    let hop = here.hop;
    let Some(&token) = here.tokens.front() else {
        return Ok(Answer::Idle);
    };
    Ok(match hop {
        None => look_at_header(network, slot, port),
        Some(Hop::Outward(link)) => move_outward(network, slot, port, link),
        Some(Hop::Channel(channel)) => hand_to_channel(network, slot, port, channel, token),
        Some(Hop::Control) => tell_control_unit(network, slot, port),
        Some(Hop::Dropped(cause)) => drop_token(network, slot, port, cause),
    })
}

/// "With no circuit and a header short of its tokens: Waiting. With a whole header
/// the switch reads it, anew at each such Step, in this order: width differs from
/// the switch: Refused, Split. Another node's: route [...]. This node's channel
/// [...]. This node's control unit".
fn look_at_header(network: &mut Network, slot: usize, port: usize) -> Answer {
    let node = &network.nodes[slot];
    let (width, destination) = match read_header(&node.ports[port].tokens) {
        Front::Short => return Answer::Waiting,
        Front::Whole { width, destination } => (width, destination),
    };
    if width != node.width {
        return refuse(network, slot, port, Cause::Split);
    }
    match highest_differing_bit(destination.number(), node.number, width) {
        Some(bit) => open_outward(network, slot, port, bit),
        None => match destination {
            Destination::Channel { channel, .. } => open_channel(network, slot, port, channel),
            Destination::Control { .. } => open_control_unit(network, slot, port),
        },
    }
}

/// "A Step's Refused [...] sets that circuit to be dropped." The step that refuses
/// drops nothing (open point 34).
fn refuse(network: &mut Network, slot: usize, port: usize, cause: Cause) -> Answer {
    network.nodes[slot].ports[port].hop = Some(Hop::Dropped(cause));
    Answer::Refused(cause)
}

/// "Another node's: route as above, answering Opened with the link, Waiting, or
/// Refused, NoRoute; header tokens stay and travel on in later steps."
fn open_outward(network: &mut Network, slot: usize, port: usize, bit: usize) -> Answer {
    let node = &mut network.nodes[slot];
    match route(node, bit, node.circuit_network(port)) {
        Route::None => refuse(network, slot, port, Cause::NoRoute),
        Route::AllInUse => Answer::Waiting,
        Route::Link(link) => {
            node.links[link].used_by = Some(port);
            node.ports[port].hop = Some(Hop::Outward(link));
            Answer::Opened(Opening::Link(link))
        }
    }
}

/// "This node's channel: Waiting if no tile link is free, then Waiting if the
/// channel is claimed (the sink never is), else Opened and the header is removed."
/// The lowest free tile link is taken (open point 23).
fn open_channel(network: &mut Network, slot: usize, port: usize, channel: usize) -> Answer {
    let node = &mut network.nodes[slot];
    let Some(tile_link) = node.tile_links.iter_mut().find(|user| user.is_none()) else {
        return Answer::Waiting;
    };
    if channel != SINK {
        let claim = &mut node.channel_ends[channel].claim;
        if claim.is_some() {
            return Answer::Waiting;
        }
        *claim = Some(Claim::ByPort(port));
    }
    *tile_link = Some(port);
    node.ports[port].hop = Some(Hop::Channel(channel));
    remove_header(network, slot, port);
    Answer::Opened(Opening::Channel)
}

/// "This node's control unit: Waiting while it serves a circuit or port 12 is not
/// empty, else Opened, header removed."
fn open_control_unit(network: &mut Network, slot: usize, port: usize) -> Answer {
    let node = &mut network.nodes[slot];
    if node.control_unit.serves.is_some() || !node.ports[REPLY_PORT].tokens.is_empty() {
        return Answer::Waiting;
    }
    node.control_unit.serves = Some(port);
    node.control_unit.heard.clear();
    node.ports[port].hop = Some(Hop::Control);
    remove_header(network, slot, port);
    Answer::Opened(Opening::Control)
}

/// Takes the header tokens at the front, one after the other, each with the grant
/// that its taking brings (open points 25 and 26).
fn remove_header(network: &mut Network, slot: usize, port: usize) {
    let tokens = &network.nodes[slot].ports[port].tokens;
    let length = tokens.iter().take_while(|t| t.header.is_some()).count();
    for _ in 0..length {
        network.take(slot, port);
    }
}

/// "Outward: Waiting at credit 0, else Moved." Taken and considered, then put, paid
/// and considered (open point 27).
fn move_outward(network: &mut Network, slot: usize, port: usize, link: usize) -> Answer {
    let end = LinkEnd { slot, link };
    if network.nodes[slot].links[link].credit == 0 {
        return Answer::Waiting;
    }
    if let Some(token) = take_and_close(network, slot, port) {
        network.send(end, token);
    }
    Answer::Moved
}

/// "To a channel: Waiting if 8 are held, unless it is PAUSE or the channel is the
/// sink, else Moved. [...] PAUSE is never stored in a channel-end; END is."
fn hand_to_channel(
    network: &mut Network,
    slot: usize,
    port: usize,
    channel: usize,
    token: Token,
) -> Answer {
    if channel != SINK && !token.is_pause() {
        let held = &mut network.nodes[slot].channel_ends[channel].tokens;
        if held.len() >= CHANNEL_END_CAPACITY {
            return Answer::Waiting;
        }
        held.push_back(token);
    }
    take_and_close(network, slot, port);
    Answer::Moved
}

/// "To the control unit: Moved, but for the two end answers named below."
fn tell_control_unit(network: &mut Network, slot: usize, port: usize) -> Answer {
    match take_and_close(network, slot, port) {
        Some(token) if token.ends_circuit() => messages::end(network, slot, token),
        Some(token) => {
            messages::hear(&mut network.nodes[slot].control_unit, token);
            Answer::Moved
        }
        None => Answer::Idle,
    }
}

/// "Refused circuits: Dropped, with the cause."
fn drop_token(network: &mut Network, slot: usize, port: usize, cause: Cause) -> Answer {
    take_and_close(network, slot, port);
    Answer::Dropped(cause)
}

/// Takes one token of a circuit, and closes the hop if it is the last: "END and
/// PAUSE close the hop."
fn take_and_close(network: &mut Network, slot: usize, port: usize) -> Option<Token> {
    let token = network.take(slot, port)?;
    if token.ends_circuit() {
        network.nodes[slot].close_hop(port);
    }
    Some(token)
}
