//! What every state that calls reach has beside the list "Sound", and without which a
//! call could lead out of the list: the ties. The check of calls is the list alone
//! (open point 1); these are for tests.
//!
//! They follow indices and read headers, so they are asked of sound states only.

use crate::lines::Freight;
use crate::network::{Hop, Link, LinkEnd, Network, Node, Port, Sending};
use crate::sizes::REPLY_PORT;
use crate::sound;
use crate::tokens::Token;

/// The ties: five of document 01, one of document 02, Ask 7, and three of Ask 4.
#[derive(Clone, Copy, Debug, PartialEq, Eq, Hash)]
pub enum Tie {
    /// Over a cable the far port ends where the near hop's front is.
    Fed,
    /// A disabled link is used by nobody.
    Idle,
    /// An unwired link's port ends fresh.
    Unfed,
    /// The port of an open channel-end ends in a body.
    Sends,
    /// Port 12 ends fresh.
    Replied,
    /// A circuit that leaves by an unwired link has its whole header at its port's
    /// front.
    Unsent,
    /// A line is in use only where both ends are enabled.
    LineEnabled,
    /// A credit is on a line only towards a greeted end.
    CreditGreeted,
    /// While a HELLO is on a line its sender's credit is 0, no credit is on the line
    /// back, and no token stands behind it.
    HelloAlone,
}

type Check = fn(&Network) -> bool;

const TIES: [(Tie, Check); 9] = [
    (Tie::Fed, fed),
    (Tie::Idle, idle),
    (Tie::Unfed, unfed),
    (Tie::Sends, sends),
    (Tie::Replied, replied),
    (Tie::Unsent, unsent),
    (Tie::LineEnabled, lines_between_enabled_ends),
    (Tie::CreditGreeted, credits_to_greeted_ends),
    (Tie::HelloAlone, hellos_alone),
];

/// The ties that a sound state fails.
pub fn failing(network: &Network) -> Vec<Tie> {
    let ties = TIES.into_iter();
    ties.filter(|(_, holds)| !holds(network))
        .map(|(tie, _)| tie)
        .collect()
}

/// Does a sound state keep all ties?
pub fn is_tight(network: &Network) -> bool {
    TIES.iter().all(|(_, holds)| holds(network))
}

/// Sound, and tight.
pub fn is_sound_and_tight(network: &Network) -> bool {
    sound::is_sound(network) && is_tight(network)
}

/// Where a walk over tokens is.
#[derive(Clone, Copy, Debug, PartialEq, Eq)]
enum Place {
    /// A header is to begin.
    Fresh,
    /// So many more tokens of a header are due.
    Due(usize),
    /// Behind a header, before an END or PAUSE.
    Body,
}

impl Place {
    /// Behind one more token. What is no step of a sound walk goes nowhere.
    fn behind(self, token: &Token) -> Place {
        match (self, token.header) {
            (Place::Fresh, Some(width)) => Place::due(width as usize - 1),
            (Place::Due(left), Some(_)) => Place::due(left - 1),
            (Place::Body, None) if token.ends_circuit() => Place::Fresh,
            _ => self,
        }
    }

    fn due(left: usize) -> Place {
        match left {
            0 => Place::Body,
            left => Place::Due(left),
        }
    }
}

/// How many header tokens stand at a port's own front.
fn header_left(port: &Port) -> usize {
    let tokens = port.tokens.iter();
    tokens.take_while(|token| token.header.is_some()).count()
}

/// Has the circuit of the port sent nothing yet?
fn is_whole(port: &Port) -> bool {
    let width = port.tokens.front().and_then(|first| first.header);
    width.is_some_and(|width| header_left(port) == width as usize)
}

/// Where a port's front is: "no circuit: fresh; landed: body; outward or dropping: by
/// how many header tokens are left".
fn front(port: &Port) -> Place {
    match port.hop {
        None => Place::Fresh,
        Some(Hop::Channel(_) | Hop::Control) => Place::Body,
        Some(Hop::Outward(_) | Hop::Dropped(_)) => Place::due(header_left(port)),
    }
}

/// Where a port ends, with the line to it behind ("fed and unfed read the port with its
/// line").
fn end(network: &Network, slot: usize, port: usize) -> Place {
    let tokens = network.held_and_coming(slot, port);
    let front = front(&network.nodes[slot].ports[port]);
    tokens.iter().fold(front, Place::behind)
}

/// What has gone out by a link: "fresh while only the opening has happened, fresh where
/// nobody uses the link", else the front of the circuit that leaves by it.
fn sent_by(node: &Node, link: &Link) -> Place {
    match link.used_by.map(|port| &node.ports[port]) {
        Some(port) if !is_whole(port) => front(port),
        _ => Place::Fresh,
    }
}

fn all_links(network: &Network, holds: impl Fn(LinkEnd, &Node, &Link) -> bool) -> bool {
    (0..).zip(&network.nodes).all(|(slot, node)| {
        let mut links = (0..).zip(&node.links);
        links.all(|(link, state)| holds(LinkEnd { slot, link }, node, state))
    })
}

fn fed(network: &Network) -> bool {
    all_links(network, |_, node, link| {
        link.far
            .is_none_or(|far| end(network, far.slot, far.link) == sent_by(node, link))
    })
}

fn idle(network: &Network) -> bool {
    all_links(network, |_, _, link| link.enabled || link.used_by.is_none())
}

fn unfed(network: &Network) -> bool {
    all_links(network, |LinkEnd { slot, link: port }, _, link| {
        link.far.is_some() || end(network, slot, port) == Place::Fresh
    })
}

fn sends(network: &Network) -> bool {
    (0..).zip(&network.nodes).all(|(slot, node)| {
        let mut ends = node.channel_ends.iter();
        ends.all(|sender| match sender.sending {
            Some(Sending::ByPort(port)) => end(network, slot, port) == Place::Body,
            Some(Sending::Straight(_)) | None => true,
        })
    })
}

fn replied(network: &Network) -> bool {
    (0..network.nodes.len()).all(|slot| end(network, slot, REPLY_PORT) == Place::Fresh)
}

fn unsent(network: &Network) -> bool {
    all_links(network, |_, node, link| {
        let user = link.used_by.filter(|_| link.far.is_none());
        user.is_none_or(|port| is_whole(&node.ports[port]))
    })
}

fn lines_between_enabled_ends(network: &Network) -> bool {
    all_links(network, |_, _, link| {
        let far_enabled = network.far_link(link).is_some_and(|far| far.enabled);
        link.line.is_empty() || (link.enabled && far_enabled)
    })
}

fn credits_to_greeted_ends(network: &Network) -> bool {
    all_links(network, |_, _, link| {
        link.credit_on_line() == 0 || network.far_link(link).is_some_and(|far| far.greeted)
    })
}

fn hellos_alone(network: &Network) -> bool {
    all_links(network, |_, _, link| {
        let mut behind = link.freight().skip_while(|f| *f != Freight::Hello);
        let back = network.far_link(link).map_or(0, Link::credit_on_line);
        behind.next().is_none()
            || (link.credit == 0 && back == 0 && behind.all(|f| f != Freight::Token))
    })
}
