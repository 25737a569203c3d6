//! The state: nodes with their settings, links, ports, channel-ends and control
//! units.
//!
//! The fields are public and wide, so that a state can be wrong in every way that
//! the list "Sound" speaks of: counts too large, indices that lead nowhere,
//! illegal tokens.

use std::collections::VecDeque;
use std::ops::Range;

use crate::answers::{Cause, No};
use crate::lines::Crossing;
use crate::sizes::{
    BITS, BOOT_LINKS, CHANNEL_ENDS, LINKS, PORTS, PORT_CAPACITY, TILE_LINKS, TILE_PORTS,
};
use crate::tokens::{Destination, Token, SINK, THREE_BYTES};

/// "nodes × 13 ports × 64 words of 16 bits, exactly"
pub fn memory_words(nodes: usize) -> Option<usize> {
    nodes.checked_mul(PORTS * PORT_CAPACITY)
}

/// How a network begins: "Document 000 section 3.2.2 has links E to H enabled after
/// start; Fresh should too. The old start stays under its own name" (document 02,
/// Ask 7).
#[derive(Clone, Copy, Debug, PartialEq, Eq)]
pub enum Start {
    /// As the boot ROM leaves it.
    Fresh,
    /// The old start.
    Blank,
}

impl Start {
    pub const ALL: [Start; 2] = [Start::Fresh, Start::Blank];

    /// The links of every node that it leaves enabled. In nothing else do the two
    /// differ: no HELLO is sent.
    pub fn enabled(self) -> Range<usize> {
        match self {
            Start::Fresh => BOOT_LINKS,
            Start::Blank => 0..0,
        }
    }
}

/// The whole state.
#[derive(Clone, Debug, PartialEq, Eq)]
pub struct Network {
    /// The nodes by slot.
    pub nodes: Vec<Node>,
    /// The length of the token memory that the host lends with this state.
    pub memory_words: usize,
    /// How tokens cross its cables, which the start decides.
    pub crossing: Crossing,
}

/// One node: a tile, a switch and a control unit.
#[derive(Clone, Debug, PartialEq, Eq)]
pub struct Node {
    /// The identifier written into its switch; never a slot.
    pub number: u32,
    /// The header width of its switch, 1 or 3.
    pub width: u32,
    /// The direction table, by bit.
    pub directions: [u32; BITS],
    pub links: [Link; LINKS],
    /// The links from the switch to the tile: the port whose circuit uses each.
    pub tile_links: [Option<usize>; TILE_LINKS],
    pub ports: [Port; PORTS],
    pub channel_ends: [ChannelEnd; CHANNEL_ENDS],
    pub control_unit: ControlUnit,
}

/// One end of a cable: a link of a node.
#[derive(Clone, Copy, Debug, PartialEq, Eq)]
pub struct LinkEnd {
    pub slot: usize,
    pub link: usize,
}

/// An external link.
#[derive(Clone, Debug, Default, PartialEq, Eq)]
pub struct Link {
    /// The other end of the cable, if wired.
    pub far: Option<LinkEnd>,
    pub enabled: bool,
    pub direction: u32,
    pub network: u32,
    pub greeted: bool,
    pub credit: usize,
    /// The port whose circuit leaves by this link: "in use outward".
    pub used_by: Option<usize>,
    /// By line: what this end, as a receiver, "has issued and not yet received".
    /// Always 0 where tokens cross at once.
    pub issued: usize,
    /// By line: what is on the line that starts at this end, that nearest the far end
    /// first. Always empty where tokens cross at once.
    pub line: VecDeque<Token>,
}

/// Where a port's circuit goes on to.
#[derive(Clone, Copy, Debug, PartialEq, Eq)]
pub enum Hop {
    /// Outward, by this link.
    Outward(usize),
    /// To this channel of the node, or to the sink.
    Channel(usize),
    /// To the node's control unit.
    Control,
    /// Refused, and being dropped.
    Dropped(Cause),
}

/// A port with its buffer, oldest token first.
#[derive(Clone, Debug, Default, PartialEq, Eq)]
pub struct Port {
    pub hop: Option<Hop>,
    /// For ports 8..11 the network of the circuit that has taken the port, 0 while
    /// the port is free; always 0 for the others.
    pub network: u32,
    pub tokens: VecDeque<Token>,
}

impl Port {
    /// "The port is taken until its END or PAUSE has left it." Between its opening
    /// and that moment it holds a token or has a circuit, and at no other time.
    pub fn is_taken(&self) -> bool {
        self.hop.is_some() || !self.tokens.is_empty()
    }
}

/// What Aim sets.
#[derive(Clone, Copy, Debug, PartialEq, Eq)]
pub struct Aim {
    pub destination: Destination,
    pub network: u32,
}

impl Aim {
    pub fn new(destination: Destination, network: u32) -> Aim {
        Aim {
            destination,
            network,
        }
    }
}

/// The circuit that a channel-end has open.
#[derive(Clone, Copy, Debug, PartialEq, Eq)]
pub enum Sending {
    /// By this port, 8..11.
    ByPort(usize),
    /// Straight to this channel of the same node, or to the sink.
    Straight(usize),
}

/// The circuit that has a channel-end claimed.
#[derive(Clone, Copy, Debug, PartialEq, Eq)]
pub enum Claim {
    /// The circuit of this port.
    ByPort(usize),
    /// The local circuit of this channel-end.
    ByChannelEnd(usize),
}

/// A channel-end, with both its sides.
#[derive(Clone, Debug, Default, PartialEq, Eq)]
pub struct ChannelEnd {
    pub aim: Option<Aim>,
    pub sending: Option<Sending>,
    pub claim: Option<Claim>,
    /// What it holds for Input, oldest first.
    pub tokens: VecDeque<Token>,
}

/// A node's control unit.
#[derive(Clone, Debug, Default, PartialEq, Eq)]
pub struct ControlUnit {
    /// The port whose circuit it serves.
    pub serves: Option<usize>,
    /// The message so far; see [`crate::sizes::HEARD`].
    pub heard: Vec<Token>,
}

impl Node {
    /// "all nodes number 0, width three, directions 0, links unwired, disabled,
    /// network 0; channel-ends unaimed", but for the links that the start leaves
    /// enabled.
    fn at(start: Start) -> Node {
        Node {
            number: 0,
            width: THREE_BYTES,
            directions: [0; BITS],
            links: std::array::from_fn(|link| Link {
                enabled: start.enabled().contains(&link),
                ..Link::default()
            }),
            tile_links: [None; TILE_LINKS],
            ports: Default::default(),
            channel_ends: Default::default(),
            control_unit: ControlUnit::default(),
        }
    }

    /// The network of the circuit at the front of a port. "Links carry their own
    /// network; a channel-end's network is set with its destination; port 12 is
    /// network 0." The first is that of the receiving end (open point 9), the
    /// second stays with the port (open point 8).
    pub fn circuit_network(&self, port: usize) -> u32 {
        match self.links.get(port) {
            Some(link) => link.network,
            None if TILE_PORTS.contains(&port) => self.ports[port].network,
            None => 0,
        }
    }

    /// "END and PAUSE close the hop": what the port's circuit used is free again.
    pub(crate) fn close_hop(&mut self, port: usize) {
        match self.ports[port].hop.take() {
            Some(Hop::Outward(link)) => self.links[link].used_by = None,
            Some(Hop::Channel(channel)) => self.leave_channel(port, channel),
            Some(Hop::Control) => self.control_unit.serves = None,
            Some(Hop::Dropped(_)) | None => {}
        }
        if !self.ports[port].is_taken() {
            self.ports[port].network = 0;
        }
    }

    fn leave_channel(&mut self, port: usize, channel: usize) {
        for tile_link in &mut self.tile_links {
            if *tile_link == Some(port) {
                *tile_link = None;
            }
        }
        if channel != SINK {
            self.channel_ends[channel].claim = None;
        }
    }
}

impl Network {
    /// A network as a start leaves it, in which tokens cross at once.
    pub fn at(start: Start, nodes: usize, memory_words: usize) -> Network {
        Network::crossed(start, nodes, memory_words, Crossing::AtOnce)
    }

    /// A network as a start leaves it.
    pub fn crossed(start: Start, nodes: usize, memory_words: usize, crossing: Crossing) -> Network {
        Network {
            nodes: (0..nodes).map(|_| Node::at(start)).collect(),
            memory_words,
            crossing,
        }
    }

    /// A network as Fresh leaves it.
    pub fn fresh(nodes: usize, memory_words: usize) -> Network {
        Network::at(Start::Fresh, nodes, memory_words)
    }

    /// A network as the old start leaves it.
    pub fn blank(nodes: usize, memory_words: usize) -> Network {
        Network::at(Start::Blank, nodes, memory_words)
    }

    /// The node of a slot, or NoSuch.
    pub fn node(&self, slot: usize) -> Result<&Node, No> {
        self.nodes.get(slot).ok_or(No::NoSuch)
    }

    /// A link, or NoSuch.
    pub fn link(&self, end: LinkEnd) -> Result<&Link, No> {
        self.node(end.slot)?.links.get(end.link).ok_or(No::NoSuch)
    }

    /// A port, or NoSuch.
    pub fn port(&self, slot: usize, port: usize) -> Result<&Port, No> {
        self.node(slot)?.ports.get(port).ok_or(No::NoSuch)
    }

    /// A channel-end, or NoSuch.
    pub fn channel_end(&self, slot: usize, channel_end: usize) -> Result<&ChannelEnd, No> {
        let node = self.node(slot)?;
        node.channel_ends.get(channel_end).ok_or(No::NoSuch)
    }

    /// A link that is known to be there.
    pub(crate) fn link_mut(&mut self, end: LinkEnd) -> &mut Link {
        &mut self.nodes[end.slot].links[end.link]
    }

    /// The tokens held in the port behind a link end.
    pub(crate) fn held_at(&self, end: LinkEnd) -> usize {
        self.port(end.slot, end.link)
            .map_or(0, |port| port.tokens.len())
    }
}
