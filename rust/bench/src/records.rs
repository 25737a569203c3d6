//! The records of a state, as their words stand, and what the words mean.
//!
//! A look answers for any memory, so a word may be anything; the methods say what it means if it
//! means something. Where there is no such place, all words are 0.

use crate::refusal::Cause;
use crate::sizes::{END_BUFFER, UNIT_BUFFER};

/// With whom a record has a circuit: two words.
#[derive(Clone, Copy, Debug, Default, PartialEq, Eq)]
pub struct Circuit {
    pub kind: u32,
    pub index: u32,
}

/// Who stands at the other side of a circuit within the node.
#[derive(Clone, Copy, Debug, PartialEq, Eq)]
pub enum Peer {
    Port(u32),
    /// A channel-end, of a circuit within the node.
    ChannelEnd(u32),
}

/// Where a port's circuit goes.
#[derive(Clone, Copy, Debug, PartialEq, Eq)]
#[non_exhaustive]
pub enum Hop {
    /// Outward, by this link.
    Link(u32),
    /// To this channel of the node, 255 for the sink.
    Channel(u32),
    /// To the node's control unit.
    Control,
    /// Refused: its tokens are dropped.
    Dropped(Cause),
}

/// What a channel-end is aimed at.
#[derive(Clone, Copy, Debug, PartialEq, Eq)]
pub enum Destination {
    Channel { number: u32, channel: u32 },
    Control { number: u32 },
}

impl Circuit {
    /// The peer that the words name, if they name one.
    pub fn peer(self) -> Option<Peer> {
        match self.kind {
            1 => Some(Peer::Port(self.index)),
            2 => Some(Peer::ChannelEnd(self.index)),
            _ => None,
        }
    }
}

/// A node's own settings. The 16 direction entries are looked at one by one.
#[derive(Clone, Copy, Debug, Default, PartialEq, Eq)]
pub struct Node {
    /// The number written into the switch.
    pub number: u32,
    /// How many bytes a header has: 1 or 3.
    pub width: u32,
    /// The two direction registers.
    pub directions: [u32; 2],
}

/// One end of a cable.
#[derive(Clone, Copy, Debug, Default, PartialEq, Eq)]
pub struct Link {
    pub wired: u32,
    pub far_slot: u32,
    pub far_link: u32,
    pub enabled: u32,
    pub direction: u32,
    pub network: u32,
    pub greeted: u32,
    pub credit: u32,
    /// The port whose circuit leaves by it.
    pub user: Circuit,
}

impl Link {
    /// Slot and link of the cable's other end.
    pub fn far(&self) -> Option<(u32, u32)> {
        (self.wired == 1).then_some((self.far_slot, self.far_link))
    }
}

/// A port; its tokens are looked at one by one.
#[derive(Clone, Copy, Debug, Default, PartialEq, Eq)]
pub struct Port {
    /// Where in the port's ring the oldest token lies.
    pub head: u32,
    /// How many tokens it holds.
    pub held: u32,
    pub circuit: Circuit,
    /// The tile link that a circuit to a channel takes.
    pub tile: u32,
    /// The network of the circuit that has taken a port 8..11.
    pub network: u32,
    /// The channel-end that sends by a port 8..11.
    pub sender: Circuit,
}

impl Port {
    /// Where the port's circuit goes, if it has one.
    pub fn hop(&self) -> Option<Hop> {
        match self.circuit.kind {
            1 => Some(Hop::Link(self.circuit.index)),
            2 => Some(Hop::Channel(self.circuit.index)),
            3 => Some(Hop::Control),
            4 => Some(Hop::Dropped(Cause::Split)),
            5 => Some(Hop::Dropped(Cause::NoRoute)),
            _ => None,
        }
    }

    /// "The port is taken until its END or PAUSE has left it": it has a circuit or holds a token.
    pub fn is_taken(&self) -> bool {
        self.circuit.kind != 0 || self.held != 0
    }
}

/// A link from the switch to the tile.
#[derive(Clone, Copy, Debug, Default, PartialEq, Eq)]
pub struct TileLink {
    /// The port that uses it.
    pub user: Circuit,
}

/// A channel-end.
#[derive(Clone, Copy, Debug, Default, PartialEq, Eq)]
pub struct ChannelEnd {
    /// 0 unaimed, 1 at a channel of a number, 2 at its control unit.
    pub aim: u32,
    pub number: u32,
    pub channel: u32,
    pub network: u32,
    /// Its open circuit: the port that it goes by, or the channel that it goes straight to.
    pub sending: Circuit,
    /// Who sends to it.
    pub claim: Circuit,
    /// How many tokens it holds for Input.
    pub held: u32,
    /// Their words, oldest first.
    pub tokens: [u32; END_BUFFER],
}

impl ChannelEnd {
    /// What it is aimed at, if it is.
    pub fn destination(&self) -> Option<Destination> {
        let (number, channel) = (self.number, self.channel);
        match self.aim {
            1 => Some(Destination::Channel { number, channel }),
            2 => Some(Destination::Control { number }),
            _ => None,
        }
    }
}

/// A node's control unit.
#[derive(Clone, Copy, Debug, Default, PartialEq, Eq)]
pub struct ControlUnit {
    /// The port whose circuit it serves.
    pub serves: Circuit,
    /// How many tokens of a message it has heard, while it serves.
    pub heard: u32,
    /// Their words, oldest first.
    pub tokens: [u32; UNIT_BUFFER],
}

/// One direction of a cable, at the link that it starts at, and what that link has issued.
#[derive(Clone, Copy, Debug, Default, PartialEq, Eq)]
pub struct Line {
    /// Where in the line's ring the first to arrive lies.
    pub head: u32,
    /// How much is on it.
    pub held: u32,
    /// What the link has issued to the far end and not yet received.
    pub issued: u32,
}

/// Takes the next words of a record.
pub(crate) struct Words<'a>(std::slice::Iter<'a, u32>);

impl Words<'_> {
    fn one(&mut self) -> u32 {
        self.0.next().copied().unwrap_or(0)
    }

    fn circuit(&mut self) -> Circuit {
        let (kind, index) = (self.one(), self.one());
        Circuit { kind, index }
    }

    fn many<const N: usize>(&mut self) -> [u32; N] {
        std::array::from_fn(|_| self.one())
    }
}

/// A record that a look shows as so many words: first its own, then those of its circuits.
pub(crate) trait Record<const N: usize>: Sized {
    fn from_words(words: [u32; N]) -> Self {
        Self::take(&mut Words(words.iter()))
    }

    fn take(words: &mut Words) -> Self;
}

impl Record<4> for Node {
    fn take(words: &mut Words) -> Node {
        Node {
            number: words.one(),
            width: words.one(),
            directions: words.many(),
        }
    }
}

impl Record<10> for Link {
    fn take(words: &mut Words) -> Link {
        Link {
            wired: words.one(),
            far_slot: words.one(),
            far_link: words.one(),
            enabled: words.one(),
            direction: words.one(),
            network: words.one(),
            greeted: words.one(),
            credit: words.one(),
            user: words.circuit(),
        }
    }
}

impl Record<8> for Port {
    fn take(words: &mut Words) -> Port {
        Port {
            head: words.one(),
            held: words.one(),
            tile: words.one(),
            network: words.one(),
            circuit: words.circuit(),
            sender: words.circuit(),
        }
    }
}

impl Record<2> for TileLink {
    fn take(words: &mut Words) -> TileLink {
        TileLink {
            user: words.circuit(),
        }
    }
}

impl Record<17> for ChannelEnd {
    fn take(words: &mut Words) -> ChannelEnd {
        ChannelEnd {
            aim: words.one(),
            number: words.one(),
            channel: words.one(),
            network: words.one(),
            held: words.one(),
            tokens: words.many(),
            sending: words.circuit(),
            claim: words.circuit(),
        }
    }
}

impl Record<14> for ControlUnit {
    fn take(words: &mut Words) -> ControlUnit {
        ControlUnit {
            heard: words.one(),
            tokens: words.many(),
            serves: words.circuit(),
        }
    }
}

impl Record<3> for Line {
    fn take(words: &mut Words) -> Line {
        Line {
            head: words.one(),
            held: words.one(),
            issued: words.one(),
        }
    }
}
