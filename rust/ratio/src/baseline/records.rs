//! The records of a network.

use model::answers::Cause;
use model::sizes::{
    CHANNELS, CHANNEL_ENDS, CHANNEL_END_CAPACITY, HEARD, LINE_CAPACITY, LINKS, MOST_NODES, PORTS,
    PORT_CAPACITY, TILE_LINKS,
};
use model::tokens::SINK;

/// The words of the control tokens END and PAUSE.
pub const END: u16 = 0x0101;
pub const PAUSE: u16 = 0x0102;

/// What a port's circuit can be, by its kind.
pub const OUTWARD: u32 = 1;
pub const TO_CHANNEL: u32 = 2;
pub const TO_UNIT: u32 = 3;
pub const SPLIT: u32 = 4;
pub const NO_ROUTE: u32 = 5;

/// With whom a record has a circuit: nobody while the kind is 0.
#[derive(Clone, Copy, Debug, Default, PartialEq, Eq)]
pub struct Circuit {
    pub kind: u32,
    pub index: u32,
}

/// Who stands at the other side of a circuit, for all records but ports.
#[derive(Clone, Copy, Debug, PartialEq, Eq)]
pub enum Peer {
    Nobody,
    Port(usize),
    End(usize),
}

/// Where a port's circuit goes.
#[derive(Clone, Copy, Debug, PartialEq, Eq)]
pub enum Hop {
    Shut,
    Outward(usize),
    Channel(usize),
    Unit,
    Dropped(Cause),
}

#[derive(Clone, Copy, Debug, Default, PartialEq, Eq)]
pub struct Link {
    pub wired: u32,
    pub far_slot: u32,
    pub far_link: u32,
    pub enabled: u32,
    pub direction: u32,
    pub network: u32,
    pub greeted: u32,
    pub credit: u32,
    pub user: Circuit,
}

/// A port with its ring of tokens.
#[derive(Clone, Copy, Debug, PartialEq, Eq)]
pub struct Port {
    pub head: u32,
    pub held: u32,
    pub circuit: Circuit,
    pub tile: u32,
    pub network: u32,
    pub sender: Circuit,
    pub tokens: [u16; PORT_CAPACITY],
}

#[derive(Clone, Copy, Debug, Default, PartialEq, Eq)]
pub struct ChannelEnd {
    pub aim: u32,
    pub number: u32,
    pub channel: u32,
    pub network: u32,
    pub sending: Circuit,
    pub claim: Circuit,
    pub held: u32,
    pub tokens: [u32; CHANNEL_END_CAPACITY],
}

#[derive(Clone, Copy, Debug, Default, PartialEq, Eq)]
pub struct Unit {
    pub serves: Circuit,
    pub heard: u32,
    pub tokens: [u32; HEARD],
}

/// The line that starts at a link with its ring of words, and what that link has issued.
#[derive(Clone, Copy, Debug, PartialEq, Eq)]
pub struct Line {
    pub head: u32,
    pub held: u32,
    pub issued: u32,
    pub words: [u16; LINE_CAPACITY],
}

#[derive(Clone, Copy, Debug, Default, PartialEq, Eq)]
pub struct Node {
    pub number: u32,
    pub width: u32,
    pub directions: [u32; 2],
    pub links: [Link; LINKS],
    pub ports: [Port; PORTS],
    pub tile_users: [Circuit; TILE_LINKS],
    pub ends: [ChannelEnd; CHANNEL_ENDS],
    pub unit: Unit,
    pub lines: [Line; LINKS],
}

/// 1 to 16 nodes; those behind the count are no part of the network.
#[derive(Clone, Copy, Debug, Default, PartialEq, Eq)]
pub struct Network {
    pub count: usize,
    pub nodes: [Node; MOST_NODES],
}

impl Circuit {
    pub const NONE: Circuit = Circuit { kind: 0, index: 0 };

    pub fn port(port: usize) -> Circuit {
        let index = port as u32;
        Circuit { kind: 1, index }
    }

    pub fn end(end: usize) -> Circuit {
        let index = end as u32;
        Circuit { kind: 2, index }
    }

    pub fn peer(self) -> Peer {
        match self.kind {
            1 => Peer::Port(self.index as usize),
            2 => Peer::End(self.index as usize),
            _ => Peer::Nobody,
        }
    }
}

impl Link {
    /// Slot and link of the cable's other end.
    pub fn far(&self) -> Option<(usize, usize)> {
        (self.wired == 1).then_some((self.far_slot as usize, self.far_link as usize))
    }
}

impl Default for Port {
    fn default() -> Port {
        Port {
            head: 0,
            held: 0,
            circuit: Circuit::NONE,
            tile: 0,
            network: 0,
            sender: Circuit::NONE,
            tokens: [0; PORT_CAPACITY],
        }
    }
}

impl Port {
    pub fn hop(&self) -> Hop {
        match self.circuit.kind {
            OUTWARD => Hop::Outward(self.circuit.index as usize),
            TO_CHANNEL => Hop::Channel(self.circuit.index as usize),
            TO_UNIT => Hop::Unit,
            SPLIT => Hop::Dropped(Cause::Split),
            NO_ROUTE => Hop::Dropped(Cause::NoRoute),
            _ => Hop::Shut,
        }
    }

    pub fn is_taken(&self) -> bool {
        self.circuit.kind != 0 || self.held != 0
    }

    /// The token at a place, the oldest at 0, of a port that holds so many.
    pub fn token(&self, place: u32) -> u16 {
        self.tokens[self.at(place)]
    }

    pub fn put(&mut self, token: u16) {
        self.tokens[self.at(self.held)] = token;
        self.held += 1;
    }

    /// Takes the oldest token of a port that holds one, and clears its word.
    pub fn take(&mut self) -> u16 {
        let token = std::mem::take(&mut self.tokens[self.at(0)]);
        self.head = (self.head + 1) % PORT_CAPACITY as u32;
        self.held -= 1;
        token
    }

    fn at(&self, place: u32) -> usize {
        (self.head + place) as usize % PORT_CAPACITY
    }
}

impl Default for Line {
    fn default() -> Line {
        Line {
            head: 0,
            held: 0,
            issued: 0,
            words: [0; LINE_CAPACITY],
        }
    }
}

impl Line {
    /// Puts a token, a credit or a HELLO behind what is on the line; there is room.
    pub fn put(&mut self, word: u16) {
        let place = self.head + self.held;
        self.words[place as usize % LINE_CAPACITY] = word;
        self.held += 1;
    }

    /// Takes what is first on a line that has something on it, and clears its word.
    pub fn take(&mut self) -> u16 {
        let word = std::mem::take(&mut self.words[self.head as usize]);
        self.head = (self.head + 1) % LINE_CAPACITY as u32;
        self.held -= 1;
        word
    }

    /// What is on a line whose counts hold, the first to arrive first.
    pub fn on_it(&self) -> impl Iterator<Item = &u16> + Clone {
        let (wrapped, first) = self.words.split_at(self.head as usize);
        let held = self.held as usize;
        let first = &first[..held.min(first.len())];
        first.iter().chain(&wrapped[..held - first.len()])
    }
}

impl ChannelEnd {
    /// Keeps a token for Input; there is room.
    pub fn keep(&mut self, token: u16) {
        self.tokens[self.held as usize] = u32::from(token);
        self.held += 1;
    }
}

/// "END and PAUSE close the hop."
pub fn closes(token: u16) -> bool {
    token == END || token == PAUSE
}

/// The channels that a destination can name: 0..31 and the sink.
pub fn is_channel(channel: usize) -> bool {
    channel < CHANNELS || channel == SINK
}
