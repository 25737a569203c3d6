//! A state of the model, written as the words that the proved bench takes for it.
//!
//! The places are those of `crates/cells/specs/Layout.antt`, the words those of `Records.antt`
//! there, written down here a second time so that a wrong place in either is found.

use std::collections::VecDeque;

use model::answers::Cause;
use model::network::{ChannelEnd, Claim, ControlUnit, Hop, Link, Network, Node, Sending};
use model::random::Random;
use model::sizes::{
    CHANNEL_ENDS, CHANNEL_END_CAPACITY, HEARD, LINE_CAPACITY, LINKS, PORTS, PORT_CAPACITY,
    TILE_LINKS,
};
use model::tokens::{Destination, Kind, Token};

use crate::calls::Lent;

/// The words of a circuit.
const CIRCUIT: usize = 2;
/// The words of each record: its own, then its circuits'.
const OWN: usize = 4;
const LINK: usize = 8 + CIRCUIT;
pub const PORT: usize = 4 + 2 * CIRCUIT;
const TILE_LINK: usize = CIRCUIT;
const CHANNEL_END: usize = 5 + CHANNEL_END_CAPACITY + 2 * CIRCUIT;
const CONTROL_UNIT: usize = 1 + HEARD + CIRCUIT;
pub const LINE: usize = 3;
/// Where the first record of each kind lies among a node's words.
const FIRST_LINK: usize = OWN;
pub const FIRST_PORT: usize = FIRST_LINK + LINKS * LINK;
const FIRST_TILE_LINK: usize = FIRST_PORT + PORTS * PORT;
const FIRST_CHANNEL_END: usize = FIRST_TILE_LINK + TILE_LINKS * TILE_LINK;
const FIRST_CONTROL_UNIT: usize = FIRST_CHANNEL_END + CHANNEL_ENDS * CHANNEL_END;
/// Where what a control unit has heard lies among a node's words.
pub const FIRST_HEARD: usize = FIRST_CONTROL_UNIT + 1;
/// Where the records of lines lie, those of the lines that start at links A..H.
pub const FIRST_LINE: usize = FIRST_CONTROL_UNIT + CONTROL_UNIT;
/// The words of a node.
pub const NODE_WORDS: usize = FIRST_LINE + LINKS * LINE;
/// The records of each kind: where they begin among a node's words, and how many words they have.
pub const KINDS: [(usize, usize); 7] = [
    (0, OWN),
    (FIRST_LINK, LINKS * LINK),
    (FIRST_PORT, PORTS * PORT),
    (FIRST_TILE_LINK, TILE_LINKS * TILE_LINK),
    (FIRST_CHANNEL_END, CHANNEL_ENDS * CHANNEL_END),
    (FIRST_CONTROL_UNIT, CONTROL_UNIT),
    (FIRST_LINE, LINKS * LINE),
];
/// The words of token memory of a node.
pub const NODE_TOKENS: usize = PORTS * PORT_CAPACITY;
/// The words of the lines' memory of a node.
pub const NODE_LINES: usize = LINKS * LINE_CAPACITY;

/// Words of a record, in their order.
type Words = Vec<u32>;

/// The three memories. Where in its ring a port's oldest token lies, or what is first on a line, is
/// left to the implementation, and so is chosen at random here.
pub fn write(network: &Network, random: &mut Random) -> Lent {
    let mut lent = Lent::default();
    for node in &network.nodes {
        let ports: [usize; PORTS] = std::array::from_fn(|_| random.below(PORT_CAPACITY));
        let lines: [usize; LINKS] = std::array::from_fn(|_| random.below(LINE_CAPACITY));
        lent.state.extend(node_words(node, &ports, &lines));
        for (port, head) in node.ports.iter().zip(ports) {
            lent.memory.extend(ring(&port.tokens, head, PORT_CAPACITY));
        }
        for (link, head) in node.links.iter().zip(lines) {
            lent.lines.extend(ring(&link.line, head, LINE_CAPACITY));
        }
    }
    lent
}

/// The words of a ring in which the first token lies at that place.
fn ring(tokens: &VecDeque<Token>, head: usize, capacity: usize) -> Vec<u16> {
    let mut ring = vec![0; capacity];
    for (place, token) in tokens.iter().enumerate() {
        ring[(head + place) % capacity] = word(token) as u16;
    }
    ring
}

/// own | links | ports | tile links | channel-ends | control unit | lines
fn node_words(node: &Node, ports: &[usize; PORTS], lines: &[usize; LINKS]) -> Words {
    let mut words = own_words(node);
    words.extend(node.links.iter().flat_map(link_words));
    words.extend((0..PORTS).flat_map(|port| port_words(node, port, ports[port])));
    words.extend(node.tile_links.iter().flat_map(|user| named(1, *user)));
    words.extend(node.channel_ends.iter().flat_map(channel_end_words));
    words.extend(control_unit_words(&node.control_unit));
    let each = node.links.iter().zip(lines);
    words.extend(each.flat_map(|(link, head)| line_words(link, *head)));
    assert_eq!(words.len(), NODE_WORDS);
    words
}

fn line_words(link: &Link, head: usize) -> [u32; LINE] {
    [head, link.line.len(), link.issued].map(|word| word as u32)
}

fn own_words(node: &Node) -> Words {
    let entries = node.directions.chunks(8);
    let registers =
        entries.map(|eight| eight.iter().rev().fold(0, |word, entry| word << 4 | entry));
    [node.number, node.width]
        .into_iter()
        .chain(registers)
        .collect()
}

/// A circuit's two words: kind and index, 0 0 for none.
fn named(kind: u32, index: Option<usize>) -> [u32; 2] {
    index.map_or([0, 0], |index| [kind, index as u32])
}

fn link_words(link: &Link) -> Words {
    let far = link
        .far
        .map_or([0; 3], |far| [1, far.slot as u32, far.link as u32]);
    let mut words = far.to_vec();
    words.extend([
        u32::from(link.enabled),
        link.direction,
        link.network,
        u32::from(link.greeted),
        link.credit as u32,
    ]);
    words.extend(named(1, link.used_by));
    words
}

fn port_words(node: &Node, port: usize, head: usize) -> Words {
    let state = &node.ports[port];
    let tile = node.tile_links.iter().position(|user| *user == Some(port));
    let by_it = Some(Sending::ByPort(port));
    let sender = node
        .channel_ends
        .iter()
        .position(|end| end.sending == by_it);
    let mut words = vec![head as u32, state.tokens.len() as u32];
    words.extend([tile.unwrap_or(0) as u32, state.network]);
    words.extend(match state.hop {
        None => [0, 0],
        Some(Hop::Outward(link)) => [1, link as u32],
        Some(Hop::Channel(channel)) => [2, channel as u32],
        Some(Hop::Control) => [3, 0],
        Some(Hop::Dropped(Cause::Split)) => [4, 0],
        Some(Hop::Dropped(Cause::NoRoute)) => [5, 0],
    });
    words.extend(named(2, sender));
    words
}

fn channel_end_words(end: &ChannelEnd) -> Words {
    let mut words = match end.aim {
        None => vec![0; 4],
        Some(aim) => {
            let (kind, channel) = match aim.destination {
                Destination::Channel { channel, .. } => (1, channel as u32),
                Destination::Control { .. } => (2, 0),
            };
            vec![kind, aim.destination.number(), channel, aim.network]
        }
    };
    words.push(end.tokens.len() as u32);
    words.extend(filled(CHANNEL_END_CAPACITY, end.tokens.iter().map(word)));
    words.extend(match end.sending {
        None => [0, 0],
        Some(Sending::ByPort(port)) => [1, port as u32],
        Some(Sending::Straight(channel)) => [2, channel as u32],
    });
    words.extend(match end.claim {
        None => [0, 0],
        Some(Claim::ByPort(port)) => [1, port as u32],
        Some(Claim::ByChannelEnd(sender)) => [2, sender as u32],
    });
    words
}

fn control_unit_words(unit: &ControlUnit) -> Words {
    let mut words = vec![unit.heard.len() as u32];
    words.extend(filled(HEARD, unit.heard.iter().map(word)));
    words.extend(named(1, unit.serves));
    words
}

/// The words, and zeros behind them up to that many.
fn filled(length: usize, words: impl Iterator<Item = u32>) -> Words {
    words.chain(std::iter::repeat(0)).take(length).collect()
}

/// The value in bits 0..7, bit 8 control, bit 9 part of a header, bit 10, with bit 9, of a
/// three-byte header.
pub fn word(token: &Token) -> u32 {
    let control = u32::from(token.kind == Kind::Control);
    let header = match token.header {
        None => 0,
        Some(3) => 6,
        Some(_) => 2,
    };
    u32::from(token.value) + 256 * (control + header)
}
