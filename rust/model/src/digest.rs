//! The digest of a state: 64-bit FNV-1a over its bytes, as the trace format lists
//! them.

use crate::answers::Cause;
use crate::lines::Crossing;
use crate::network::{Aim, ChannelEnd, Claim, Hop, Link, Network, Node, Port, Sending};
use crate::sizes::TILE_PORTS;
use crate::tokens::{low_byte, Destination, Kind, Token, THREE_BYTES};

const OFFSET_BASIS: u64 = 0xcbf2_9ce4_8422_2325;
const PRIME: u64 = 0x0000_0100_0000_01b3;

/// Stands for "no port".
const NONE: u8 = 255;

/// The digest; "0 while there is no network".
pub fn digest(network: Option<&Network>) -> u64 {
    network.map_or(0, |network| fnv1a(&bytes(network)))
}

/// 64-bit FNV-1a.
pub fn fnv1a(bytes: &[u8]) -> u64 {
    bytes.iter().fold(OFFSET_BASIS, |hash, byte| {
        (hash ^ u64::from(*byte)).wrapping_mul(PRIME)
    })
}

/// "Every item is one byte, but for node numbers, which are two, high byte first."
/// "The bytes of trace-format.md first, for all nodes; then [...] what landed Asks
/// append."
pub fn bytes(network: &Network) -> Vec<u8> {
    let mut out = base_bytes(network);
    if network.crossing != Crossing::AtOnce {
        let links = network.nodes.iter().flat_map(|node| &node.links);
        links.for_each(|link| line_bytes(link, &mut out));
    }
    out
}

/// The bytes that every network has, however its tokens cross.
pub fn base_bytes(network: &Network) -> Vec<u8> {
    let mut out = vec![byte(network.nodes.len())];
    for node in &network.nodes {
        node_bytes(node, &mut out);
    }
    out
}

/// "issued: what this end has issued and not yet received; how much is on the line
/// that starts here, and for each, that nearest the far end first: kind, value".
fn line_bytes(link: &Link, out: &mut Vec<u8>) {
    out.extend([byte(link.issued), byte(link.line.len())]);
    for token in &link.line {
        out.extend([kind_byte(token), token.value]);
    }
}

fn node_bytes(node: &Node, out: &mut Vec<u8>) {
    out.extend(number_bytes(node.number));
    out.push(low_byte(node.width));
    out.extend(node.directions.map(low_byte));
    for link in &node.links {
        link_bytes(link, out);
    }
    out.extend(node.tile_links.map(port_or_none));
    for (index, port) in node.ports.iter().enumerate() {
        port_bytes(index, port, out);
    }
    for end in &node.channel_ends {
        channel_end_bytes(end, out);
    }
    out.push(port_or_none(node.control_unit.serves));
}

fn link_bytes(link: &Link, out: &mut Vec<u8>) {
    out.extend(match link.far {
        Some(far) => [1, byte(far.slot), byte(far.link)],
        None => [0, 0, 0],
    });
    out.extend([
        u8::from(link.enabled),
        low_byte(link.direction),
        low_byte(link.network),
        u8::from(link.greeted),
        byte(link.credit),
        port_or_none(link.used_by),
    ]);
}

fn port_bytes(index: usize, port: &Port, out: &mut Vec<u8>) {
    out.extend(match port.hop {
        None => [0, 0],
        Some(Hop::Outward(link)) => [1, byte(link)],
        Some(Hop::Channel(channel)) => [2, byte(channel)],
        Some(Hop::Control) => [3, 0],
        Some(Hop::Dropped(Cause::Split)) => [4, 0],
        Some(Hop::Dropped(Cause::NoRoute)) => [5, 0],
    });
    let of_circuit = TILE_PORTS.contains(&index) && port.is_taken();
    out.push(if of_circuit {
        low_byte(port.network)
    } else {
        0
    });
    out.push(byte(port.tokens.len()));
    for token in &port.tokens {
        out.extend([kind_byte(token), token.value]);
    }
}

/// "kind: bit 0 control, bit 1 part of a header, bit 2 (with bit 1) of a three-byte
/// header"
fn kind_byte(token: &Token) -> u8 {
    let control = u8::from(token.kind == Kind::Control);
    match token.header {
        None => control,
        Some(THREE_BYTES) => control + 2 + 4,
        Some(_) => control + 2,
    }
}

fn channel_end_bytes(end: &ChannelEnd, out: &mut Vec<u8>) {
    aim_bytes(end.aim, out);
    out.extend(match end.sending {
        None => [0, 0],
        Some(Sending::ByPort(port)) => [1, byte(port)],
        Some(Sending::Straight(channel)) => [2, byte(channel)],
    });
    out.extend(match end.claim {
        None => [0, 0],
        Some(Claim::ByPort(port)) => [1, byte(port)],
        Some(Claim::ByChannelEnd(sender)) => [2, byte(sender)],
    });
    out.push(byte(end.tokens.len()));
    for token in &end.tokens {
        out.extend([kind_byte(token), token.value]);
    }
}

fn aim_bytes(aim: Option<Aim>, out: &mut Vec<u8>) {
    let Some(Aim {
        destination,
        network,
    }) = aim
    else {
        out.extend([0; 5]);
        return;
    };
    let (kind, channel) = match destination {
        Destination::Channel { channel, .. } => (1, byte(channel)),
        Destination::Control { .. } => (2, 0),
    };
    out.push(kind);
    out.extend(number_bytes(destination.number()));
    out.extend([channel, low_byte(network)]);
}

fn number_bytes(number: u32) -> [u8; 2] {
    [low_byte(number >> 8), low_byte(number)]
}

fn port_or_none(port: Option<usize>) -> u8 {
    port.map_or(NONE, byte)
}

/// A count or index as a byte; what does not fit (in no sound state) shows as 255.
fn byte(number: usize) -> u8 {
    u8::try_from(number).unwrap_or(255)
}
