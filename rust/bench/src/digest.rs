//! The digest of a state, through the looks: 64-bit FNV-1a over the bytes that the script and trace
//! format lists.

use crate::looks::Looks;
use crate::records::{ChannelEnd, Circuit, Destination, Link, Port};
use crate::sizes::{BITS, CHANNEL_ENDS, LINKS, PORTS, TILE_LINKS, TILE_PORTS};

const OFFSET_BASIS: u64 = 0xcbf2_9ce4_8422_2325;
const PRIME: u64 = 0x0000_0100_0000_01b3;

/// Stands for "no port".
const NONE: u8 = 255;

/// Takes the bytes as they come. Every item is one byte, but for node numbers.
struct Digest(u64);

impl Digest {
    fn byte(&mut self, byte: u8) {
        self.0 = (self.0 ^ u64::from(byte)).wrapping_mul(PRIME);
    }

    /// A count, an index or a setting; what does not fit, in no sound state, shows as 255.
    fn item(&mut self, item: u32) {
        self.byte(u8::try_from(item).unwrap_or(255));
    }

    fn items<const N: usize>(&mut self, items: [u32; N]) {
        for item in items {
            self.item(item);
        }
    }

    /// "node numbers, which are two, high byte first"
    fn number(&mut self, number: u32) {
        let [.., high, low] = number.to_be_bytes();
        self.byte(high);
        self.byte(low);
    }

    /// "the port whose circuit leaves by it, or 255"
    fn port_or_none(&mut self, user: Circuit) {
        match user.kind {
            1 => self.item(user.index),
            _ => self.byte(NONE),
        }
    }

    /// Kind and index, 0 0 for nothing.
    fn circuit(&mut self, circuit: Circuit) {
        match circuit.kind {
            1 | 2 => self.items([circuit.kind, circuit.index]),
            _ => self.items([circuit.kind, 0]),
        }
    }

    /// "for each, oldest first": kind and value, which are the two bytes of its word.
    fn tokens(&mut self, words: impl Iterator<Item = u32>) {
        for word in words {
            let [value, kind, ..] = word.to_le_bytes();
            self.byte(kind);
            self.byte(value);
        }
    }

    fn node(&mut self, looks: Looks, slot: usize) {
        let node = looks.node(slot);
        self.number(node.number);
        self.item(node.width);
        for bit in 0..BITS {
            self.item(looks.direction(slot, bit));
        }
        for link in 0..LINKS {
            self.link(looks.link(slot, link));
        }
        for tile_link in 0..TILE_LINKS {
            self.port_or_none(looks.tile_link(slot, tile_link).user);
        }
        for port in 0..PORTS {
            self.port(port, looks.port(slot, port));
            self.tokens(looks.port_tokens(slot, port));
        }
        for end in 0..CHANNEL_ENDS {
            self.channel_end(looks.channel_end(slot, end));
            self.tokens(looks.end_tokens(slot, end));
        }
        self.port_or_none(looks.control_unit(slot).serves);
    }

    /// Behind all nodes, of each: what its links have issued, and what is on the lines from them.
    fn lines(&mut self, looks: Looks, slot: usize) {
        for link in 0..LINKS {
            let line = looks.line(slot, link);
            self.items([line.issued, line.held]);
            self.tokens(looks.line_tokens(slot, link));
        }
    }

    fn link(&mut self, link: Link) {
        match link.far() {
            Some((slot, far)) => self.items([1, slot, far]),
            None => self.items([0, 0, 0]),
        }
        self.items([
            link.enabled,
            link.direction,
            link.network,
            link.greeted,
            link.credit,
        ]);
        self.port_or_none(link.user);
    }

    /// A port up to its tokens. "network: of the circuit that has taken port 8..11; 0 if that port
    /// is free, and 0 for all other ports"
    fn port(&mut self, index: usize, port: Port) {
        self.circuit(port.circuit);
        let of_circuit = TILE_PORTS.contains(&index) && port.is_taken();
        self.items([if of_circuit { port.network } else { 0 }, port.held]);
    }

    /// A channel-end up to its tokens.
    fn channel_end(&mut self, end: ChannelEnd) {
        let (kind, number, channel, network) = match end.destination() {
            Some(Destination::Channel { number, channel }) => (1, number, channel, end.network),
            Some(Destination::Control { number }) => (2, number, 0, end.network),
            None => (0, 0, 0, 0),
        };
        self.item(kind);
        self.number(number);
        self.items([channel, network]);
        self.circuit(end.sending);
        self.circuit(end.claim);
        self.item(end.held);
    }
}

/// The digest of what the looks show.
pub(crate) fn digest(looks: Looks) -> u64 {
    let mut digest = Digest(OFFSET_BASIS);
    digest.byte(u8::try_from(looks.nodes()).unwrap_or(255));
    for slot in 0..looks.nodes() {
        digest.node(looks, slot);
    }
    for slot in 0..looks.nodes() {
        digest.lines(looks, slot);
    }
    digest.0
}
