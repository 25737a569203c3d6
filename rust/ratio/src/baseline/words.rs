//! A network read from the lent words of the proved library, and written as them.

use model::sizes::{LINE_CAPACITY, MOST_NODES, PORT_CAPACITY};

use compare::calls::Lent;
use compare::layout::{NODE_LINES, NODE_TOKENS, NODE_WORDS};

use super::records::{ChannelEnd, Circuit, Line, Link, Network, Node, Port, Unit};

impl Network {
    /// The network of these words; none where their lengths are not those of 1 to 16 nodes.
    pub fn read(lent: &Lent) -> Option<Box<Network>> {
        let count = lent.state.len() / NODE_WORDS;
        let lengths = [lent.state.len(), lent.memory.len(), lent.lines.len()];
        let fits = lengths == [NODE_WORDS, NODE_TOKENS, NODE_LINES].map(|words| words * count);
        if !fits || !(1..=MOST_NODES).contains(&count) {
            return None;
        }
        let mut network = Box::<Network>::default();
        network.count = count;
        let nodes = network.nodes.iter_mut();
        for (node, words) in nodes.zip(lent.state.chunks(NODE_WORDS)) {
            *node = read_node(&mut words.iter().copied());
        }
        let ports = network.nodes.iter_mut().flat_map(|node| &mut node.ports);
        for (port, ring) in ports.zip(lent.memory.chunks(PORT_CAPACITY)) {
            port.tokens.copy_from_slice(ring);
        }
        let lines = network.nodes.iter_mut().flat_map(|node| &mut node.lines);
        for (line, ring) in lines.zip(lent.lines.chunks(LINE_CAPACITY)) {
            line.words.copy_from_slice(ring);
        }
        Some(network)
    }

    /// The three memories.
    pub fn write(&self) -> Lent {
        let nodes = &self.nodes[..self.count];
        let ports = nodes.iter().flat_map(|node| &node.ports);
        let lines = nodes.iter().flat_map(|node| &node.lines);
        Lent {
            state: nodes.iter().flat_map(node_words).collect(),
            memory: ports.flat_map(|port| port.tokens).collect(),
            lines: lines.flat_map(|line| line.words).collect(),
        }
    }
}

/// The words of a state that are still to be read.
trait Words: Iterator<Item = u32> {
    fn word(&mut self) -> u32 {
        self.next().unwrap_or(0)
    }

    fn circuit(&mut self) -> Circuit {
        Circuit {
            kind: self.word(),
            index: self.word(),
        }
    }

    fn words<const N: usize>(&mut self) -> [u32; N] {
        std::array::from_fn(|_| self.word())
    }
}

impl<W: Iterator<Item = u32>> Words for W {}

fn read_node(words: &mut impl Words) -> Node {
    Node {
        number: words.word(),
        width: words.word(),
        directions: words.words(),
        links: std::array::from_fn(|_| read_link(words)),
        ports: std::array::from_fn(|_| read_port(words)),
        tile_users: std::array::from_fn(|_| words.circuit()),
        ends: std::array::from_fn(|_| read_end(words)),
        unit: Unit {
            heard: words.word(),
            tokens: words.words(),
            serves: words.circuit(),
        },
        lines: std::array::from_fn(|_| read_line(words)),
    }
}

fn read_line(words: &mut impl Words) -> Line {
    Line {
        head: words.word(),
        held: words.word(),
        issued: words.word(),
        ..Line::default()
    }
}

fn read_link(words: &mut impl Words) -> Link {
    Link {
        wired: words.word(),
        far_slot: words.word(),
        far_link: words.word(),
        enabled: words.word(),
        direction: words.word(),
        network: words.word(),
        greeted: words.word(),
        credit: words.word(),
        user: words.circuit(),
    }
}

fn read_port(words: &mut impl Words) -> Port {
    Port {
        head: words.word(),
        held: words.word(),
        tile: words.word(),
        network: words.word(),
        circuit: words.circuit(),
        sender: words.circuit(),
        ..Port::default()
    }
}

fn read_end(words: &mut impl Words) -> ChannelEnd {
    ChannelEnd {
        aim: words.word(),
        number: words.word(),
        channel: words.word(),
        network: words.word(),
        held: words.word(),
        tokens: words.words(),
        sending: words.circuit(),
        claim: words.circuit(),
    }
}

fn node_words(node: &Node) -> Vec<u32> {
    let mut words = vec![node.number, node.width];
    words.extend(node.directions);
    words.extend(node.links.iter().flat_map(link_words));
    words.extend(node.ports.iter().flat_map(port_words));
    words.extend(node.tile_users.iter().flat_map(circuit_words));
    words.extend(node.ends.iter().flat_map(end_words));
    words.push(node.unit.heard);
    words.extend(node.unit.tokens);
    words.extend(circuit_words(&node.unit.serves));
    let lines = node.lines.iter();
    words.extend(lines.flat_map(|line| [line.head, line.held, line.issued]));
    words
}

fn circuit_words(circuit: &Circuit) -> [u32; 2] {
    [circuit.kind, circuit.index]
}

fn link_words(link: &Link) -> [u32; 10] {
    [
        link.wired,
        link.far_slot,
        link.far_link,
        link.enabled,
        link.direction,
        link.network,
        link.greeted,
        link.credit,
        link.user.kind,
        link.user.index,
    ]
}

fn port_words(port: &Port) -> [u32; 8] {
    [
        port.head,
        port.held,
        port.tile,
        port.network,
        port.circuit.kind,
        port.circuit.index,
        port.sender.kind,
        port.sender.index,
    ]
}

fn end_words(end: &ChannelEnd) -> Vec<u32> {
    let mut words = vec![end.aim, end.number, end.channel, end.network];
    words.push(end.held);
    words.extend(end.tokens);
    words.extend(circuit_words(&end.sending));
    words.extend(circuit_words(&end.claim));
    words
}
