//! Words, looked at, as a state of the model.
//!
//! Not all words are one. Codes may mean nothing; and the proved state has a few words that the
//! model's has not, because the model finds by searching what they say: where a ring begins, a
//! port's tile link, the channel-end that sends by it. Words are read as a state only where these say what the
//! rest says; otherwise they are [`Unreadable`], and must be unsound to the proved bench. What
//! nothing reads is left out: the network of a port that is not taken, what an idle control unit
//! heard.

use bench::sizes::TILE_PORTS;
use bench::{raw, Circuit, Looks, Peer};
use model::answers::Cause;
use model::lines::Crossing;
use model::network::{
    Aim, ChannelEnd, Claim, ControlUnit, Hop, Link, LinkEnd, Network, Node, Port, Sending,
};
use model::sizes::{CHANNEL_END_CAPACITY, HEARD, LINE_CAPACITY, PORT_CAPACITY};
use model::tokens::{Destination, Kind, Token};

use crate::calls::Lent;

/// Why words are no state of the model.
#[derive(Clone, Debug, PartialEq, Eq)]
pub struct Unreadable(pub String);

type Read<T> = Result<T, Unreadable>;

fn unreadable<T>(why: String) -> Read<T> {
    Err(Unreadable(why))
}

/// The state that the words are.
pub fn read(lent: &Lent) -> Read<Network> {
    if !lent.state.len().is_multiple_of(raw::state_words()) {
        return unreadable(format!("{} words of state", lent.state.len()));
    }
    let looks = lent.looks();
    let nodes: Read<Vec<Node>> = (0..looks.nodes()).map(|slot| node(looks, slot)).collect();
    Ok(Network {
        nodes: nodes?,
        memory_words: lent.memory.len(),
        crossing: Crossing::ByLine {
            line_words: lent.lines.len(),
        },
    })
}

fn node(looks: Looks, slot: usize) -> Read<Node> {
    let own = looks.node(slot);
    let node = Node {
        number: own.number,
        width: own.width,
        directions: std::array::from_fn(|bit| looks.direction(slot, bit as u32)),
        links: each(|link| self::link(looks, slot, link))?,
        tile_links: each(|tile| user(looks.tile_link(slot, tile).user))?,
        ports: each(|port| self::port(looks, slot, port))?,
        channel_ends: each(|end| channel_end(looks, slot, end))?,
        control_unit: control_unit(looks, slot)?,
    };
    for port in 0..node.ports.len() {
        extra_words_agree(looks, slot, port, &node)?;
    }
    Ok(node)
}

/// So many records, each read at its place.
fn each<T, const N: usize>(read: impl Fn(usize) -> Read<T>) -> Read<[T; N]> {
    let all: Read<Vec<T>> = (0..N).map(read).collect();
    match all?.try_into() {
        Ok(all) => Ok(all),
        Err(_) => unreachable!("N records were read"),
    }
}

fn flag(word: u32) -> Read<bool> {
    match word {
        0 => Ok(false),
        1 => Ok(true),
        _ => unreadable(format!("the flag {word}")),
    }
}

/// Nobody, or a port.
fn user(circuit: Circuit) -> Read<Option<usize>> {
    match (circuit.kind, circuit.peer()) {
        (0, _) => Ok(None),
        (_, Some(Peer::Port(port))) => Ok(Some(port as usize)),
        _ => unreadable(format!("{circuit:?} for a port")),
    }
}

fn link(looks: Looks, slot: usize, link: usize) -> Read<Link> {
    let words = looks.link(slot, link);
    let line = looks.line(slot, link);
    if line.head as usize >= LINE_CAPACITY {
        return unreadable(format!("a line that begins at {}", line.head));
    }
    let far = LinkEnd {
        slot: words.far_slot as usize,
        link: words.far_link as usize,
    };
    Ok(Link {
        far: flag(words.wired)?.then_some(far),
        enabled: flag(words.enabled)?,
        direction: words.direction,
        network: words.network,
        greeted: flag(words.greeted)?,
        credit: words.credit as usize,
        used_by: user(words.user)?,
        issued: line.issued as usize,
        line: tokens(looks.line_tokens(slot, link), line.held, LINE_CAPACITY)?,
    })
}

fn port(looks: Looks, slot: usize, port: usize) -> Read<Port> {
    let words = looks.port(slot, port);
    let network = TILE_PORTS.contains(&port) && words.is_taken();
    Ok(Port {
        hop: hop(words)?,
        network: if network { words.network } else { 0 },
        tokens: tokens(looks.port_tokens(slot, port), words.held, PORT_CAPACITY)?,
    })
}

fn hop(words: bench::Port) -> Read<Option<Hop>> {
    Ok(Some(match words.hop() {
        Some(bench::Hop::Link(link)) => Hop::Outward(link as usize),
        Some(bench::Hop::Channel(channel)) => Hop::Channel(channel as usize),
        Some(bench::Hop::Control) => Hop::Control,
        Some(bench::Hop::Dropped(bench::Cause::Split)) => Hop::Dropped(Cause::Split),
        Some(bench::Hop::Dropped(bench::Cause::NoRoute)) => Hop::Dropped(Cause::NoRoute),
        None if words.circuit.kind == 0 => return Ok(None),
        _ => return unreadable(format!("{:?} for a hop", words.circuit)),
    }))
}

/// The tokens shown. Where more are said to be held than there is room for, one more than that, so
/// that the model too finds them too many.
fn tokens<Q>(shown: impl Iterator<Item = u32>, held: u32, capacity: usize) -> Read<Q>
where
    Q: FromIterator<Token>,
{
    let too_many = (held as usize > capacity).then_some(0);
    let filled = shown.chain(too_many.into_iter().cycle());
    let kept = filled.take((held as usize).min(capacity + 1));
    kept.map(token).collect()
}

fn token(word: u32) -> Read<Token> {
    match bench::Token::from_word(word) {
        Some(token) => Ok(of_bench(token)),
        None => unreadable(format!("the token word {word:#x}")),
    }
}

fn of_bench(token: bench::Token) -> Token {
    let kind = match token.kind {
        bench::Kind::Data => Kind::Data,
        bench::Kind::Control => Kind::Control,
    };
    let header = token.header.map(|width| match width {
        bench::Width::One => 1,
        bench::Width::Three => 3,
    });
    Token {
        kind,
        value: token.value,
        header,
    }
}

fn channel_end(looks: Looks, slot: usize, end: usize) -> Read<ChannelEnd> {
    let words = looks.channel_end(slot, end);
    Ok(ChannelEnd {
        aim: aim(words)?,
        sending: sending(words.sending)?,
        claim: claim(words.claim)?,
        tokens: tokens(
            looks.end_tokens(slot, end),
            words.held,
            CHANNEL_END_CAPACITY,
        )?,
    })
}

fn aim(words: bench::ChannelEnd) -> Read<Option<Aim>> {
    let destination = match words.destination() {
        Some(bench::Destination::Channel { number, channel }) => Destination::Channel {
            number,
            channel: channel as usize,
        },
        Some(bench::Destination::Control { number }) => Destination::Control { number },
        None if words.aim == 0 => return Ok(None),
        None => return unreadable(format!("the aim {}", words.aim)),
    };
    let network = words.network;
    Ok(Some(Aim {
        destination,
        network,
    }))
}

fn sending(circuit: Circuit) -> Read<Option<Sending>> {
    match circuit.peer() {
        Some(Peer::Port(port)) => Ok(Some(Sending::ByPort(port as usize))),
        Some(Peer::ChannelEnd(channel)) => Ok(Some(Sending::Straight(channel as usize))),
        None if circuit.kind == 0 => Ok(None),
        None => unreadable(format!("{circuit:?} for an open circuit")),
    }
}

fn claim(circuit: Circuit) -> Read<Option<Claim>> {
    match circuit.peer() {
        Some(Peer::Port(port)) => Ok(Some(Claim::ByPort(port as usize))),
        Some(Peer::ChannelEnd(end)) => Ok(Some(Claim::ByChannelEnd(end as usize))),
        None if circuit.kind == 0 => Ok(None),
        None => unreadable(format!("{circuit:?} for a claim")),
    }
}

fn control_unit(looks: Looks, slot: usize) -> Read<ControlUnit> {
    let words = looks.control_unit(slot);
    let serves = user(words.serves)?;
    let heard = if serves.is_some() { words.heard } else { 0 };
    if heard as usize > HEARD {
        return unreadable(format!("{heard} tokens heard"));
    }
    let heard = words.tokens[..heard as usize].iter();
    let heard: Read<Vec<Token>> = heard.map(|word| token(*word)).collect();
    Ok(ControlUnit {
        serves,
        heard: heard?,
    })
}

/// The words of a port that the model has not say what the model would find.
fn extra_words_agree(looks: Looks, slot: usize, port: usize, node: &Node) -> Read<()> {
    let words = looks.port(slot, port);
    if words.head as usize >= PORT_CAPACITY {
        return unreadable(format!("a ring that begins at {}", words.head));
    }
    if !sender_agrees(words.sender, &senders_by(node, port)) {
        return unreadable(format!("port {port} names {:?} as sender", words.sender));
    }
    let users = tile_links_of(node, port);
    let to_channel = matches!(node.ports[port].hop, Some(Hop::Channel(_)));
    if to_channel && !users.is_empty() && !users.contains(&words.tile) {
        return unreadable(format!("port {port} names tile link {}", words.tile));
    }
    Ok(())
}

/// A port names one of the channel-ends that send by it, and nobody where none does.
fn sender_agrees(named: Circuit, senders: &[u32]) -> bool {
    match named.peer() {
        Some(Peer::ChannelEnd(end)) => senders.contains(&end),
        Some(Peer::Port(_)) => false,
        None => named.kind == 0 && senders.is_empty(),
    }
}

/// The channel-ends that send by a port.
fn senders_by(node: &Node, port: usize) -> Vec<u32> {
    let ends = (0..).zip(&node.channel_ends);
    let by_it = ends.filter(|(_, end)| end.sending == Some(Sending::ByPort(port)));
    by_it.map(|(place, _)| place).collect()
}

/// The tile links that a port uses.
fn tile_links_of(node: &Node, port: usize) -> Vec<u32> {
    let links = (0..).zip(&node.tile_links);
    let by_port = links.filter(|(_, user)| **user == Some(port));
    by_port.map(|(tile_link, _)| tile_link).collect()
}
