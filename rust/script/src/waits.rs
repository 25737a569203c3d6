//! Why a Step of a port answers Waiting.

use std::fmt;

use bench::sizes::{CHANNELS, LINKS, TILE_LINKS, TILE_PORTS};
use bench::{Bench, Destination, Freight, Hop, Kind, LinkEnd, Looks, Peer};
use bench::{Stepped, Token, Width};

use crate::names::{channel, counted, letter, peer, port};
use crate::ways::{ways, Ways};

/// What a port waits for.
#[derive(Clone, Debug, PartialEq, Eq)]
pub enum Wait {
    /// The rest of a header.
    Header,
    /// One of these links, each in use outward by the circuit of a port.
    Links(Vec<Way>),
    /// One of the links from the switch to the tile.
    TileLink,
    /// A channel-end that another circuit claims.
    Claimed { channel: u32, by: Peer },
    /// The control unit, which serves another circuit or has not sent all of its reply.
    Control,
    /// Credit on the link that its circuit leaves by.
    Credit { link: usize, lacks: Lack },
    /// Room in a channel-end.
    Room { channel: u32, held: u32 },
}

/// A link that a header may take.
#[derive(Clone, Copy, Debug, PartialEq, Eq)]
pub struct Way {
    link: usize,
    user: Option<Peer>,
    has_cable: bool,
}

/// Why a link has no credit.
#[derive(Clone, Copy, Debug, PartialEq, Eq)]
pub enum Lack {
    Cable,
    /// The link at the cable's other end is disabled.
    FarEnd,
    Hello,
    /// Its HELLO is on the line.
    HelloOnLine,
    /// Credit for it is on the line from the cable's other end.
    CreditOnLine,
    /// The port at the cable's other end holds too many tokens, with those that are on the line to it.
    Room {
        slot: u32,
        port: u32,
        held: u32,
        coming: usize,
    },
}

/// What a port waits for, if a Step of it, made on a copy, answers Waiting.
pub fn wait(bench: &Bench, slot: usize, port: usize) -> Option<Wait> {
    let looks = bench.looks();
    let waits =
        looks.port(slot, port).held > 0 && bench.clone().step(slot, port) == Ok(Stepped::Waiting);
    waits.then(|| wait_of(looks, slot, port))
}

/// What a port waits for that is known to wait.
fn wait_of(looks: Looks, slot: usize, port: usize) -> Wait {
    match looks.port(slot, port).hop() {
        Some(Hop::Link(link)) => credit(looks, slot, link as usize),
        Some(Hop::Channel(channel)) => Wait::Room {
            channel,
            held: looks.channel_end(slot, channel as usize).held,
        },
        _ => match header(looks.port_tokens(slot, port)) {
            Some(destination) => opening(looks, slot, port, destination),
            None => Wait::Header,
        },
    }
}

fn credit(looks: Looks, slot: usize, link: usize) -> Wait {
    let lacks = match looks.link(slot, link).far() {
        None => Lack::Cable,
        Some(far) => lack(looks, LinkEnd { slot, link }, far),
    };
    Wait::Credit { link, lacks }
}

/// Why a link has no credit from the other end of its cable.
fn lack(looks: Looks, near: LinkEnd, (slot, port): (u32, u32)) -> Lack {
    let far = LinkEnd {
        slot: slot as usize,
        link: port as usize,
    };
    let is_credit = |thing: &Freight| matches!(thing, Freight::Credit(_));
    let is_token = |thing: &Freight| matches!(thing, Freight::Token(_));
    if looks.link(far.slot, far.link).enabled == 0 {
        Lack::FarEnd
    } else if on_line(looks, near).any(|thing| thing == Freight::Hello) {
        Lack::HelloOnLine
    } else if looks.link(near.slot, near.link).greeted == 0 {
        Lack::Hello
    } else if on_line(looks, far).any(|thing| is_credit(&thing)) {
        Lack::CreditOnLine
    } else {
        Lack::Room {
            slot,
            port,
            held: looks.port(far.slot, far.link).held,
            coming: on_line(looks, near).filter(is_token).count(),
        }
    }
}

/// What is on the line that starts at a link.
fn on_line(looks: Looks<'_>, end: LinkEnd) -> impl Iterator<Item = Freight> + use<'_> {
    let words = looks.line_tokens(end.slot, end.link);
    words.filter_map(Freight::from_word)
}

/// The destination of the whole header at the front.
fn header(words: impl Iterator<Item = u32>) -> Option<Destination> {
    let mut tokens = words.map_while(Token::from_word);
    let first = tokens.next()?;
    let value = u32::from(first.value);
    match first.header? {
        Width::One => Some(Destination::Channel {
            number: value / CHANNELS as u32,
            channel: value % CHANNELS as u32,
        }),
        Width::Three => {
            let (low, door) = (tokens.next()?, tokens.next()?);
            let number = value << 8 | u32::from(low.value);
            let channel = u32::from(door.value);
            door.header?;
            Some(match door.kind {
                Kind::Data => Destination::Channel { number, channel },
                Kind::Control => Destination::Control { number },
            })
        }
    }
}

/// What a whole header waits for.
fn opening(looks: Looks, slot: usize, port: usize, destination: Destination) -> Wait {
    let network = network(looks, slot, port);
    match (ways(looks, slot, destination, network), destination) {
        (Ways::Links(links), _) => {
            let ways = links.into_iter().map(|link| way(looks, slot, link));
            Wait::Links(ways.collect())
        }
        (Ways::Channel, Destination::Channel { channel, .. }) => tile(looks, slot, channel),
        _ => Wait::Control,
    }
}

fn way(looks: Looks, slot: usize, link: usize) -> Way {
    let seen = looks.link(slot, link);
    Way {
        link,
        user: seen.user.peer(),
        has_cable: seen.far().is_some(),
    }
}

/// "Links carry their own network; a channel-end's network is set with its destination; port 12 is
/// network 0."
fn network(looks: Looks, slot: usize, port: usize) -> u32 {
    if port < LINKS {
        looks.link(slot, port).network
    } else if TILE_PORTS.contains(&port) {
        looks.port(slot, port).network
    } else {
        0
    }
}

/// "Waiting if no tile link is free, then Waiting if the channel is claimed".
fn tile(looks: Looks, slot: usize, channel: u32) -> Wait {
    let claim = looks.channel_end(slot, channel as usize).claim.peer();
    let in_use = |tile_link| looks.tile_link(slot, tile_link).user.peer().is_some();
    match claim {
        Some(by) if !(0..TILE_LINKS).all(in_use) => Wait::Claimed { channel, by },
        _ => Wait::TileLink,
    }
}

impl fmt::Display for Wait {
    fn fmt(&self, f: &mut fmt::Formatter<'_>) -> fmt::Result {
        match self {
            Wait::Header => f.write_str("for the rest of its header"),
            Wait::Links(ways) => {
                let ways: Vec<String> = ways.iter().map(Way::to_string).collect();
                write!(f, "for {}", ways.join(" or "))
            }
            Wait::TileLink => f.write_str("for a tile link, all four are in use"),
            Wait::Claimed { channel: end, by } => {
                write!(f, "for {}, which {} has claimed", channel(*end), peer(*by))
            }
            Wait::Control => f.write_str("for the control unit, which is at another message"),
            Wait::Credit { link, lacks } => {
                write!(f, "for credit on link {}, {lacks}", letter(*link))
            }
            Wait::Room { channel: end, held } => {
                let held = counted(*held as usize, "token");
                write!(f, "for {}, which holds {held}", channel(*end))
            }
        }
    }
}

impl fmt::Display for Way {
    fn fmt(&self, f: &mut fmt::Formatter<'_>) -> fmt::Result {
        write!(f, "link {}", letter(self.link))?;
        if !self.has_cable {
            f.write_str(" (no cable)")?;
        }
        match self.user {
            Some(user) => write!(f, ", in use by {}", peer(user)),
            None => Ok(()),
        }
    }
}

impl fmt::Display for Lack {
    fn fmt(&self, f: &mut fmt::Formatter<'_>) -> fmt::Result {
        match *self {
            Lack::Cable => f.write_str("which has no cable"),
            Lack::FarEnd => f.write_str("the other end of its cable is disabled"),
            Lack::Hello => f.write_str("which has not said HELLO to an enabled link"),
            Lack::HelloOnLine => f.write_str("its HELLO is on the line"),
            Lack::CreditOnLine => f.write_str("which is on the line to it"),
            Lack::Room {
                slot,
                port: index,
                held,
                coming,
            } => {
                let held = counted(held as usize, "token");
                write!(f, "board {slot} {} holds {held}", port(index as usize))?;
                match coming {
                    0 => Ok(()),
                    some => write!(f, ", with {} on the line to it", counted(some, "token")),
                }
            }
        }
    }
}
