//! Sound: what ports, channel-ends and control units hold.

use std::borrow::Cow;
use std::collections::{vec_deque, VecDeque};

use crate::lines::Crossing;
use crate::network::{ChannelEnd, ControlUnit, Hop, Network};
use crate::sizes::PORTS;
use crate::tokens::{is_channel, Kind, Token, PAUSE, READC, SSCTRL, WRITEC};

/// "tokens [...] are legal": outside headers no hardware token and of the
/// privileged only 0xC0 and 0xC1; no PAUSE in a channel-end (open point 2); neither
/// END nor PAUSE in a message that a control unit hears. Header tokens are judged
/// with their headers.
pub(super) fn tokens_legal(network: &Network) -> bool {
    let legal = |token: &Token| token.header.is_some() || is_legal(token);
    let ports = all_contents(network, |contents| contents.tokens.iter().all(legal));
    ports
        && all_channel_ends(network, |end| {
            let mut tokens = end.tokens.iter();
            tokens.all(|token| legal(token) && !token.is_control(PAUSE))
        })
        && all_serving_units(network, |unit| {
            let mut tokens = unit.heard.iter();
            tokens.all(|token| legal(token) && !token.ends_circuit())
        })
}

fn is_legal(token: &Token) -> bool {
    token.kind == Kind::Data || token.value < 0xC0 || [WRITEC, READC].contains(&token.value)
}

/// What a port holds with the line to it behind (A4.18).
struct Contents<'a> {
    hop: Option<Hop>,
    tokens: Cow<'a, VecDeque<Token>>,
    /// How many of them the port holds, and are not on the line.
    held: usize,
}

impl<'a> Contents<'a> {
    fn of(network: &'a Network, slot: usize, port: usize) -> Contents<'a> {
        let place = &network.nodes[slot].ports[port];
        let by_line = network.crossing != Crossing::AtOnce;
        let tokens = match by_line && network.coming_to(slot, port).next().is_some() {
            false => Cow::Borrowed(&place.tokens),
            true => Cow::Owned(network.held_and_coming(slot, port)),
        };
        Contents {
            hop: place.hop,
            tokens,
            held: place.tokens.len(),
        }
    }
}

/// One circuit's tokens in a port or on the line to it: a stretch that begins at the
/// front or behind an END or PAUSE, and goes on to the next of them or to the end.
struct Stretch<'a> {
    contents: &'a Contents<'a>,
    /// Where it begins, where its leading header tokens end, and where it ends.
    start: usize,
    body: usize,
    end: usize,
}

impl<'a> Stretch<'a> {
    fn header(&self) -> vec_deque::Iter<'a, Token> {
        self.contents.tokens.range(self.start..self.body)
    }

    fn body(&self) -> vec_deque::Iter<'a, Token> {
        self.contents.tokens.range(self.body..self.end)
    }

    /// The hop of the port, for the stretch that the hop is open for.
    fn hop(&self) -> Option<Hop> {
        self.contents.hop.filter(|_| self.start == 0)
    }

    /// How many tokens the header has when whole, by its first token's mark.
    fn whole_length(&self) -> usize {
        let first = self.header().next();
        first.and_then(|token| token.header).unwrap_or(0) as usize
    }
}

/// The stretches of a port, in order. "how much of the header is left is told by the
/// port's buffer alone" where a hop is open (A4.18).
fn stretches<'a>(contents: &'a Contents<'a>) -> Vec<Stretch<'a>> {
    let length = contents.tokens.len();
    let mut found = Vec::new();
    let mut start = 0;
    while start < length {
        let mut behind = contents.tokens.range(start..);
        let headers = behind.clone().take_while(|t| t.header.is_some()).count();
        let end = behind.position(Token::ends_circuit);
        let end = end.map_or(length, |place| start + place + 1);
        let opened = start == 0 && contents.hop.is_some();
        let limit = if opened { contents.held } else { length };
        let body = (start + headers).min(limit);
        found.push(Stretch {
            contents,
            start,
            body,
            end,
        });
        start = end;
    }
    found
}

/// "headers are legal": one width, no more tokens than that width has, each legal
/// at its place. The front of a circuit that is sending its header outward or being
/// dropped may have lost its first ones.
pub(super) fn headers_legal(network: &Network) -> bool {
    all_stretches(network, |stretch| match stretch.hop() {
        Some(Hop::Channel(_) | Hop::Control) => true,
        Some(Hop::Outward(_) | Hop::Dropped(_)) => header_legal(stretch, true),
        None => header_legal(stretch, false),
    })
}

fn header_legal(stretch: &Stretch, lost_its_first: bool) -> bool {
    let length = stretch.header().len();
    let whole = stretch.whole_length();
    if length == 0 {
        return true;
    }
    if length > whole {
        return false;
    }
    let first_place = if lost_its_first { whole - length } else { 0 };
    (first_place..)
        .zip(stretch.header())
        .all(|(place, token)| header_token_legal(token, whole, place))
}

/// May this token stand at this place of a header of so many tokens?
fn header_token_legal(token: &Token, whole: usize, place: usize) -> bool {
    let marked = token.header.is_some_and(|width| width as usize == whole);
    let legal = match (whole, place) {
        (1, 0) | (3, 0 | 1) => token.kind == Kind::Data,
        (3, 2) if token.kind == Kind::Control => token.value == SSCTRL,
        (3, 2) => is_channel(usize::from(token.value)),
        _ => false,
    };
    marked && legal
}

/// "a port with no circuit is empty or starts with a header"
pub(super) fn starts_with_header(network: &Network) -> bool {
    all_stretches(network, |stretch| {
        stretch.start > 0 || stretch.hop().is_some() || stretch.header().len() > 0
    })
}

/// "and so does what follows an END or PAUSE"
pub(super) fn header_after_end(network: &Network) -> bool {
    all_stretches(network, |stretch| {
        stretch.start == 0 || stretch.header().len() > 0
    })
}

/// "such a header is short only at its port's end"; the rest of it may be on the line
pub(super) fn short_only_at_the_end(network: &Network) -> bool {
    all_stretches(network, |stretch| {
        let short = stretch.header().len() < stretch.whole_length();
        stretch.hop().is_some() || !short || stretch.body == stretch.contents.tokens.len()
    })
}

/// "header tokens stand elsewhere only at the front of a circuit still sending its
/// header outward or being dropped"
pub(super) fn no_header_elsewhere(network: &Network) -> bool {
    let ports = all_stretches(network, |stretch| {
        let past_header = matches!(stretch.hop(), Some(Hop::Channel(_) | Hop::Control));
        let front = !past_header || stretch.header().len() == 0;
        front && stretch.body().all(|token| token.header.is_none())
    });
    ports
        && all_channel_ends(network, |end| {
            end.tokens.iter().all(|token| token.header.is_none())
        })
        && all_serving_units(network, |unit| {
            unit.heard.iter().all(|token| token.header.is_none())
        })
}

fn all_stretches(network: &Network, holds: impl Fn(&Stretch) -> bool) -> bool {
    all_contents(network, |contents| stretches(contents).iter().all(&holds))
}

fn all_contents(network: &Network, holds: impl Fn(&Contents) -> bool) -> bool {
    (0..network.nodes.len()).all(|slot| {
        let mut ports = 0..PORTS;
        ports.all(|port| holds(&Contents::of(network, slot, port)))
    })
}

fn all_channel_ends(network: &Network, holds: impl Fn(&ChannelEnd) -> bool) -> bool {
    let mut nodes = network.nodes.iter();
    nodes.all(|node| node.channel_ends.iter().all(&holds))
}

/// What an idle control unit heard last is not looked at.
fn all_serving_units(network: &Network, holds: impl Fn(&ControlUnit) -> bool) -> bool {
    let units = network.nodes.iter().map(|node| &node.control_unit);
    units.filter(|unit| unit.serves.is_some()).all(holds)
}
