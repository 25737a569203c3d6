//! What is so on a board, a sentence a fact; what is at rest has none.

use bench::sizes::{BITS, LINKS, PORTS};
use bench::{Bench, Hop, Link, Looks, Peer};

use crate::names::{channel, counted, destination, headers, letter, links, peer, port, tokens};
use crate::waits::wait;

/// A board's own settings.
pub fn board(looks: Looks, slot: usize) -> String {
    let number = looks.node(slot).number;
    format!("number {number}, {}", headers(looks, slot))
}

/// For each direction that a bit leads to: the bits, and the enabled links that have it. Direction
/// 0 is left out where no enabled link has it, as blank leaves it.
pub fn directions(looks: Looks, slot: usize) -> Vec<String> {
    let all = (0..=15).filter_map(|direction| {
        let bits: Vec<u32> = (0..BITS)
            .filter(|bit| looks.direction(slot, *bit) == direction)
            .collect();
        let ways = links_towards(looks, slot, direction);
        let at_rest = bits.is_empty() || (direction == 0 && ways.is_empty());
        (!at_rest).then(|| bits_lead(&bits, direction, &ways))
    });
    all.collect()
}

/// The enabled links that have a direction.
pub fn links_towards(looks: Looks, slot: usize, direction: u32) -> Vec<usize> {
    let ways = (0..LINKS).filter(|link| {
        let seen = looks.link(slot, *link);
        seen.enabled == 1 && seen.direction == direction
    });
    ways.collect()
}

fn bits_lead(bits: &[u32], direction: u32, ways: &[usize]) -> String {
    let ways = match ways {
        [] => "which no enabled link has".to_owned(),
        ways => links(ways),
    };
    match bits {
        [bit] => format!("bit {bit} leads to direction {direction}, {ways}"),
        _ => format!("bits {} lead to direction {direction}, {ways}", runs(bits)),
    }
}

/// Rising numbers, those that follow each other as `FIRST..LAST`.
pub fn runs(numbers: &[u32]) -> String {
    let joined = numbers.chunk_by(|one, next| one + 1 == *next);
    let written = joined.map(|run| match run {
        [first, .., last] => format!("{first}..{last}"),
        [only] => only.to_string(),
        [] => String::new(),
    });
    written.collect::<Vec<_>>().join(" ")
}

/// A link that has been given a direction or a network.
pub fn is_set(link: &Link) -> bool {
    link.direction != 0 || link.network != 0
}

pub fn link_settings(link: &Link) -> String {
    let enabled = match link.enabled {
        0 => "disabled",
        _ => "enabled",
    };
    let (direction, network) = (link.direction, link.network);
    format!("{enabled}, direction {direction}, network {network}")
}

/// The credit of an enabled link, or why it has none.
pub fn link_credit(link: &Link) -> Option<String> {
    match (link.enabled, link.wired, link.greeted) {
        (0, _, _) => None,
        (_, 0, _) => Some("no cable".to_owned()),
        (_, _, 0) => Some("not greeted, so no credit".to_owned()),
        _ => Some(format!("credit {}", link.credit)),
    }
}

/// A link's settings and credit in one.
pub fn link_state(link: &Link) -> String {
    let facts = std::iter::once(link_settings(link)).chain(link_credit(link));
    facts.collect::<Vec<_>>().join(", ")
}

/// What an enabled link with a cable has issued and not yet received, and what is on the line that
/// starts there, the first to arrive first.
pub fn line(looks: Looks, slot: usize, index: usize) -> Option<String> {
    let seen = looks.link(slot, index);
    let issued = looks.line(slot, index).issued;
    let on_it = on_line(looks, slot, index).unwrap_or_else(|| "nothing on its line".to_owned());
    (seen.wired == 1 && seen.enabled == 1).then(|| format!("issued {issued}, {on_it}"))
}

/// What is on the line that starts at a link, if anything is.
pub fn on_line(looks: Looks, slot: usize, index: usize) -> Option<String> {
    let words: Vec<u32> = looks.line_tokens(slot, index).collect();
    let listed = tokens(words.iter().copied());
    (!words.is_empty()).then(|| format!("{} on its line: {listed}", words.len()))
}

/// Where a port's circuit goes, and what it holds.
pub fn port_facts(looks: Looks, slot: usize, index: usize) -> Vec<String> {
    let circuit = looks.port(slot, index).hop().map(circuit);
    let holds = holding(looks.port_tokens(slot, index));
    circuit.into_iter().chain(holds).collect()
}

/// Where a port's circuit goes.
pub fn circuit(hop: Hop) -> String {
    match hop {
        Hop::Link(link) => format!("circuit out by link {}", letter(link as usize)),
        Hop::Channel(end) => format!("circuit to {}", channel(end)),
        Hop::Control => "circuit to the control unit".to_owned(),
        Hop::Dropped(cause) => format!("circuit refused as {cause}, is dropped"),
        _ => "circuit elsewhere".to_owned(),
    }
}

fn holding(words: impl Iterator<Item = u32>) -> Option<String> {
    let words: Vec<u32> = words.collect();
    let count = counted(words.len(), "token");
    let listed = tokens(words.iter().copied());
    (!words.is_empty()).then(|| format!("holds {count}: {listed}"))
}

/// Every port of every board.
pub fn ports(looks: Looks) -> impl Iterator<Item = (usize, usize)> {
    let slots = 0..looks.nodes();
    slots.flat_map(|slot| (0..PORTS).map(move |port| (slot, port)))
}

/// What a port waits for, if it does.
pub fn waits(bench: &Bench, slot: usize, index: usize) -> Option<String> {
    let on = wait(bench, slot, index)?;
    Some(format!("waits {on}"))
}

/// What a channel-end is aimed at.
pub fn aim(looks: Looks, slot: usize, end: usize) -> Option<String> {
    let seen = looks.channel_end(slot, end);
    let aimed = destination(seen.destination()?);
    Some(format!("aimed at {aimed}, network {}", seen.network))
}

/// A channel-end's open circuit, who claims it, and what it holds.
pub fn end_facts(looks: Looks, slot: usize, end: usize) -> Vec<String> {
    let mut facts = end_circuits(looks, slot, end);
    facts.extend(holding(looks.end_tokens(slot, end)));
    facts
}

/// A channel-end's open circuit, and who claims it.
pub fn end_circuits(looks: Looks, slot: usize, end: usize) -> Vec<String> {
    let seen = looks.channel_end(slot, end);
    let sends = seen.sending.peer().map(|by| match by {
        Peer::Port(index) => format!("sends by {}", port(index as usize)),
        Peer::ChannelEnd(to) => format!("sends straight to {}", channel(to)),
    });
    let claimed = seen
        .claim
        .peer()
        .map(|by| format!("claimed by {}", peer(by)));
    [sends, claimed].into_iter().flatten().collect()
}

/// What a control unit does, where it serves a circuit.
pub fn unit(looks: Looks, slot: usize) -> Option<String> {
    let seen = looks.control_unit(slot);
    let by = peer(seen.serves.peer()?);
    let heard = counted(seen.heard as usize, "token");
    Some(format!("hears {by}, {heard} so far"))
}
