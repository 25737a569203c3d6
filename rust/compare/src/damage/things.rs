//! Damage by things and not by words: a state of the model with a circuit, a token, a cable, a
//! credit or a line that is not as it was. What comes of it is a state of the model, and more often nearly
//! sound than changed words are.

use model::answers::Cause;
use model::lines::credit;
use model::network::{Aim, Claim, Hop, LinkEnd, Network, Node, Sending};
use model::random::Random;
use model::sizes::{
    CHANNELS, CHANNEL_ENDS, HIGHEST_NETWORK, HIGHEST_NUMBER, LINKS, PORTS, TILE_LINKS, TILE_PORTS,
};
use model::tokens::{header, Destination, Token, END, HELLO, PAUSE, SINK};

/// Changes one to three things.
pub fn disturb(random: &mut Random, network: &mut Network) {
    for _ in 0..1 + random.below(3) {
        let slots = network.nodes.len();
        let slot = random.below(slots);
        match random.below(8) {
            0 => link(random, slots, &mut network.nodes[slot]),
            1 => hold(random, &mut network.nodes[slot]),
            2 => lose(random, &mut network.nodes[slot]),
            3 => port(random, &mut network.nodes[slot]),
            4 => hear(random, &mut network.nodes[slot]),
            5 | 6 => line(random, &mut network.nodes[slot]),
            _ => channel_end(random, &mut network.nodes[slot]),
        }
    }
}

/// A port, now and then one that is not there.
fn any_port(random: &mut Random) -> usize {
    let limit = PORTS + random.below(2);
    random.below(limit)
}

/// A channel, the sink among them, now and then one that is not there.
fn any_channel(random: &mut Random) -> usize {
    let odd = [SINK, SINK, CHANNELS, SINK - 1];
    let odd = random.pick(&odd).unwrap_or(SINK);
    if random.chance(15) {
        odd
    } else {
        random.below(CHANNELS)
    }
}

/// Nothing, or something.
fn perhaps<T>(random: &mut Random, thing: T) -> Option<T> {
    random.chance(50).then_some(thing)
}

fn link(random: &mut Random, slots: usize, node: &mut Node) {
    let far = LinkEnd {
        slot: random.below(slots),
        link: random.below(LINKS),
    };
    let user = any_port(random);
    let link = &mut node.links[random.below(LINKS)];
    match random.below(7) {
        0 => link.enabled = !link.enabled,
        1 => link.greeted = !link.greeted,
        2 => link.credit = random.below(66),
        3 => link.credit += 1,
        4 => link.far = perhaps(random, far),
        5 => link.used_by = perhaps(random, user),
        _ => link.network = random.value_below(5),
    }
}

/// What is on a line, or what its link has issued: best of a line that has something on it.
fn line(random: &mut Random, node: &mut Node) {
    let used: Vec<usize> = (0..LINKS)
        .filter(|link| !node.links[*link].line.is_empty())
        .collect();
    let any = random.below(LINKS);
    let link = random.pick(&used).filter(|_| random.chance(80));
    let link = &mut node.links[link.unwrap_or(any)];
    let place = random.below(link.line.len() + 1);
    match random.below(8) {
        0 => link.issued = random.below(66),
        1 => link.issued += 1,
        2 => link.issued = link.issued.saturating_sub(1),
        3 => drop(link.line.remove(place)),
        4 => link.line.insert(place, Token::control(HELLO)),
        5 => link.line.insert(place, credit(grant(random))),
        6 => link.line.insert(place, Token::data(random.byte())),
        _ => link.line.insert(place, any_on_line(random)),
    }
}

fn grant(random: &mut Random) -> usize {
    random.pick(&[8, 16, 64]).unwrap_or(8)
}

/// A token of a kind that may or may not stand on a line.
fn any_on_line(random: &mut Random) -> Token {
    let tokens = [
        Token::control(random.byte()),
        Token::control(END),
        Token::control(PAUSE),
        Token::data(random.byte()).in_header(3),
        Token::data(random.byte()).in_header(1),
        Token::control(HELLO).in_header(3),
    ];
    random.pick(&tokens).unwrap_or(tokens[0])
}

/// A stretch of tokens comes to stand at the end of a port or channel-end: a header, or a part of
/// it, with or without a body and an end.
fn hold(random: &mut Random, node: &mut Node) {
    let width = random.pick(&[1, 3, 3]).unwrap_or(3);
    let channel = any_channel(random);
    let number = random.value_below(HIGHEST_NUMBER + 1);
    let unit = Destination::Control { number };
    let far = Destination::Channel { number, channel };
    let destination = if random.chance(80) { far } else { unit };
    let mut tokens = header(destination, width).unwrap_or_default();
    let body = if random.chance(20) { 60 } else { 3 };
    for _ in 0..random.below(body) {
        tokens.push(Token::data(random.byte()));
    }
    if random.chance(60) {
        let last = random.pick(&[END, PAUSE, 0xC0, 0xC2]).unwrap_or(END);
        tokens.push(Token::control(last));
    }
    let kept = tokens.len() - random.below(2).min(tokens.len());
    let skipped = if random.chance(70) { 0 } else { 1 };
    let tokens = tokens.into_iter().take(kept).skip(skipped);
    if random.chance(85) {
        node.ports[random.below(PORTS)].tokens.extend(tokens);
    } else {
        node.channel_ends[random.below(CHANNEL_ENDS)]
            .tokens
            .extend(tokens);
    }
}

/// A token is lost from the front, the end or the middle of a port, best of one that holds some.
fn lose(random: &mut Random, node: &mut Node) {
    let busy: Vec<usize> = (0..PORTS)
        .filter(|port| !node.ports[*port].tokens.is_empty())
        .collect();
    let port = random.pick(&busy).unwrap_or(0);
    let tokens = &mut node.ports[port].tokens;
    match random.below(3) {
        0 => drop(tokens.pop_front()),
        1 => drop(tokens.pop_back()),
        _ => drop(tokens.remove(random.below(tokens.len()))),
    }
}

/// A port's hop, or what uses the node's outputs.
fn port(random: &mut Random, node: &mut Node) {
    let hops = [
        Hop::Outward(random.below(LINKS + 1)),
        Hop::Channel(any_channel(random)),
        Hop::Control,
        Hop::Dropped(Cause::Split),
        Hop::Dropped(Cause::NoRoute),
    ];
    let hop = random.pick(&hops).unwrap_or(Hop::Control);
    let port = any_port(random);
    match random.below(4) {
        0 => node.tile_links[random.below(TILE_LINKS)] = perhaps(random, port),
        1 => node.control_unit.serves = perhaps(random, port),
        _ => node.ports[random.below(PORTS)].hop = perhaps(random, hop),
    }
}

/// The token that a control unit heard last becomes another, or a first one is heard.
fn hear(random: &mut Random, node: &mut Node) {
    let tokens = [
        Token::data(random.byte()),
        Token::control(random.byte()),
        Token::control(END),
        Token::control(PAUSE),
        Token::data(random.byte()).in_header(3),
    ];
    let token = random.pick(&tokens).unwrap_or(tokens[0]);
    let heard = &mut node.control_unit.heard;
    heard.pop();
    heard.push(token);
}

/// A channel-end's aim, open circuit or claim.
fn channel_end(random: &mut Random, node: &mut Node) {
    let sending = [
        Sending::ByPort(any_port(random)),
        Sending::ByPort(TILE_PORTS.start + random.below(TILE_PORTS.len())),
        Sending::Straight(any_channel(random)),
    ];
    let claims = [
        Claim::ByPort(any_port(random)),
        Claim::ByChannelEnd(random.below(CHANNEL_ENDS + 1)),
    ];
    let aim = Aim {
        destination: Destination::Channel {
            number: random.value_below(HIGHEST_NUMBER + 2),
            channel: any_channel(random),
        },
        network: random.value_below(HIGHEST_NETWORK + 2),
    };
    let end = &mut node.channel_ends[random.below(6)];
    match random.below(3) {
        0 => end.aim = perhaps(random, aim),
        1 => end.sending = random.pick(&sending).and_then(|s| perhaps(random, s)),
        _ => end.claim = random.pick(&claims).and_then(|c| perhaps(random, c)),
    }
}
