//! Small networks by line, reached by random calls, then disturbed: to be looked at
//! where they are still sound.

use model::answers::Cause;
use model::calls::{apply, Call};
use model::lines::{credit, line_words, Crossing};
use model::network::{memory_words, Aim, Claim, Hop, LinkEnd, Network, Sending, Start};
use model::random::Random;
use model::registers::start_address;
use model::runs::Runner;
use model::set::Setting;
use model::sizes::{LINKS, PORTS, REPLY_PORT};
use model::speech::write;
use model::tokens::{Destination, Kind, Token, END, HELLO, PAUSE, READC, SINK, SSCTRL, WRITEC};

/// How many links and channel-ends take part; few, so that they meet.
const FEW: usize = 3;
const COUNTS: [usize; 12] = [0, 0, 0, 1, 2, 7, 8, 9, 16, 56, 63, 64];

/// One or two boards, with a cable or more, and what random calls have made of them.
pub fn reached(random: &mut Random) -> Network {
    let nodes = 1 + random.below(2);
    let start = random.pick(&Start::ALL).unwrap_or(Start::Blank);
    let line_words = line_words(nodes).unwrap_or(0);
    let crossing = Crossing::ByLine { line_words };
    let mut network = Network::crossed(start, nodes, memory_words(nodes).unwrap_or(0), crossing);
    for (slot, node) in network.nodes.iter_mut().enumerate() {
        node.number = slot as u32 * (1 - random.value_below(5) / 4);
        node.width = random.pick(&[1, 3]).unwrap_or(3);
    }
    for _ in 0..1 + random.below(2) {
        let (one, other) = (any_end(random, nodes), any_end(random, nodes));
        join(&mut network, one, other);
    }
    let mut state = Some(network);
    for _ in 0..random.pick(&[0, 0, 20, 100]).unwrap_or(0) {
        let call = state.as_ref().map(|network| any_call(random, network));
        call.map(|call| apply(&mut state, &call));
    }
    state.unwrap_or_else(|| Network::fresh(1, 0))
}

/// A state in the middle of a random run of a few boards.
pub fn wandering(random: &mut Random) -> Network {
    loop {
        let mut runner = Runner::by_line(random.bits());
        for _ in 0..200 + random.below(1_500) {
            runner.call();
        }
        match runner.network() {
            Some(network) if network.nodes.len() <= 4 => return network.clone(),
            _ => {}
        }
    }
}

fn any_end(random: &mut Random, nodes: usize) -> LinkEnd {
    LinkEnd {
        slot: random.below(nodes),
        link: random.below(FEW),
    }
}

/// A link of a board, mostly one with a cable.
fn any_link(random: &mut Random, network: &Network, slot: usize) -> usize {
    let links = &network.nodes[slot].links;
    let wired: Vec<_> = (0..LINKS)
        .filter(|link| links[*link].far.is_some())
        .collect();
    let few = random.below(FEW);
    match random.chance(85) {
        true => random.pick(&wired).unwrap_or(few),
        false => few,
    }
}

/// Joins two ends where both are free, and enables both.
fn join(network: &mut Network, one: LinkEnd, other: LinkEnd) {
    let free = |end: LinkEnd| network.nodes[end.slot].links[end.link].far.is_none();
    if one != other && free(one) && free(other) {
        for (near, far) in [(one, other), (other, one)] {
            let link = &mut network.nodes[near.slot].links[near.link];
            link.far = Some(far);
            link.enabled = true;
        }
    }
}

// Calls.

/// A call that is likely to do something.
pub fn any_call(random: &mut Random, network: &Network) -> Call {
    let slot = random.below(network.nodes.len());
    let link = any_link(random, network, slot);
    match random.below(20) {
        0..=5 => a_line(random, network),
        6..=11 => a_step(random, network),
        12 | 13 => Call::Set {
            slot,
            setting: Setting::Hello { link },
        },
        14 => Call::Set {
            slot,
            setting: any_setting(random, link),
        },
        15 => Call::Wire {
            one: any_end(random, network.nodes.len()),
            other: any_end(random, network.nodes.len()),
        },
        16 => any_aim(random, slot),
        17 | 18 => any_output(random, slot),
        _ => Call::Input {
            slot,
            channel_end: random.below(FEW),
            kind: random
                .pick(&[Kind::Data, Kind::Control])
                .unwrap_or(Kind::Data),
        },
    }
}

fn a_line(random: &mut Random, network: &Network) -> Call {
    let ends = (0..network.nodes.len()).flat_map(|slot| (0..LINKS).map(move |link| (slot, link)));
    let used: Vec<_> = ends
        .filter(|(slot, link)| !network.nodes[*slot].links[*link].line.is_empty())
        .collect();
    let any = (random.below(network.nodes.len()), random.below(FEW));
    let (slot, link) = random.pick(&used).unwrap_or(any);
    Call::Line { slot, link }
}

fn a_step(random: &mut Random, network: &Network) -> Call {
    let ports = (0..network.nodes.len()).flat_map(|slot| (0..PORTS).map(move |port| (slot, port)));
    let used: Vec<_> = ports
        .filter(|(slot, port)| !network.nodes[*slot].ports[*port].tokens.is_empty())
        .collect();
    let any = (random.below(network.nodes.len()), random.below(PORTS));
    let (slot, port) = random.pick(&used).unwrap_or(any);
    Call::Step { slot, port }
}

fn any_setting(random: &mut Random, link: usize) -> Setting {
    match random.below(8) {
        0..=2 => Setting::Enable { link, value: 0 },
        3 | 4 => Setting::Enable { link, value: 1 },
        5 => Setting::Number {
            value: random.value_below(2),
        },
        6 => Setting::Width {
            value: random.pick(&[1, 3]).unwrap_or(3),
        },
        _ => Setting::Network {
            link,
            value: random.value_below(2),
        },
    }
}

fn any_destination(random: &mut Random) -> Destination {
    let number = random.value_below(2);
    let channel = random.pick(&[0, 1, 2, SINK]).unwrap_or(0);
    match random.chance(25) {
        true => Destination::Control { number },
        false => Destination::Channel { number, channel },
    }
}

fn any_aim(random: &mut Random, slot: usize) -> Call {
    Call::Aim {
        slot,
        channel_end: random.below(FEW),
        destination: any_destination(random),
        network: 0,
    }
}

fn any_output(random: &mut Random, slot: usize) -> Call {
    let plain = any_plain(random);
    Call::Output {
        slot,
        channel_end: random.below(FEW),
        kind: plain.kind,
        value: plain.value,
    }
}

// Tokens.

fn any_plain(random: &mut Random) -> Token {
    match random.below(8) {
        0 | 1 => Token::control(END),
        2 => Token::control(PAUSE),
        3 => Token::control(random.pick(&[WRITEC, READC, 3]).unwrap_or(3)),
        _ => Token::data(random.byte() % 4),
    }
}

fn any_header(random: &mut Random) -> Vec<Token> {
    let number = random.value_below(2) as u8;
    let last = random.pick(&[Token::data(0), Token::data(255), Token::control(SSCTRL)]);
    match random.chance(50) {
        true => vec![Token::data(32 * number).in_header(1)],
        false => [
            Token::data(0),
            Token::data(number),
            last.unwrap_or(Token::data(0)),
        ]
        .map(|token| token.in_header(3))
        .to_vec(),
    }
}

/// A circuit or a piece of one: whole or with its front or its end missing.
fn any_piece(random: &mut Random) -> Vec<Token> {
    let mut tokens = any_header(random);
    let long = random.chance(15);
    let body = random.below(if long { 60 } else { 4 });
    tokens.extend((0..body).map(|byte| Token::data(byte as u8)));
    if random.chance(60) {
        tokens.push(Token::control(END));
    }
    let from = random
        .pick(&[0, 0, 0, 1, 2, 3])
        .unwrap_or(0)
        .min(tokens.len());
    let short = random.pick(&[0, 0, 0, 0, 1, 2]).unwrap_or(0);
    let to = tokens.len().saturating_sub(short).max(from);
    tokens[from..to].to_vec()
}

fn any_on_line(random: &mut Random) -> Vec<Token> {
    match random.below(6) {
        0 | 1 => vec![Token::control(HELLO)],
        2 | 3 => vec![credit(random.pick(&[8, 16, 64]).unwrap_or(8))],
        4 => vec![any_plain(random)],
        _ => any_piece(random),
    }
}

/// Puts these in front, behind, or anywhere.
fn insert(random: &mut Random, queue: &mut std::collections::VecDeque<Token>, tokens: Vec<Token>) {
    let any = random.below(queue.len() + 1);
    let place = random
        .pick(&[0, queue.len(), queue.len(), any])
        .unwrap_or(0);
    for (offset, token) in tokens.into_iter().enumerate() {
        queue.insert(place + offset, token);
    }
}

/// Takes one away, all, or all from a place on.
fn shorten(random: &mut Random, queue: &mut std::collections::VecDeque<Token>) {
    let place = random.below(queue.len());
    match random.below(4) {
        0 => queue.clear(),
        1 => queue.truncate(place),
        2 => drop(queue.pop_front()),
        _ => drop(queue.remove(place)),
    }
}

// Disturbances.

/// Changes a few things, and mostly counts anew what was issued.
pub fn disturb(random: &mut Random, network: &mut Network) {
    for _ in 0..1 + random.below(7) {
        let slot = random.below(network.nodes.len());
        match random.below(12) {
            0..=6 => disturb_link(random, network, slot),
            7 | 8 => disturb_port(random, network, slot),
            9 | 10 => disturb_hop(random, network, slot),
            _ => disturb_node(random, network, slot),
        }
    }
    if random.chance(50) {
        enable_what_is_used(network);
    }
    if random.chance(95) {
        count(network);
    }
}

fn disturb_link(random: &mut Random, network: &mut Network, slot: usize) {
    let nodes = network.nodes.len();
    let place = any_link(random, network, slot);
    let other = any_end(random, nodes);
    let link = &mut network.nodes[slot].links[place];
    match random.below(12) {
        0 => link.enabled = !link.enabled,
        1 | 2 => link.greeted = !link.greeted,
        3 => link.credit = random.pick(&COUNTS).unwrap_or(0),
        4 => {
            link.greeted = true;
            link.credit = random.pick(&COUNTS).unwrap_or(0);
        }
        5 => link.issued = random.pick(&COUNTS).unwrap_or(0),
        6 => shorten(random, &mut link.line),
        7..=10 => {
            let tokens = any_on_line(random);
            insert(random, &mut link.line, tokens);
        }
        _ => join(network, LinkEnd { slot, link: place }, other),
    }
}

fn disturb_port(random: &mut Random, network: &mut Network, slot: usize) {
    let place = any_port(random, network, slot);
    let port = &mut network.nodes[slot].ports[place];
    match random.below(3) {
        0 => shorten(random, &mut port.tokens),
        1 => insert(random, &mut port.tokens, vec![Token::control(END)]),
        _ => {
            let tokens = any_piece(random);
            insert(random, &mut port.tokens, tokens);
        }
    }
}

/// A link's port, or one of the others.
fn any_port(random: &mut Random, network: &Network, slot: usize) -> usize {
    let link = any_link(random, network, slot);
    let ports = [link, link, link, 8, 9, REPLY_PORT];
    random.pick(&ports).unwrap_or(link)
}

/// Gives a port another hop, and what it leaves by.
fn disturb_hop(random: &mut Random, network: &mut Network, slot: usize) {
    let place = any_port(random, network, slot);
    let link = any_link(random, network, slot);
    let node = &mut network.nodes[slot];
    release(node, place);
    let cause = random
        .pick(&[Cause::Split, Cause::NoRoute])
        .unwrap_or(Cause::Split);
    let hop = match random.below(8) {
        0..=3 => Hop::Outward(link),
        4 => Hop::Dropped(cause),
        5 => Hop::Control,
        6 => Hop::Channel(random.pick(&[SINK, 0, 1]).unwrap_or(SINK)),
        _ => return,
    };
    match hop {
        Hop::Outward(link) => {
            if let Some(user) = node.links[link].used_by {
                node.ports[user].hop = None;
            }
            node.links[link].used_by = Some(place);
        }
        Hop::Control => {
            node.control_unit.serves = Some(place);
            node.control_unit.heard = any_message(random);
        }
        Hop::Channel(channel) => {
            node.tile_links[random.below(4)] = Some(place);
            if channel != SINK {
                node.channel_ends[channel].claim = Some(Claim::ByPort(place));
            }
        }
        Hop::Dropped(_) => {}
    }
    node.ports[place].hop = Some(hop);
}

/// Frees what a port's circuit leaves by.
fn release(node: &mut model::network::Node, place: usize) {
    let of_port = |user: &mut Option<usize>| {
        if *user == Some(place) {
            *user = None;
        }
    };
    node.links
        .iter_mut()
        .for_each(|link| of_port(&mut link.used_by));
    node.tile_links.iter_mut().for_each(of_port);
    of_port(&mut node.control_unit.serves);
    for end in &mut node.channel_ends {
        end.claim = end.claim.filter(|claim| *claim != Claim::ByPort(place));
    }
    node.ports[place].hop = None;
}

/// What a control unit has heard of a message: mostly all of it but its END, and mostly
/// one that says HELLO or disables.
fn any_message(random: &mut Random) -> Vec<Token> {
    let link = random.below(FEW);
    let data = random.pick(&[0x8100_0000, 0x8000_0000, 0]).unwrap_or(0);
    let mut heard = write(0, 0, start_address(link).unwrap_or(0x04), data);
    heard.pop();
    if random.chance(20) {
        heard.truncate(random.below(11));
    }
    heard
}

fn disturb_node(random: &mut Random, network: &mut Network, slot: usize) {
    let node = &mut network.nodes[slot];
    let destination = any_destination(random);
    let end = &mut node.channel_ends[random.below(FEW)];
    match random.below(6) {
        0 => node.width = 4 - node.width,
        1 => node.number ^= 1,
        2 => end.sending = None,
        3 => insert(random, &mut end.tokens, vec![Token::data(1)]),
        _ => {
            end.aim = Some(Aim {
                destination,
                network: 0,
            });
            end.sending = Some(Sending::ByPort(8 + random.below(2)));
        }
    }
}

/// Enables both ends of what is greeted or has something on a line.
fn enable_what_is_used(network: &mut Network) {
    for slot in 0..network.nodes.len() {
        for place in 0..LINKS {
            let link = &mut network.nodes[slot].links[place];
            let used = link.greeted || !link.line.is_empty();
            if let Some(far) = link.far.filter(|_| used) {
                link.enabled = true;
                network.nodes[far.slot].links[far.link].enabled = true;
            }
        }
    }
}

/// Sets the counts of what was issued right where no HELLO is coming.
pub fn count(network: &mut Network) {
    for slot in 0..network.nodes.len() {
        for place in 0..LINKS {
            let link = &network.nodes[slot].links[place];
            let back = link.credit_on_line();
            let issued = match network.far_link(link) {
                Some(far) if far.hello_on_line() => continue,
                Some(far) => far.credit + back + far.tokens_on_line().count(),
                None => 0,
            };
            network.nodes[slot].links[place].issued = issued;
        }
    }
}
