//! A board with a cable between two of its own links, tokens crossing by line: the
//! smallest network in which something can be on a line.

use model::lines::Crossing;
use model::network::{Hop, Link, LinkEnd, Network, Start};
use model::sizes::LINKS;
use model::tokens::{Token, HELLO};

/// The old start of one board, by line.
pub fn board() -> Network {
    let crossing = Crossing::ByLine { line_words: 528 };
    Network::crossed(Start::Blank, 1, 832, crossing)
}

/// Links 0 and 1 joined.
pub fn joined() -> Network {
    let mut network = board();
    for link in 0..2 {
        let far = LinkEnd {
            slot: 0,
            link: 1 - link,
        };
        network.nodes[0].links[link].far = Some(far);
    }
    network
}

/// Links 0 and 1 joined and enabled.
pub fn cable() -> Network {
    let mut network = joined();
    for link in 0..2 {
        self::link(&mut network, link).enabled = true;
    }
    network
}

pub fn link(network: &mut Network, link: usize) -> &mut Link {
    &mut network.nodes[0].links[link]
}

/// Puts these on the line that starts at a link, behind what is there.
pub fn put<const N: usize>(network: &mut Network, link: usize, things: [Token; N]) {
    network.nodes[0].links[link].line.extend(things);
}

/// Puts these into a port, behind what is there.
pub fn hold<const N: usize>(network: &mut Network, port: usize, tokens: [Token; N]) {
    network.nodes[0].ports[port].tokens.extend(tokens);
}

/// A port's circuit leaves by a link.
pub fn leaves(network: &mut Network, port: usize, link: usize) {
    network.nodes[0].ports[port].hop = Some(Hop::Outward(link));
    network.nodes[0].links[link].used_by = Some(port);
}

/// The link is greeted and has that credit.
pub fn greeted(network: &mut Network, link: usize, credit: usize) {
    let link = self::link(network, link);
    link.greeted = true;
    link.credit = credit;
}

/// Sets the counts of what was issued to what the far ends have in hand and what is on
/// the lines.
pub fn count(network: &mut Network) {
    for slot in 0..network.nodes.len() {
        for link in 0..LINKS {
            let end = &network.nodes[slot].links[link];
            let back = end.credit_on_line();
            let issued = network
                .far_link(end)
                .map_or(0, |far| far.credit + back + far.tokens_on_line().count());
            network.nodes[slot].links[link].issued = issued;
        }
    }
}

/// A header of one byte, for channel 0 of number 0.
pub fn one_byte() -> Token {
    Token::data(0).in_header(1)
}

/// A token of a header of three bytes.
pub fn of_three(value: u8) -> Token {
    Token::data(value).in_header(3)
}

pub fn hello() -> Token {
    Token::control(HELLO)
}

pub fn end() -> Token {
    Token::control(1)
}

pub fn data() -> Token {
    Token::data(5)
}
