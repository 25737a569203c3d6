//! How boards, links, ports and tokens are named to the shop's people.

use bench::sizes::{LINKS, PORTS, TILE_PORTS};
use bench::{Destination, Kind, Looks, Peer, Token};

use crate::facts::runs;

/// The control token that ends a message.
pub const END: u8 = 1;

/// The letters of the links, in their order.
pub const LETTERS: [&str; LINKS] = ["A", "B", "C", "D", "E", "F", "G", "H"];

/// The letter of a link: A..H.
pub fn letter(link: usize) -> &'static str {
    LETTERS[link % LINKS]
}

/// A link that a call names, which may be one that is not there.
pub fn link(link: usize) -> String {
    match LETTERS.get(link) {
        Some(letter) => format!("link {letter}"),
        None => format!("link {link}"),
    }
}

/// Links of a board together: `link E`, `links E F`.
pub fn links(links: &[usize]) -> String {
    let letters: Vec<&str> = links.iter().map(|link| letter(*link)).collect();
    let name = if links.len() == 1 { "link" } else { "links" };
    format!("{name} {}", letters.join(" "))
}

/// Boards together, by their slots: `board 0`, `boards 0..2 5`.
pub fn boards(slots: &[u32]) -> String {
    let name = if slots.len() == 1 { "board" } else { "boards" };
    format!("{name} {}", runs(slots))
}

/// A board's width in words.
pub fn headers(looks: Looks, slot: usize) -> &'static str {
    match looks.node(slot).width {
        1 => "one-byte headers",
        _ => "three-byte headers",
    }
}

/// A port, with where its tokens come from.
pub fn port(port: usize) -> String {
    if port < LINKS {
        format!("port {port} (in by link {})", letter(port))
    } else if TILE_PORTS.contains(&port) {
        format!("port {port} (from the tile)")
    } else if port + 1 == PORTS {
        format!("port {port} (replies)")
    } else {
        format!("port {port}")
    }
}

/// A channel of a board.
pub fn channel(channel: u32) -> String {
    match channel {
        255 => "the sink".to_owned(),
        end => format!("channel-end {end}"),
    }
}

/// Who sends by a circuit within a board.
pub fn peer(peer: Peer) -> String {
    match peer {
        Peer::Port(index) => port(index as usize),
        Peer::ChannelEnd(end) => channel(end),
    }
}

/// What a channel-end is aimed at.
pub fn destination(destination: Destination) -> String {
    match destination {
        Destination::Channel { number, channel } => format!("number {number} channel {channel}"),
        Destination::Control { number } => format!("number {number} control unit"),
    }
}

/// `1 token`, `2 tokens`.
pub fn counted(count: usize, what: &str) -> String {
    match count {
        1 => format!("1 {what}"),
        _ => format!("{count} {what}s"),
    }
}

/// Tokens, oldest first: a header by its bytes as the paper writes them, `header 01.25.07`, data by
/// value, control by name where it has one.
pub fn tokens(words: impl Iterator<Item = u32>) -> String {
    let mut text = String::new();
    let mut in_header = false;
    for token in words.filter_map(Token::from_word) {
        let is_header = token.header.is_some();
        text += match (is_header, in_header, text.is_empty()) {
            (true, true, _) => ".",
            (true, false, true) => "header ",
            (true, false, false) => " header ",
            (false, _, true) => "",
            (false, _, false) => " ",
        };
        text += &token_word(token);
        in_header = is_header;
    }
    text
}

/// Tokens one by one, with their kind: `h` of a header, whose bytes stand together, `d` data, `c`
/// control.
pub fn chips(words: impl Iterator<Item = u32>) -> Vec<(&'static str, String)> {
    let mut chips: Vec<(&str, String)> = Vec::new();
    for token in words.filter_map(Token::from_word) {
        let kind = match (token.header, token.kind) {
            (Some(_), _) => "h",
            (None, Kind::Data) => "d",
            (None, Kind::Control) => "c",
        };
        match chips.last_mut() {
            Some(("h", bytes)) if kind == "h" => *bytes += &format!(".{}", token_word(token)),
            _ => chips.push((kind, token_word(token))),
        }
    }
    chips
}

/// A token alone: `25` of a header, `42`, `END`.
pub fn token_word(token: Token) -> String {
    match (token.header, token.kind) {
        (Some(_), _) => format!("{:02X}", token.value),
        (None, Kind::Data) => token.value.to_string(),
        (None, Kind::Control) => control_word(token.value),
    }
}

/// The control tokens of a message to a control unit: the first one of a write, and of a read.
pub const WRITEC: u8 = 0xC0;
pub const READC: u8 = 0xC1;

/// The names that the documents give to control tokens.
pub const CONTROLS: [(&str, u8); 6] = [
    ("END", END),
    ("PAUSE", 0x02),
    ("ACK", 0x03),
    ("NACK", 0x04),
    ("WRITEC", WRITEC),
    ("READC", READC),
];

/// The names of those that are on lines alone: no program puts them out, and no port holds them.
const LINE_CONTROLS: [(&str, u8); 4] = [
    ("CREDIT8", 0xE0),
    ("CREDIT16", 0xE4),
    ("CREDIT64", 0xE1),
    ("HELLO", 0xE6),
];

/// What a control token without a name is written with, before its value.
pub const UNNAMED: &str = "control-";

fn control_word(value: u8) -> String {
    let mut names = CONTROLS.iter().chain(&LINE_CONTROLS);
    match names.find(|(_, known)| *known == value) {
        Some((name, _)) => (*name).to_owned(),
        None => format!("{UNNAMED}{value}"),
    }
}
