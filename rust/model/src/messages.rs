//! Switch messages: what a control unit hears, does and replies.

use crate::answers::{Answer, No};
use crate::network::{ControlUnit, Network};
use crate::registers;
use crate::set;
use crate::sizes::{HEARD, REPLY_PORT};
use crate::tokens::{header, is_channel, Destination, Token, ACK, END, NACK, READC, WRITEC};

/// The control unit hears one token of a message that goes on.
pub(crate) fn hear(unit: &mut ControlUnit, token: Token) {
    if unit.heard.len() < HEARD {
        unit.heard.push(token);
    }
}

/// What a message with a known reply address asks for.
#[derive(Clone, Copy, Debug, PartialEq, Eq)]
pub enum Request {
    Write {
        address: u32,
        data: u32,
    },
    Read {
        address: u32,
    },
    /// "anything else wrong"
    Wrong,
}

/// The message has ended and its hop is closed. "The hop closes first, with any
/// grant that the taking of its last token brings, then the write is made, whole or
/// not at all." Answers Moved, Malformed or Unheard.
pub(crate) fn end(network: &mut Network, slot: usize, last: Token) -> Answer {
    let heard = std::mem::take(&mut network.nodes[slot].control_unit.heard);
    match reply_address(&heard) {
        Some(address) if !last.is_pause() => {
            let reply = obey(network, slot, request(&heard));
            put_reply(network, slot, address, reply)
        }
        _ => Answer::Malformed,
    }
}

/// "A known reply address (command and three data bytes, channel 0..31 or 255)".
pub fn reply_address(heard: &[Token]) -> Option<Destination> {
    let (command, rest) = heard.split_first()?;
    if !command.is_control(WRITEC) && !command.is_control(READC) {
        return None;
    }
    let address = bytes(rest.get(..3)?)?;
    let channel = (address & 0xFF) as usize;
    let number = address >> 8;
    is_channel(channel).then_some(Destination::Channel { number, channel })
}

/// "Write: WRITEC 0xC0, two bytes reply number, one reply channel, two address,
/// four data, END. Read: READC 0xC1, the same without data. All multi-byte values
/// high byte first."
pub fn request(heard: &[Token]) -> Request {
    let command = heard.first().copied();
    let fields = heard.get(4..).and_then(|behind| match behind.len() {
        2 => Some((bytes(behind)?, None)),
        6 => Some((bytes(&behind[..2])?, Some(bytes(&behind[2..])?))),
        _ => None,
    });
    match fields {
        Some((address, Some(data))) if command == Some(Token::control(WRITEC)) => {
            Request::Write { address, data }
        }
        Some((address, None)) if command == Some(Token::control(READC)) => {
            Request::Read { address }
        }
        _ => Request::Wrong,
    }
}

/// Up to four data tokens as one value, high byte first; none if one of them is no
/// data token.
fn bytes(tokens: &[Token]) -> Option<u32> {
    tokens.iter().try_fold(0, |value, token| {
        token
            .is_data()
            .then_some(value << 8 | u32::from(token.value))
    })
}

/// Does what is asked, and gives the reply without its header. "Replies: header,
/// ACK 0x03, four data bytes for a read, END. [...] anything else wrong, an unknown
/// address, or a write that Set would refuse: NACK 0x04, END, nothing changed."
fn obey(network: &mut Network, slot: usize, request: Request) -> Vec<Token> {
    let end = Token::control(END);
    let nack = vec![Token::control(NACK), end];
    let mut reply = vec![Token::control(ACK)];
    match request {
        Request::Write { address, data } => {
            if write(network, slot, address, data).is_err() {
                return nack;
            }
        }
        Request::Read { address } => {
            let Some(value) = registers::read(&network.nodes[slot], address) else {
                return nack;
            };
            reply.extend(value.to_be_bytes().map(Token::data));
        }
        Request::Wrong => return nack,
    }
    reply.push(end);
    reply
}

/// A write, "whole or not at all": its fields are tried as Sets on a copy, one
/// after the other, and the first refusal gives all up (open point 48).
fn write(network: &mut Network, slot: usize, address: u32, data: u32) -> Result<(), No> {
    let settings = registers::settings(address, data).ok_or(No::NoSuch)?;
    let mut copy = network.clone();
    for setting in settings {
        set::set(&mut copy, slot, setting)?;
    }
    *network = copy;
    Ok(())
}

/// "The reply's header has the width the node has after the write; if that width
/// cannot carry the reply channel there is no reply and the answer says Unheard."
fn put_reply(
    network: &mut Network,
    slot: usize,
    address: Destination,
    reply: Vec<Token>,
) -> Answer {
    let node = &mut network.nodes[slot];
    let Some(header) = header(address, node.width) else {
        return Answer::Unheard;
    };
    let tokens = &mut node.ports[REPLY_PORT].tokens;
    tokens.extend(header);
    tokens.extend(reply);
    Answer::Moved
}
