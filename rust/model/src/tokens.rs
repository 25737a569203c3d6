//! Tokens, control classes and headers.

use std::collections::VecDeque;

use crate::sizes::CHANNELS;

/// Control token that ends a circuit and is handed on.
pub const END: u8 = 0x01;
/// Control token that ends a circuit and is never handed to a program.
pub const PAUSE: u8 = 0x02;
/// First token of a reply to a message that was obeyed.
pub const ACK: u8 = 0x03;
/// First token of a reply to a message that was not obeyed.
pub const NACK: u8 = 0x04;
/// First token of a write message.
pub const WRITEC: u8 = 0xC0;
/// First token of a read message.
pub const READC: u8 = 0xC1;
/// Third token of a header towards a switch's control unit.
pub const SSCTRL: u8 = 0xC3;

/// "Give additional 8 tokens of credit", on a line only, as are the three below.
pub const CREDIT8: u8 = 0xE0;
/// "Give additional 64 tokens of credit"
pub const CREDIT64: u8 = 0xE1;
/// "Give additional 16 tokens of credit"
pub const CREDIT16: u8 = 0xE4;
/// "Say hello and solicit credits"
pub const HELLO: u8 = 0xE6;

/// "Channel 255 is the sink: it takes and forgets."
pub const SINK: usize = 255;

/// One-byte width, as Set and Output know it.
pub const ONE_BYTE: u32 = 1;
/// Three-byte width.
pub const THREE_BYTES: u32 = 3;

/// A token is data or control.
#[derive(Clone, Copy, Debug, PartialEq, Eq, Hash)]
pub enum Kind {
    Data,
    Control,
}

/// The classes of control tokens.
#[derive(Clone, Copy, Debug, PartialEq, Eq)]
pub enum Class {
    Application,
    Special,
    Privileged,
    Hardware,
}

/// "Control tokens: 0x00..0x7F application [...]; 0x80..0xBF special;
/// 0xC0..0xDF privileged; 0xE0..0xFF hardware."
pub fn class(control: u8) -> Class {
    match control {
        0x00..=0x7F => Class::Application,
        0x80..=0xBF => Class::Special,
        0xC0..=0xDF => Class::Privileged,
        0xE0..=0xFF => Class::Hardware,
    }
}

/// A token as the bench holds it. "Each header token held in the bench is marked
/// as a header and with its width."
#[derive(Clone, Copy, Debug, PartialEq, Eq)]
pub struct Token {
    pub kind: Kind,
    pub value: u8,
    /// The width of the header that this token is part of, if it is.
    pub header: Option<u32>,
}

impl Token {
    /// A token outside any header.
    pub fn plain(kind: Kind, value: u8) -> Token {
        let header = None;
        Token {
            kind,
            value,
            header,
        }
    }

    /// A data token outside any header.
    pub fn data(value: u8) -> Token {
        Token::plain(Kind::Data, value)
    }

    /// A control token outside any header.
    pub fn control(value: u8) -> Token {
        Token::plain(Kind::Control, value)
    }

    /// The same token, marked as part of a header of that width.
    pub fn in_header(self, width: u32) -> Token {
        let header = Some(width);
        Token { header, ..self }
    }

    /// Is it the control token of that value, outside any header?
    pub fn is_control(&self, value: u8) -> bool {
        *self == Token::control(value)
    }

    /// Is it a data token outside any header?
    pub fn is_data(&self) -> bool {
        self.kind == Kind::Data && self.header.is_none()
    }

    /// Is it PAUSE?
    pub fn is_pause(&self) -> bool {
        self.is_control(PAUSE)
    }

    /// "END and PAUSE close the hop."
    pub fn ends_circuit(&self) -> bool {
        self.is_control(END) || self.is_control(PAUSE)
    }
}

/// Where a circuit is to go: "number with channel 0..31 or 255, or number's
/// control unit".
#[derive(Clone, Copy, Debug, PartialEq, Eq)]
pub enum Destination {
    Channel { number: u32, channel: usize },
    Control { number: u32 },
}

impl Destination {
    /// The node number it names.
    pub fn number(&self) -> u32 {
        match *self {
            Destination::Channel { number, .. } | Destination::Control { number } => number,
        }
    }
}

/// The channels that a destination can name: 0..31 and the sink.
pub fn is_channel(channel: usize) -> bool {
    channel < CHANNELS || channel == SINK
}

/// The header of a circuit for that destination at that width, or none where the
/// width has no header for it.
///
/// "Three-byte header: number high byte, number low byte, channel. One-byte
/// header: the low three bits of the number times 32, plus a channel 0..31. A
/// destination that is a switch's control unit has the two number bytes, then
/// control SSCTRL 0xC3; it exists at three-byte width only."
pub fn header(destination: Destination, width: u32) -> Option<Vec<Token>> {
    let bare = match destination {
        Destination::Channel { number, channel } if width == ONE_BYTE => {
            one_byte_header(number, channel)?
        }
        Destination::Control { .. } if width == ONE_BYTE => return None,
        Destination::Channel { number, channel } => {
            three_byte_header(number, Token::data(u8::try_from(channel).ok()?))
        }
        Destination::Control { number } => three_byte_header(number, Token::control(SSCTRL)),
    };
    Some(bare.into_iter().map(|t| t.in_header(width)).collect())
}

fn one_byte_header(number: u32, channel: usize) -> Option<Vec<Token>> {
    let low_bits = number as usize % 8;
    (channel < CHANNELS).then(|| vec![Token::data((low_bits * CHANNELS + channel) as u8)])
}

fn three_byte_header(number: u32, last: Token) -> Vec<Token> {
    let high = Token::data(low_byte(number >> 8));
    let low = Token::data(low_byte(number));
    vec![high, low, last]
}

/// The lowest eight bits of a number.
pub fn low_byte(number: u32) -> u8 {
    (number & 0xFF) as u8
}

/// What stands at the front of a port that has no circuit.
#[derive(Clone, Copy, Debug, PartialEq, Eq)]
pub enum Front {
    /// "a header short of its tokens"
    Short,
    /// A whole header, with its width and what it asks for. At one-byte width the
    /// number is the three bits that the header has of it.
    Whole {
        width: u32,
        destination: Destination,
    },
}

/// Reads the header at the front of a port's tokens. What is not a legal header
/// counts as short; sound states hold no such thing.
pub fn read_header(tokens: &VecDeque<Token>) -> Front {
    let Some(width) = tokens.front().and_then(|first| first.header) else {
        return Front::Short;
    };
    let destination = if width == ONE_BYTE {
        tokens.front().map(|only| one_byte_destination(only.value))
    } else {
        three_byte_destination(tokens)
    };
    match destination {
        Some(destination) => Front::Whole { width, destination },
        None => Front::Short,
    }
}

fn one_byte_destination(value: u8) -> Destination {
    Destination::Channel {
        number: (usize::from(value) / CHANNELS) as u32,
        channel: usize::from(value) % CHANNELS,
    }
}

fn three_byte_destination(tokens: &VecDeque<Token>) -> Option<Destination> {
    let (high, low, last) = (tokens.front()?, tokens.get(1)?, tokens.get(2)?);
    let number = u32::from(high.value) * 256 + u32::from(low.value);
    Some(match last.kind {
        Kind::Control => Destination::Control { number },
        Kind::Data => Destination::Channel {
            number,
            channel: usize::from(last.value),
        },
    })
}
