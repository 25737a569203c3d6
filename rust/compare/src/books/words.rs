//! What document 01 says of single tokens, headers and numbers, as far as a watcher has to know it.
//! Written down once more here, so that the watcher asks neither the library nor the model.

use bench::{Destination, Kind, Token, Width};

/// "0x01 END and 0x02 PAUSE"
const END: u8 = 0x01;
const PAUSE: u8 = 0x02;
/// "ACK 0x03", "NACK 0x04"
const ACK: u8 = 0x03;
const NACK: u8 = 0x04;
/// "WRITEC 0xC0", "READC 0xC1", "SSCTRL 0xC3"
const WRITEC: u8 = 0xC0;
const READC: u8 = 0xC1;
const SSCTRL: u8 = 0xC3;
/// "Channel 255 is the sink"
pub const SINK: u32 = 255;
/// "a channel 0..31"
pub const CHANNELS: u32 = 32;

/// A token outside any header.
pub fn plain(kind: Kind, value: u8) -> Token {
    Token {
        kind,
        value,
        header: None,
    }
}

pub fn is_pause(token: Token) -> bool {
    token == plain(Kind::Control, PAUSE)
}

/// "PAUSE and END both end it."
pub fn ends_circuit(token: Token) -> bool {
    is_pause(token) || token == plain(Kind::Control, END)
}

/// "CREDIT8 0xE0", "CREDIT64 0xE1", "CREDIT16 0xE4", which are on lines alone.
pub fn is_credit(token: Token) -> bool {
    let credits = [0xE0, 0xE1, 0xE4].map(|value| plain(Kind::Control, value));
    credits.contains(&token)
}

/// "HELLO 0xE6", which is on lines alone.
pub fn is_hello(token: Token) -> bool {
    token == plain(Kind::Control, 0xE6)
}

/// A width as Set has it, as the mark of a header token.
pub fn width(bytes: u32) -> Option<Width> {
    match bytes {
        1 => Some(Width::One),
        3 => Some(Width::Three),
        _ => None,
    }
}

/// "sixteen bits at three-byte width, the low three at one-byte width"
pub fn compared(number: u32, width: u32) -> u32 {
    let bits = if width == 1 { 3 } else { 16 };
    number & ((1 << bits) - 1)
}

pub fn number(destination: Destination) -> u32 {
    match destination {
        Destination::Channel { number, .. } | Destination::Control { number } => number,
    }
}

/// "Three-byte header: number high byte, number low byte, channel. One-byte header: the low three
/// bits of the number times 32, plus a channel 0..31. A destination that is a switch's control unit
/// has the two number bytes, then control SSCTRL 0xC3; it exists at three-byte width only." None
/// where the width has no header for the destination.
pub fn header(destination: Destination, bytes: u32) -> Option<Vec<Token>> {
    let mark = width(bytes)?;
    let [.., high, low] = number(destination).to_be_bytes();
    let number = [high, low].map(|byte| plain(Kind::Data, byte));
    let bare = match (mark, destination) {
        (Width::One, Destination::Channel { number, channel }) if channel < CHANNELS => {
            let value = compared(number, 1) * CHANNELS + channel;
            vec![plain(Kind::Data, u8::try_from(value).ok()?)]
        }
        (Width::One, _) => return None,
        (Width::Three, Destination::Channel { channel, .. }) => {
            let last = plain(Kind::Data, u8::try_from(channel).ok()?);
            vec![number[0], number[1], last]
        }
        (Width::Three, Destination::Control { .. }) => {
            vec![number[0], number[1], plain(Kind::Control, SSCTRL)]
        }
    };
    let marked = bare.into_iter().map(|token| Token {
        header: Some(mark),
        ..token
    });
    Some(marked.collect())
}

/// "A known reply address (command and three data bytes, channel 0..31 or 255)", of what was put
/// out to a control unit.
pub fn reply_address(message: &[Token]) -> Option<Destination> {
    let [command, high, low, channel, ..] = *message else {
        return None;
    };
    let commands = [WRITEC, READC].map(|command| plain(Kind::Control, command));
    let bytes = [high, low, channel];
    let known = commands.contains(&command) && bytes.iter().all(is_data);
    let channel = u32::from(channel.value);
    let number = u32::from(high.value) * 256 + u32::from(low.value);
    let there = channel < CHANNELS || channel == SINK;
    (known && there).then_some(Destination::Channel { number, channel })
}

fn is_data(token: &Token) -> bool {
    *token == plain(Kind::Data, token.value)
}

/// "Replies: header, ACK 0x03, four data bytes for a read, END. [...] NACK 0x04, END": a reply
/// without its header.
pub fn is_reply(tokens: &[Token]) -> bool {
    let [ack, nack, end] = [ACK, NACK, END].map(|value| plain(Kind::Control, value));
    match tokens {
        [first, data @ .., last] if *last == end => match data.len() {
            0 => *first == ack || *first == nack,
            4 => *first == ack && data.iter().all(is_data),
            _ => false,
        },
        _ => false,
    }
}

/// Tokens as one reads them: data in two digits, control with a c, header tokens with an h.
pub fn shown<'a>(tokens: impl IntoIterator<Item = &'a Token>) -> String {
    let each = tokens.into_iter().map(|token| {
        let control = if token.kind == Kind::Control { "c" } else { "" };
        let mark = token.header.map_or("", |width| match width {
            Width::One => "h1",
            Width::Three => "h3",
        });
        format!("{control}{:02X}{mark}", token.value)
    });
    format!("[{}]", each.collect::<Vec<_>>().join(" "))
}
