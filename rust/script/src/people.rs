//! Words for people: lines above the plain format, each of which stands for plain calls.
//!
//! What such a line stands for is fixed when it is read, but for what the network says at the time:
//! a board's number, where a board is named as a destination or for a reply, which Steps `settle`
//! makes, and what is on the lines of a cable on which HELLO is said. A HELLO of such a line, where it
//! is not refused, is followed by line steps until both lines of its cable are empty: who says it means
//! that the link is greeted and has its credit by then.

mod reading;

use bench::{raw, Destination, Kind, LinkEnd, Looks, Refusal, Setting};

use crate::answer::Answer;
use crate::call::Call;
use crate::names::{END, READC, WRITEC};
pub use reading::read_words;

/// The words as a line has them, by the first of them.
pub const FORMS: [(&str, &str); 12] = [
    ("fresh", "fresh BOARDS"),
    ("blank", "blank BOARDS"),
    (
        "board",
        "board NAME SLOT [number NUMBER] [width WIDTH], or board BOARD [number NUMBER] [width WIDTH]",
    ),
    ("cable", "cable BOARD.LINK BOARD.LINK"),
    (
        "route",
        "route BOARD bit BIT -> direction DIRECTION, or route BOARD bit FIRST..LAST -> direction DIRECTION",
    ),
    (
        "link",
        "link BOARD.LINK [direction DIRECTION] [network NETWORK] [enable] [disable] [hello]",
    ),
    (
        "send",
        "send BOARD.CHANNELEND to BOARD.CHANNEL [on network NETWORK]: TOKEN TOKEN .., or send BOARD.CHANNELEND: TOKEN TOKEN ..",
    ),
    (
        "message",
        "message BOARD.CHANNELEND to BOARD [on network NETWORK]: write ADDRESS VALUE, or message BOARD.CHANNELEND to BOARD [on network NETWORK]: read ADDRESS",
    ),
    (
        "receive",
        "receive BOARD.CHANNELEND: TOKEN TOKEN .., or receive BOARD.CHANNELEND: nothing",
    ),
    ("step", "step BOARD.PORT COUNT times"),
    ("line", "line BOARD.LINK COUNT times"),
    ("settle", "settle"),
];

/// A channel-end of a board.
#[derive(Clone, Copy, Debug, PartialEq, Eq)]
pub struct End {
    pub slot: usize,
    pub channel_end: usize,
}

/// Whose number is meant.
#[derive(Clone, Copy, Debug, PartialEq, Eq)]
pub enum Whose {
    /// The one that the board in this slot has by then.
    Board(usize),
    Number(u32),
}

/// A token as a program puts it out.
#[derive(Clone, Copy, Debug, PartialEq, Eq)]
pub struct Put {
    pub kind: Kind,
    pub value: u8,
}

/// What a message asks of a control unit.
#[derive(Clone, Copy, Debug, PartialEq, Eq)]
pub enum Request {
    Read { address: u16 },
    Write { address: u16, value: u32 },
}

/// What a line of words stands for.
#[derive(Clone, Debug, PartialEq, Eq)]
pub enum Word {
    /// These calls, whatever the network is like.
    Calls(Vec<Call>),
    /// Direction entries of a board, from a bit to a bit.
    Route {
        slot: usize,
        bits: (u32, u32),
        direction: u32,
    },
    /// So many Steps of a port, or of a line.
    Times { step: Call, count: usize },
    /// A board's settings; a name for it, where this line gives it one.
    Board {
        name: Option<String>,
        slot: usize,
        settings: Vec<Setting>,
    },
    /// A cable that is ready for use.
    Cable { one: LinkEnd, other: LinkEnd },
    Send {
        from: End,
        /// Where to, a channel of a board, and on which network; none where the channel-end is
        /// aimed already.
        to: Option<(Whose, u32, u32)>,
        tokens: Vec<Put>,
    },
    Message {
        from: End,
        to: Whose,
        network: u32,
        request: Request,
    },
    /// Inputs, and what they must answer: these tokens, or that nothing is held.
    Receive { end: End, tokens: Option<Vec<Put>> },
    /// Rounds of Steps, of ports and of lines, until nothing changes.
    Settle,
}

impl Word {
    /// Whether a channel-end is to hold nothing.
    pub fn expects_nothing(&self) -> bool {
        matches!(self, Word::Receive { tokens: None, .. })
    }
}

/// A start of so many boards, with the memories that these need.
pub fn start(name: &str, nodes: usize) -> Call {
    let memory_words = nodes.saturating_mul(raw::memory_words());
    let line_words = nodes.saturating_mul(raw::line_words());
    match name {
        "fresh" => Call::Fresh {
            nodes,
            memory_words,
            line_words,
        },
        _ => Call::Blank {
            nodes,
            memory_words,
            line_words,
        },
    }
}

/// A board's settings, in the order written.
pub fn board(slot: usize, settings: &[Setting]) -> Vec<Call> {
    let set = |setting: &Setting| Call::Set {
        slot,
        setting: *setting,
    };
    settings.iter().map(set).collect()
}

/// The cable, both ends enabled, HELLO from both.
pub fn cable(one: LinkEnd, other: LinkEnd) -> Vec<Call> {
    let enabled = |LinkEnd { slot, link }| {
        let setting = Setting::Enable { link, value: 1 };
        Call::Set { slot, setting }
    };
    let hello = |LinkEnd { slot, link }| Call::Hello { slot, link };
    let wire = Call::Wire { one, other };
    vec![wire, enabled(one), enabled(other), hello(one), hello(other)]
}

/// The lines of the cable at a link, its own first; none where there is no cable.
pub fn lines_at(looks: Looks, end: LinkEnd) -> Vec<LinkEnd> {
    let far = looks.link(end.slot, end.link).far();
    let far = far.map(|(slot, link)| LinkEnd {
        slot: slot as usize,
        link: link as usize,
    });
    far.into_iter().flat_map(|far| [end, far]).collect()
}

impl Whose {
    /// The number, as the network is now.
    fn number(self, looks: Looks) -> u32 {
        match self {
            Whose::Board(slot) => looks.node(slot).number,
            Whose::Number(number) => number,
        }
    }
}

/// The entries of these bits.
pub fn route(slot: usize, bits: (u32, u32), value: u32) -> Vec<Call> {
    let set = |bit| Call::Set {
        slot,
        setting: Setting::Direction { bit, value },
    };
    (bits.0..=bits.1).map(set).collect()
}

/// An Input for each token, and what it must answer; a line may have very many.
pub fn receive(end: End, tokens: Option<Vec<Put>>) -> impl Iterator<Item = (Call, Answer)> {
    let input = move |kind| Call::Input {
        slot: end.slot,
        channel_end: end.channel_end,
        kind,
    };
    let nothing = (input(Kind::Data), Answer::No(Refusal::Empty));
    let nothing = tokens.is_none().then_some(nothing);
    let taken = tokens.into_iter().flatten();
    let taken = taken.map(move |put| (input(put.kind), Answer::Token(put.value)));
    taken.chain(nothing)
}

impl End {
    fn aim(self, destination: Destination, network: u32) -> Call {
        Call::Aim {
            slot: self.slot,
            channel_end: self.channel_end,
            destination,
            network,
        }
    }

    fn output(self, put: Put) -> Call {
        Call::Output {
            slot: self.slot,
            channel_end: self.channel_end,
            kind: put.kind,
            value: put.value,
        }
    }

    fn outputs(self, tokens: Vec<Put>) -> impl Iterator<Item = Call> {
        tokens.into_iter().map(move |put| self.output(put))
    }
}

/// An Aim, where a destination is named, and an Output for each token, of which a line may have very
/// many.
pub fn send(
    looks: Looks,
    from: End,
    to: Option<(Whose, u32, u32)>,
    tokens: Vec<Put>,
) -> impl Iterator<Item = Call> + use<> {
    let aim = to.map(|(whose, channel, network)| {
        let number = whose.number(looks);
        from.aim(Destination::Channel { number, channel }, network)
    });
    aim.into_iter().chain(from.outputs(tokens))
}

/// An Aim at a control unit and the message: the command, where the reply goes (here), the
/// register's address, of a write its value, and END; the high byte of each first.
pub fn message(looks: Looks, from: End, to: Whose, network: u32, request: Request) -> Vec<Call> {
    let number = to.number(looks);
    let [.., high, low] = looks.node(from.slot).number.to_be_bytes();
    let channel = from.channel_end.to_le_bytes()[0];
    let (command, address, value) = match request {
        Request::Read { address } => (READC, address, None),
        Request::Write { address, value } => (WRITEC, address, Some(value)),
    };
    let mut data = vec![high, low, channel];
    data.extend(address.to_be_bytes());
    data.extend(value.into_iter().flat_map(u32::to_be_bytes));
    let control = |value| Put {
        kind: Kind::Control,
        value,
    };
    let byte = |value| Put {
        kind: Kind::Data,
        value,
    };
    let mut tokens = vec![control(command)];
    tokens.extend(data.into_iter().map(byte));
    tokens.push(control(END));
    let aim = from.aim(Destination::Control { number }, network);
    std::iter::once(aim).chain(from.outputs(tokens)).collect()
}
