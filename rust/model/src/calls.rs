//! The calls, and the door through which each is made.

use crate::answers::{Answer, No};
use crate::credits::by_line;
use crate::lines::{line_words, Crossing};
use crate::network::{memory_words, Aim, LinkEnd, Network, Start};
use crate::output;
use crate::set::{self, Setting};
use crate::sizes::{HIGHEST_NETWORK, HIGHEST_NUMBER, MOST_NODES};
use crate::sound;
use crate::step;
use crate::tokens::{is_channel, Destination, Kind, Token};

/// A record of a list of steps: "each a slot and a port".
#[derive(Clone, Copy, Debug, PartialEq, Eq)]
pub struct StepRecord {
    pub slot: usize,
    pub port: usize,
}

/// A call with its arguments, which may be out of range: that is what refusals
/// are for.
#[derive(Clone, Debug, PartialEq, Eq)]
pub enum Call {
    Fresh {
        nodes: usize,
        memory_words: usize,
    },
    Blank {
        nodes: usize,
        memory_words: usize,
    },
    Wire {
        one: LinkEnd,
        other: LinkEnd,
    },
    Set {
        slot: usize,
        setting: Setting,
    },
    Aim {
        slot: usize,
        channel_end: usize,
        destination: Destination,
        network: u32,
    },
    Output {
        slot: usize,
        channel_end: usize,
        kind: Kind,
        value: u8,
    },
    Input {
        slot: usize,
        channel_end: usize,
        kind: Kind,
    },
    Step {
        slot: usize,
        port: usize,
    },
    Steps {
        /// The length of the results buffer that the host lends.
        results: usize,
        records: Vec<StepRecord>,
    },
    /// A start that is lent a second memory, for lines (document 02, Ask 4).
    WithLines {
        start: Start,
        nodes: usize,
        memory_words: usize,
        line_words: usize,
    },
    /// "a line step", of the line that starts at that end.
    Line {
        slot: usize,
        link: usize,
    },
}

impl From<StepRecord> for Call {
    /// The single Step that a record stands for.
    fn from(StepRecord { slot, port }: StepRecord) -> Call {
        Call::Step { slot, port }
    }
}

/// A start with its arguments.
#[derive(Clone, Copy, Debug, PartialEq, Eq)]
pub struct Beginning {
    pub start: Start,
    pub nodes: usize,
    pub memory_words: usize,
    /// The length of the second memory; none where tokens are to cross at once.
    pub line_words: Option<usize>,
}

impl From<Beginning> for Call {
    fn from(beginning: Beginning) -> Call {
        let Beginning {
            start,
            nodes,
            memory_words,
            line_words,
        } = beginning;
        match line_words {
            None => Call::beginning(start, nodes, memory_words),
            Some(line_words) => Call::WithLines {
                start,
                nodes,
                memory_words,
                line_words,
            },
        }
    }
}

impl Call {
    /// The call that begins a network so, in which tokens cross at once.
    pub fn beginning(start: Start, nodes: usize, memory_words: usize) -> Call {
        match start {
            Start::Fresh => Call::Fresh {
                nodes,
                memory_words,
            },
            Start::Blank => Call::Blank {
                nodes,
                memory_words,
            },
        }
    }

    /// What the call begins a network with, if it is one that does.
    pub fn begins(&self) -> Option<Beginning> {
        let (start, nodes, memory_words, line_words) = match *self {
            Call::Fresh {
                nodes,
                memory_words,
            } => (Start::Fresh, nodes, memory_words, None),
            Call::Blank {
                nodes,
                memory_words,
            } => (Start::Blank, nodes, memory_words, None),
            Call::WithLines {
                start,
                nodes,
                memory_words,
                line_words,
            } => (start, nodes, memory_words, Some(line_words)),
            _ => return None,
        };
        Some(Beginning {
            start,
            nodes,
            memory_words,
            line_words,
        })
    }

    /// How the call begins a network, if it is one that does.
    pub fn start(&self) -> Option<Start> {
        self.begins().map(|beginning| beginning.start)
    }
}

/// Makes a call. A refused call changes nothing.
pub fn apply(network: &mut Option<Network>, call: &Call) -> Answer {
    make(network, call).unwrap_or_else(Answer::No)
}

/// Every call but the starts and a list of steps looks first at whether the state is
/// sound.
fn make(state: &mut Option<Network>, call: &Call) -> Result<Answer, No> {
    if let Some(beginning) = call.begins() {
        return begin(state, beginning);
    }
    match call {
        Call::Steps { results, records } => steps(state, *results, records),
        _ => make_on(sound_network(state)?, call),
    }
}

/// Makes a call on a network that is known to be sound.
fn make_on(network: &mut Network, call: &Call) -> Result<Answer, No> {
    match *call {
        Call::Wire { one, other } => wire(network, one, other),
        Call::Set { slot, setting } => set::set(network, slot, setting),
        Call::Aim {
            slot,
            channel_end,
            destination,
            network: by,
        } => aim(network, slot, channel_end, Aim::new(destination, by)),
        Call::Output {
            slot,
            channel_end,
            kind,
            value,
        } => output::output(network, slot, channel_end, Token::plain(kind, value)),
        Call::Input {
            slot,
            channel_end,
            kind,
        } => input(network, slot, channel_end, kind),
        Call::Step { slot, port } => step::step(network, slot, port),
        Call::Line { slot, link } => by_line::step(network, LinkEnd { slot, link }),
        // They ask nothing of the state, and are not made here.
        Call::Fresh { .. } | Call::Blank { .. } | Call::WithLines { .. } | Call::Steps { .. } => {
            Err(No::Unsound)
        }
    }
}

/// Unsound: "memory of the wrong length, or (not Fresh) state that fails the list".
/// Before the first start that succeeds there is no network, and that is Unsound
/// too.
fn sound_network(state: &mut Option<Network>) -> Result<&mut Network, No> {
    let network = state.as_mut().ok_or(No::Unsound)?;
    if sound::is_sound(network) {
        Ok(network)
    } else {
        Err(No::Unsound)
    }
}

/// "Fresh: all nodes number 0, width three, directions 0, links unwired, disabled,
/// network 0; channel-ends unaimed; every token word 0. A node count outside 1..16
/// is NoSuch at any memory length." Both starts do that, and [`Start`] says in what
/// they differ. Where a second memory is lent it has its own length, and tokens cross
/// by line.
fn begin(network: &mut Option<Network>, beginning: Beginning) -> Result<Answer, No> {
    let Beginning { start, nodes, .. } = beginning;
    if !(1..=MOST_NODES).contains(&nodes) {
        return Err(No::NoSuch);
    }
    let words = beginning.memory_words;
    let lines = beginning.line_words;
    if memory_words(nodes) != Some(words) || lines.is_some_and(|l| line_words(nodes) != Some(l)) {
        return Err(No::Unsound);
    }
    let crossing = lines.map_or(Crossing::AtOnce, |line_words| Crossing::ByLine {
        line_words,
    });
    *network = Some(Network::crossed(start, nodes, words, crossing));
    Ok(Answer::Done)
}

/// "Wire: join two different link ends". Value is "a link joined to itself". "Wire is
/// Busy only for a wired end, no longer for an enabled one" (document 02, Ask 7):
/// whether an end is enabled or in use is not looked at. It greets nobody.
fn wire(network: &mut Network, one: LinkEnd, other: LinkEnd) -> Result<Answer, No> {
    let ends = [network.link(one)?, network.link(other)?];
    if one == other {
        return Err(No::Value);
    }
    if ends.iter().any(|end| end.far.is_some()) {
        return Err(No::Busy);
    }
    network.link_mut(one).far = Some(other);
    network.link_mut(other).far = Some(one);
    Ok(Answer::Done)
}

/// "Aim: a channel-end's destination (number with channel 0..31 or 255, or
/// number's control unit) and network." Open is "Aim between its opening Output
/// and that circuit's END or PAUSE".
fn aim(network: &mut Network, slot: usize, channel_end: usize, aim: Aim) -> Result<Answer, No> {
    let sending = network.channel_end(slot, channel_end)?.sending;
    if is_out_of_range(aim) {
        return Err(No::Value);
    }
    if sending.is_some() {
        return Err(No::Open);
    }
    network.nodes[slot].channel_ends[channel_end].aim = Some(aim);
    Ok(Answer::Done)
}

/// Value: "channel 32..254", and what lies beyond a byte, sixteen bits or network 3
/// (open point 17a).
fn is_out_of_range(aim: Aim) -> bool {
    let bad_channel = match aim.destination {
        Destination::Channel { channel, .. } => !is_channel(channel),
        Destination::Control { .. } => false,
    };
    bad_channel || aim.destination.number() > HIGHEST_NUMBER || aim.network > HIGHEST_NETWORK
}

/// "Input the next token as data or as control." Empty is "Input with nothing
/// held"; Trap is "Input of the wrong kind; the token stays".
fn input(network: &mut Network, slot: usize, channel_end: usize, kind: Kind) -> Result<Answer, No> {
    let held = &network.channel_end(slot, channel_end)?.tokens;
    let token = *held.front().ok_or(No::Empty)?;
    if token.kind != kind {
        return Err(No::Trap);
    }
    network.nodes[slot].channel_ends[channel_end]
        .tokens
        .pop_front();
    Ok(Answer::Token(token.value))
}

/// "does them in order and writes one result per record, as the same steps made one
/// by one; a refused record stops nothing. The list may be empty. Refusals: first, a
/// results buffer of another length than the list is NoSuch, and nothing is done;
/// Unsound is each record's own." So the call asks nothing of the state, and an empty
/// list is done on any.
fn steps(
    state: &mut Option<Network>,
    results: usize,
    records: &[StepRecord],
) -> Result<Answer, No> {
    if results != records.len() {
        return Err(No::NoSuch);
    }
    let each = records.iter().map(|record| apply(state, &(*record).into()));
    Ok(Answer::Results(each.collect()))
}
