//! Calls with their arguments, and how they are written.

use std::fmt;

use bench::{Destination, Kind, LinkEnd, Setting, StepRecord};

/// A call with its arguments, which may be out of range: that is what refusals are for.
#[derive(Clone, Debug, PartialEq, Eq)]
pub enum Call {
    /// The start of boards as the boot ROM leaves them, with links E..H enabled.
    Fresh {
        nodes: usize,
        memory_words: usize,
        line_words: usize,
    },
    /// The start with every link disabled.
    Blank {
        nodes: usize,
        memory_words: usize,
        line_words: usize,
    },
    Wire {
        one: LinkEnd,
        other: LinkEnd,
    },
    Set {
        slot: usize,
        setting: Setting,
    },
    /// Written as the setting `hello`.
    Hello {
        slot: usize,
        link: usize,
    },
    Aim {
        slot: usize,
        channel_end: usize,
        destination: Destination,
        network: u32,
    },
    Output {
        slot: usize,
        channel_end: usize,
        kind: Kind,
        value: u8,
    },
    Input {
        slot: usize,
        channel_end: usize,
        kind: Kind,
    },
    Step {
        slot: usize,
        port: usize,
    },
    /// One off the far end of the line that starts at a link.
    Line {
        slot: usize,
        link: usize,
    },
    /// A list of Steps, with room for so many results.
    Steps {
        results: usize,
        list: Vec<StepRecord>,
    },
}

/// The calls as a line has them, by their first word.
pub const FORMS: [(&str, &str); 10] = [
    ("fresh", "fresh NODES MEMORY_WORDS lines LINE_WORDS"),
    ("blank", "blank NODES MEMORY_WORDS lines LINE_WORDS"),
    ("wire", "wire SLOT LINK SLOT LINK"),
    ("set", "set SLOT SETTING INDEX VALUE"),
    (
        "aim",
        "aim SLOT CHANNELEND channel NUMBER CHANNEL NETWORK, or aim SLOT CHANNELEND control NUMBER 0 NETWORK",
    ),
    ("output", "output SLOT CHANNELEND data VALUE, or output SLOT CHANNELEND control VALUE"),
    ("input", "input SLOT CHANNELEND data, or input SLOT CHANNELEND control"),
    ("step", "step SLOT PORT"),
    ("line", "line SLOT LINK"),
    ("steps", "steps RESULTS SLOT PORT SLOT PORT .."),
];

/// The word for a kind of token.
fn kind_word(kind: Kind) -> &'static str {
    match kind {
        Kind::Data => "data",
        Kind::Control => "control",
    }
}

/// `START NODES MEMORY_WORDS lines LINE_WORDS`.
fn write_start(f: &mut fmt::Formatter<'_>, name: &str, numbers: [usize; 3]) -> fmt::Result {
    let [nodes, memory_words, line_words] = numbers;
    write!(f, "{name} {nodes} {memory_words} lines {line_words}")
}

/// `set SLOT SETTING INDEX VALUE`.
fn write_setting(f: &mut fmt::Formatter<'_>, slot: usize, setting: Setting) -> fmt::Result {
    let (name, index, value) = match setting {
        Setting::Number(value) => ("number", 0, value),
        Setting::Width(value) => ("width", 0, value),
        Setting::Direction { bit, value } => ("direction", bit as usize, value),
        Setting::LinkDirection { link, value } => ("linkdirection", link, value),
        Setting::Network { link, value } => ("network", link, value),
        Setting::Enable { link, value } => ("enable", link, value),
    };
    write!(f, "set {slot} {name} {index} {value}")
}

/// `channel NUMBER CHANNEL` or `control NUMBER 0`.
struct Aimed(Destination);

impl fmt::Display for Aimed {
    fn fmt(&self, f: &mut fmt::Formatter<'_>) -> fmt::Result {
        match self.0 {
            Destination::Channel { number, channel } => write!(f, "channel {number} {channel}"),
            Destination::Control { number } => write!(f, "control {number} 0"),
        }
    }
}

/// `steps RESULTS SLOT PORT SLOT PORT ..`.
fn write_list(f: &mut fmt::Formatter<'_>, results: usize, list: &[StepRecord]) -> fmt::Result {
    write!(f, "steps {results}")?;
    for StepRecord { slot, port } in list {
        write!(f, " {slot} {port}")?;
    }
    Ok(())
}

impl fmt::Display for Call {
    fn fmt(&self, f: &mut fmt::Formatter<'_>) -> fmt::Result {
        match *self {
            Call::Fresh {
                nodes,
                memory_words,
                line_words,
            } => write_start(f, "fresh", [nodes, memory_words, line_words]),
            Call::Blank {
                nodes,
                memory_words,
                line_words,
            } => write_start(f, "blank", [nodes, memory_words, line_words]),
            Call::Wire {
                one: LinkEnd { slot, link },
                other,
            } => write!(f, "wire {slot} {link} {} {}", other.slot, other.link),
            Call::Set { slot, setting } => write_setting(f, slot, setting),
            Call::Hello { slot, link } => write!(f, "set {slot} hello {link} 0"),
            Call::Aim {
                slot,
                channel_end: end,
                destination,
                network,
            } => write!(f, "aim {slot} {end} {} {network}", Aimed(destination)),
            Call::Output {
                slot,
                channel_end,
                kind,
                value,
            } => write!(f, "output {slot} {channel_end} {} {value}", kind_word(kind)),
            Call::Input {
                slot,
                channel_end,
                kind,
            } => write!(f, "input {slot} {channel_end} {}", kind_word(kind)),
            Call::Step { slot, port } => write!(f, "step {slot} {port}"),
            Call::Line { slot, link } => write!(f, "line {slot} {link}"),
            Call::Steps { results, ref list } => write_list(f, results, list),
        }
    }
}
