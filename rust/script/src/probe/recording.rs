//! What a probe has recorded: levels at instants, as transitions with their times.

use std::error::Error;
use std::fmt;

use crate::words::{printable, Expected};

/// When something was so.
#[derive(Clone, Copy, Debug, PartialEq, Eq)]
pub enum Instant<'a> {
    /// In a VCD: so many steps of time.
    Steps { count: u64, scale: Scale },
    /// In a CSV: a line, and what its column of times has.
    Line { line: usize, time: Option<&'a str> },
}

/// How long a step of time is, where a VCD says it.
#[derive(Clone, Copy, Debug, PartialEq, Eq)]
pub struct Scale {
    pub factor: u64,
    pub unit: &'static str,
}

impl Scale {
    /// Steps of which nothing is known.
    pub const UNSAID: Scale = Scale {
        factor: 1,
        unit: "steps",
    };
}

impl fmt::Display for Instant<'_> {
    fn fmt(&self, f: &mut fmt::Formatter<'_>) -> fmt::Result {
        match *self {
            Instant::Steps { count, scale } => {
                let time = u128::from(count) * u128::from(scale.factor);
                write!(f, "time {time} {}", scale.unit)
            }
            Instant::Line { line, time: None } => write!(f, "line {line}"),
            Instant::Line {
                line,
                time: Some(time),
            } => write!(f, "line {line}, time {}", printable(time)),
        }
    }
}

/// Transitions, each with its time.
#[derive(Clone, Debug, Default, PartialEq, Eq)]
pub struct Recording<'a> {
    pub transitions: Vec<u8>,
    pub times: Vec<Instant<'a>>,
}

/// Why a recording has no transitions.
#[derive(Clone, Debug, PartialEq, Eq)]
#[non_exhaustive]
pub enum Unclear {
    /// The command line names wires that cannot be.
    Words(Expected),
    /// A line of the file is not what it should be.
    Line { line: usize, expected: Expected },
    /// No wire is called so, or more than one is.
    Wire { name: String, count: usize },
    /// Two wires change at one instant.
    Together { wires: [String; 2], time: String },
    /// A wire that had a level is neither high nor low.
    NoLevel { wire: String, time: String },
}

impl Unclear {
    /// Whether the file is a recording, which is refused for what it says.
    pub fn is_said(&self) -> bool {
        matches!(self, Unclear::Together { .. } | Unclear::NoLevel { .. })
    }
}

impl fmt::Display for Unclear {
    fn fmt(&self, f: &mut fmt::Formatter<'_>) -> fmt::Result {
        match self {
            Unclear::Words(expected) => write!(f, "{expected}"),
            Unclear::Line { line, expected } => write!(f, "line {line}: {expected}"),
            Unclear::Wire { name, count: 0 } => write!(f, "no wire {}", printable(name)),
            Unclear::Wire { name, count } => {
                write!(f, "{count} wires are called {}", printable(name))
            }
            Unclear::Together {
                wires: [one, other],
                time,
            } => {
                let (one, other) = (printable(one), printable(other));
                write!(f, "{time}: {one} and {other} change at one instant")
            }
            Unclear::NoLevel { wire, time } => {
                write!(f, "{time}: {} is neither high nor low", printable(wire))
            }
        }
    }
}

impl Error for Unclear {}

/// The wires of a recording while it is read.
pub struct Levels<'a, 'n> {
    names: &'n [&'n str],
    /// None while nothing is known of a wire.
    now: Vec<Option<bool>>,
    recording: Recording<'a>,
}

impl<'a, 'n> Levels<'a, 'n> {
    /// Wires that start so.
    pub fn starting(names: &'n [&'n str], now: Vec<Option<bool>>) -> Levels<'a, 'n> {
        let recording = Recording::default();
        Levels {
            names,
            now,
            recording,
        }
    }

    /// What the wires are at the next instant. A wire of which nothing was known starts there.
    pub fn become_at(&mut self, next: &[Option<bool>], time: Instant<'a>) -> Result<(), Unclear> {
        let mut changed = None;
        for (wire, (before, after)) in (0..).zip(self.now.iter_mut().zip(next)) {
            let is_change = matches!((*before, *after), (Some(one), Some(other)) if one != other);
            if before.is_some() && after.is_none() {
                return Err(no_level(self.names, wire, time));
            }
            *before = *after;
            if let (true, Some(first)) = (is_change, changed) {
                return Err(together(self.names, [first, wire], time));
            }
            changed = if is_change { Some(wire) } else { changed };
        }
        if let Some(wire) = changed {
            self.recording.transitions.push(wire);
            self.recording.times.push(time);
        }
        Ok(())
    }

    pub fn recording(self) -> Recording<'a> {
        self.recording
    }
}

fn name(names: &[&str], wire: u8) -> String {
    let name = names.get(usize::from(wire)).copied();
    name.unwrap_or_default().to_owned()
}

fn together(names: &[&str], wires: [u8; 2], time: Instant) -> Unclear {
    Unclear::Together {
        wires: wires.map(|wire| name(names, wire)),
        time: time.to_string(),
    }
}

fn no_level(names: &[&str], wire: u8, time: Instant) -> Unclear {
    Unclear::NoLevel {
        wire: name(names, wire),
        time: time.to_string(),
    }
}
