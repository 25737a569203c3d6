//! What is told next: lines of places, to which facts are added until something else is told.

use bench::Kind;

use super::word;
use crate::facts::runs;
use crate::names::{counted, tokens};

/// How a line is meant.
#[derive(Clone, Copy, Debug, PartialEq, Eq, PartialOrd, Ord)]
pub enum Tone {
    Plain,
    Heading,
    Waits,
    Bad,
}

impl Tone {
    /// The text as a terminal shows it.
    pub fn painted(self, text: &str) -> String {
        let code = match self {
            Tone::Plain => return text.to_owned(),
            Tone::Heading => "1",
            Tone::Waits => "33",
            Tone::Bad => "31",
        };
        format!("\x1b[{code}m{text}\x1b[0m")
    }
}

/// What came of one call, or of several alike.
#[derive(Clone, Debug, PartialEq, Eq)]
pub enum Fact {
    Said(String),
    /// The first of a circuit, or of what is sent: it begins a line.
    Begins(String),
    /// A Step of a list was refused.
    Refused(String),
    /// Bits of a board that lead to a direction.
    Leads {
        bits: Vec<u32>,
        direction: u32,
    },
    /// Tokens that were put out or taken: `takes 12 7 END`.
    Listed {
        what: &'static str,
        words: Vec<u32>,
    },
    /// Tokens of a circuit: `6 tokens moved: header 00.00.07 12 7 END`.
    Counted {
        what: String,
        words: Vec<u32>,
    },
}

/// So many tokens are listed.
const MOST_LISTED: usize = 24;

impl Fact {
    /// A token that is put out or taken.
    pub fn token(what: &'static str, kind: Kind, value: u8) -> Fact {
        let words = vec![word(kind, value)];
        Fact::Listed { what, words }
    }

    /// Adds another to this one, where they are alike.
    fn joins(&mut self, other: &Fact) -> bool {
        match (self, other) {
            (Fact::Said(said), Fact::Said(again)) => return said == again,
            (
                Fact::Leads { bits, direction },
                Fact::Leads {
                    bits: more,
                    direction: same,
                },
            ) if direction == same && bits.last() < more.first() => bits.extend(more),
            (
                Fact::Listed { what, words },
                Fact::Listed {
                    what: same,
                    words: more,
                },
            ) if what == same => words.extend(more),
            (
                Fact::Counted { what, words },
                Fact::Counted {
                    what: same,
                    words: more,
                },
            ) if what == same => words.extend(more),
            _ => return false,
        }
        true
    }

    fn text(&self) -> String {
        match self {
            Fact::Said(said) | Fact::Begins(said) | Fact::Refused(said) => said.clone(),
            Fact::Leads { bits, direction } => match bits[..] {
                [bit] => format!("bit {bit} leads to direction {direction}"),
                _ => format!("bits {} lead to direction {direction}", runs(bits)),
            },
            Fact::Listed { what, words } => format!("{what} {}", listed(words)),
            Fact::Counted { what, words } => {
                let count = counted(words.len(), "token");
                format!("{count} {what}: {}", listed(words))
            }
        }
    }
}

fn listed(words: &[u32]) -> String {
    let first = tokens(words.iter().copied().take(MOST_LISTED));
    match words.len() > MOST_LISTED {
        true => first + " ..",
        false => first,
    }
}

/// A place, and what was done there.
#[derive(Clone, Debug)]
pub struct Line {
    place: String,
    facts: Vec<Fact>,
    tone: Tone,
}

impl Line {
    pub fn tone(&self) -> Tone {
        self.tone
    }

    pub fn text(&self) -> String {
        let facts: Vec<String> = self.facts.iter().map(Fact::text).collect();
        format!("{}: {}", self.place, facts.join("; "))
    }
}

/// Lines that are not told yet.
#[derive(Clone, Debug, Default)]
pub struct Story {
    lines: Vec<Line>,
    /// Whether nothing was added since the script's last line began.
    at_boundary: bool,
}

impl Story {
    /// The calls that follow are another line's of the script: only the place that was the last one
    /// goes on.
    pub fn next_line(&mut self) {
        self.at_boundary = true;
    }

    /// Whether what stands here is to be told before this is added.
    pub fn is_elsewhere(&self, place: &str, fact: &Fact) -> bool {
        let is_there = self.lines.iter().any(|line| line.place == place);
        let goes_on = self.lines.last().is_some_and(|line| line.place == place);
        let begins = matches!(fact, Fact::Begins(_));
        (self.at_boundary && !goes_on) || (begins && is_there)
    }

    pub fn add(&mut self, place: String, fact: Fact, tone: Tone) {
        self.at_boundary = false;
        let Some(line) = self.lines.iter_mut().find(|line| line.place == place) else {
            let facts = vec![fact];
            return self.lines.push(Line { place, facts, tone });
        };
        line.tone = line.tone.max(tone);
        let joined = line.facts.last_mut().is_some_and(|last| last.joins(&fact));
        if !joined {
            line.facts.push(fact);
        }
    }

    /// All that is to be told, and nothing is left.
    pub fn take(&mut self) -> Vec<Line> {
        std::mem::take(&mut self.lines)
    }
}
