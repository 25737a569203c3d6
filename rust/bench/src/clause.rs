//! The clauses of document 01's list "Sound", and what document 02 adds to it.

use std::error::Error;
use std::fmt;

/// A clause that a memory fails, by its number (docs/ARCHITECTURE.md, "Sound").
///
/// ```
/// let clause = bench::Clause::from_number(6).unwrap();
/// assert_eq!(clause.to_string(), "clause 6: cables agree at both ends");
/// assert_eq!(bench::Clause::from_number(0), None);
/// ```
#[derive(Clone, Copy, Debug, PartialEq, Eq, PartialOrd, Ord, Hash)]
pub struct Clause(usize);

/// What each asks, in the paper's words where it has them.
const TEXTS: [&str; 15] = [
    "the memories have the lengths of 1 to 16 nodes",
    "counts within their limits",
    "credit only where greeted",
    "greeted only where wired with both ends enabled",
    "credit plus tokens held at the far end at most 64, with what is on the lines between",
    "cables agree at both ends",
    "tokens and headers in ports, with the lines to them, are legal and stand where they may",
    "tokens in channel-ends and control units are legal",
    "a port's output names that port back and no other",
    "each claim names one circuit that exists",
    "each open channel-end names one circuit that exists",
    "port 12 is empty while the control unit serves a circuit",
    "one credit and one HELLO at most on a line",
    "what a link has issued is credit or tokens that are on their way",
    "an end without a cable has nothing on its line and nothing issued",
];

impl Clause {
    /// The clause of that number, 1..15.
    pub fn from_number(number: u32) -> Option<Clause> {
        let number = number as usize;
        (1..=TEXTS.len())
            .contains(&number)
            .then_some(Clause(number))
    }

    pub fn number(self) -> usize {
        self.0
    }

    /// What it asks.
    pub fn text(self) -> &'static str {
        TEXTS[self.0 - 1]
    }
}

impl fmt::Display for Clause {
    fn fmt(&self, f: &mut fmt::Formatter<'_>) -> fmt::Result {
        write!(f, "clause {}: {}", self.number(), self.text())
    }
}

/// What is wrong with a memory, for a host that goes no further with it.
impl Error for Clause {}
