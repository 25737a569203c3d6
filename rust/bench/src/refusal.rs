//! The paper's numbers for no, and causes.

use std::error::Error;
use std::fmt;

/// "Numbers for no": why a call was refused. A refused call changes nothing.
///
/// ```
/// use bench::Refusal;
///
/// assert_eq!(Refusal::Full.number(), 10);
/// assert_eq!(Refusal::from_number(4), Some(Refusal::Busy));
/// assert_eq!(Refusal::Busy.to_string(), "no 4, Busy");
/// ```
#[derive(Clone, Copy, Debug, PartialEq, Eq, PartialOrd, Ord, Hash)]
#[non_exhaustive]
pub enum Refusal {
    Unsound = 1,
    NoSuch,
    Value,
    Busy,
    Unaimed,
    Open,
    Hardware,
    Privileged,
    Narrow,
    Full,
    Empty,
    Trap,
}

impl Refusal {
    /// All of them, by number.
    pub const ALL: [Refusal; 12] = [
        Refusal::Unsound,
        Refusal::NoSuch,
        Refusal::Value,
        Refusal::Busy,
        Refusal::Unaimed,
        Refusal::Open,
        Refusal::Hardware,
        Refusal::Privileged,
        Refusal::Narrow,
        Refusal::Full,
        Refusal::Empty,
        Refusal::Trap,
    ];

    /// The paper's number.
    pub fn number(self) -> u32 {
        self as u32
    }

    /// The paper's name.
    pub fn name(self) -> &'static str {
        match self {
            Refusal::Unsound => "Unsound",
            Refusal::NoSuch => "NoSuch",
            Refusal::Value => "Value",
            Refusal::Busy => "Busy",
            Refusal::Unaimed => "Unaimed",
            Refusal::Open => "Open",
            Refusal::Hardware => "Hardware",
            Refusal::Privileged => "Privileged",
            Refusal::Narrow => "Narrow",
            Refusal::Full => "Full",
            Refusal::Empty => "Empty",
            Refusal::Trap => "Trap",
        }
    }

    /// The refusal of that number.
    pub fn from_number(number: u32) -> Option<Refusal> {
        Refusal::ALL.into_iter().find(|no| no.number() == number)
    }
}

impl fmt::Display for Refusal {
    /// The number with the paper's name.
    fn fmt(&self, f: &mut fmt::Formatter<'_>) -> fmt::Result {
        write!(f, "no {}, {}", self.number(), self.name())
    }
}

impl Error for Refusal {}

/// Why a circuit was refused: of a Step, and no number.
#[derive(Clone, Copy, Debug, PartialEq, Eq, Hash)]
#[non_exhaustive]
pub enum Cause {
    Split,
    NoRoute,
}

impl Cause {
    /// The paper's name.
    ///
    /// ```
    /// assert_eq!(bench::Cause::NoRoute.to_string(), "NoRoute");
    /// ```
    pub fn name(self) -> &'static str {
        match self {
            Cause::Split => "Split",
            Cause::NoRoute => "NoRoute",
        }
    }

    /// The cause that crossed as this number.
    pub(crate) fn from_number(number: u32) -> Option<Cause> {
        match number {
            0 => Some(Cause::Split),
            1 => Some(Cause::NoRoute),
            _ => None,
        }
    }
}

impl fmt::Display for Cause {
    /// The paper's name.
    fn fmt(&self, f: &mut fmt::Formatter<'_>) -> fmt::Result {
        f.write_str(self.name())
    }
}
