//! The answers of calls, and the paper's numbers for no.

/// "Numbers for no": why a call was refused.
#[derive(Clone, Copy, Debug, PartialEq, Eq, PartialOrd, Ord, Hash)]
pub enum No {
    Unsound = 1,
    NoSuch = 2,
    Value = 3,
    Busy = 4,
    Unaimed = 5,
    Open = 6,
    Hardware = 7,
    Privileged = 8,
    Narrow = 9,
    Full = 10,
    Empty = 11,
    Trap = 12,
}

impl No {
    /// All of them, by number.
    pub const ALL: [No; 12] = [
        No::Unsound,
        No::NoSuch,
        No::Value,
        No::Busy,
        No::Unaimed,
        No::Open,
        No::Hardware,
        No::Privileged,
        No::Narrow,
        No::Full,
        No::Empty,
        No::Trap,
    ];

    /// The paper's number.
    pub fn number(self) -> u32 {
        self as u32
    }

    /// The refusal of that number.
    pub fn from_number(number: u32) -> Option<No> {
        No::ALL.into_iter().find(|no| no.number() == number)
    }

    /// The paper's name.
    pub fn name(self) -> &'static str {
        match self {
            No::Unsound => "Unsound",
            No::NoSuch => "NoSuch",
            No::Value => "Value",
            No::Busy => "Busy",
            No::Unaimed => "Unaimed",
            No::Open => "Open",
            No::Hardware => "Hardware",
            No::Privileged => "Privileged",
            No::Narrow => "Narrow",
            No::Full => "Full",
            No::Empty => "Empty",
            No::Trap => "Trap",
        }
    }
}

/// Why a circuit was refused. "A Step's Refused speaks of the circuit and not of
/// the call: it has a cause and no number".
#[derive(Clone, Copy, Debug, PartialEq, Eq, Hash)]
pub enum Cause {
    Split,
    NoRoute,
}

/// What a Step opened a circuit to.
#[derive(Clone, Copy, Debug, PartialEq, Eq, Hash)]
pub enum Opening {
    Link(usize),
    Channel,
    Control,
}

/// What came of a call.
#[derive(Clone, Debug, PartialEq, Eq, Hash)]
pub enum Answer {
    /// Refused: nothing is changed.
    No(No),
    /// Fresh, blank, Wire, Set (but HELLO), Aim and Output.
    Done,
    /// "The answer to HELLO gives the grant."
    Granted(usize),
    /// Input.
    Token(u8),
    /// Step, and so are all below.
    Idle,
    Waiting,
    Moved,
    Opened(Opening),
    Refused(Cause),
    Dropped(Cause),
    Malformed,
    Unheard,
    /// A line step that took one off: "Moved, with any grant".
    Arrived(usize),
    /// A list of steps: the whole answer of each record's Step, in their order.
    Results(Vec<Answer>),
}
