//! What a call answers.

use crate::refusal::{Cause, Refusal};

/// An answer of any call. `crates/answers/specs/Answer.antt` says which number stands for it across
/// C.
#[derive(Clone, Copy, Debug, PartialEq, Eq, Hash)]
#[non_exhaustive]
pub enum Answer {
    /// Refused, and nothing is changed.
    No(Refusal),
    Done,
    /// "The answer to HELLO gives the grant."
    Granted(u32),
    /// The value of the token that Input took.
    Token(u8),
    Step(Stepped),
    /// A line step took one off, and it brought this grant: 0, 8, 16 or 64.
    Arrived(u32),
}

/// What came of a Step.
#[derive(Clone, Copy, Debug, PartialEq, Eq, Hash)]
#[non_exhaustive]
pub enum Stepped {
    /// The port holds nothing.
    Idle,
    /// Nothing can be done now, and nothing is changed.
    Waiting,
    /// One token was moved, handed or heard. The end of a switch message too, if there is a reply:
    /// ACK or NACK then stands in port 12.
    Moved,
    Opened(Opening),
    /// The circuit is refused: its tokens are dropped in later Steps.
    Refused(Cause),
    /// One token of a refused circuit was dropped.
    Dropped(Cause),
    /// The end of a switch message that has no known reply address, or that PAUSE ended: nothing is
    /// written, and there is no reply.
    Malformed,
    /// The end of a switch message whose reply channel the node's width, as it is after the write,
    /// cannot carry: there is no reply, and what was written stays.
    Unheard,
}

/// What a circuit was opened to.
#[derive(Clone, Copy, Debug, PartialEq, Eq, Hash)]
#[non_exhaustive]
pub enum Opening {
    /// Outward, by this link.
    Link(usize),
    Channel,
    Control,
}

impl Answer {
    /// The answer that crossed as this number: which case it is in the upper half, what the case
    /// carries in the lower. None where no answer crosses so.
    ///
    /// ```
    /// use bench::{Answer, Refusal, Stepped};
    ///
    /// assert_eq!(Answer::from_crossed(4), Some(Answer::No(Refusal::Busy)));
    /// assert_eq!(Answer::from_crossed(2 << 32 | 64), Some(Answer::Granted(64)));
    /// assert_eq!(Answer::from_crossed(3 << 32 | 255), Some(Answer::Token(255)));
    /// assert_eq!(Answer::from_crossed(4 << 32), Some(Answer::Step(Stepped::Idle)));
    /// assert_eq!(Answer::from_crossed(12 << 32), Some(Answer::Step(Stepped::Malformed)));
    /// assert_eq!(Answer::from_crossed(13 << 32), Some(Answer::Step(Stepped::Unheard)));
    /// assert_eq!(Answer::from_crossed(14 << 32 | 8), Some(Answer::Arrived(8)));
    /// assert_eq!(Answer::from_crossed(0), None);
    /// ```
    pub fn from_crossed(crossed: u64) -> Option<Answer> {
        match parts(crossed) {
            (0, number) => Refusal::from_number(number).map(Answer::No),
            (1, 0) => Some(Answer::Done),
            (2, credit) => Some(Answer::Granted(credit)),
            (3, value) => u8::try_from(value).ok().map(Answer::Token),
            (14, credit) => Some(Answer::Arrived(credit)),
            (case, value) => Stepped::from_parts(case, value).map(Answer::Step),
        }
    }
}

impl Stepped {
    fn from_parts(case: u32, value: u32) -> Option<Stepped> {
        match (case, value) {
            (4, 0) => Some(Stepped::Idle),
            (5, 0) => Some(Stepped::Waiting),
            (6, 0) => Some(Stepped::Moved),
            (7, link) => Some(Stepped::Opened(Opening::Link(link as usize))),
            (8, 0) => Some(Stepped::Opened(Opening::Channel)),
            (9, 0) => Some(Stepped::Opened(Opening::Control)),
            (10, cause) => Cause::from_number(cause).map(Stepped::Refused),
            (11, cause) => Cause::from_number(cause).map(Stepped::Dropped),
            (12, 0) => Some(Stepped::Malformed),
            (13, 0) => Some(Stepped::Unheard),
            _ => None,
        }
    }
}

/// The case and what it carries, of an enum that crossed as one number.
pub(crate) fn parts(crossed: u64) -> (u32, u32) {
    ((crossed >> 32) as u32, crossed as u32)
}
