//! What a script may state as an answer.

use std::fmt;

use bench::{Cause, Refusal};

/// What a Step opened a circuit to.
#[derive(Clone, Copy, Debug, PartialEq, Eq)]
pub enum Opening {
    Link(usize),
    Channel,
    Control,
}

/// Every answer that the format has words for.
#[derive(Clone, Debug, PartialEq, Eq)]
pub enum Answer {
    No(Refusal),
    Done,
    Granted(u32),
    Token(u8),
    Idle,
    Waiting,
    Moved,
    Opened(Opening),
    Refused(Cause),
    Dropped(Cause),
    Malformed,
    Unheard,
    /// Of a line step: one has arrived, and it brought this grant.
    Arrived(u32),
    /// Of a list: what each of its Steps answered, in order.
    Results(Vec<Answer>),
}

impl Answer {
    /// Whether the memory was found unsound: of a list, by any of its Steps.
    pub fn is_unsound(&self) -> bool {
        match self {
            Answer::No(refusal) => *refusal == Refusal::Unsound,
            Answer::Results(answers) => answers.iter().any(Answer::is_unsound),
            _ => false,
        }
    }
}

impl From<bench::Answer> for Answer {
    fn from(answer: bench::Answer) -> Answer {
        match answer {
            bench::Answer::No(refusal) => Answer::No(refusal),
            bench::Answer::Done => Answer::Done,
            bench::Answer::Granted(credit) => Answer::Granted(credit),
            bench::Answer::Token(value) => Answer::Token(value),
            bench::Answer::Step(stepped) => stepped.into(),
            bench::Answer::Arrived(grant) => Answer::Arrived(grant),
            // tests/text.rs has every answer of the library.
            other => unreachable!("a script has no words for {other:?}"),
        }
    }
}

impl From<bench::Stepped> for Answer {
    fn from(stepped: bench::Stepped) -> Answer {
        match stepped {
            bench::Stepped::Idle => Answer::Idle,
            bench::Stepped::Waiting => Answer::Waiting,
            bench::Stepped::Moved => Answer::Moved,
            bench::Stepped::Opened(bench::Opening::Link(link)) => {
                Answer::Opened(Opening::Link(link))
            }
            bench::Stepped::Opened(bench::Opening::Channel) => Answer::Opened(Opening::Channel),
            bench::Stepped::Opened(bench::Opening::Control) => Answer::Opened(Opening::Control),
            bench::Stepped::Refused(cause) => Answer::Refused(cause),
            bench::Stepped::Dropped(cause) => Answer::Dropped(cause),
            bench::Stepped::Malformed => Answer::Malformed,
            bench::Stepped::Unheard => Answer::Unheard,
            other => unreachable!("a script has no words for {other:?}"),
        }
    }
}

/// The word for a cause: `split`, `noroute`.
fn cause_word(cause: Cause) -> String {
    cause.name().to_lowercase()
}

/// `results ANSWER; ANSWER; ..`.
fn write_results(f: &mut fmt::Formatter<'_>, answers: &[Answer]) -> fmt::Result {
    f.write_str("results")?;
    for (place, answer) in answers.iter().enumerate() {
        let before = if place == 0 { " " } else { "; " };
        write!(f, "{before}{answer}")?;
    }
    Ok(())
}

impl fmt::Display for Answer {
    fn fmt(&self, f: &mut fmt::Formatter<'_>) -> fmt::Result {
        match *self {
            Answer::No(refusal) => write!(f, "no {}", refusal.number()),
            Answer::Done => f.write_str("done"),
            Answer::Granted(credit) => write!(f, "granted {credit}"),
            Answer::Token(value) => write!(f, "token {value}"),
            Answer::Idle => f.write_str("idle"),
            Answer::Waiting => f.write_str("waiting"),
            Answer::Moved => f.write_str("moved"),
            Answer::Opened(Opening::Link(link)) => write!(f, "opened link {link}"),
            Answer::Opened(Opening::Channel) => f.write_str("opened channel"),
            Answer::Opened(Opening::Control) => f.write_str("opened control"),
            Answer::Refused(cause) => write!(f, "refused {}", cause_word(cause)),
            Answer::Dropped(cause) => write!(f, "dropped {}", cause_word(cause)),
            Answer::Malformed => f.write_str("malformed"),
            Answer::Unheard => f.write_str("unheard"),
            Answer::Arrived(grant) => write!(f, "moved {grant}"),
            Answer::Results(ref answers) => write_results(f, answers),
        }
    }
}
