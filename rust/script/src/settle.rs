//! `settle`: rounds of Steps of all ports, then of all lines, until a whole round changes nothing.
//!
//! A Step that is Idle, Waiting or refused changes nothing, so a run without it is the same run:
//! only those that changed something are kept as calls.

use bench::sizes::{LINKS, PORTS};
use bench::Looks;

use crate::answer::Answer;
use crate::call::Call;
use crate::rounds::MOST_STEPS;

/// What came of settling.
#[derive(Clone, Copy, Debug, PartialEq, Eq)]
pub struct Settled {
    /// How many Steps were made that changed something.
    pub changed: usize,
    /// How many rounds were begun.
    pub rounds: usize,
    /// Whether the last of them changed nothing; else the Steps ran out.
    pub at_rest: bool,
}

/// Rounds under way.
pub struct Settling {
    round: Vec<Call>,
    /// Which call of the round comes next.
    next: usize,
    /// How many have been made in all.
    made: usize,
    /// Whether one of this round has changed something.
    round_changed: bool,
    so_far: Settled,
}

/// The calls of a round: a Step of every port, by slot and port; behind them one of every line, by
/// slot and link, also of links that have no cable.
fn round(looks: Looks) -> Vec<Call> {
    let slots = 0..looks.nodes();
    let ports = slots
        .clone()
        .flat_map(|slot| (0..PORTS).map(move |port| Call::Step { slot, port }));
    let lines = slots.flat_map(|slot| (0..LINKS).map(move |link| Call::Line { slot, link }));
    ports.chain(lines).collect()
}

/// Whether a call of a round that answers so has changed something.
pub fn changes(answer: &Answer) -> bool {
    !matches!(answer, Answer::Idle | Answer::Waiting | Answer::No(_))
}

impl Settling {
    pub fn of(looks: Looks) -> Settling {
        Settling {
            round: round(looks),
            next: 0,
            made: 0,
            round_changed: false,
            so_far: Settled {
                changed: 0,
                rounds: 0,
                at_rest: false,
            },
        }
    }

    /// The next call to be made; none at rest, or where no more are to be made.
    pub fn next(&mut self) -> Option<Call> {
        if self.next == 0 {
            self.so_far.at_rest = self.round.is_empty() || self.made > 0 && !self.round_changed;
            self.round_changed = false;
        }
        if self.so_far.at_rest || self.made == MOST_STEPS {
            return None;
        }
        let call = self.round[self.next].clone();
        self.so_far.rounds += usize::from(self.next == 0);
        self.next = (self.next + 1) % self.round.len();
        self.made += 1;
        Some(call)
    }

    /// Takes down whether the call has changed something.
    pub fn came_of(&mut self, changed: bool) {
        self.round_changed |= changed;
        self.so_far.changed += usize::from(changed);
    }

    /// What has come of it so far.
    pub fn settled(&self) -> Settled {
        self.so_far
    }
}
