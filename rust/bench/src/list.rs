//! A list of Steps: what is lent for it, and what comes back.

use crate::answer::{Answer, Stepped};
use crate::refusal::Refusal;

/// One Step of a list: which port of which node. As a slot and a port are given, they may name
/// nothing that is there; that Step alone is then refused.
///
/// ```
/// use bench::StepRecord;
///
/// let round: Vec<StepRecord> = (0..13).map(|port| StepRecord { slot: 0, port }).collect();
/// assert_eq!(round[12], StepRecord { slot: 0, port: 12 });
/// ```
// The library reads records where the host has them: the words are in this order.
#[repr(C)]
#[derive(Clone, Copy, Debug, PartialEq, Eq, Hash)]
pub struct StepRecord {
    pub slot: usize,
    pub port: usize,
}

/// What the Step of one record answered, as it stands in a buffer of results; nothing yet where no
/// list has been written there. [`Bench::steps_into`](crate::Bench::steps_into) fills such a buffer.
// The library writes its number here itself.
#[repr(transparent)]
#[derive(Clone, Copy, Debug, Default, PartialEq, Eq, Hash)]
pub struct StepResult(u64);

impl StepResult {
    /// What [`Bench::step`](crate::Bench::step) would have answered; none where nothing is written.
    ///
    /// ```
    /// use bench::{Bench, StepRecord, StepResult, Stepped};
    ///
    /// let mut results = [StepResult::default()];
    /// assert_eq!(results[0].answer(), None);
    /// let mut bench = Bench::fresh(1).unwrap();
    /// bench.steps_into(&[StepRecord { slot: 0, port: 12 }], &mut results).unwrap();
    /// assert_eq!(results[0].answer(), Some(Ok(Stepped::Idle)));
    /// ```
    pub fn answer(self) -> Option<Result<Stepped, Refusal>> {
        match Answer::from_crossed(self.0)? {
            Answer::No(refusal) => Some(Err(refusal)),
            Answer::Step(stepped) => Some(Ok(stepped)),
            other => unreachable!("Step answers what came of it, not {other:?}"),
        }
    }
}
