//! Lists of steps in random runs.

use super::Runner;
use crate::calls::{Call, StepRecord};
use crate::sizes::PORTS;

/// No list of a random run has as many records.
const LIMIT: usize = 48;

impl Runner {
    /// One that makes lists of steps, too.
    pub fn with_lists(seed: u64) -> Runner {
        Runner::new(seed).and_lists()
    }

    /// The same runner, and it makes lists of steps, too.
    pub fn and_lists(self) -> Runner {
        Runner {
            lists: true,
            ..self
        }
    }

    /// A list, with results of another length now and then.
    pub(super) fn list(&mut self) -> Call {
        let count = match self.random.below(12) {
            0 => 0,
            1 => 1,
            2..=8 => 2 + self.random.below(8),
            _ => self.random.below(LIMIT),
        };
        let busy = self.busy_ports();
        let records: Vec<_> = (0..count).map(|_| self.record(&busy)).collect();
        let others = [count + 1, count.wrapping_sub(1), 2 * count + 2, usize::MAX];
        let results = match self.random.chance(7) {
            true => self.random.pick(&others).unwrap_or(count),
            false => count,
        };
        Call::Steps { results, records }
    }

    /// Mostly of a port that holds a token when the list begins, or of any, to which
    /// a record before may bring one; seldom of one that is not there.
    fn record(&mut self, busy: &[(usize, usize)]) -> StepRecord {
        let any = (self.any_slot(), self.below_or_beyond(PORTS));
        let (slot, port) = match self.random.pick(busy) {
            Some(place) if self.random.chance(65) => place,
            _ => any,
        };
        StepRecord { slot, port }
    }
}
