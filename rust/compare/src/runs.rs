//! The model's own random runs, by line: lines are stepped at a rate that changes, so that tokens,
//! credits and HELLOs are under way for a moment or for long. And runs of before, in which tokens crossed
//! at once, as runs by line.

use model::calls::Call;
use model::network::{LinkEnd, Network};
use model::runs::{lend_lines, Runner};

use crate::choice::lines_in_use;

/// A run of that many calls. The same seed gives the same run.
pub fn calls(seed: u64, count: usize) -> Vec<Call> {
    made_by(Runner::by_line(seed), count)
}

/// The same, with lists of Steps among single ones.
pub fn calls_with_lists(seed: u64, count: usize) -> Vec<Call> {
    made_by(Runner::by_line(seed).and_lists(), count)
}

/// Calls that were made where tokens crossed at once, as a run by line: starts lend a memory for lines,
/// and behind each call there are the line steps that empty them all, by slot and link.
pub fn emptied(calls: impl IntoIterator<Item = Call>) -> Vec<Call> {
    let mut network = None;
    let mut lined = Vec::new();
    for mut call in calls {
        lend_lines(&mut call);
        model::apply(&mut network, &call);
        lined.push(call);
        while let Some(LinkEnd { slot, link }) = first_in_use(network.as_ref()) {
            let call = Call::Line { slot, link };
            model::apply(&mut network, &call);
            lined.push(call);
        }
    }
    lined
}

fn first_in_use(network: Option<&Network>) -> Option<LinkEnd> {
    network.and_then(|network| lines_in_use(network).first().copied())
}

fn made_by(mut runner: Runner, count: usize) -> Vec<Call> {
    (0..count).map(|_| runner.call().0).collect()
}
