//! Models that are wrong on purpose: random runs find each, and its run is made short.

use model::Call;

use crate::calls::Apply;
use crate::pair::{differing, Differing};
use crate::reduce::reduce;

const SEEDS: u64 = 20;
const CALLS: usize = 400;

/// A model, and what its run is reduced to: how many calls at most, how the last begins, and how it
/// differs.
pub type Wrong = (Apply, usize, &'static str, &'static str);

/// Makes a run of so many calls. The same seed gives the same run.
pub type Maker = fn(u64, usize) -> Vec<Call>;

/// The first run that differs.
fn differing_run(apply: Apply, makers: &[Maker]) -> Option<Differing> {
    let runs = (0..SEEDS).flat_map(|seed| makers.iter().map(move |calls| calls(seed, CALLS)));
    runs.filter_map(|calls| differing(apply, &calls)).next()
}

/// Still differing in its last call, and with no call that can be left out.
pub fn is_as_short_as_can_be(apply: Apply, calls: &[Call]) {
    assert_eq!(
        differing(apply, calls).map(|it| it.calls),
        Some(calls.to_vec())
    );
    for place in 0..calls.len() {
        let mut fewer = calls.to_vec();
        fewer.remove(place);
        assert_eq!(differing(apply, &fewer), None, "{}", calls[place]);
    }
}

/// Each is found by a run of these makers, and the run is reduced to what is said.
pub fn are_found(wrong: &[Wrong], makers: &[Maker]) {
    for (place, (apply, calls, last, expected)) in wrong.iter().enumerate() {
        let found = differing_run(*apply, makers);
        let found = found.unwrap_or_else(|| panic!("nothing differs: {place}"));
        let reduced = reduce(*apply, found);
        println!("{} calls, {}", reduced.calls.len(), reduced.how);
        is_as_short_as_can_be(*apply, &reduced.calls);
        assert!(reduced.how.contains(expected), "{place}: {}", reduced.how);
        assert!(reduced.calls.len() <= *calls, "{:?}", reduced.calls);
        let ending = reduced.calls.last().map(Call::to_string);
        assert!(ending.is_some_and(|call| call.starts_with(last)), "{place}");
    }
}
