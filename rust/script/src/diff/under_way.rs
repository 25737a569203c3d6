//! What is under way on the two networks: not compared fact by fact, but it is said where it differs.

use bench::sizes::{CHANNEL_ENDS, LINKS, PORTS};
use bench::Looks;

use super::Both;
use crate::facts;
use crate::names::boards;

/// The boards that both have on which something else is under way.
pub fn differs(both: Both) -> Option<String> {
    let is_other = |slot: &usize| {
        other_credit(both, *slot) || facts_of(both.before, *slot) != facts_of(both.after, *slot)
    };
    let other = (0..both.boards()).filter(is_other);
    let other: Vec<u32> = other.map(|slot| slot as u32).collect();
    (!other.is_empty()).then(|| boards(&other))
}

/// Credit is compared where both have it: that one has none is a setting, or a HELLO, that differs.
fn other_credit(both: Both, slot: usize) -> bool {
    (0..LINKS).any(|link| {
        let (before, after) = (both.before.link(slot, link), both.after.link(slot, link));
        before.greeted == 1 && after.greeted == 1 && before.credit != after.credit
    })
}

/// Circuits, tokens, aims and claims of a board, and what is on its lines, each as it is shown. What a
/// link has issued follows from that and from credit.
fn facts_of(looks: Looks, slot: usize) -> Vec<String> {
    let lines = (0..LINKS).flat_map(|link| placed(link, facts::on_line(looks, slot, link)));
    let ports = (0..PORTS).flat_map(|port| placed(port, facts::port_facts(looks, slot, port)));
    let ends = (0..CHANNEL_ENDS).flat_map(|end| {
        let aim = facts::aim(looks, slot, end).into_iter();
        placed(end, aim.chain(facts::end_facts(looks, slot, end)))
    });
    let all = lines.chain(ports).chain(ends);
    all.chain(facts::unit(looks, slot)).collect()
}

fn placed(place: usize, facts: impl IntoIterator<Item = String>) -> Vec<String> {
    let facts = facts.into_iter().map(|fact| format!("{place}: {fact}"));
    facts.collect()
}
