//! Settings and cables that differ, a line a fact. What is alike on several links or boards is told
//! once.

use std::collections::BTreeSet;

use bench::sizes::{BITS, LINKS};
use bench::{Link, Looks};

use super::Both;
use crate::facts::{links_towards, runs};
use crate::names::{boards, headers, letter, links};

/// What was and what is, at a place of a board.
struct Change {
    slot: u32,
    /// The links that it is of; none for the board's own settings.
    links: Vec<usize>,
    fact: String,
}

/// Each setting that differs.
pub fn settings(both: Both) -> Vec<String> {
    let mut lines = only_one(both);
    let changes = (0..both.boards()).flat_map(|slot| board(both, slot));
    lines.extend(joined(changes.collect()));
    lines
}

/// Boards that only one of the networks has.
fn only_one(both: Both) -> Vec<String> {
    let (before, after) = (both.before.nodes() as u32, both.after.nodes() as u32);
    let gone: Vec<u32> = (after..before).collect();
    let new: Vec<u32> = (before..after).collect();
    let all = [(gone, "gone"), (new, "new")];
    let some = all.into_iter().filter(|(slots, _)| !slots.is_empty());
    some.map(|(slots, what)| format!("{}: {what}", boards(&slots)))
        .collect()
}

/// The same fact of several boards is one line, where the first of them has it.
fn joined(changes: Vec<Change>) -> Vec<String> {
    let mut all: Vec<(Vec<u32>, Change)> = Vec::new();
    for change in changes {
        let is_same = |known: &Change| known.links == change.links && known.fact == change.fact;
        match all.iter_mut().find(|(_, known)| is_same(known)) {
            Some((slots, _)) => slots.push(change.slot),
            None => all.push((vec![change.slot], change)),
        }
    }
    let line = |(slots, change): (Vec<u32>, Change)| match &change.links[..] {
        [] => format!("{}: {}", boards(&slots), change.fact),
        some => format!("{} {}: {}", boards(&slots), links(some), change.fact),
    };
    all.into_iter().map(line).collect()
}

fn board(both: Both, slot: usize) -> Vec<Change> {
    let own = number(both, slot).into_iter().chain(width(both, slot));
    let own = own.chain(directions(both, slot));
    let own = own.map(|fact| (Vec::new(), fact));
    let all = own.chain(link_facts(both, slot));
    all.map(|(links, fact)| Change {
        slot: slot as u32,
        links,
        fact,
    })
    .collect()
}

/// `WHAT, now WHAT`, where that differs.
fn now(before: String, after: String) -> Option<String> {
    (before != after).then(|| format!("{before}, now {after}"))
}

fn number(both: Both, slot: usize) -> Option<String> {
    let number = |looks: Looks| looks.node(slot).number;
    let before = format!("number {}", number(both.before));
    now(before, format!("number {}", number(both.after)))
}

fn width(both: Both, slot: usize) -> Option<String> {
    let width = |looks: Looks| headers(looks, slot).to_owned();
    now(width(both.before), width(both.after))
}

/// The bits that lead elsewhere, those together that led to one direction and now lead to one.
fn directions(both: Both, slot: usize) -> Vec<String> {
    let mut all: Vec<((u32, u32), Vec<u32>)> = Vec::new();
    for bit in 0..BITS {
        let led = both.before.direction(slot, bit);
        let leads = both.after.direction(slot, bit);
        match all.iter_mut().find(|(known, _)| *known == (led, leads)) {
            _ if led == leads => {}
            Some((_, bits)) => bits.push(bit),
            None => all.push(((led, leads), vec![bit])),
        }
    }
    let to = |looks: Looks, direction: u32| match &links_towards(looks, slot, direction)[..] {
        [] => format!("to direction {direction} (no enabled link)"),
        ways => format!("to direction {direction} ({})", links(ways)),
    };
    let line = |((led, leads), bits): ((u32, u32), Vec<u32>)| {
        let lead = match bits.len() {
            1 => format!("bit {} leads", bits[0]),
            _ => format!("bits {} lead", runs(&bits)),
        };
        format!(
            "{lead} {}, now {}",
            to(both.before, led),
            to(both.after, leads)
        )
    };
    all.into_iter().map(line).collect()
}

/// What differs of the links, those together of which the same differs.
fn link_facts(both: Both, slot: usize) -> Vec<(Vec<usize>, String)> {
    let mut all: Vec<(Vec<usize>, String)> = Vec::new();
    for index in 0..LINKS {
        let (before, after) = (both.before.link(slot, index), both.after.link(slot, index));
        for fact in link(&before, &after) {
            match all.iter_mut().find(|(_, known)| *known == fact) {
                Some((alike, _)) => alike.push(index),
                None => all.push((vec![index], fact)),
            }
        }
    }
    all
}

fn link(before: &Link, after: &Link) -> Vec<String> {
    let enabled = |link: &Link| match link.enabled {
        0 => "disabled".to_owned(),
        _ => "enabled".to_owned(),
    };
    // Of a disabled link nothing more than that is said.
    let both = before.enabled == 1 && after.enabled == 1;
    let greeted = |link: &Link| match link.greeted == 1 || !both {
        true => "greeted".to_owned(),
        false => "not greeted".to_owned(),
    };
    let direction = |link: &Link| format!("direction {}", link.direction);
    let network = |link: &Link| format!("network {}", link.network);
    let facts = [
        now(enabled(before), enabled(after)),
        now(direction(before), direction(after)),
        now(network(before), network(after)),
        now(greeted(before), greeted(after)),
    ];
    facts.into_iter().flatten().collect()
}

/// A cable by its two ends, the lower one first.
type Cable = [(usize, usize); 2];

/// Cables that one of the networks has and the other has not.
pub fn cables(both: Both) -> Vec<String> {
    let (before, after) = (all_cables(both.before), all_cables(both.after));
    let gone = before.difference(&after).map(|cable| (cable, "gone"));
    let new = after.difference(&before).map(|cable| (cable, "new"));
    let line = |(cable, what): (&Cable, &str)| {
        let [near, far] = cable.map(|(slot, link)| format!("board {slot} link {}", letter(link)));
        format!("{near} to {far}: {what}")
    };
    gone.chain(new).map(line).collect()
}

fn all_cables(looks: Looks) -> BTreeSet<Cable> {
    let ends = (0..looks.nodes()).flat_map(|slot| (0..LINKS).map(move |link| (slot, link)));
    let cables = ends.filter_map(|(slot, link)| {
        let (far_slot, far_link) = looks.link(slot, link).far()?;
        let mut cable = [(slot, link), (far_slot as usize, far_link as usize)];
        cable.sort();
        Some(cable)
    });
    cables.collect()
}
