//! `bench show`: the state in words.

use bench::sizes::{CHANNEL_ENDS, LINKS, PORTS};
use bench::{Bench, Looks};

use crate::facts;
use crate::names::{letter, links, port};

pub const HELP: &str = "\
bench show FILE: makes the calls of FILE and prints the state that they leave, in words

Each line is one fact, and begins with its place: a board by its slot, and a link, port, channel-end
or control unit of it. Boards come by slot, and on a board its settings, links A..H, ports,
channel-ends and control unit. Of an enabled link with a cable it is said what it has issued and not
yet received, and what is on the line that starts there, the first to arrive first. Links with no cable
that are alike share a line. A wait is found by a Step on a copy.

Left out is what is at rest: disabled links with no cable that nobody has set, ports and channel-ends
with nothing in them, bits that lead to direction 0 where no enabled link has direction 0.

Exit status: 0 printed; 2 the script was not run to its end.
";

/// The state of a network in words.
pub fn show(bench: &Bench) -> String {
    let boards = 0..bench.looks().nodes();
    let boards = boards.map(|slot| board(bench, slot));
    boards.collect::<Vec<_>>().join("\n")
}

/// A board, a line a fact.
fn board(bench: &Bench, slot: usize) -> String {
    let looks = bench.looks();
    let mut lines = vec![format!("board {slot}: {}\n", facts::board(looks, slot))];
    for fact in facts::directions(looks, slot) {
        lines.push(format!("board {slot}: {fact}\n"));
    }
    for (alike, facts) in link_facts(looks, slot) {
        let place = format!("board {slot} {}", links(&alike));
        lines.extend(placed(&place, facts));
    }
    for index in 0..PORTS {
        let held = facts::port_facts(looks, slot, index).into_iter();
        let place = format!("board {slot} {}", port(index));
        lines.extend(placed(&place, held.chain(facts::waits(bench, slot, index))));
    }
    for end in 0..CHANNEL_ENDS {
        let aim = facts::aim(looks, slot, end).into_iter();
        let place = format!("board {slot} channel-end {end}");
        let held = facts::end_facts(looks, slot, end);
        lines.extend(placed(&place, aim.chain(held)));
    }
    let place = format!("board {slot} control unit");
    lines.extend(placed(&place, facts::unit(looks, slot)));
    lines.concat()
}

/// A line for each fact of a place.
fn placed(place: &str, facts: impl IntoIterator<Item = String>) -> Vec<String> {
    let lines = facts.into_iter().map(|fact| format!("{place}: {fact}\n"));
    lines.collect()
}

/// What is so of each link, and which links are alike in it: those with no cable, often, as Fresh
/// leaves four of each board.
fn link_facts(looks: Looks, slot: usize) -> Vec<(Vec<usize>, Vec<String>)> {
    let mut all: Vec<(Vec<usize>, Vec<String>)> = Vec::new();
    for index in 0..LINKS {
        let facts = link(looks, slot, index);
        match all.iter_mut().find(|(_, known)| *known == facts) {
            Some((alike, _)) => alike.push(index),
            None => all.push((vec![index], facts)),
        }
    }
    all
}

fn link(looks: Looks, slot: usize, index: usize) -> Vec<String> {
    let seen = looks.link(slot, index);
    match seen.far() {
        Some((far, end)) => {
            let cable = format!("cable to board {far} link {}", letter(end as usize));
            let settings = facts::link_settings(&seen);
            let facts = [cable, settings].into_iter();
            let facts = facts.chain(facts::link_credit(&seen));
            facts.chain(facts::line(looks, slot, index)).collect()
        }
        None if seen.enabled == 1 || facts::is_set(&seen) => vec![facts::link_state(&seen)],
        None => Vec::new(),
    }
}
