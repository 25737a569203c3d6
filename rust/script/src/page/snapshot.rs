//! What the looks show, as parts with names, so that what differs between two calls can be told.

use std::collections::BTreeMap;

use bench::sizes::{CHANNEL_ENDS, LINKS, PORTS};
use bench::{Bench, Hop, Link, Looks, Peer};

use super::json::{array, string, strings};
use super::ways::Ways;
use crate::facts;
use crate::names::{chips, links};

/// The parts of a state, each as JSON: `n` how many boards; of the board in slot 0 `b0` its number and
/// width, `d0` its directions, `r0` its links with nothing to draw, `l0.0` a link, `p0.8` a port, `w0.8`
/// what that waits for, `e0.7` a channel-end, `u0` its control unit. What is at rest has no part.
pub type Snapshot = BTreeMap<String, String>;

pub fn snapshot(bench: &Bench, ways: &Ways) -> Snapshot {
    let looks = bench.looks();
    let mut parts = Snapshot::new();
    parts.insert("n".to_owned(), looks.nodes().to_string());
    for slot in 0..looks.nodes() {
        board(looks, slot, &mut parts);
        for index in 0..PORTS {
            port(bench, ways, slot, index, &mut parts);
        }
        for end in 0..CHANNEL_ENDS {
            channel_end(looks, slot, end, &mut parts);
        }
    }
    parts
}

fn board(looks: Looks, slot: usize, parts: &mut Snapshot) {
    let node = looks.node(slot);
    let settings = array([node.number.to_string(), node.width.to_string()]);
    parts.insert(format!("b{slot}"), settings);
    let directions = facts::directions(looks, slot);
    if !directions.is_empty() {
        let directions = strings(directions.iter().map(String::as_str));
        parts.insert(format!("d{slot}"), directions);
    }
    let mut rest = Vec::new();
    for index in 0..LINKS {
        let seen = looks.link(slot, index);
        let is_drawn = seen.wired == 1 || seen.user.peer().is_some() || facts::is_set(&seen);
        match is_drawn {
            true => {
                let on_line = tokens(looks.line_tokens(slot, index));
                parts.insert(format!("l{slot}.{index}"), link(&seen, on_line));
            }
            false if seen.enabled == 1 => rest.push(index),
            false => {}
        }
    }
    if !rest.is_empty() {
        let rest = format!("{}: enabled, no cable", links(&rest));
        parts.insert(format!("r{slot}"), string(&rest));
    }
    if let Some(unit) = facts::unit(looks, slot) {
        parts.insert(format!("u{slot}"), string(&unit));
    }
}

/// Where its cable leads, whether it is enabled, whether a circuit leaves by it and from which port,
/// all of its settings in words, and what is on the line that starts there.
fn link(seen: &Link, on_line: String) -> String {
    let far = match seen.far() {
        Some((slot, link)) => array([slot.to_string(), link.to_string()]),
        None => "null".to_owned(),
    };
    let user = match seen.user.peer() {
        Some(Peer::Port(port)) => port.to_string(),
        _ => "null".to_owned(),
    };
    let words = string(&facts::link_state(seen));
    array([far, seen.enabled.to_string(), user, words, on_line])
}

/// Its circuit's number, where that goes in words, whether it is refused, and the tokens held.
fn port(bench: &Bench, ways: &Ways, slot: usize, index: usize, parts: &mut Snapshot) {
    let looks = bench.looks();
    let seen = looks.port(slot, index);
    if seen.hop().is_none() && seen.held == 0 {
        return;
    }
    let circuit = ways.circuit(slot, index);
    let circuit = circuit.map_or("null".to_owned(), |number| number.to_string());
    let words = seen.hop().map(facts::circuit).unwrap_or_default();
    let is_refused = matches!(seen.hop(), Some(Hop::Dropped(_)));
    let held = tokens(looks.port_tokens(slot, index));
    let part = array([circuit, string(&words), is_refused.to_string(), held]);
    parts.insert(format!("p{slot}.{index}"), part);
    if let Some(on) = facts::waits(bench, slot, index) {
        parts.insert(format!("w{slot}.{index}"), string(&on));
    }
}

/// What it is aimed at, its circuits in words, and the tokens held.
fn channel_end(looks: Looks, slot: usize, end: usize, parts: &mut Snapshot) {
    let aim = facts::aim(looks, slot, end);
    let circuits = facts::end_circuits(looks, slot, end);
    let held = looks.channel_end(slot, end).held;
    if aim.is_none() && circuits.is_empty() && held == 0 {
        return;
    }
    let aim = string(&aim.unwrap_or_default());
    let circuits = string(&circuits.join(", "));
    let part = array([aim, circuits, tokens(looks.end_tokens(slot, end))]);
    parts.insert(format!("e{slot}.{end}"), part);
}

/// Each as its kind, `h` of a header, `d` data, `c` control, and its text.
fn tokens(words: impl Iterator<Item = u32>) -> String {
    let chips = chips(words).into_iter();
    array(chips.map(|(kind, text)| strings([kind, text.as_str()])))
}

/// What makes one state of another: each part that is another one now, and `null` for those that
/// are gone.
pub fn difference(before: &Snapshot, after: &Snapshot) -> String {
    let changed = after
        .iter()
        .filter(|(name, part)| before.get(*name) != Some(part));
    let changed = changed.map(|(name, part)| format!("{}:{part}", string(name)));
    let gone = before.keys().filter(|name| !after.contains_key(*name));
    let gone = gone.map(|name| format!("{}:null", string(name)));
    let all: Vec<String> = changed.chain(gone).collect();
    format!("{{{}}}", all.join(","))
}
