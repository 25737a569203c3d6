//! `bench route`: what the shop's tracer prints, of an END that is really sent.

use bench::{Bench, Cause, Hop, Looks};

use crate::facts;
use crate::names::{channel, counted, destination, letter, port};
use crate::question::Question;
use crate::walk::{walk, Ending, Place, Switch, Walk, MOST_STEPS};

pub const HELP: &str = "\
bench route FILE SLOT NUMBER CHANNEL [NETWORK]: makes the calls of FILE, then sends an END and
follows it

The END goes from the lowest channel-end of the board in SLOT that has no circuit open to CHANNEL of
NUMBER (`control` for the control unit) on NETWORK, 0 if not given. It is sent on a copy of the
network, by Aim and Output; then all ports are stepped, and behind them all lines, by slot and port, in
rounds. Each switch that it comes to is a line, with the link that it takes there; the last line says
how it ends:

  arrived      a board of that number got it
  Elsewhere    a board of another number got it
  Split        a switch of the other width read its header
  NoRoute      a switch has no enabled link of that direction and network
  Waiting      a whole round of steps changed nothing; what it waits for is said
  Steps        it is still on its way after 65536 steps
  refused      Aim or Output said no, by this number

An enabled link is taken whether or not it has a cable. Fresh leaves links E..H enabled: an END that
takes one of them before its cable is there is Waiting.

Exit status: 0 arrived; 1 any other end; 2 the script was not run to its end, or nothing was asked.
";

/// Sends an END on a network, which should be a copy: the lines, and whether it arrived.
pub fn route(bench: Bench, question: Question) -> (String, bool) {
    let walked = walk(bench.clone(), question);
    let looks = bench.looks();
    let mut lines = vec![sends(&walked, question)];
    lines.extend(switches(looks, &walked));
    lines.extend(last_switch(looks, &walked));
    let (end, arrived) = ending(looks, &walked.end, question.number);
    lines.push(format!("ends: {end}"));
    (lines.join("\n") + "\n", arrived)
}

fn sends(walked: &Walk, question: Question) -> String {
    let (slot, end) = (question.slot, walked.channel_end);
    let to = destination(question.destination());
    let network = question.network;
    format!("sends: END from board {slot} channel-end {end} to {to}, network {network}")
}

/// The switches on the way. One that comes to the same place once more goes round, and only the
/// first time round is listed.
fn switches(looks: Looks, walked: &Walk) -> Vec<String> {
    let all = &walked.switches;
    let is_met = |at: &usize| all[..*at].iter().any(|one| one.place == all[*at].place);
    let again = (0..all.len()).find(is_met).unwrap_or(all.len());
    let mut lines: Vec<String> = all[..again].iter().map(|one| switch(looks, one)).collect();
    if again < all.len() {
        let more = counted(all.len() - again, "more hop");
        lines.push(format!("and round again: {more}"));
    }
    lines
}

fn switch(looks: Looks, switch: &Switch) -> String {
    let taken = match switch.hop {
        Hop::Link(link) => format!("out by link {}", letter(link as usize)),
        Hop::Channel(end) => format!("to {}", channel(end)),
        _ => "to the control unit".to_owned(),
    };
    format!("{}, {taken}", at(looks, switch.place))
}

/// A switch that reads the header.
fn at(looks: Looks, place: Place) -> String {
    let Place { slot, port: index } = place;
    format!("{}: {}", named(looks, slot), port(index))
}

/// A board with the settings that decide how it reads a header.
fn named(looks: Looks, slot: usize) -> String {
    format!("board {slot} ({})", facts::board(looks, slot))
}

/// The switch that did not let it pass, or the board that had no need of its own.
fn last_switch(looks: Looks, walked: &Walk) -> Option<String> {
    match walked.end {
        Ending::Refused { place, .. } => Some(format!("{}, refused", at(looks, place))),
        Ending::Got { slot, .. } if walked.switches.is_empty() => {
            let board = named(looks, slot);
            Some(format!("{board}: straight to its own tile, with no header"))
        }
        _ => None,
    }
}

/// How it ends, and whether a board of that number got it.
pub fn ending(looks: Looks, end: &Ending, number: u32) -> (String, bool) {
    match end {
        Ending::Unsent { call, refusal } => (format!("{call} is refused, {refusal}"), false),
        Ending::Got { slot, channel } => got(looks, *slot, *channel, number),
        Ending::Refused { place, cause } => (refused(looks, place.slot, *cause), false),
        Ending::Waiting { place, ahead, on } => {
            let on = on.as_ref().map(|on| format!(", {on}"));
            let on = on.unwrap_or_default();
            (format!("Waiting at {}{on}", queued(*place, *ahead)), false)
        }
        Ending::Steps => (format!("Steps, after {MOST_STEPS} of them"), false),
    }
}

fn got(looks: Looks, slot: usize, by: Option<u32>, number: u32) -> (String, bool) {
    let by = by.map_or("the control unit".to_owned(), channel);
    let got = looks.node(slot).number;
    match got == number {
        true => (format!("arrived at board {slot}, {by}"), true),
        false => (
            format!("Elsewhere, at board {slot} of number {got}, {by}"),
            false,
        ),
    }
}

fn refused(looks: Looks, slot: usize, cause: Cause) -> String {
    format!("{cause} at board {slot}, {}", why(looks, slot, cause))
}

/// Why a switch refuses a circuit.
pub(crate) fn why(looks: Looks, slot: usize, cause: Cause) -> &'static str {
    match (cause, looks.node(slot).width) {
        (Cause::NoRoute, _) => "no enabled link of that network leads there",
        (Cause::Split, 1) => "a header of three bytes, read at one byte",
        (Cause::Split, _) => "a header of one byte, read at three bytes",
        _ => "a cause of its own",
    }
}

fn queued(place: Place, ahead: usize) -> String {
    let Place { slot, port: index } = place;
    let place = format!("board {slot} {}", port(index));
    match ahead {
        0 => place,
        _ => format!("{place} behind {}", counted(ahead, "token")),
    }
}
