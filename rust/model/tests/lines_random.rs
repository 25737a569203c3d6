//! Random runs whose tokens cross by line: every state is sound and tight, no line
//! holds more than 66, and what is refused, waits or is idle changes nothing. What the
//! runs are to reach is counted.

mod common;

use std::collections::BTreeMap;

use model::answers::{Answer, No};
use model::calls::Call;
use model::lines::Freight;
use model::network::{Link, LinkEnd, Network};
use model::runs::{run_by_line, Runner};
use model::set::Setting;
use model::sizes::LINE_CAPACITY;
use model::{script, sound, tight};

/// What was met how often.
type Met = BTreeMap<&'static str, usize>;

fn links(network: &Network) -> impl Iterator<Item = &Link> {
    network.nodes.iter().flat_map(|node| &node.links)
}

fn longest_line(network: &Network) -> usize {
    links(network)
        .map(|link| link.line.len())
        .max()
        .unwrap_or(0)
}

/// What holds behind every call.
fn hold(before: Option<&Network>, after: &Network, what: &str, answer: &Answer) {
    assert_eq!(sound::failing(after), [], "{what}");
    assert_eq!(tight::failing(after), [], "{what}");
    assert!(longest_line(after) <= LINE_CAPACITY, "{what}");
    if matches!(answer, Answer::No(_) | Answer::Waiting | Answer::Idle) {
        assert_eq!(before, Some(after), "{what} changed the state");
    }
}

/// What is on the two lines of a cable.
fn on_cable(network: &Network, end: LinkEnd) -> Vec<Freight> {
    let Ok(link) = network.link(end) else {
        return Vec::new();
    };
    let far = network.far_link(link).into_iter();
    far.chain([link]).flat_map(Link::freight).collect()
}

/// A name for a call on that state with that answer, if it is one to be counted.
fn name(network: &Network, call: &Call, answer: &Answer) -> Option<&'static str> {
    match (call, answer) {
        (Call::Line { .. }, Answer::Idle) => Some("line idle"),
        (Call::Line { .. }, Answer::No(No::NoSuch)) => Some("line not there"),
        (Call::Line { slot, link }, Answer::Arrived(grant)) => {
            let first = network.nodes[*slot].links[*link].freight().next();
            name_of_arrival(first?, *grant)
        }
        (Call::WithLines { .. }, Answer::No(No::Unsound)) => Some("start of another length"),
        (Call::Set { slot, setting }, Answer::No(No::Busy)) => {
            let slot = *slot;
            name_of_refusal(network, slot, *setting)
        }
        (Call::Set { setting, .. }, Answer::Granted(0)) => {
            matches!(setting, Setting::Hello { .. }).then_some("HELLO")
        }
        _ => None,
    }
}

fn name_of_arrival(first: Freight, grant: usize) -> Option<&'static str> {
    Some(match (first, grant) {
        (Freight::Credit(8), 0) => "credit of 8 arrives",
        (Freight::Credit(16), 0) => "credit of 16 arrives",
        (Freight::Credit(64), 0) => "credit of 64 arrives",
        (Freight::Hello, 0) => "HELLO arrives, none granted",
        (Freight::Hello, 8) => "HELLO arrives, 8 granted",
        (Freight::Hello, 16) => "HELLO arrives, 16 granted",
        (Freight::Hello, 64) => "HELLO arrives, 64 granted",
        (Freight::Token, 0) => "token arrives, none granted",
        (Freight::Token, 8) => "token arrives, 8 granted",
        (Freight::Token, 16) => "token arrives, 16 granted",
        other => panic!("{other:?}"),
    })
}

fn name_of_refusal(network: &Network, slot: usize, setting: Setting) -> Option<&'static str> {
    match setting {
        Setting::Hello { link } => {
            let on_cable = on_cable(network, LinkEnd { slot, link });
            if on_cable.contains(&Freight::Hello) {
                return Some("HELLO refused by a HELLO");
            }
            let credit = |f: &Freight| matches!(f, Freight::Credit(_));
            on_cable
                .iter()
                .any(credit)
                .then_some("HELLO refused by a credit")
        }
        Setting::Enable { link, value: 0 } => {
            let end = LinkEnd { slot, link };
            let far = network.link(end).ok()?.far?;
            let taken = [end, far].map(|end| {
                let node = &network.nodes[end.slot];
                node.ports[end.link].is_taken() || node.links[end.link].used_by.is_some()
            });
            (taken == [false, false]).then_some("disabling refused by a line alone")
        }
        _ => None,
    }
}

/// What is there behind a call and is to be met.
fn situations(network: &Network) -> impl Iterator<Item = &'static str> {
    let own_cable = (0..).zip(&network.nodes).any(|(slot, node)| {
        let mut links = node.links.iter();
        links.any(|link| link.far.is_some_and(|far| far.slot == slot) && !link.line.is_empty())
    });
    let longest = longest_line(network);
    let hello = links(network).any(Link::hello_on_line);
    let credit_behind_hello = links(network).any(|link| {
        let mut behind = link.freight().skip_while(|f| *f != Freight::Hello);
        behind.any(|f| matches!(f, Freight::Credit(_)))
    });
    let twins = network.nodes.iter().enumerate().any(|(slot, node)| {
        let mut others = network.nodes[slot + 1..].iter();
        others.any(|other| other.number == node.number)
    });
    let named = [
        (own_cable, "something on a board's own cable"),
        (longest > 30, "more than 30 on a line"),
        (longest > 60, "more than 60 on a line"),
        (hello, "a HELLO on a line"),
        (credit_behind_hello, "a credit behind a HELLO"),
        (twins, "two boards of one number"),
    ];
    named
        .into_iter()
        .filter(|(there, _)| *there)
        .map(|(_, name)| name)
}

fn watch(seed: u64, count: usize, met: &mut Met) {
    let mut runner = Runner::by_line(seed);
    if seed % 2 == 1 {
        runner = runner.and_lists();
    }
    for place in 0..count {
        let before = runner.network().cloned();
        let (call, found) = runner.call();
        let Some(after) = runner.network() else {
            continue;
        };
        let what = format!("seed {seed}, call {place}: {call} -> {}", found.answer);
        hold(before.as_ref(), after, &what, &found.answer);
        let called = before.and_then(|before| name(&before, &call, &found.answer));
        for name in called.into_iter().chain(situations(after)) {
            *met.entry(name).or_default() += 1;
        }
    }
}

const TO_BE_MET: [&str; 23] = [
    "HELLO",
    "HELLO arrives, 16 granted",
    "HELLO arrives, 64 granted",
    "HELLO arrives, 8 granted",
    "HELLO arrives, none granted",
    "HELLO refused by a HELLO",
    "HELLO refused by a credit",
    "a HELLO on a line",
    "a credit behind a HELLO",
    "credit of 16 arrives",
    "credit of 64 arrives",
    "credit of 8 arrives",
    "disabling refused by a line alone",
    "line idle",
    "line not there",
    "more than 30 on a line",
    "more than 60 on a line",
    "something on a board's own cable",
    "start of another length",
    "token arrives, 16 granted",
    "token arrives, 8 granted",
    "token arrives, none granted",
    "two boards of one number",
];

#[test]
fn runs_by_line_stay_sound_and_tight() {
    let mut met = Met::new();
    for seed in 0..80 {
        watch(seed, 3_000, &mut met);
    }
    for (name, times) in &met {
        println!("{times:8} {name}");
    }
    for name in TO_BE_MET {
        assert!(met.contains_key(name), "not met: {name}");
    }
}

/// What a run by line prints is read back as the same calls and outcomes, and agrees.
#[test]
fn printed_runs_by_line_are_read_back() {
    for seed in 0..20 {
        let run = run_by_line(seed, 400);
        let calls = run.iter().map(|(call, _)| call);
        let mut text = script::first_line(calls).to_string();
        assert_eq!(text, "// asks 1,4,7\n");
        for (call, found) in &run {
            let line = format!("{call} -> {found}");
            let read = (call.clone(), Some(found.clone()));
            assert_eq!(script::parse_line(&line), Ok(read));
            text += &format!("{line}\n");
        }
        assert_eq!(script::check(&text), Ok(400));
        assert_eq!(script::run(&text), Ok(text));
    }
}
