//! Damaged memories: the proved tests and looks answer for any words, change none of them, and
//! agree with the model's list wherever the words are a state of the model.

use std::fmt;
use std::ops::Range;

use bench::raw;
use bench::sizes::MOST_NODES;
use compare::calls::{begun, Lent};
use compare::damage::disturb;
use compare::damaged::{self, other_things, other_words};
use compare::layout::{self, FIRST_HEARD, NODE_LINES, NODE_TOKENS, NODE_WORDS};
use compare::verdict::Verdict;
use model::network::{Network, Start};
use model::random::Random;
use model::runs::Runner;

const RUNS: u64 = 100;
const CALLS: usize = 300;

/// How often each verdict was given, and each clause of the list found to fail.
#[derive(Default)]
struct Tally {
    sound: usize,
    unsound: usize,
    unreadable: usize,
    clauses: [usize; 16],
}

impl Tally {
    fn count(&mut self, verdict: Verdict, lent: &Lent) {
        match verdict {
            Verdict::Sound => self.sound += 1,
            Verdict::Unsound => self.unsound += 1,
            Verdict::Unreadable => self.unreadable += 1,
        }
        self.clauses[clause_of(lent)] += 1;
    }
}

impl fmt::Display for Tally {
    fn fmt(&self, f: &mut fmt::Formatter<'_>) -> fmt::Result {
        let (sound, unsound, unreadable) = (self.sound, self.unsound, self.unreadable);
        write!(
            f,
            "{sound} sound, {unsound} unsound, {unreadable} unsound and no state of the model; "
        )?;
        write!(f, "by clause: {:?}", &self.clauses[1..])
    }
}

/// The number of the clause that words fail first, 0 for none.
fn clause_of(lent: &Lent) -> usize {
    raw::unsound_clause(&lent.state, &lent.memory, &lent.lines) as usize
}

/// Asks both sides of words.
fn check(lent: &Lent, from: &str) -> Verdict {
    let checked = damaged::check(lent);
    let (verdict, _) = checked.unwrap_or_else(|difference| panic!("{from}: {difference}"));
    verdict
}

/// The words that a fresh network has.
fn fresh(nodes: usize) -> Lent {
    layout::write(&begun(Start::Fresh, nodes), &mut Random::new(0))
}

/// Damages the states of runs, and asks both sides of what comes of it.
fn disturb_runs(seeds: Range<u64>, damage: impl Fn(&Network, &mut Random) -> Lent) -> Tally {
    let mut tally = Tally::default();
    for seed in seeds {
        let mut runner = Runner::by_line(seed);
        let mut random = Random::new(seed ^ 0xDA3A);
        for call in 0..CALLS {
            runner.call();
            if let Some(network) = runner.network() {
                let lent = damage(network, &mut random);
                let found = check(&lent, &format!("seed {seed}, call {call}"));
                tally.count(found, &lent);
            }
        }
    }
    tally
}

#[test]
fn states_of_runs_with_other_words() {
    println!("{}", disturb_runs(0..RUNS, other_words));
}

#[test]
fn states_of_runs_with_other_things() {
    let tally = disturb_runs(RUNS..2 * RUNS, other_things);
    println!("{tally}");
    assert_eq!(tally.unreadable, 0);
    let failed = &tally.clauses[2..];
    assert!(
        failed.iter().all(|times| *times > 0),
        "no damage met some clause"
    );
}

/// The last word that a serving control unit has heard, in states of runs: what may stand there, and
/// what fails clause 8, on both sides. Each is tried in the state of the call that brought it.
#[test]
fn words_that_control_units_have_heard() {
    let mut met = 0;
    for seed in 0..RUNS {
        let mut runner = Runner::by_line(seed);
        let mut tried = Vec::new();
        for call in 0..CALLS {
            runner.call();
            let Some(network) = runner.network() else {
                continue;
            };
            let heard = last_heard(network);
            for place in heard.iter().filter(|place| !tried.contains(*place)) {
                try_words(network, *place, seed, &format!("seed {seed}, call {call}"));
                met += 1;
            }
            tried = heard;
        }
    }
    assert!(met > 100, "{met} states with words heard");
}

/// The slots whose control units serve and have heard something, with the place of their last word.
fn last_heard(network: &Network) -> Vec<(usize, usize)> {
    let units = network.nodes.iter().map(|node| &node.control_unit);
    units
        .enumerate()
        .filter(|(_, unit)| unit.serves.is_some() && !unit.heard.is_empty())
        .map(|(slot, unit)| (slot, unit.heard.len() - 1))
        .collect()
}

/// Legal and illegal words at one place of what a control unit has heard.
fn try_words(network: &Network, (slot, place): (usize, usize), seed: u64, from: &str) {
    let mut lent = layout::write(network, &mut Random::new(seed));
    let mut clause = |word| {
        lent.state[slot * NODE_WORDS + FIRST_HEARD + place] = word;
        check(&lent, from);
        clause_of(&lent)
    };
    let legal = [0, 0xFF, 0x100, 0x103, 0x1C0, 0x1C1];
    let illegal = [0x101, 0x102, 0x1C2, 0x1FF, 0x200, 0x600, 0x7C3, 0x1_0000];
    assert_eq!(legal.map(&mut clause), [0; 6], "{from}");
    assert_eq!(illegal.map(&mut clause), [8; 8], "{from}");
}

/// All lengths of the three memories about those of so many nodes; where ports' memory is wrong
/// already, the lines' is right.
fn all_lengths(nodes: usize) -> Vec<[usize; 3]> {
    let right = nodes * NODE_TOKENS;
    let mut all = Vec::new();
    for words in lengths(nodes * NODE_WORDS, NODE_WORDS) {
        for tokens in lengths(right, NODE_TOKENS) {
            let things = match tokens == right {
                true => lengths(nodes * NODE_LINES, NODE_LINES),
                false => vec![words / NODE_WORDS * NODE_LINES],
            };
            all.extend(things.into_iter().map(|things| [words, tokens, things]));
        }
    }
    all
}

#[test]
fn every_wrong_length() {
    let mut tally = Tally::default();
    for nodes in 0..=MOST_NODES + 2 {
        let fresh = fresh(nodes);
        for [words, tokens, things] in all_lengths(nodes) {
            let mut lent = fresh.clone();
            lent.state.resize(words, 0);
            lent.memory.resize(tokens, 0);
            lent.lines.resize(things, 0);
            let whole = words / NODE_WORDS;
            let right = [NODE_WORDS, NODE_TOKENS, NODE_LINES].map(|node| node * whole);
            let sound =
                [words, tokens, things] == right && (1..=nodes.min(MOST_NODES)).contains(&whole);
            let from = format!("{words} words, {tokens} tokens, {things} on lines");
            let found = check(&lent, &from);
            assert_eq!(found == Verdict::Sound, sound, "{from}");
            tally.count(found, &lent);
        }
    }
    println!("{tally}");
}

/// A length, and others about it and about one node more or less.
fn lengths(right: usize, node: usize) -> Vec<usize> {
    let about = [0, 1, right / 2, right - right.min(node), right + node];
    let mut lengths = vec![right, right + 1, right - right.min(1)];
    lengths.extend(about);
    lengths.sort_unstable();
    lengths.dedup();
    lengths
}

#[test]
fn one_word_over_and_over() {
    for nodes in 1..=MOST_NODES {
        for word in [0, 1, 2, 3, 0xFF, 0xFFFF, u32::MAX] {
            for token in [0, 1, 0x101, 0x1E6, 0x1FF, 0x6FF, 0x7C3, u16::MAX] {
                let lent = Lent {
                    state: vec![word; nodes * NODE_WORDS],
                    memory: vec![token; nodes * NODE_TOKENS],
                    lines: vec![token; nodes * NODE_LINES],
                };
                let found = check(&lent, &format!("{nodes} nodes of {word} and {token}"));
                assert_ne!(found, Verdict::Sound);
            }
        }
    }
}

#[test]
fn words_at_random() {
    let mut tally = Tally::default();
    let mut random = Random::new(5);
    for round in 0..2000 {
        let nodes = random.below(MOST_NODES + 2);
        let limit = random.pick(&[2, 4, 13, 256, u32::MAX]).unwrap_or(2);
        let state = (0..nodes * NODE_WORDS).map(|_| random.value_below(limit));
        let state = state.collect();
        let mut tokens = |many| (0..many).map(|_| random.bits() as u16).collect();
        let lent = Lent {
            state,
            memory: tokens(nodes * NODE_TOKENS),
            lines: tokens(nodes * NODE_LINES),
        };
        let found = check(&lent, &format!("round {round}"));
        tally.count(found, &lent);
    }
    println!("{tally}");
}

#[test]
fn a_fresh_network_disturbed() {
    let mut tally = Tally::default();
    let mut random = Random::new(6);
    for round in 0..20_000 {
        let mut lent = fresh(1 + random.below(3));
        disturb(&mut random, &mut lent);
        let found = check(&lent, &format!("round {round}"));
        tally.count(found, &lent);
    }
    println!("{tally}");
}
