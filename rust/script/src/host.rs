//! A network that the calls of a script are made on.

use std::fmt;

use bench::sizes::MOST_NODES;
use bench::{raw, Bench, Clause, Destination, Kind, Looks, Setting, StepRecord};

use crate::answer::Answer;
use crate::call::Call;
use crate::settle::changes;

/// What came of a call: its answer, and the digest of the state behind it.
#[derive(Clone, Debug, PartialEq, Eq)]
pub struct Outcome {
    pub answer: Answer,
    pub digest: u64,
}

impl fmt::Display for Outcome {
    fn fmt(&self, f: &mut fmt::Formatter<'_>) -> fmt::Result {
        write!(f, "{} # {:016x}", self.answer, self.digest)
    }
}

/// A call that was made, written as `CALL -> ANSWER # DIGEST`.
#[derive(Clone, Debug, PartialEq, Eq)]
pub struct Made {
    /// The line of the script that has the call.
    pub line: usize,
    pub call: Call,
    pub found: Outcome,
    /// Where the answer is Unsound, or one of a list is: the clause that the memory fails first.
    pub failing: Option<Clause>,
}

impl fmt::Display for Made {
    fn fmt(&self, f: &mut fmt::Formatter<'_>) -> fmt::Result {
        write!(f, "{} -> {}", self.call, self.found)
    }
}

/// The memories that a host lends.
#[derive(Clone, Debug, Default)]
struct Lent {
    state: Vec<u32>,
    memory: Vec<u16>,
    lines: Vec<u16>,
}

impl Lent {
    fn looks(&self) -> Looks<'_> {
        Looks::over(&self.state, &self.memory, &self.lines)
    }
}

/// A start, on memories that are lent to it.
type Start = fn(&mut [u32], &mut [u16], &mut [u16], usize) -> bench::Answer;

/// The host of a network: it lends its memories to each call. Before the first start that succeeds,
/// Fresh or blank, they are empty, which is Unsound to every other call.
#[derive(Clone, Debug, Default)]
pub struct Host {
    lent: Lent,
}

impl Host {
    /// The state, to be looked at.
    pub fn looks(&self) -> Looks<'_> {
        self.lent.looks()
    }

    /// A copy of the network, to try calls on.
    pub fn copy(&self) -> Bench {
        let Lent {
            state,
            memory,
            lines,
        } = self.lent.clone();
        Bench::over(state, memory, lines)
    }

    /// The digest of the state, "0 while there is no network".
    pub fn digest(&self) -> u64 {
        match self.looks().nodes() {
            0 => 0,
            _ => self.looks().digest(),
        }
    }

    /// Makes a call.
    pub fn make(&mut self, line: usize, call: Call) -> Made {
        let (answer, failing) = self.answer(&call);
        let digest = self.digest();
        let found = Outcome { answer, digest };
        Made {
            line,
            call,
            found,
            failing,
        }
    }

    /// Makes a call of a round; none where it has changed nothing.
    pub fn make_if_it_changes(&mut self, line: usize, call: Call) -> Option<Made> {
        let (answer, failing) = self.answer(&call);
        if !changes(&answer) {
            return None;
        }
        let digest = self.digest();
        let found = Outcome { answer, digest };
        Some(Made {
            line,
            call,
            found,
            failing,
        })
    }

    /// What the proved library answers, and the clause that fails where it says Unsound.
    fn answer(&mut self, call: &Call) -> (Answer, Option<Clause>) {
        match *call {
            Call::Fresh {
                nodes,
                memory_words,
                line_words,
            } => self.start(raw::fresh, lent_for(nodes, memory_words, line_words), nodes),
            Call::Blank {
                nodes,
                memory_words,
                line_words,
            } => self.start(raw::blank, lent_for(nodes, memory_words, line_words), nodes),
            _ => {
                let answer = answer_on(&mut self.lent, call);
                let failing = failing_clause(&answer, &self.lent);
                (answer, failing)
            }
        }
    }

    /// A start on memories of its own: "a later Fresh that succeeds replaces the network", and so
    /// does a later blank.
    fn start(&mut self, start: Start, mut lent: Lent, nodes: usize) -> (Answer, Option<Clause>) {
        let (memory, lines) = (&mut lent.memory, &mut lent.lines);
        let answer = start(&mut lent.state, memory, lines, nodes).into();
        let failing = failing_clause(&answer, &lent);
        if answer == Answer::Done {
            self.lent = lent;
        }
        (answer, failing)
    }
}

/// What a call that is no start answers on these memories.
fn answer_on(lent: &mut Lent, call: &Call) -> Answer {
    let (state, memory, lines) = (&mut lent.state, &mut lent.memory, &mut lent.lines);
    let answer = match *call {
        Call::Wire { one, other } => raw::wire(
            state, memory, lines, one.slot, one.link, other.slot, other.link,
        ),
        Call::Set { slot, setting } => set(lent, slot, setting),
        Call::Hello { slot, link } => raw::hello(state, memory, lines, slot, link),
        Call::Aim {
            slot,
            channel_end,
            destination,
            network,
        } => aim(lent, slot, channel_end, destination, network),
        Call::Output {
            slot,
            channel_end,
            kind,
            value,
        } => output(lent, slot, channel_end, kind, value),
        Call::Input {
            slot,
            channel_end,
            kind,
        } => input(lent, slot, channel_end, kind),
        Call::Step { slot, port } => raw::step(state, memory, lines, slot, port),
        Call::Line { slot, link } => raw::line_step(state, memory, lines, slot, link),
        Call::Steps { results, ref list } => return steps(lent, results, list),
        Call::Fresh { .. } | Call::Blank { .. } => unreachable!("a start has its own memories"),
    };
    answer.into()
}

/// Memories for so many nodes. Any length beyond that of 16 nodes is as wrong as one word beyond,
/// and a count that is refused is refused at any length: no more is lent than can matter.
fn lent_for(nodes: usize, memory_words: usize, line_words: usize) -> Lent {
    let at_most = |words: usize, of_node: usize| words.min(MOST_NODES * of_node + 1);
    Lent {
        state: vec![0; nodes.min(MOST_NODES) * raw::state_words()],
        memory: vec![0; at_most(memory_words, raw::memory_words())],
        lines: vec![0; at_most(line_words, raw::line_words())],
    }
}

/// What is wrong with a memory that was refused as Unsound.
fn failing_clause(answer: &Answer, lent: &Lent) -> Option<Clause> {
    match answer.is_unsound() {
        true => lent.looks().failing_clause(),
        false => None,
    }
}

/// A list of Steps. Any other length of the results than the list's is as wrong as one more: no more
/// are lent than can matter.
fn steps(lent: &mut Lent, results: usize, list: &[StepRecord]) -> Answer {
    let mut results = vec![0; results.min(list.len() + 1)];
    let (memory, lines) = (&mut lent.memory, &mut lent.lines);
    match raw::steps(&mut lent.state, memory, lines, list, &mut results) {
        bench::Answer::Done => Answer::Results(results.into_iter().map(result).collect()),
        refused => refused.into(),
    }
}

/// What a result says: every number that the proved functions give stands for an answer.
fn result(number: u64) -> Answer {
    let answer = bench::Answer::from_crossed(number);
    answer.expect("a result is an answer").into()
}

fn aim(
    lent: &mut Lent,
    slot: usize,
    end: usize,
    destination: Destination,
    network: u32,
) -> bench::Answer {
    let (state, memory, lines) = (&mut lent.state, &lent.memory, &lent.lines);
    match destination {
        Destination::Channel { number, channel } => {
            raw::aim_channel(state, memory, lines, slot, end, number, channel, network)
        }
        Destination::Control { number } => {
            raw::aim_unit(state, memory, lines, slot, end, number, network)
        }
    }
}

fn output(lent: &mut Lent, slot: usize, end: usize, kind: Kind, value: u8) -> bench::Answer {
    let (state, memory, lines) = (&mut lent.state, &mut lent.memory, &lent.lines);
    match kind {
        Kind::Data => raw::output_data(state, memory, lines, slot, end, value),
        Kind::Control => raw::output_control(state, memory, lines, slot, end, value),
    }
}

fn input(lent: &mut Lent, slot: usize, end: usize, kind: Kind) -> bench::Answer {
    let (state, memory, lines) = (&mut lent.state, &lent.memory, &lent.lines);
    match kind {
        Kind::Data => raw::input_data(state, memory, lines, slot, end),
        Kind::Control => raw::input_control(state, memory, lines, slot, end),
    }
}

fn set(lent: &mut Lent, slot: usize, setting: Setting) -> bench::Answer {
    let (state, memory, lines) = (&mut lent.state, &lent.memory, &mut lent.lines);
    match setting {
        Setting::Number(value) => raw::set_number(state, memory, lines, slot, value),
        Setting::Width(value) => raw::set_width(state, memory, lines, slot, value),
        Setting::Direction { bit, value } => {
            raw::set_direction(state, memory, lines, slot, bit, value)
        }
        Setting::LinkDirection { link, value } => {
            raw::set_link_direction(state, memory, lines, slot, link, value)
        }
        Setting::Network { link, value } => {
            raw::set_network(state, memory, lines, slot, link, value)
        }
        Setting::Enable { link, value } => raw::set_enable(state, memory, lines, slot, link, value),
    }
}
