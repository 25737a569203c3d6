//! Random runs of calls: networks half updated on purpose, circuits that open,
//! wait, are refused, dropped and closed, messages that are answered or not.

mod changes;
mod lines;
mod lists;
mod oddities;

use std::collections::VecDeque;

use crate::answers::{Answer, No};
use crate::calls::Call;
use crate::network::{ChannelEnd, Network, Node};
use crate::random::Random;
use crate::script::{outcome, Outcome};
use crate::sizes::{HIGHEST_NETWORK, HIGHEST_NUMBER};
use crate::speech::{message, stream, Speech};
use crate::tokens::{Destination, Kind, Token, END, PAUSE, SINK};
use crate::topology::{plan, Plan};
use lines::Tide;

pub use lines::lend_lines;

/// A run of that many calls, each with what came of it. The same seed gives the
/// same run.
pub fn run(seed: u64, count: usize) -> Vec<(Call, Outcome)> {
    let mut runner = Runner::new(seed);
    (0..count).map(|_| runner.call()).collect()
}

/// The calls of such a run alone.
pub fn calls(seed: u64, count: usize) -> Vec<Call> {
    run(seed, count).into_iter().map(|(call, _)| call).collect()
}

/// The calls of a run in which lists of steps are made among single ones.
pub fn calls_with_lists(seed: u64, count: usize) -> Vec<Call> {
    let mut runner = Runner::with_lists(seed);
    (0..count).map(|_| runner.call().0).collect()
}

/// A run in which tokens cross by line, with lists of steps among the calls.
pub fn run_by_line(seed: u64, count: usize) -> Vec<(Call, Outcome)> {
    let mut runner = Runner::by_line(seed).and_lists();
    (0..count).map(|_| runner.call()).collect()
}

/// The calls of such a run alone.
pub fn calls_by_line(seed: u64, count: usize) -> Vec<Call> {
    let run = run_by_line(seed, count).into_iter();
    run.map(|(call, _)| call).collect()
}

/// How many channel-ends of a node take part; few, so that they meet.
const TALKERS: usize = 6;
/// How many speeches are under way at once.
const SPEECHES: usize = 10;

/// Makes up one call after the other, with an eye on the state.
pub struct Runner {
    random: Random,
    plan: Plan,
    network: Option<Network>,
    /// Calls to be made before anything else.
    prepared: VecDeque<Call>,
    speeches: Vec<Speech>,
    /// The speech that the last call was of.
    speaking: Option<usize>,
    /// Ports that answered Waiting since anything changed.
    stalled: Vec<(usize, usize)>,
    /// Does it make lists of steps too?
    lists: bool,
    /// Where tokens cross by line: how often lines are stepped.
    tide: Option<Tide>,
}

impl Runner {
    pub fn new(seed: u64) -> Runner {
        let mut random = Random::new(seed);
        let plan = plan(&mut random);
        let mut runner = Runner {
            random,
            plan,
            network: None,
            prepared: VecDeque::new(),
            speeches: Vec::new(),
            speaking: None,
            stalled: Vec::new(),
            lists: false,
            tide: None,
        };
        runner.prepare();
        runner
    }

    /// The state behind the last call.
    pub fn network(&self) -> Option<&Network> {
        self.network.as_ref()
    }

    /// Makes the next call.
    pub fn call(&mut self) -> (Call, Outcome) {
        self.speaking = None;
        let mut call = self.next_call();
        self.lend(&mut call);
        let found = outcome(&mut self.network, &call);
        self.heed(&call, &found.answer);
        (call, found)
    }

    /// Sets up the planned network, now and then with a setting left out.
    fn prepare(&mut self) {
        let left_out = self.random.pick(&[0, 0, 5]).unwrap_or(0);
        self.prepared.extend(self.plan.cabling.iter().cloned());
        for call in &self.plan.settings {
            if !self.random.chance(left_out) {
                self.prepared.push_back(call.clone());
            }
        }
    }

    /// Remembers what waits. A speech goes on where its token was taken, goes behind
    /// the others where there was no room, and is given up where it was refused for
    /// good.
    fn heed(&mut self, call: &Call, answer: &Answer) {
        match (call, answer) {
            (Call::Step { slot, port }, Answer::Waiting) => self.stalled.push((*slot, *port)),
            (Call::Output { .. } | Call::Aim { .. }, _) | (_, Answer::No(_) | Answer::Idle) => {}
            (Call::Step { slot, .. }, _) => self.stalled.retain(|place| place.0 != *slot),
            _ => self.stalled.clear(),
        }
        let Some(place) = self.speaking else { return };
        match answer {
            Answer::Done => drop(self.speeches[place].tokens.pop_front()),
            Answer::No(No::Full) => self.speeches[place..].rotate_left(1),
            _ => self.speeches[place].tokens.clear(),
        }
        self.speeches.retain(|speech| !speech.tokens.is_empty());
    }

    fn next_call(&mut self) -> Call {
        if let Some(call) = self.call_of_lines() {
            return call;
        }
        if let Some(call) = self.prepared.pop_front() {
            return call;
        }
        match self.random.below(400) {
            0..=69 if self.lists => self.list(),
            0..=201 => self.step_busy_port(),
            202..=209 => self.plug(),
            210..=301 => self.speak(),
            302..=321 => self.begin_speech(),
            322..=359 => self.input(),
            360..=365 => self.close_stream(),
            366..=371 => self.change_setting(),
            372..=381 => self.mend_setting(),
            382..=384 => self.greet_busy_link(),
            385..=386 => self.wire(),
            387..=390 => self.odd_output(),
            391..=392 => self.odd_aim(),
            393..=395 => self.odd_step(),
            396 => self.odd_input(),
            397 => self.odd_start(),
            _ => self.start_anew(),
        }
    }

    // What there is.

    fn nodes(&self) -> impl Iterator<Item = (usize, &Node)> {
        let nodes = self.network.iter().flat_map(|network| &network.nodes);
        (0..).zip(nodes)
    }

    fn channel_ends(&self) -> impl Iterator<Item = (usize, usize, &ChannelEnd)> {
        self.nodes().flat_map(|(slot, node)| {
            let ends = (0..).zip(&node.channel_ends);
            ends.map(move |(place, end)| (slot, place, end))
        })
    }

    /// Ports that hold a token, those known to wait left out.
    fn busy_ports(&self) -> Vec<(usize, usize)> {
        let ports = self.nodes().flat_map(|(slot, node)| {
            let ports = (0..).zip(&node.ports);
            ports.map(move |(place, port)| (slot, place, port))
        });
        ports
            .filter(|(_, _, port)| !port.tokens.is_empty())
            .map(|(slot, place, _)| (slot, place))
            .filter(|place| !self.stalled.contains(place))
            .collect()
    }

    // Numbers in range, and seldom beyond.

    fn slot(&mut self) -> usize {
        self.random.below(self.plan.nodes)
    }

    fn any_slot(&mut self) -> usize {
        self.below_or_beyond(self.plan.nodes)
    }

    fn below_or_beyond(&mut self, limit: usize) -> usize {
        let beyond = [limit + 1, 255, 65_536, usize::MAX];
        match self.random.below(60) {
            0 => limit,
            1 => self.random.pick(&beyond).unwrap_or(limit),
            _ => self.random.below(limit),
        }
    }

    fn value_below_or_beyond(&mut self, limit: u32) -> u32 {
        let beyond = [limit + 1, 255, 65_536, u32::MAX];
        match self.random.below(20) {
            0 => limit,
            1 => self.random.pick(&beyond).unwrap_or(limit),
            _ => self.random.value_below(limit),
        }
    }

    /// A number that some board is meant to have; seldom another.
    fn number(&mut self) -> u32 {
        let planned = self.random.pick(&self.plan.numbers).unwrap_or(0);
        match self.random.below(40) {
            0 => self.random.value_below(HIGHEST_NUMBER + 1),
            1 => planned ^ 8,
            _ => planned,
        }
    }

    fn kind(&mut self) -> Kind {
        let kinds = [Kind::Data, Kind::Control];
        self.random.pick(&kinds).unwrap_or(Kind::Data)
    }

    // Traffic.

    fn step_busy_port(&mut self) -> Call {
        let busy = self.busy_ports();
        if busy.is_empty() {
            self.stalled.clear();
        }
        match self.random.pick(&busy) {
            Some((slot, port)) => Call::Step { slot, port },
            None if self.random.chance(40) => self.input(),
            None => self.speak(),
        }
    }

    /// The next token of a speech, mostly of the first.
    fn speak(&mut self) -> Call {
        let any = self.random.below(self.speeches.len());
        let first = self.random.chance(60);
        let place = if first { 0 } else { any };
        let Some(speech) = self.speeches.get(place) else {
            return self.begin_speech();
        };
        let (slot, channel_end) = (speech.slot, speech.channel_end);
        match speech.tokens.front() {
            Some(&Token { kind, value, .. }) => {
                self.speaking = Some(place);
                Call::Output {
                    slot,
                    channel_end,
                    kind,
                    value,
                }
            }
            None => self.odd_output(),
        }
    }

    /// Aims a channel-end and thinks up what it is going to say.
    fn begin_speech(&mut self) -> Call {
        let (slot, channel_end) = self.talker();
        let other_network = self.random.chance(6);
        let any_network = self.random.value_below(HIGHEST_NETWORK + 1);
        let network = if other_network { any_network } else { 0 };
        let (destination, tokens) = self.matter(slot, channel_end);
        if self.speeches.len() < SPEECHES {
            self.speeches.push(Speech {
                slot,
                channel_end,
                tokens,
            });
        }
        Call::Aim {
            slot,
            channel_end,
            destination,
            network,
        }
    }

    /// A channel-end, mostly one that has no circuit open.
    fn talker(&mut self) -> (usize, usize) {
        let free: Vec<_> = self
            .channel_ends()
            .filter(|(_, place, end)| *place < TALKERS && end.sending.is_none())
            .map(|(slot, place, _)| (slot, place))
            .collect();
        let any = (self.slot(), self.random.below(TALKERS));
        let careless = self.random.chance(15);
        let free = self.random.pick(&free).filter(|_| !careless);
        free.unwrap_or(any)
    }

    /// A destination, and something to say to it.
    fn matter(&mut self, slot: usize, channel_end: usize) -> (Destination, VecDeque<Token>) {
        let goal = self.slot();
        let number = self.number();
        if let Some(matter) = self.matter_of_lines(slot, goal, channel_end) {
            return matter;
        }
        let nodes = self.network.as_ref().map_or(&[][..], |n| &n.nodes);
        let (own, node) = (nodes.get(slot), nodes.get(goal));
        if let (true, Some(own), Some(node)) = (self.random.chance(30), own, node) {
            let tokens = message(&mut self.random, node, own.number, channel_end);
            let number = node.number;
            return (Destination::Control { number }, tokens);
        }
        let sink = self.random.chance(8);
        let talker = self.random.below(TALKERS);
        let channel = if sink { SINK } else { talker };
        let destination = Destination::Channel { number, channel };
        (destination, stream(&mut self.random))
    }

    /// Ends a stream that nobody goes on with.
    fn close_stream(&mut self) -> Call {
        let spoken_for = |slot, end| {
            let mut speeches = self.speeches.iter();
            speeches.any(|speech| (speech.slot, speech.channel_end) == (slot, end))
        };
        let left_open: Vec<_> = self
            .channel_ends()
            .filter(|(slot, place, end)| end.sending.is_some() && !spoken_for(*slot, *place))
            .map(|(slot, place, _)| (slot, place))
            .collect();
        let value = self.random.pick(&[END, END, PAUSE]).unwrap_or(END);
        match self.random.pick(&left_open) {
            Some((slot, channel_end)) => Call::Output {
                slot,
                channel_end,
                kind: Kind::Control,
                value,
            },
            None => self.speak(),
        }
    }

    /// Takes a token that some channel-end holds, mostly as what it is.
    fn input(&mut self) -> Call {
        let holding: Vec<_> = self
            .channel_ends()
            .filter_map(|(slot, place, end)| Some((slot, place, end.tokens.front()?.kind)))
            .collect();
        let wrong = self.random.chance(4);
        let any_kind = self.kind();
        match self.random.pick(&holding) {
            Some((slot, channel_end, kind)) => Call::Input {
                slot,
                channel_end,
                kind: if wrong { any_kind } else { kind },
            },
            None => self.begin_speech(),
        }
    }

    /// Seldom: another network, begun with a start that succeeds.
    fn start_anew(&mut self) -> Call {
        if !self.random.chance(10) {
            return self.step_busy_port();
        }
        self.begin_anew();
        match self.prepared.pop_front() {
            Some(call) => call,
            None => self.odd_start(),
        }
    }
}
