//! "Streams arrive whole and at the right door", watched over random runs: a shadow
//! follows each token of each circuit by the answers alone, and compares.

mod common;

use std::collections::{HashMap, VecDeque};

use model::answers::{Answer, Cause, Opening};
use model::calls::Call;
use model::network::{Hop, Network, Sending};
use model::runs::Runner;
use model::sizes::{REPLY_PORT, TILE_PORTS};
use model::tokens::{Destination, Token, SINK};

/// One opening, up to its END or PAUSE.
struct Circuit {
    /// The destination and width as they stood at the opening.
    destination: Destination,
    width: u32,
    /// What was put out behind the header, PAUSE left out.
    sent: Vec<Token>,
    /// What was handed to a channel-end or told to a control unit.
    handed: Vec<Token>,
    split: bool,
}

#[derive(Default)]
struct Shadow {
    circuits: Vec<Circuit>,
    /// The circuit of each token in each port, and on the line to it behind.
    ports: HashMap<(usize, usize), VecDeque<usize>>,
    /// The circuit that each channel-end has open.
    open: HashMap<(usize, usize), usize>,
    /// All that each channel-end was handed and has not yet given to Input.
    held: HashMap<(usize, usize), VecDeque<Token>>,
    /// How many tokens were handed to channel-ends, and how many circuits split.
    arrived: usize,
    split: usize,
}

/// Does a number name this node, in the bits compared at that width?
fn names(number: u32, own: u32, width: u32) -> bool {
    let modulus = if width == 1 { 8 } else { 65_536 };
    number % modulus == own % modulus
}

impl Shadow {
    fn begin(&mut self, destination: Destination, width: u32) -> usize {
        self.circuits.push(Circuit {
            destination,
            width,
            sent: Vec::new(),
            handed: Vec::new(),
            split: false,
        });
        self.circuits.len() - 1
    }

    fn put(&mut self, slot: usize, port: usize, circuit: usize) {
        self.ports
            .entry((slot, port))
            .or_default()
            .push_back(circuit);
    }

    fn take(&mut self, slot: usize, port: usize) -> usize {
        let tokens = self.ports.entry((slot, port)).or_default();
        tokens.pop_front().expect("a token in the shadow")
    }

    fn front(&self, slot: usize, port: usize) -> usize {
        self.ports[&(slot, port)][0]
    }

    fn hand(&mut self, circuit: usize, slot: usize, channel: usize, token: Token) {
        if token.is_pause() || channel == SINK {
            return;
        }
        self.circuits[circuit].handed.push(token);
        self.held
            .entry((slot, channel))
            .or_default()
            .push_back(token);
        self.arrived += 1;
    }

    /// Follows an Output that was done.
    fn output(&mut self, before: &Network, after: &Network, slot: usize, end: usize, token: Token) {
        let (was, is) = (&before.nodes[slot], &after.nodes[slot]);
        let sender = &was.channel_ends[end];
        let aim = sender.aim.expect("an aim");
        let circuit = match sender.sending {
            Some(_) => self.open[&(slot, end)],
            None => self.begin(aim.destination, was.width),
        };
        if !token.is_pause() {
            self.circuits[circuit].sent.push(token);
        }
        self.open.insert((slot, end), circuit);
        if token.ends_circuit() {
            self.open.remove(&(slot, end));
        }
        let grown = |p: &usize| is.ports[*p].tokens.len() > was.ports[*p].tokens.len();
        if let Some(port) = TILE_PORTS.into_iter().find(grown) {
            let more = is.ports[port].tokens.len() - was.ports[port].tokens.len();
            (0..more).for_each(|_| self.put(slot, port, circuit));
            return;
        }
        let Destination::Channel { number, channel } = self.circuits[circuit].destination else {
            panic!("a local circuit goes to a channel");
        };
        if sender.sending.is_none() {
            assert!(names(number, was.number, was.width));
        }
        assert!(!matches!(sender.sending, Some(Sending::ByPort(_))));
        self.hand(circuit, slot, channel, token);
    }

    /// Follows a Step that read a header.
    fn read(&mut self, before: &Network, slot: usize, port: usize, answer: Answer) {
        let node = &before.nodes[slot];
        let front = self.front(slot, port);
        let circuit = &mut self.circuits[front];
        let marks = node.ports[port].tokens.iter().map_while(|t| t.header);
        assert!(marks.clone().all(|width| width == circuit.width));
        let whole = marks.count() == circuit.width as usize;
        let split = answer == Answer::Refused(Cause::Split);
        assert_eq!(split, whole && circuit.width != node.width);
        circuit.split |= split;
        self.split += usize::from(split);
        let here = names(circuit.destination.number(), node.number, circuit.width);
        let to_channel = matches!(circuit.destination, Destination::Channel { .. });
        match answer {
            Answer::Opened(Opening::Link(_)) => assert!(!here),
            Answer::Refused(Cause::NoRoute) => assert!(!here),
            Answer::Opened(Opening::Channel) => assert!(here && to_channel),
            Answer::Opened(Opening::Control) => assert!(here && !to_channel),
            _ => {}
        }
        if matches!(answer, Answer::Opened(Opening::Channel | Opening::Control)) {
            for _ in 0..circuit.width {
                self.take(slot, port);
            }
        }
    }

    /// Follows a Step of an open or refused circuit.
    fn moved(&mut self, before: &Network, after: &Network, slot: usize, port: usize, hop: Hop) {
        let token = before.nodes[slot].ports[port].tokens[0];
        let circuit = self.take(slot, port);
        match hop {
            Hop::Outward(link) => {
                let far = before.nodes[slot].links[link].far.expect("a cable");
                self.put(far.slot, far.link, circuit);
            }
            Hop::Channel(channel) => {
                let destination = self.circuits[circuit].destination;
                assert!(
                    matches!(destination, Destination::Channel { channel: c, .. } if c == channel)
                );
                self.hand(circuit, slot, channel, token);
            }
            Hop::Control => {
                if !token.is_pause() {
                    self.circuits[circuit].handed.push(token);
                }
                self.reply(after, slot, token);
            }
            Hop::Dropped(_) => {}
        }
    }

    /// The reply that an ended message may have left in port 12.
    fn reply(&mut self, after: &Network, slot: usize, last: Token) {
        let node = &after.nodes[slot];
        let tokens = &node.ports[REPLY_PORT].tokens;
        if !last.ends_circuit() || tokens.is_empty() {
            return;
        }
        let model::tokens::Front::Whole { width, destination } = model::tokens::read_header(tokens)
        else {
            panic!("a reply has a whole header");
        };
        assert_eq!(width, node.width);
        let circuit = self.begin(destination, width);
        for token in tokens {
            self.put(slot, REPLY_PORT, circuit);
            if token.header.is_none() {
                self.circuits[circuit].sent.push(*token);
            }
        }
    }

    fn follow(&mut self, before: Option<&Network>, call: Call, answer: Answer, after: &Network) {
        match (before, call, answer) {
            (_, _, Answer::No(_) | Answer::Idle) => {}
            (_, call, _) if call.start().is_some() => self.start_anew(),
            (
                Some(before),
                Call::Output {
                    slot,
                    channel_end,
                    kind,
                    value,
                },
                _,
            ) => {
                let token = Token::plain(kind, value);
                self.output(before, after, slot, channel_end, token);
            }
            (
                Some(_),
                Call::Input {
                    slot, channel_end, ..
                },
                Answer::Token(value),
            ) => {
                let held = self.held.entry((slot, channel_end)).or_default();
                assert_eq!(held.pop_front().map(|token| token.value), Some(value));
            }
            (Some(before), Call::Step { slot, port }, answer) => {
                match before.nodes[slot].ports[port].hop {
                    None => self.read(before, slot, port, answer),
                    Some(_) if answer == Answer::Waiting => {}
                    Some(hop) => self.moved(before, after, slot, port, hop),
                }
            }
            _ => {}
        }
    }

    /// Circuits of an old network are held against the rule a last time.
    fn start_anew(&mut self) {
        self.compare();
        let (arrived, split) = (self.arrived, self.split);
        *self = Shadow {
            arrived,
            split,
            ..Shadow::default()
        };
    }

    /// What was handed is the first so many that were sent; a split circuit hands
    /// nothing.
    fn compare(&self) {
        for circuit in &self.circuits {
            assert!(circuit.sent.starts_with(&circuit.handed));
            assert!(!circuit.split || circuit.handed.is_empty());
        }
    }

    /// The shadow has as many tokens everywhere as the state, and channel-ends hold
    /// what they were handed.
    fn agrees(&self, network: &Network) {
        for (slot, node) in network.nodes.iter().enumerate() {
            for (place, port) in node.ports.iter().enumerate() {
                let shadow = self.ports.get(&(slot, place)).map_or(0, VecDeque::len);
                let held = port.tokens.len() + network.coming_to(slot, place).count();
                assert_eq!(shadow, held, "port {slot}.{place}");
            }
            for (place, end) in node.channel_ends.iter().enumerate() {
                let shadow = self.held.get(&(slot, place)).cloned().unwrap_or_default();
                assert_eq!(shadow, end.tokens, "channel-end {slot}.{place}");
            }
        }
    }
}

#[test]
fn streams_arrive_whole_and_at_the_right_door() {
    let totals = watch(Runner::new, 900);
    assert!(totals.0 > 3000 && totals.1 > 100, "{totals:?}");
}

/// "Demand 3 stays" where tokens cross by line.
#[test]
fn streams_by_line_arrive_whole_and_at_the_right_door() {
    let totals = watch(Runner::by_line, 2_000);
    assert!(totals.0 > 3000 && totals.1 > 100, "{totals:?}");
}

/// Watches runs, and gives how many tokens were handed to channel-ends, and how many
/// circuits split.
fn watch(runner: fn(u64) -> Runner, count: usize) -> (usize, usize) {
    let mut totals = (0, 0);
    for seed in 5000..5120 {
        let mut runner = runner(seed);
        let mut shadow = Shadow::default();
        for _ in 0..count {
            let before = runner.network().cloned();
            let (call, found) = runner.call();
            let Some(after) = runner.network() else {
                continue;
            };
            shadow.follow(before.as_ref(), call, found.answer, after);
            shadow.agrees(after);
        }
        shadow.compare();
        totals = (totals.0 + shadow.arrived, totals.1 + shadow.split);
    }
    totals
}
