//! Runs in which settings change while circuits are under way: numbers, widths and directions from
//! a few values each, so that a board takes a number for which a header was made, loses the one
//! that it had, or goes to the other width; cables with both ends on one board, boards joined
//! twice, and cables plugged into links by which circuits leave already.

use model::calls::Call;
use model::network::{LinkEnd, Network, Start};
use model::random::Random;
use model::set::Setting;
use model::sizes::LINKS;
use model::speech::{self, Speech};
use model::tokens::{Destination, Token, ONE_BYTE, SINK, THREE_BYTES};
use model::{Answer, No};

use crate::calls::beginning;
use crate::choice::{any_list, busy_ports, lines_in_use, plug};

/// A run of that many calls on one to four boards. The same seed gives the same run.
pub fn calls(seed: u64, count: usize) -> Vec<Call> {
    run(Changing::new(seed), count)
}

/// The same, with lists of Steps among single ones.
pub fn calls_with_lists(seed: u64, count: usize) -> Vec<Call> {
    let mut changing = Changing::new(seed);
    changing.lists = true;
    run(changing, count)
}

/// The same without a cable at the start: each is plugged into a link in use.
pub fn calls_without_cables(seed: u64, count: usize) -> Vec<Call> {
    let mut changing = Changing::new(seed);
    changing.cabled = false;
    run(changing, count)
}

fn run(mut changing: Changing, count: usize) -> Vec<Call> {
    while changing.calls.len() < count {
        changing.next();
    }
    changing.calls.truncate(count);
    changing.calls
}

/// The numbers that boards have and that headers name. Some differ in no bit of the low three.
const NUMBERS: [u32; 6] = [0, 1, 2, 9, 10, 0x8001];
/// How many directions are in use, so that many links are candidates.
const DIRECTIONS: usize = 3;
/// How many channel-ends of a board speak, and how many at once.
const TALKERS: usize = 5;
const SPEECHES: usize = 6;
/// The bits in which these numbers differ.
const BITS: [usize; 4] = [0, 1, 3, 15];

struct Changing {
    random: Random,
    network: Option<Network>,
    speeches: Vec<Speech>,
    calls: Vec<Call>,
    /// Are lists of Steps made, too?
    lists: bool,
    /// Are there cables from the start on?
    cabled: bool,
    /// How many calls of a hundred have a line step before them, where something is on a line.
    tide: usize,
}

impl Changing {
    fn new(seed: u64) -> Changing {
        Changing {
            random: Random::new(seed),
            network: None,
            speeches: Vec::new(),
            calls: Vec::new(),
            lists: false,
            cabled: true,
            tide: 0,
        }
    }

    fn make(&mut self, call: Call) -> Answer {
        let answer = model::apply(&mut self.network, &call);
        self.calls.push(call);
        answer
    }

    fn nodes(&self) -> usize {
        self.network
            .as_ref()
            .map_or(0, |network| network.nodes.len())
    }

    fn number(&mut self) -> u32 {
        self.random.pick(&NUMBERS).unwrap_or(0)
    }

    fn next(&mut self) {
        if self.network.is_none() {
            return self.start_anew();
        }
        if self.random.chance(self.tide) {
            self.step_line();
        }
        match self.random.below(400) {
            0 => self.start_anew(),
            1..=2 if !self.cabled => self.start_anew(),
            3..=12 if !self.cabled => self.plug(),
            1..=79 if self.lists => self.list(),
            1..=219 => self.step(),
            220..=319 => self.speak(),
            320..=359 => self.take(),
            360..=376 => self.change_node(),
            377..=379 => self.plug(),
            _ => self.change_link(),
        }
    }

    /// The links of a board that have a cable: what leaves by another one waits until it has one.
    fn wired(&self, slot: usize) -> Vec<usize> {
        let node = self.network.as_ref().map(|network| &network.nodes[slot]);
        let links =
            (0..LINKS).filter(|link| node.is_some_and(|node| node.links[*link].far.is_some()));
        links.collect()
    }

    /// Either start, cables, and every link that has one enabled and greeted, with nothing left on a
    /// line.
    fn start_anew(&mut self) {
        self.speeches.clear();
        let nodes = 1 + self.random.below(4);
        let start = self.random.pick(&Start::ALL).unwrap_or(Start::Fresh);
        self.tide = self.random.pick(&[100, 100, 95, 60, 25]).unwrap_or(100);
        self.make(beginning(start, nodes));
        let cables = if self.cabled { 3 * nodes } else { 0 };
        for _ in 0..cables {
            let [one, other] = [(); 2].map(|()| self.link_end());
            self.make(Call::Wire { one, other });
        }
        for slot in 0..nodes {
            self.start_node(slot);
        }
        for slot in 0..nodes {
            for link in self.wired(slot) {
                let setting = Setting::Hello { link };
                self.make(Call::Set { slot, setting });
                while self.step_line() {}
            }
        }
    }

    /// A step of a line that has something on it; false where there is none.
    fn step_line(&mut self) -> bool {
        let used = self.network.as_ref().map(lines_in_use).unwrap_or_default();
        let line = self.random.pick(&used);
        if let Some(LinkEnd { slot, link }) = line {
            self.make(Call::Line { slot, link });
        }
        line.is_some()
    }

    fn start_node(&mut self, slot: usize) {
        let value = self.number();
        let mut settings = vec![Setting::Number { value }];
        for bit in BITS {
            let value = self.random.below(DIRECTIONS) as u32;
            settings.push(Setting::Direction { bit, value });
        }
        let any = [(); 3].map(|()| self.random.below(LINKS));
        let links = match self.cabled {
            true => self.wired(slot),
            false => any.to_vec(),
        };
        for link in links {
            let value = self.random.below(DIRECTIONS) as u32;
            settings.push(Setting::LinkDirection { link, value });
            settings.push(Setting::Enable { link, value: 1 });
        }
        for setting in settings {
            self.make(Call::Set { slot, setting });
        }
    }

    fn link_end(&mut self) -> LinkEnd {
        let nodes = self.nodes();
        LinkEnd {
            slot: self.random.below(nodes),
            link: self.random.below(LINKS),
        }
    }

    fn change_node(&mut self) {
        let slot = self.random.below(self.nodes());
        let setting = match self.random.below(10) {
            0..=5 => Setting::Number {
                value: self.number(),
            },
            6..=7 => Setting::Width { value: THREE_BYTES },
            8 => Setting::Width { value: ONE_BYTE },
            _ => Setting::Direction {
                bit: self.random.pick(&BITS).unwrap_or(0),
                value: self.random.below(DIRECTIONS) as u32,
            },
        };
        self.make(Call::Set { slot, setting });
    }

    fn change_link(&mut self) {
        let LinkEnd { slot, link: any } = self.link_end();
        let wired = self.wired(slot);
        let link = self.random.pick(&wired).unwrap_or(any);
        let setting = match self.random.below(8) {
            0 => Setting::Enable { link, value: 0 },
            1..=3 => Setting::Enable { link, value: 1 },
            4..=5 => Setting::Hello { link },
            _ => Setting::LinkDirection {
                link,
                value: self.random.below(DIRECTIONS) as u32,
            },
        };
        self.make(Call::Set { slot, setting });
    }

    /// A cable for a link by which a circuit is to leave and that has none.
    fn plug(&mut self) {
        for call in plug(&mut self.random, self.network.as_ref()) {
            self.make(call);
        }
    }

    fn list(&mut self) {
        let call = any_list(&mut self.random, self.network.as_ref());
        self.make(call);
    }

    fn step(&mut self) {
        let busy = self.network.as_ref().map(busy_ports).unwrap_or_default();
        if let Some((slot, port)) = self.random.pick(&busy) {
            self.make(Call::Step { slot, port });
        }
    }

    /// The next token of a speech, or the beginning of one.
    fn speak(&mut self) {
        let some = self.random.below(SPEECHES);
        let Some(speech) = self.speeches.get_mut(some) else {
            return self.begin();
        };
        let (slot, channel_end) = (speech.slot, speech.channel_end);
        let Some(token) = speech.tokens.front().copied() else {
            self.speeches.remove(some);
            return;
        };
        let answer = self.make(output(slot, channel_end, token));
        let speech = &mut self.speeches[some];
        match answer {
            Answer::Done => drop(speech.tokens.pop_front()),
            Answer::No(No::Full) => {}
            _ => speech.tokens.clear(),
        }
    }

    /// Aims a channel-end at a channel, the sink or a control unit, and thinks up what it will say.
    fn begin(&mut self) {
        let (slot, channel_end) = (self.random.below(self.nodes()), self.random.below(TALKERS));
        let number = self.number();
        let goal = self.random.below(self.nodes());
        let network = self.network.as_ref();
        let reply_to = network.map_or(0, |network| network.nodes[goal].number);
        let node = self.network.as_ref().map(|network| &network.nodes[slot]);
        let (destination, tokens) = match (self.random.below(10), node) {
            (0..=2, Some(node)) => {
                let channel = self.random.below(TALKERS);
                let said = speech::message(&mut self.random, node, reply_to, channel);
                (Destination::Control { number }, said)
            }
            (kind, _) => {
                let any = self.random.below(TALKERS);
                let channel = if kind == 3 { SINK } else { any };
                let said = speech::stream(&mut self.random);
                (Destination::Channel { number, channel }, said)
            }
        };
        let aimed = self.make(Call::Aim {
            slot,
            channel_end,
            destination,
            network: 0,
        });
        if aimed == Answer::Done {
            self.speeches.push(Speech {
                slot,
                channel_end,
                tokens,
            });
        }
    }

    /// Takes a token that some channel-end holds.
    fn take(&mut self) {
        let nodes = self.network.iter().flat_map(|network| &network.nodes);
        let ends = nodes.enumerate().flat_map(|(slot, node)| {
            let ends = node.channel_ends.iter().enumerate();
            ends.filter_map(move |(end, state)| Some((slot, end, state.tokens.front()?.kind)))
        });
        let holding: Vec<_> = ends.collect();
        if let Some((slot, channel_end, kind)) = self.random.pick(&holding) {
            self.make(Call::Input {
                slot,
                channel_end,
                kind,
            });
        }
    }
}

fn output(slot: usize, channel_end: usize, token: Token) -> Call {
    Call::Output {
        slot,
        channel_end,
        kind: token.kind,
        value: token.value,
    }
}
