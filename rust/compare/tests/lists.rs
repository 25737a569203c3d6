//! Lists of Steps on both sides: short ones in random runs of every kind, long ones where ports are
//! full, circuits open and switch messages under way, and lists on damaged memories. Every result is
//! compared, and the whole state behind each list; and each list is held to the same Steps of the
//! library, made one by one, number by number and word by word.

use std::collections::VecDeque;

use compare::calls::{begun, Lent};
use compare::choice::{busy_ports, lines_in_use, list_of};
use compare::damaged::{call_on, other_things, other_words};
use compare::lists::{held_to_single_steps, library};
use compare::pair::{reached_by, Pair};
use compare::reached::Reached;
use compare::reduce::report;
use compare::verdict::{verdict, Verdict};
use compare::{asking, changing, layout, runs};
use model::network::{LinkEnd, Network, Sending, Start};
use model::random::Random;
use model::runs::{lend_lines, Runner};
use model::sizes::{PORTS, PORT_CAPACITY};
use model::speech::{message, stream};
use model::step::step;
use model::tokens::{Destination, Kind, Token, END, SINK};
use model::topology::{plan, Plan};
use model::{Answer, Call, No, StepRecord};

const RUNS: u64 = 36;
const CALLS: usize = 400;

#[test]
fn random_runs_with_lists() {
    let makers = [
        runs::calls_with_lists,
        asking::calls_with_lists,
        changing::calls_with_lists,
    ];
    let mut reached = Reached::default();
    for seed in 0..RUNS {
        for calls in makers {
            match reached_by(model::apply, &calls(seed, CALLS)) {
                Ok(more) => reached += more,
                Err(differing) => {
                    panic!(
                        "{}",
                        report(model::apply, &format!("seed {seed}"), differing)
                    )
                }
            }
        }
    }
    println!("{reached}");
    assert!(reached.times("steps", "results") > 2_000);
    assert!(reached.times("steps", "results of none") > 100);
    assert!(reached.times("steps", "no 2") > 100);
    assert!(reached.times("record of steps", "moved") > 3_000);
}

// Long lists.

/// How many short lists carry on what was said.
const SHORT: usize = 6;
/// How many channel-ends of a board speak; few, so that they meet.
const TALKERS: usize = 6;

/// A shift on so many boards: all that can speak do, then a list carries what they said, and behind it
/// the lines are emptied. Only the lists are made on both sides.
struct Shift {
    network: Option<Network>,
    random: Random,
    plan: Plan,
    reached: Reached,
}

impl Shift {
    /// Boards joined and set up as the model's random runs plan them.
    fn new(nodes: usize) -> Shift {
        let mut plans = (0..).map(|seed| plan(&mut Random::new(seed)));
        let plan = plans.find(|plan| plan.nodes == nodes).expect("a plan");
        let mut shift = Shift {
            network: None,
            random: Random::new(nodes as u64),
            plan,
            reached: Reached::default(),
        };
        let Plan { cabling, late, .. } = &shift.plan;
        let set_up = [&cabling[..], late, &shift.plan.settings].concat();
        for mut call in set_up {
            lend_lines(&mut call);
            shift.make(call);
            shift.empty_lines();
        }
        shift
    }

    /// Steps lines until nothing is on any.
    fn empty_lines(&mut self) {
        while let Some(LinkEnd { slot, link }) = self.line_in_use() {
            self.make(Call::Line { slot, link });
        }
    }

    fn line_in_use(&mut self) -> Option<LinkEnd> {
        let used = self.network.as_ref().map(lines_in_use).unwrap_or_default();
        self.random.pick(&used)
    }

    fn make(&mut self, call: Call) {
        model::apply(&mut self.network, &call);
    }

    fn network(&self) -> &Network {
        self.network.as_ref().expect("a network")
    }

    /// Every channel-end is emptied, and each that speaks puts out what it has to say.
    fn speak(&mut self) {
        for slot in 0..self.plan.nodes {
            for channel_end in 0..TALKERS {
                self.empty(slot, channel_end);
                self.say(slot, channel_end);
            }
        }
    }

    fn empty(&mut self, slot: usize, channel_end: usize) {
        let end = &self.network().nodes[slot].channel_ends[channel_end];
        let kinds: Vec<Kind> = end.tokens.iter().map(|token| token.kind).collect();
        for kind in kinds {
            self.make(Call::Input {
                slot,
                channel_end,
                kind,
            });
        }
    }

    /// Ends what a channel-end has open, and begins something else; some of it stays open.
    fn say(&mut self, slot: usize, channel_end: usize) {
        self.put_out(slot, channel_end, Token::control(END));
        let (destination, tokens) = self.matter(slot, channel_end);
        self.make(Call::Aim {
            slot,
            channel_end,
            destination,
            network: 0,
        });
        for token in tokens {
            self.put_out(slot, channel_end, token);
            if !self.goes_on(slot, channel_end) {
                break;
            }
        }
    }

    /// A switch message, or a stream, mostly one that fills a port.
    fn matter(&mut self, slot: usize, channel_end: usize) -> (Destination, VecDeque<Token>) {
        let nodes = &self.network.as_ref().expect("a network").nodes;
        let (own, goal) = (nodes[slot].number, self.random.pick(nodes));
        if let (true, Some(goal)) = (self.random.chance(30), goal) {
            let said = message(&mut self.random, &goal, own, channel_end);
            let number = goal.number;
            return (Destination::Control { number }, said);
        }
        let number = self.random.pick(&self.plan.numbers).unwrap_or(0);
        let channels = [0, SINK, SINK, SINK, SINK, SINK];
        let channel = self.random.pick(&channels).unwrap_or(SINK);
        let mut said = stream(&mut self.random);
        for _ in 0..self.random.pick(&[0, 50, 55]).unwrap_or(0) {
            said.push_front(Token::data(self.random.byte()));
        }
        (Destination::Channel { number, channel }, said)
    }

    /// Has a channel-end a circuit open in which there is room?
    fn goes_on(&self, slot: usize, channel_end: usize) -> bool {
        let node = &self.network().nodes[slot];
        match node.channel_ends[channel_end].sending {
            None => false,
            Some(Sending::Straight(_)) => true,
            Some(Sending::ByPort(port)) => node.ports[port].tokens.len() < PORT_CAPACITY,
        }
    }

    fn put_out(&mut self, slot: usize, channel_end: usize, token: Token) {
        self.make(Call::Output {
            slot,
            channel_end,
            kind: token.kind,
            value: token.value,
        });
    }

    /// Makes a list on both sides.
    fn list(&mut self, length: usize) {
        let records = self.records(length);
        let mut pair = Pair::at(model::apply, self.network.as_ref(), self.random.clone());
        let made = pair.call(&Call::Steps {
            results: length,
            records,
        });
        made.unwrap_or_else(|how| panic!("{} boards: {how}", self.plan.nodes));
        self.network = pair.network().cloned();
        self.reached += pair.reached();
        self.empty_lines();
    }

    /// Records that have something to do when their turn comes, as far as a copy shows it; some of
    /// any port, and some of ports that are not there.
    fn records(&mut self, length: usize) -> Vec<StepRecord> {
        let mut copy = self.network().clone();
        let mut waiting = Vec::new();
        let mut record = || {
            let busy = busy_ports(&copy);
            let mut ready = busy.iter().filter(|place| !waiting.contains(*place));
            let next = ready.nth(self.random.below(4)).copied();
            let (slot, port) = next.unwrap_or_else(|| any_port(&mut self.random, &copy));
            match step(&mut copy, slot, port) {
                Ok(Answer::Waiting) => waiting.push((slot, port)),
                Ok(Answer::Idle) | Err(_) => {}
                Ok(_) => waiting.retain(|place| place.0 != slot),
            }
            StepRecord { slot, port }
        };
        (0..length).map(|_| record()).collect()
    }
}

fn any_port(random: &mut Random, network: &Network) -> (usize, usize) {
    let nodes = network.nodes.len();
    match random.below(12) {
        0 => (nodes + random.below(2), random.below(PORTS)),
        1 => (random.below(nodes), PORTS + random.below(2)),
        _ => (random.below(nodes), random.below(PORTS)),
    }
}

/// "lists of 0 to 5,000 records": the longest on 1, 2, 4, 8 and 16 boards. No list steps a line, so it
/// takes many of them until what is said has come over its cables.
#[test]
fn long_lists_where_there_is_much_to_do() {
    let mut reached = Reached::default();
    for nodes in 1..=16 {
        let mut shift = Shift::new(nodes);
        let longest = match nodes.is_power_of_two() {
            true => 5_000,
            false => 200 + shift.random.below(400),
        };
        for length in [0, PORTS * nodes, longest, longest / 2] {
            shift.speak();
            shift.list(length);
        }
        for _ in 0..4 {
            shift.speak();
            for _ in 0..SHORT {
                shift.list(2 * PORTS * nodes);
            }
        }
        reached += shift.reached;
    }
    println!("{reached}");
    let times = |answer| reached.times("record of steps", answer);
    assert!(times("moved") > 6_000 && times("no 2") > 500);
    for answer in ["opened link", "opened channel", "opened control"] {
        assert!(times(answer) > 20, "{answer}");
    }
    for answer in ["waiting", "refused noroute", "dropped noroute", "malformed"] {
        assert!(times(answer) > 0, "{answer}");
    }
    assert_eq!(times("no 1"), 0);
    assert!(reached.times("message answered", "ACK of a write") > 0);
}

// Damaged memories.

/// A list on a damaged memory: as the model does where its words are a state of it, and every result
/// Unsound with no word changed where they are none.
#[test]
fn lists_on_damaged_memories() {
    let mut verdicts = [0; 3];
    for seed in 0..RUNS {
        let mut runner = Runner::by_line(seed).and_lists();
        let mut random = Random::new(seed ^ 0x1157);
        for call in 0..CALLS / 2 {
            runner.call();
            let Some(network) = runner.network() else {
                continue;
            };
            let damage = match call % 2 {
                0 => other_words,
                _ => other_things,
            };
            let lent = damage(network, &mut random);
            let found = list_on(&lent, &mut random);
            verdicts[found as usize] += 1;
        }
    }
    println!("sound, unsound, no state of the model: {verdicts:?}");
    assert!(verdicts.iter().all(|times| *times > 100));
}

/// Makes a list on words, and results of another length, and none.
fn list_on(lent: &Lent, random: &mut Random) -> Verdict {
    let (verdict, read) = verdict(lent).unwrap_or_else(|how| panic!("{how}"));
    let count = 1 + random.below(12);
    let list = list_of(random, read.as_ref(), count);
    let made = call_on(read.as_ref(), lent.clone(), &list);
    made.unwrap_or_else(|how| panic!("{list}: {how}"));
    if verdict != Verdict::Sound {
        all_unsound(lent, &list);
    }
    verdict
}

/// On an unsound memory: each result Unsound, an empty list done, results of another length NoSuch,
/// and no word is changed.
fn all_unsound(before: &Lent, list: &Call) {
    let Call::Steps { records, .. } = list else {
        unreachable!("a list");
    };
    let length = records.len();
    let unsound = Answer::Results(vec![Answer::No(No::Unsound); length]);
    let mut lent = before.clone();
    for (results, records, expected) in [
        (length, &records[..], unsound),
        (0, &[], Answer::Results(Vec::new())),
        (length + 1, records, Answer::No(No::NoSuch)),
        (length - 1, records, Answer::No(No::NoSuch)),
    ] {
        let found = held_to_single_steps(library, &mut lent, results, records);
        assert_eq!(found, Ok(expected));
        assert_eq!(lent, *before);
    }
}

/// Memories of other lengths than any network has, or than their own network has.
#[test]
fn lists_on_memories_of_every_wrong_length() {
    let node = [layout::NODE_WORDS, layout::NODE_TOKENS, layout::NODE_LINES];
    let lengths = |node: usize| [0, 1, node - 1, node, node + 1, 2 * node, 17 * node];
    let mut random = Random::new(3);
    let list = list_of(&mut random, Some(&begun(Start::Fresh, 2)), 5);
    let whole = Lent::of(Some(&begun(Start::Fresh, 17)), &mut random);
    for state in lengths(node[0]) {
        for memory in lengths(node[1]) {
            for lines in lengths(node[2]) {
                let right = |nodes| [state, memory, lines] == node.map(|words| words * nodes);
                if right(1) || right(2) {
                    continue;
                }
                let mut lent = whole.clone();
                lent.state.truncate(state);
                lent.memory.truncate(memory);
                lent.lines.truncate(lines);
                all_unsound(&lent, &list);
            }
        }
    }
}
