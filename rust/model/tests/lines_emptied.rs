//! Lines emptied behind each call, held to a network whose tokens cross at once: the
//! same calls give the same answers and states, but for what HELLO answers and for
//! messages that stand in their own way (A4.13).

mod common;

use common::Bench;
use model::answers::Answer;
use model::calls::{apply, Call};
use model::digest::base_bytes;
use model::lines::{line_words, Crossing};
use model::messages::{request, Request};
use model::network::{Hop, LinkEnd, Network};
use model::random::Random;
use model::registers::settings;
use model::runs::{lend_lines, Runner};
use model::set::Setting;
use model::sizes::REPLY_PORT;
use model::tokens::{Token, NACK};
use model::words::parse_call;

/// The same network by line, with every line empty: what an end has issued is what the
/// far end has in hand.
fn by_line(at_once: &Network) -> Network {
    let mut network = at_once.clone();
    let line_words = line_words(network.nodes.len()).expect("a length");
    network.crossing = Crossing::ByLine { line_words };
    for (node, before) in network.nodes.iter_mut().zip(&at_once.nodes) {
        for (link, before) in node.links.iter_mut().zip(&before.links) {
            link.issued = at_once.far_link(before).map_or(0, |far| far.credit);
        }
    }
    network
}

/// How often what differed.
#[derive(Debug, Default)]
struct Differences {
    hellos: usize,
    granted: usize,
    in_their_own_way: usize,
}

/// The link whose HELLO a Step is about to say by a message that ends with it, if it is
/// such a Step.
fn hello_by_message(network: &Network, call: &Call) -> Option<LinkEnd> {
    let Call::Step { slot, port } = *call else {
        return None;
    };
    let node = network.node(slot).ok()?;
    let place = node.ports.get(port)?;
    let ends = place.tokens.front().is_some_and(Token::ends_circuit);
    let heard = (ends && place.hop == Some(Hop::Control)).then_some(&node.control_unit.heard)?;
    let Request::Write { address, data } = request(heard) else {
        return None;
    };
    settings(address, data)?
        .into_iter()
        .find_map(|setting| match setting {
            Setting::Hello { link } => Some(LinkEnd { slot, link }),
            _ => None,
        })
}

/// Is a credit on a line of that cable?
fn credit_on_cable(network: &Network, end: LinkEnd) -> bool {
    let link = &network.nodes[end.slot].links[end.link];
    let far = network.far_link(link).map_or(0, |far| far.credit_on_line());
    link.credit_on_line() + far > 0
}

/// A network by line, emptied behind each call.
struct Emptied {
    bench: Bench,
    differences: Differences,
    random: Random,
}

impl Emptied {
    fn new() -> Emptied {
        Emptied {
            bench: Bench::empty(),
            differences: Differences::default(),
            random: Random::new(4),
        }
    }

    /// Makes the call that the other network has made with that answer, and compares.
    fn call(&mut self, call: &Call, answer: &Answer, at_once: Option<&Network>, what: &str) {
        let mut call = call.clone();
        lend_lines(&mut call);
        let before = self.bench.network.as_ref();
        let hello = before.and_then(|network| hello_by_message(network, &call));
        let found = self.bench.make(&call);
        let Some(at_once) = at_once else {
            assert_eq!((found, None), (answer.clone(), self.bench.network.clone()));
            return;
        };
        let in_its_way = hello.filter(|end| credit_on_cable(self.bench.state(), *end));
        let reply = self.reply(hello);
        let granted = self.empty_lines();
        self.answers_agree(&found, answer, granted, what);
        let expected = by_line(at_once);
        if let Some(end) = in_its_way.filter(|_| *self.bench.state() != expected) {
            assert_eq!(reply, Some(Token::control(NACK)), "{what}");
            assert!(expected.nodes[end.slot].links[end.link].greeted, "{what}");
            self.differences.in_their_own_way += 1;
            self.bench.network = Some(expected);
            return;
        }
        assert_eq!(*self.bench.state(), expected, "{what}");
        assert_eq!(
            base_bytes(self.bench.state()),
            base_bytes(at_once),
            "{what}"
        );
    }

    /// Steps lines, any that is in use, until all are empty, and adds up the grants.
    fn empty_lines(&mut self) -> usize {
        let mut granted = 0;
        while let Some((slot, link)) = self.random.pick(&self.bench.lines_in_use()) {
            match self.bench.make(&Call::Line { slot, link }) {
                Answer::Arrived(grant) => granted += grant,
                other => panic!("line {slot} {link} -> {other}"),
            }
        }
        granted
    }

    /// What the control unit replies to a message, behind the header.
    fn reply(&self, hello: Option<LinkEnd>) -> Option<Token> {
        let port = self.bench.port(hello?.slot, REPLY_PORT);
        let mut tokens = port.tokens.iter();
        tokens.find(|token| token.header.is_none()).copied()
    }

    /// HELLO answers 0, and the emptying brings what it answers at once; else they are
    /// the same.
    fn answers_agree(&mut self, found: &Answer, at_once: &Answer, emptying: usize, what: &str) {
        if let Answer::Granted(grant) = at_once {
            assert_eq!(*found, Answer::Granted(0), "{what}");
            assert_eq!(emptying, *grant, "{what}");
            self.differences.hellos += 1;
            self.differences.granted += usize::from(*grant > 0);
        } else {
            assert_eq!(found, at_once, "{what}");
        }
    }
}

#[test]
fn random_runs_emptied_are_those_at_once() {
    let mut emptied = Emptied::new();
    for seed in 0..50 {
        let mut runner = Runner::new(seed);
        for place in 0..2_000 {
            let (call, found) = runner.call();
            let what = format!("seed {seed}, call {place}: {call} -> {}", found.answer);
            emptied.call(&call, &found.answer, runner.network(), &what);
        }
        emptied.bench.network = None;
    }
    println!("{:?}", emptied.differences);
    assert!(emptied.differences.granted > 1_000);
}

/// Two boards at once, board 0 with much to say to board 1: streams to its sink, and
/// messages that say HELLO at either end of the cable. Board 1 takes a token mostly when
/// board 0 can send none, so that there is room for few more.
struct Pressed {
    random: Random,
    network: Option<Network>,
}

impl Pressed {
    fn new(seed: u64) -> Pressed {
        let mut bench = Bench::fresh(2);
        bench.play(
            "set 1 number 0 1
             set 0 linkdirection 4 1
             set 1 linkdirection 4 1
             set 0 direction 0 1
             set 1 direction 0 1",
        );
        bench.cable(0, 4, 1, 4);
        Pressed {
            random: Random::new(seed),
            network: bench.network,
        }
    }

    fn next(&mut self) -> Vec<String> {
        let network = self.network.as_ref().expect("a network");
        let credit = network.nodes[0].links[4].credit;
        let user = network.nodes[0].links[4].used_by;
        let waits = user.is_some_and(|port| network.nodes[0].ports[port].tokens.is_empty());
        let channel_end = self.random.below(4);
        match self.random.below(100) {
            0..=5 => vec![format!("step 1 {REPLY_PORT}")],
            6..=9 => vec![format!("step 0 {}", 4)],
            10..=12 => vec!["input 0 9 control".to_string()],
            13..=20 => self.speech(channel_end),
            _ if credit > 0 && !waits && self.random.chance(90) => {
                let any = 8 + self.random.below(4);
                vec![format!("step 0 {}", user.unwrap_or(any))]
            }
            _ if self.random.chance(20) => self.speech(channel_end),
            _ => vec!["step 1 4".to_string()],
        }
    }

    /// A stream to the sink, or a message that says HELLO on link E of board 1.
    fn speech(&mut self, channel_end: usize) -> Vec<String> {
        let output = |kind: &str, value: u32| format!("output 0 {channel_end} {kind} {value}");
        let mut calls = Vec::new();
        if self.random.chance(50) {
            calls.push(format!("aim 0 {channel_end} channel 1 255 0"));
            let length = self.random.below(30) as u32;
            calls.extend((0..length).map(|byte| output("data", byte)));
        } else {
            calls.push(format!("aim 0 {channel_end} control 1 0 0"));
            calls.push(output("control", 0xC0));
            let bytes = [0, 0, 9, 0, 0x86, 0x81, 0, 0, 0];
            calls.extend(bytes.map(|byte| output("data", byte)));
        }
        calls.push(output("control", 1));
        calls
    }
}

/// A message that says HELLO on the cable that it came by is refused just when the
/// taking of its END brings a grant; then, and at no other time, the two differ.
#[test]
fn messages_in_their_own_way() {
    let mut in_their_own_way = 0;
    for seed in 0..40 {
        let mut pressed = Pressed::new(seed);
        let mut emptied = Emptied::new();
        emptied.bench.network = pressed.network.as_ref().map(by_line);
        for _ in 0..1_500 {
            for words in pressed.next() {
                let call = parse_call(&words).expect("a call");
                let answer = apply(&mut pressed.network, &call);
                let what = format!("seed {seed}: {call} -> {answer}");
                emptied.call(&call, &answer, pressed.network.as_ref(), &what);
            }
        }
        in_their_own_way += emptied.differences.in_their_own_way;
    }
    println!("{in_their_own_way} messages in their own way");
    assert!(in_their_own_way > 20, "{in_their_own_way}");
}
