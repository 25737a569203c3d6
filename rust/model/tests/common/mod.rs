//! A bench to play scripts on. Every call made here is also held against what holds
//! of all calls: the state stays sound, and a call that is refused, waits or is
//! idle changes nothing.

#![allow(dead_code)]

use std::collections::VecDeque;

use model::answers::Answer;
use model::calls::{apply, Call};
use model::network::{ChannelEnd, Link, Network, Node, Port};
use model::sound;
use model::tokens::{Kind, Token};
use model::words::parse_call;

/// A network, or none yet.
pub struct Bench {
    pub network: Option<Network>,
}

impl Bench {
    /// No network yet.
    pub fn empty() -> Bench {
        Bench { network: None }
    }

    /// A fresh network.
    pub fn fresh(nodes: usize) -> Bench {
        Bench::begun("fresh", nodes)
    }

    /// A network with every link disabled.
    pub fn blank(nodes: usize) -> Bench {
        Bench::begun("blank", nodes)
    }

    /// A network begun by that word.
    pub fn begun(start: &str, nodes: usize) -> Bench {
        let mut bench = Bench::empty();
        bench.expect(&format!("{start} {nodes} {}", nodes * 13 * 64), "done");
        bench
    }

    /// A fresh network whose tokens cross by line.
    pub fn lined(nodes: usize) -> Bench {
        let words = format!("{} lines {}", nodes * 13 * 64, nodes * 8 * 66);
        let mut bench = Bench::empty();
        bench.expect(&format!("fresh {nodes} {words}"), "done");
        bench
    }

    /// Boards of a fresh network in a line.
    pub fn line(nodes: usize) -> Bench {
        Bench::fresh(nodes).in_line()
    }

    /// The same with every link disabled that has no cable.
    pub fn blank_line(nodes: usize) -> Bench {
        Bench::blank(nodes).in_line()
    }

    /// The boards in a line, numbered by slot, link 1 of each joined to link 0 of the
    /// next, all enabled and greeted. Direction 2 is up the line, 1 is down.
    fn in_line(self) -> Bench {
        let mut bench = self;
        let nodes = bench.state().nodes.len();
        for slot in 0..nodes {
            bench.play(&format!(
                "set {slot} number 0 {slot}
                 set {slot} linkdirection 0 1
                 set {slot} linkdirection 1 2"
            ));
            for bit in 0..16 {
                let up = slot >> bit & 1 == 0;
                let direction = if up { 2 } else { 1 };
                bench.play(&format!("set {slot} direction {bit} {direction}"));
            }
        }
        for slot in 1..nodes {
            bench.cable(slot - 1, 1, slot, 0);
        }
        bench
    }

    /// Joins two link ends, enables both and has both say HELLO.
    pub fn cable(&mut self, slot: usize, link: usize, far_slot: usize, far_link: usize) {
        self.play(&format!(
            "wire {slot} {link} {far_slot} {far_link}
             set {slot} enable {link} 1
             set {far_slot} enable {far_link} 1
             set {slot} hello {link} 0 -> granted 64
             set {far_slot} hello {far_link} 0 -> granted 64"
        ));
    }

    /// Makes a call, and looks at what holds of all calls.
    pub fn make(&mut self, call: &Call) -> Answer {
        let before = self.network.clone();
        let answer = apply(&mut self.network, call);
        if matches!(answer, Answer::No(_) | Answer::Waiting | Answer::Idle) {
            assert_eq!(self.network, before, "{call} -> {answer} changed the state");
        }
        if let Some(network) = &self.network {
            let failing = sound::failing(network);
            assert!(failing.is_empty(), "{call} -> {answer} left {failing:?}");
        }
        answer
    }

    /// Makes a call given in words, and answers in words.
    pub fn call(&mut self, words: &str) -> String {
        let call = parse_call(words).unwrap_or_else(|fault| panic!("{words}: {fault}"));
        self.make(&call).to_string()
    }

    /// Makes a call and compares its answer.
    #[track_caller]
    pub fn expect(&mut self, call: &str, answer: &str) {
        assert_eq!(self.call(call), answer, "{call}");
    }

    /// Makes the calls of a script, a line each. A line `CALL -> ANSWER` compares,
    /// a line `CALL` only asks that the call is not refused.
    #[track_caller]
    pub fn play(&mut self, script: &str) {
        let lines = script
            .lines()
            .map(str::trim)
            .filter(|line| !line.is_empty());
        for line in lines {
            match line.split_once("->") {
                Some((call, answer)) => self.expect(call.trim(), answer.trim()),
                None => {
                    let answer = self.call(line);
                    assert!(!answer.starts_with("no "), "{line} -> {answer}");
                }
            }
        }
    }

    /// Makes the same call so many times, each with that answer.
    #[track_caller]
    pub fn repeat(&mut self, times: usize, call: &str, answer: &str) {
        for time in 0..times {
            assert_eq!(self.call(call), answer, "{call}, time {time}");
        }
    }

    /// Puts out data bytes 0, 1, 2 and so on.
    #[track_caller]
    pub fn output_data(&mut self, slot: usize, channel_end: usize, count: usize) {
        for byte in 0..count {
            self.expect(&format!("output {slot} {channel_end} data {byte}"), "done");
        }
    }

    /// Aims channel-end and puts out a message: control tokens written as `!C0`.
    #[track_caller]
    pub fn output_tokens(&mut self, slot: usize, channel_end: usize, tokens: &str) {
        for word in tokens.split_whitespace() {
            let (kind, digits) = match word.strip_prefix('!') {
                Some(digits) => ("control", digits),
                None => ("data", word),
            };
            self.expect(
                &format!("output {slot} {channel_end} {kind} 0x{digits}"),
                "done",
            );
        }
    }

    /// Steps a port until it no longer moves or drops, and gives the last answer
    /// that was none of these.
    #[track_caller]
    pub fn drain(&mut self, slot: usize, port: usize) -> String {
        loop {
            let answer = self.call(&format!("step {slot} {port}"));
            let goes_on = ["moved", "opened", "dropped", "refused"];
            if !goes_on.iter().any(|word| answer.starts_with(word)) {
                return answer;
            }
        }
    }

    /// Steps all ports of all nodes, round after round, until nothing changes.
    pub fn settle(&mut self) {
        let nodes = self.state().nodes.len();
        loop {
            let before = self.network.clone();
            for slot in 0..nodes {
                for port in 0..13 {
                    self.call(&format!("step {slot} {port}"));
                }
            }
            if self.network == before {
                return;
            }
        }
    }

    /// Steps all lines, round after round, until all are empty, and adds up the grants
    /// that this brings.
    pub fn empty_lines(&mut self) -> usize {
        let mut granted = 0;
        while let Some((slot, link)) = self.lines_in_use().first().copied() {
            match self.make(&Call::Line { slot, link }) {
                Answer::Arrived(grant) => granted += grant,
                other => panic!("line {slot} {link} -> {other}"),
            }
        }
        granted
    }

    /// The link ends whose lines are not empty.
    pub fn lines_in_use(&self) -> Vec<(usize, usize)> {
        let nodes = (0..).zip(&self.state().nodes);
        nodes
            .flat_map(|(slot, node)| {
                let links = (0..).zip(&node.links);
                let used = links.filter(|(_, link)| !link.line.is_empty());
                used.map(move |(link, _)| (slot, link))
            })
            .collect()
    }

    /// Takes all that a channel-end holds, written as `output_tokens` reads it.
    pub fn input_all(&mut self, slot: usize, channel_end: usize) -> String {
        let mut found = Vec::new();
        while let Some(token) = self.channel_end(slot, channel_end).tokens.front().copied() {
            let call = format!("input {slot} {channel_end} {}", token.kind);
            self.expect(&call, &format!("token {}", token.value));
            found.push(match token.kind {
                Kind::Data => format!("{:02X}", token.value),
                Kind::Control => format!("!{:02X}", token.value),
            });
        }
        found.join(" ")
    }

    pub fn state(&self) -> &Network {
        self.network.as_ref().expect("a network")
    }

    pub fn state_mut(&mut self) -> &mut Network {
        self.network.as_mut().expect("a network")
    }

    pub fn node(&self, slot: usize) -> &Node {
        &self.state().nodes[slot]
    }

    pub fn link(&self, slot: usize, link: usize) -> &Link {
        &self.node(slot).links[link]
    }

    pub fn port(&self, slot: usize, port: usize) -> &Port {
        &self.node(slot).ports[port]
    }

    pub fn channel_end(&self, slot: usize, channel_end: usize) -> &ChannelEnd {
        &self.node(slot).channel_ends[channel_end]
    }

    /// How many tokens a port holds.
    pub fn held(&self, slot: usize, port: usize) -> usize {
        self.port(slot, port).tokens.len()
    }

    /// What a port holds: `01` data, `!01` control, with `h1:` or `h3:` before it
    /// for a token of a header.
    pub fn tokens(&self, slot: usize, port: usize) -> String {
        in_words(&self.port(slot, port).tokens)
    }

    /// What is on the line that starts at a link, that nearest the far end first: `!E6`
    /// is HELLO, `!E0`, `!E4` and `!E1` a credit of 8, 16 and 64.
    pub fn on_line(&self, slot: usize, link: usize) -> String {
        in_words(&self.link(slot, link).line)
    }
}

fn in_words(tokens: &VecDeque<Token>) -> String {
    let words = tokens.iter().map(|token| {
        let mark = token.header.map_or(String::new(), |w| format!("h{w}:"));
        let kind = if token.kind == Kind::Control { "!" } else { "" };
        format!("{mark}{kind}{:02X}", token.value)
    });
    words.collect::<Vec<_>>().join(" ")
}
