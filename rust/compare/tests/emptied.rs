//! "With every line emptied after each call the bench is what it was": the library by line, its lines
//! emptied behind each call, beside the model whose tokens cross at once. Answers and states are the
//! same, but for two things that the request changes: HELLO answers 0, and the emptying brings its
//! grant; and a message that says HELLO on the cable that it came by is refused where the taking of
//! its END brings a grant (A4.13).

use std::collections::VecDeque;

use compare::calls::{make, Lent};
use compare::reading::read;
use compare::{difference, layout};
use model::lines::Crossing;
use model::messages::{request, Request};
use model::network::{Hop, LinkEnd, Network};
use model::random::Random;
use model::registers::settings;
use model::runs::{lend_lines, Runner};
use model::set::Setting;
use model::sizes::{LINKS, REPLY_PORT};
use model::speech;
use model::tokens::{Token, END, NACK};
use model::words::parse_call;
use model::{apply, Answer, Call};

const RUNS: u64 = 40;
const CALLS: usize = 1_000;

/// The same network by line, with every line empty: what an end has issued is what the far end has
/// in hand.
fn by_line(at_once: &Network) -> Network {
    let mut network = at_once.clone();
    let line_words = network.nodes.len() * layout::NODE_LINES;
    network.crossing = Crossing::ByLine { line_words };
    for (node, before) in network.nodes.iter_mut().zip(&at_once.nodes) {
        for (link, before) in node.links.iter_mut().zip(&before.links) {
            link.issued = at_once.far_link(before).map_or(0, |far| far.credit);
        }
    }
    network
}

/// The link on which a Step is about to say HELLO, by a message that ends with it.
fn hello_by_message(network: &Network, call: &Call) -> Option<LinkEnd> {
    let Call::Step { slot, port } = *call else {
        return None;
    };
    let node = network.node(slot).ok()?;
    let place = node.ports.get(port)?;
    let ends = place.tokens.front().is_some_and(Token::ends_circuit);
    let heard = (ends && place.hop == Some(Hop::Control)).then_some(&node.control_unit.heard)?;
    let Request::Write { address, data } = request(heard) else {
        return None;
    };
    let mut written = settings(address, data)?.into_iter();
    written.find_map(|setting| match setting {
        Setting::Hello { link } => Some(LinkEnd { slot, link }),
        _ => None,
    })
}

/// How often the two differ, as they may.
#[derive(Debug, Default)]
struct Differences {
    hellos: usize,
    granted: usize,
    in_their_own_way: usize,
}

/// The library, its lines emptied behind each call.
struct Emptied {
    lent: Lent,
    random: Random,
    arrived: usize,
    differences: Differences,
}

impl Emptied {
    fn new(lent: Lent) -> Emptied {
        Emptied {
            lent,
            random: Random::new(4),
            arrived: 0,
            differences: Differences::default(),
        }
    }

    fn lines_in_use(&self) -> Vec<LinkEnd> {
        let looks = self.lent.looks();
        let slots = 0..looks.nodes();
        let all = slots.flat_map(|slot| (0..LINKS).map(move |link| LinkEnd { slot, link }));
        all.filter(|end| looks.line(end.slot, end.link).held > 0)
            .collect()
    }

    /// Steps lines, any that is in use, until all are empty, and adds up the grants.
    fn empty(&mut self, what: &str) -> usize {
        let mut granted = 0;
        while let Some(LinkEnd { slot, link }) = self.random.pick(&self.lines_in_use()) {
            match make(&mut self.lent, &Call::Line { slot, link }) {
                Answer::Arrived(grant) => granted += grant,
                other => panic!("{what}: line {slot} {link} -> {other}"),
            }
            self.arrived += 1;
        }
        granted
    }

    /// Is a credit on a line of that cable?
    fn credit_on_cable(&self, LinkEnd { slot, link }: LinkEnd) -> bool {
        let looks = self.lent.looks();
        let far = looks.link(slot, link).far();
        let far = far.map(|(slot, link)| (slot as usize, link as usize));
        let mut ends = [Some((slot, link)), far].into_iter().flatten();
        let is_credit = |word| [0x1E0, 0x1E1, 0x1E4].contains(&word);
        ends.any(|(slot, link)| looks.line_tokens(slot, link).any(is_credit))
    }

    /// Makes the call that the network at once has made with that answer, and compares.
    fn call(&mut self, before: Option<&Network>, call: &Call, answer: &Answer, after: &Network) {
        let what = format!("{call} -> {answer}");
        let hello = before.and_then(|network| hello_by_message(network, call));
        let mut lined = call.clone();
        lend_lines(&mut lined);
        let found = make(&mut self.lent, &lined);
        let in_its_way = hello.filter(|end| self.credit_on_cable(*end));
        let granted = self.empty(&what);
        self.answers_agree(&found, answer, granted, &what);
        let seen = read(&self.lent).unwrap_or_else(|why| panic!("{what}: {}", why.0));
        let expected = by_line(after);
        match (difference::first(&seen, &expected), in_its_way) {
            (None, _) => {}
            (Some(_), Some(end)) => self.was_in_its_own_way(end, &seen, &expected, &what),
            (Some(difference), None) => panic!("{what}: {difference}"),
        }
    }

    /// HELLO answers 0, and the emptying brings what it answers at once; else they are the same.
    fn answers_agree(&mut self, found: &Answer, at_once: &Answer, emptying: usize, what: &str) {
        let Answer::Granted(grant) = at_once else {
            assert_eq!(found, at_once, "{what}");
            return;
        };
        assert_eq!(*found, Answer::Granted(0), "{what}");
        assert_eq!(emptying, *grant, "{what}");
        self.differences.hellos += 1;
        self.differences.granted += usize::from(*grant > 0);
    }

    /// Done at once and refused here: NACK. The library goes on from where the other is.
    fn was_in_its_own_way(&mut self, end: LinkEnd, seen: &Network, expected: &Network, what: &str) {
        let reply = &seen.nodes[end.slot].ports[REPLY_PORT].tokens;
        let first = reply.iter().find(|token| token.header.is_none());
        assert_eq!(first, Some(&Token::control(NACK)), "{what}");
        assert!(expected.nodes[end.slot].links[end.link].greeted, "{what}");
        self.differences.in_their_own_way += 1;
        self.lent = Lent::of(Some(expected), &mut self.random);
    }
}

#[test]
fn random_runs() {
    let mut emptied = Emptied::new(Lent::default());
    for seed in 0..RUNS {
        emptied.lent = Lent::default();
        let mut runner = Runner::new(seed);
        for _ in 0..CALLS {
            let before = runner.network().cloned();
            let (call, found) = runner.call();
            if let Some(after) = runner.network() {
                emptied.call(before.as_ref(), &call, &found.answer, after);
            }
        }
    }
    println!(
        "{} came off lines, {:?}",
        emptied.arrived, emptied.differences
    );
    assert!(emptied.arrived > 5_000 && emptied.differences.granted > 500);
}

/// Two boards at once, the first with much to say to the second: streams to its sink, and messages
/// that say HELLO at its end of the cable. The second takes a token mostly when the first can send
/// none, so that there is room for few more.
struct Pressed {
    random: Random,
    network: Option<Network>,
    said: VecDeque<Call>,
}

const SET_UP: [&str; 11] = [
    "fresh 2 1664",
    "set 1 number 0 1",
    "set 0 linkdirection 4 1",
    "set 1 linkdirection 4 1",
    "set 0 direction 0 1",
    "set 1 direction 0 1",
    "wire 0 4 1 4",
    "set 0 enable 4 1",
    "set 1 enable 4 1",
    "set 0 hello 4 0",
    "set 1 hello 4 0",
];

fn parsed(words: &str) -> Call {
    parse_call(words).unwrap_or_else(|fault| panic!("{words}: {fault}"))
}

impl Pressed {
    fn new(seed: u64) -> Pressed {
        let mut network = None;
        for words in SET_UP {
            apply(&mut network, &parsed(words));
        }
        Pressed {
            random: Random::new(seed),
            network,
            said: VecDeque::new(),
        }
    }

    fn next(&mut self) -> Call {
        if let Some(call) = self.said.pop_front() {
            return call;
        }
        let sender = self.network.as_ref().map(|network| &network.nodes[0]);
        let sender = sender.expect("a network");
        let user = sender.links[4].used_by;
        let waits = user.is_some_and(|port| sender.ports[port].tokens.is_empty());
        let can_send = sender.links[4].credit > 0 && !waits;
        match self.random.below(100) {
            0..=5 => parsed("step 1 12"),
            6..=9 => parsed("step 0 4"),
            10..=12 => parsed("input 0 9 control"),
            13..=20 => self.speak(),
            _ if can_send && self.random.chance(90) => {
                let any = 8 + self.random.below(4);
                parsed(&format!("step 0 {}", user.unwrap_or(any)))
            }
            _ if self.random.chance(20) => self.speak(),
            _ => parsed("step 1 4"),
        }
    }

    /// A stream to the sink, or a message that says HELLO on link E of the second board.
    fn speak(&mut self) -> Call {
        let (slot, channel_end) = (0, self.random.below(4));
        let (aim, mut tokens) = match self.random.chance(50) {
            true => {
                let many = self.random.below(30);
                (
                    format!("aim 0 {channel_end} channel 1 255 0"),
                    vec![Token::data(7); many],
                )
            }
            false => {
                let message = speech::write(0, 9, 0x86, 0x8100_0000);
                (format!("aim 0 {channel_end} control 1 0 0"), message)
            }
        };
        if !tokens.last().is_some_and(Token::ends_circuit) {
            tokens.push(Token::control(END));
        }
        self.said
            .extend(tokens.into_iter().map(|token| Call::Output {
                slot,
                channel_end,
                kind: token.kind,
                value: token.value,
            }));
        parsed(&aim)
    }
}

/// A message that says HELLO on the cable that it came by is refused just when the taking of its END
/// brings a grant; then, and at no other time, the two differ.
#[test]
fn messages_in_their_own_way() {
    let mut in_their_own_way = 0;
    for seed in 0..40 {
        let mut pressed = Pressed::new(seed);
        let network = pressed.network.as_ref().map(by_line);
        let mut emptied = Emptied::new(Lent::of(network.as_ref(), &mut Random::new(seed)));
        for _ in 0..2_000 {
            let call = pressed.next();
            let before = pressed.network.clone();
            let answer = apply(&mut pressed.network, &call);
            let after = pressed.network.as_ref().expect("a network");
            emptied.call(before.as_ref(), &call, &answer, after);
        }
        in_their_own_way += emptied.differences.in_their_own_way;
    }
    println!("{in_their_own_way} messages in their own way");
    assert!(in_their_own_way > 5, "{in_their_own_way}");
}
