//! What the runs that ask control units meet: every way in which a message can end, and that each
//! ends as document 01 says of it. The reason is read off the message once more here, so that a
//! generator gone stale is found, and so is a model that gives another end.

use std::collections::BTreeMap;

use compare::asking;
use model::calls::Call;
use model::credits::grant;
use model::lines::Freight;
use model::network::{Hop, LinkEnd, Network, Node};
use model::sizes::REPLY_PORT;
use model::tokens::{Kind, Token, ACK, END, NACK, PAUSE, READC, SINK, WRITEC};
use model::Answer;

const SEEDS: u64 = 80;
const CALLS: usize = 4000;

/// Links by their place in the registers: C, D, A, B, G, H, E, F.
const LINK_ORDER: [usize; 8] = [2, 3, 0, 1, 6, 7, 4, 5];

/// Addresses beside the known ones, one beyond 8 bits, and two of registers that Set lacks.
#[rustfmt::skip]
const UNKNOWN: [u32; 14] = [
    0x00, 0x01, 0x03, 0x06, 0x0B, 0x0E, 0x1F, 0x28, 0x40, 0x7F, 0x88, 0xA0, 0x0104, 0x8004,
];

fn is_known(address: u32) -> bool {
    matches!(address, 0x04 | 0x05 | 0x0C | 0x0D | 0x20..=0x27 | 0x80..=0x87)
}

/// How a message ends.
#[derive(Clone, Copy, Debug, PartialEq, Eq, PartialOrd, Ord)]
enum End {
    Ack,
    Nack,
    Malformed,
    Unheard,
}

/// The Step that takes the END or PAUSE of a message, and the state before it.
struct Ending<'a> {
    before: &'a Network,
    slot: usize,
    port: usize,
    heard: &'a [Token],
    last: Token,
}

impl<'a> Ending<'a> {
    /// What this call ends, if it ends a message.
    fn of(before: Option<&'a Network>, call: &Call) -> Option<Ending<'a>> {
        let (Call::Step { slot, port }, Some(before)) = (call.clone(), before) else {
            return None;
        };
        let here = before.port(slot, port).ok()?;
        let last = *here.tokens.front()?;
        let ends = here.hop == Some(Hop::Control) && last.ends_circuit();
        let heard = &before.nodes[slot].control_unit.heard;
        ends.then_some(Ending {
            before,
            slot,
            port,
            heard,
            last,
        })
    }

    fn node(&self) -> &Node {
        &self.before.nodes[self.slot]
    }

    /// Two or four bytes, high byte first.
    fn number(&self, places: std::ops::Range<usize>) -> u32 {
        let bytes = self.heard[places].iter();
        bytes.fold(0, |number, token| number << 8 | u32::from(token.value))
    }

    fn has_control(&self, places: std::ops::Range<usize>) -> bool {
        let end = places.end.min(self.heard.len());
        let tokens = self.heard.get(places.start..end).unwrap_or_default();
        tokens.iter().any(|token| token.kind == Kind::Control)
    }

    /// Why it ends, and how it ends where the reply can be carried.
    fn reason(&self) -> (String, End) {
        if let Some(why) = self.without_reply_address() {
            return (why, End::Malformed);
        }
        let is_write = self.heard[0].value == WRITEC;
        let command = if is_write { "write" } else { "read" };
        let right = if is_write { 10 } else { 6 };
        let why = match self.heard.len() {
            _ if self.has_control(4..6) => "with control in its address".to_owned(),
            _ if self.has_control(6..10) => "with control in its data".to_owned(),
            11 => "too long".to_owned(),
            tokens if tokens != right => format!("of {tokens} tokens"),
            _ if !is_known(self.number(4..6)) => format!("at unknown {:#x}", self.number(4..6)),
            _ if is_write => return self.written(),
            _ => return (format!("read at {:#x}", self.number(4..6)), End::Ack),
        };
        (format!("{command} {why}"), End::Nack)
    }

    /// What hides the reply address, if anything does.
    fn without_reply_address(&self) -> Option<String> {
        let length = self.heard.len();
        if self.last.is_control(PAUSE) {
            return Some(format!("PAUSE behind {length} tokens"));
        }
        let Some(command) = self.heard.first() else {
            return Some("empty".to_owned());
        };
        Some(match command.kind {
            Kind::Data => "data for a command".to_owned(),
            _ if ![WRITEC, READC].contains(&command.value) => "other command".to_owned(),
            _ if self.has_control(1..3) => "control in the reply number".to_owned(),
            _ if self.has_control(3..4) => "control for the reply channel".to_owned(),
            _ if length < 4 => format!("no reply address in {length} tokens"),
            _ => match self.heard[3].value {
                0..=31 | 255 => return None,
                channel @ (32 | 254) => format!("reply channel {channel}"),
                _ => "reply channel 33..253".to_owned(),
            },
        })
    }

    /// A write that is whole, at a known address: whether Set would refuse it.
    fn written(&self) -> (String, End) {
        let (address, data) = (self.number(4..6), self.number(6..10));
        let link = LINK_ORDER[address as usize & 7];
        let (state, end) = (&self.node().links[link], self.end_of(link));
        let (enables, greets) = (data >> 31 == 1, data >> 24 & 1 == 1);
        let refused = match address {
            0x20..=0x27 if state.enabled && data >> 4 & 3 != state.network => {
                "of another network for an enabled link"
            }
            0x80..=0x87 if !enables && state.enabled && self.is_in_use(end) => {
                "that disables a link in use"
            }
            0x80..=0x87 if !enables && state.enabled && self.has_on_lines(end, |_| true) => {
                "that disables a link with something on a line"
            }
            0x80..=0x87 if !enables && greets && state.enabled => "of HELLO that disables",
            0x80..=0x87 if !enables && greets => "of HELLO on a disabled link",
            0x80..=0x87 if greets && self.is_in_its_own_way(end) => "of HELLO in its own way",
            0x80..=0x87 if greets && self.has_on_lines(end, |it| it != Freight::Token) => {
                "of HELLO while a credit or HELLO is on its way"
            }
            _ => return (format!("write at {address:#x}"), End::Ack),
        };
        (format!("write {refused}"), End::Nack)
    }

    fn end_of(&self, link: usize) -> LinkEnd {
        let slot = self.slot;
        LinkEnd { slot, link }
    }

    /// "either end's buffer holds a token or either direction is in a circuit", once the message's
    /// own hop is closed.
    fn is_in_use(&self, end: LinkEnd) -> bool {
        let far = self.before.nodes[end.slot].links[end.link].far;
        let mut ends = [Some(end), far].into_iter().flatten();
        ends.any(|LinkEnd { slot, link }| {
            let node = &self.before.nodes[slot];
            let own = (slot, link) == (self.slot, self.port);
            let holds = match own {
                true => node.ports[link].tokens.len() > 1,
                false => node.ports[link].is_taken(),
            };
            holds || node.links[link].used_by.is_some()
        })
    }

    /// Is such a thing on either line of a cable?
    fn has_on_lines(&self, end: LinkEnd, is_meant: fn(Freight) -> bool) -> bool {
        let link = &self.before.nodes[end.slot].links[end.link];
        let far = self.before.far_link(link);
        let mut ends = far.into_iter().chain([link]);
        ends.any(|link| link.far.is_some() && link.freight().any(is_meant))
    }

    /// Is the cable that of the port by which the message came, and does the taking of its END bring a
    /// grant?
    fn is_in_its_own_way(&self, end: LinkEnd) -> bool {
        let came_by = self.end_of(self.port);
        let Ok(receiver) = self.before.link(came_by) else {
            return false;
        };
        let Some(sender) = self.before.far_link(receiver) else {
            return false;
        };
        let is_its_cable = end == came_by || receiver.far == Some(end);
        let behind = self.node().ports[self.port].tokens.len() - 1;
        let heeded = sender.greeted && !sender.hello_on_line();
        is_its_cable && heeded && grant(receiver.issued, behind) > 0
    }

    /// HELLO on the very link that the message came by, over a cable of one node: sent or refused, and
    /// what it finds.
    fn greeting(&self, found: End) -> Option<String> {
        let sender = self.node().links.get(self.port)?.far?;
        let place = LINK_ORDER.iter().position(|link| *link == sender.link)?;
        let greets = self.heard.len() == 10 && self.number(4..6) == 0x80 + place as u32;
        if sender.slot != self.slot || !greets || self.number(6..10) >> 24 != 0x81 {
            return None;
        }
        let own = self.is_in_its_own_way(sender);
        let why = if own { ", in its own way" } else { "" };
        Some(format!("HELLO over its own cable: {found:?}{why}"))
    }
}

/// The end that was found: the answer, and the reply that stands in port 12.
fn found(answer: Answer, after: &Node) -> End {
    let reply = &after.ports[REPLY_PORT].tokens;
    let mut plain = reply.iter().filter(|token| token.header.is_none());
    let mut header = reply.iter().filter_map(|token| token.header);
    match answer {
        Answer::Malformed | Answer::Unheard => {
            assert!(reply.is_empty(), "a reply, and the answer {answer}");
            match answer {
                Answer::Malformed => End::Malformed,
                _ => End::Unheard,
            }
        }
        _ => {
            assert!(header.all(|width| width == after.width));
            assert_eq!(reply.back(), Some(&Token::control(END)));
            match plain.next().map(|token| (token.kind, token.value)) {
                Some((Kind::Control, ACK)) => End::Ack,
                Some((Kind::Control, NACK)) => End::Nack,
                other => panic!("{other:?} begins a reply"),
            }
        }
    }
}

/// How often each thing was met.
#[derive(Default)]
struct Met(BTreeMap<String, usize>);

impl Met {
    fn count(&mut self, what: String) {
        *self.0.entry(what).or_default() += 1;
    }

    /// Holds an ending against the reason for it, and counts both.
    fn judge(&mut self, ending: &Ending, answer: Answer, after: &Node) {
        let (why, expected) = ending.reason();
        let carried = ending.heard.get(3).map(|token| usize::from(token.value));
        let silent = after.width == 1 && carried == Some(SINK);
        let expected = match expected {
            End::Ack | End::Nack if silent => {
                self.count(format!("Unheard for {expected:?}"));
                End::Unheard
            }
            other => other,
        };
        let found = found(answer, after);
        assert_eq!(found, expected, "{why}: {:?}", ending.heard);
        self.count(format!("{found:?}: {why}"));
        if ending.node().width == 1 {
            self.count(format!("{found:?} of a node that has gone to one byte"));
        }
        if matches!(found, End::Ack | End::Nack) && ending.number(1..3) == after.number {
            self.count(format!("{found:?} for this very node"));
        }
        if let Some(greeting) = ending.greeting(found) {
            self.count(greeting);
        }
    }
}

/// All that has to be met.
fn expected() -> Vec<String> {
    let mut expected = Vec::new();
    let mut add = |end: End, whys: &[&str]| {
        expected.extend(whys.iter().map(|why| format!("{end:?}: {why}")));
    };
    add(End::Malformed, &MALFORMED);
    add(End::Nack, &REFUSED);
    add(End::Unheard, &["write at 0x4", "read at 0x4"]);
    for address in (0..0x100).filter(|address| is_known(*address)) {
        let known = [
            format!("write at {address:#x}"),
            format!("read at {address:#x}"),
        ];
        add(End::Ack, &known.each_ref().map(String::as_str));
    }
    for address in UNKNOWN {
        let unknown = ["write", "read"].map(|command| format!("{command} at unknown {address:#x}"));
        add(End::Nack, &unknown.each_ref().map(String::as_str));
    }
    expected.extend((0..=11).map(|tokens| format!("Malformed: PAUSE behind {tokens} tokens")));
    expected.extend(ASIDE.map(str::to_owned));
    expected
}

const MALFORMED: [&str; 11] = [
    "empty",
    "data for a command",
    "other command",
    "control in the reply number",
    "control for the reply channel",
    "no reply address in 1 tokens",
    "no reply address in 2 tokens",
    "no reply address in 3 tokens",
    "reply channel 32",
    "reply channel 33..253",
    "reply channel 254",
];

const REFUSED: [&str; 25] = [
    "read of 4 tokens",
    "read of 5 tokens",
    "read of 7 tokens",
    "read of 8 tokens",
    "read of 9 tokens",
    "read of 10 tokens",
    "read too long",
    "read with control in its address",
    "read with control in its data",
    "write of 4 tokens",
    "write of 5 tokens",
    "write of 6 tokens",
    "write of 7 tokens",
    "write of 8 tokens",
    "write of 9 tokens",
    "write too long",
    "write with control in its address",
    "write with control in its data",
    "write of another network for an enabled link",
    "write that disables a link in use",
    "write of HELLO that disables",
    "write of HELLO on a disabled link",
    "write that disables a link with something on a line",
    "write of HELLO in its own way",
    "write of HELLO while a credit or HELLO is on its way",
];

const ASIDE: [&str; 10] = [
    "Unheard for Ack",
    "Unheard for Nack",
    "Ack for this very node",
    "Nack for this very node",
    "Ack of a node that has gone to one byte",
    "Nack of a node that has gone to one byte",
    "Malformed of a node that has gone to one byte",
    "Unheard of a node that has gone to one byte",
    "HELLO over its own cable: Ack",
    "HELLO over its own cable: Nack, in its own way",
];

#[test]
fn every_end_of_a_message_is_met() {
    let mut met = Met::default();
    for seed in 0..SEEDS {
        let mut network = None;
        for call in asking::calls(seed, CALLS) {
            let before = network.clone();
            let answer = model::apply(&mut network, &call);
            if let (Some(ending), Some(after)) = (Ending::of(before.as_ref(), &call), &network) {
                met.judge(&ending, answer, &after.nodes[ending.slot]);
            }
        }
    }
    for (what, times) in &met.0 {
        println!("{times:6} {what}");
    }
    let missing: Vec<_> = expected()
        .into_iter()
        .filter(|what| !met.0.contains_key(what))
        .collect();
    assert!(missing.is_empty(), "not met: {missing:#?}");
}
