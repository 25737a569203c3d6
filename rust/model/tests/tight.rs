//! The ties where tokens cross at once: both starts and random runs keep them, and for
//! each a state that fails it alone. Those of lines hold where there are none.

mod common;

use common::Bench;
use model::answers::Cause;
use model::calls::apply;
use model::network::{Aim, Hop, LinkEnd, Network, Node, Sending};
use model::runs::Runner;
use model::sizes::REPLY_PORT;
use model::sound;
use model::tight::{failing, is_tight, Tie};
use model::tokens::{Destination, Token, END, READC, SINK};
use model::words::parse_call;

#[test]
fn both_starts_are_tight() {
    for nodes in 1..=16 {
        assert_eq!(failing(Bench::fresh(nodes).state()), []);
        assert_eq!(failing(Bench::blank(nodes).state()), []);
        assert_eq!(failing(Bench::lined(nodes).state()), []);
    }
}

#[test]
fn runs_stay_tight() {
    for seed in 0..40 {
        let mut runner = Runner::with_lists(seed);
        for place in 0..1_000 {
            let (call, found) = runner.call();
            let what = format!("seed {seed}, call {place}: {call} -> {}", found.answer);
            assert!(runner.network().is_none_or(is_tight), "{what}");
        }
    }
}

fn one_byte() -> Token {
    Token::data(0).in_header(1)
}

fn end() -> Token {
    Token::control(END)
}

/// A board begun with every link disabled, with this done to it.
fn board(change: impl FnOnce(&mut Node)) -> Network {
    let mut network = Network::blank(1, 832);
    change(&mut network.nodes[0]);
    network
}

fn leaves(node: &mut Node, port: usize, link: usize) {
    node.ports[port].hop = Some(Hop::Outward(link));
    node.links[link].used_by = Some(port);
}

/// Links 0 and 1 joined and enabled, link 0 greeted with a credit of 8.
fn cable(node: &mut Node) {
    for link in 0..2 {
        let far = LinkEnd {
            slot: 0,
            link: 1 - link,
        };
        node.links[link].far = Some(far);
        node.links[link].enabled = true;
    }
    node.links[0].greeted = true;
    node.links[0].credit = 8;
}

fn opened_by(node: &mut Node, port: usize) {
    let (number, channel) = (0, 0);
    let destination = Destination::Channel { number, channel };
    node.channel_ends[0].aim = Some(Aim::new(destination, 0));
    node.channel_ends[0].sending = Some(Sending::ByPort(port));
}

/// The state is sound and fails that tie alone, and the calls lead out of sound.
#[track_caller]
fn leads_out(tie: Tie, state: Network, calls: &[&str]) {
    assert_eq!(sound::failing(&state), []);
    assert_eq!(failing(&state), [tie]);
    let mut state = Some(state);
    for words in calls {
        let call = parse_call(words).expect("a call");
        let answer = apply(&mut state, &call).to_string();
        assert!(!answer.starts_with("no "), "{words} -> {answer}");
    }
    let last = parse_call("step 0 0").expect("a call");
    assert_eq!(apply(&mut state, &last).to_string(), "no 1");
}

/// "a header lands behind a short one"
#[test]
fn fed() {
    let state = board(|node| {
        cable(node);
        node.ports[1].tokens = [Token::data(0).in_header(3)].into();
        leaves(node, 8, 0);
        node.ports[8].tokens = [one_byte()].into();
    });
    leads_out(Tie::Fed, state, &["step 0 8"]);
    let state = board(|node| {
        cable(node);
        leaves(node, 8, 0);
        node.ports[8].tokens = [Token::data(7)].into();
    });
    leads_out(Tie::Fed, state, &["step 0 8"]);
}

#[test]
fn unfed() {
    let state = board(|node| {
        node.links[0].enabled = true;
        leaves(node, 8, 0);
        node.ports[8].tokens = [one_byte()].into();
        node.ports[1].tokens = [one_byte()].into();
    });
    let calls = [
        "wire 0 0 0 1",
        "set 0 enable 1 1",
        "set 0 hello 0 0",
        "step 0 8",
    ];
    leads_out(Tie::Unfed, state, &calls);
}

/// "a token is put where a header must stand"
#[test]
fn sends() {
    let state = board(|node| {
        opened_by(node, 8);
        node.ports[8].tokens = [one_byte(), end()].into();
    });
    leads_out(Tie::Sends, state, &["output 0 0 data 1"]);
    let state = board(|node| {
        opened_by(node, 8);
        node.ports[8].hop = Some(Hop::Dropped(Cause::NoRoute));
        node.ports[8].tokens = [end()].into();
    });
    leads_out(Tie::Sends, state, &["step 0 8"]);
}

/// "a reply's header is put inside a circuit"
#[test]
fn replied() {
    let state = board(|node| {
        let address = [0, 0, SINK as u8].map(Token::data);
        node.control_unit.serves = Some(8);
        node.control_unit.heard = [&[Token::control(READC)][..], &address].concat();
        node.ports[8].hop = Some(Hop::Control);
        node.ports[8].tokens = [end()].into();
        node.ports[REPLY_PORT].hop = Some(Hop::Channel(SINK));
        node.tile_links[0] = Some(REPLY_PORT);
    });
    leads_out(Tie::Replied, state, &["step 0 8"]);
}

/// What is past its header leaves by a link that is given its cable only then.
#[test]
fn unsent() {
    let state = board(|node| {
        node.links[0].enabled = true;
        leaves(node, 8, 0);
        node.ports[8].tokens = [Token::data(7)].into();
    });
    let calls = [
        "wire 0 0 0 1",
        "set 0 enable 1 1",
        "set 0 hello 0 0",
        "step 0 8",
    ];
    leads_out(Tie::Unsent, state, &calls);
}

/// A disabled link in use fails its tie, and leads nowhere: enabled and greeted it is as
/// any other.
#[test]
fn idle() {
    let state = board(|node| {
        leaves(node, 8, 0);
        node.ports[8].tokens = [one_byte(), end()].into();
    });
    assert_eq!(sound::failing(&state), []);
    assert_eq!(failing(&state), [Tie::Idle]);
    let mut bench = Bench::empty();
    bench.network = Some(state);
    bench.play(
        "wire 0 0 0 1 -> done
         set 0 enable 0 1 -> done
         set 0 enable 1 1 -> done
         set 0 hello 0 0 -> granted 64
         step 0 8 -> moved
         step 0 8 -> moved",
    );
    assert_eq!(failing(bench.state()), []);
}
