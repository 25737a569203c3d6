//! The list "Sound": one disturbed state for each thing a clause says, which fails
//! that clause and no other, while its undisturbed twin passes; and runs from either
//! start, which stay sound.

mod common;

use common::Bench;
use model::answers::{Answer, Cause};
use model::calls::{apply, Call};
use model::network::{Aim, Claim, Hop, LinkEnd, Network, Node, Port, Sending};
use model::random::Random;
use model::runs::Runner;
use model::set::Setting;
use model::sizes::{CHANNEL_ENDS, LINKS, PORTS};
use model::sound::{failing, first_failing, is_sound, Clause};
use model::tokens::{Destination, Token};

/// Three boards with a good deal going on:
/// * port 0.8 sends to channel 2.7 over two hops, with tokens in each port;
/// * port 0.9 waits with its header for the same link;
/// * channel-end 0.5 sends straight to channel 0.6, and 0.9 to the sink;
/// * port 2.8 has its header half sent towards node 1;
/// * port 1.8 is being dropped, some of its header gone;
/// * the control unit of node 2 serves port 2.9.
fn twin() -> Network {
    let mut bench = Bench::line(3);
    bench.play("aim 0 0 channel 2 7 0");
    bench.output_data(0, 0, 5);
    bench.play("step 0 8 -> opened link 1");
    bench.repeat(7, "step 0 8", "moved");
    bench.play("step 1 0 -> opened link 1");
    bench.repeat(5, "step 1 0", "moved");
    bench.play(
        "step 2 0 -> opened channel
         step 2 0 -> moved
         aim 0 1 channel 2 8 0
         output 0 1 data 1
         aim 0 5 channel 0 6 0
         output 0 5 data 1
         aim 0 9 channel 0 255 0
         output 0 9 data 1
         aim 2 3 channel 1 3 0
         output 2 3 data 1
         step 2 8 -> opened link 0
         step 2 8 -> moved
         aim 1 4 channel 0 4 3
         output 1 4 data 1
         step 1 8 -> refused noroute
         step 1 8 -> dropped noroute
         aim 2 5 control 2 0 0
         output 2 5 control 0xC1
         output 2 5 data 1
         step 2 9 -> opened control
         step 2 9 -> moved",
    );
    bench.network.expect("a network")
}

/// Disturbs the twin and asks for exactly that clause.
#[track_caller]
fn fails(clause: Clause, disturb: impl Fn(&mut Network)) {
    let mut network = twin();
    assert_eq!(failing(&network), []);
    disturb(&mut network);
    assert_eq!(failing(&network), [clause]);
    assert_eq!(first_failing(&network), Some(clause));
    let mut state = Some(network.clone());
    for call in [
        Call::Step { slot: 0, port: 0 },
        Call::Step { slot: 9, port: 9 },
    ] {
        assert_eq!(apply(&mut state, &call).to_string(), "no 1");
    }
    assert_eq!(state, Some(network));
}

/// Disturbs the twin in a way that the list says nothing about.
#[track_caller]
fn passes(disturb: impl Fn(&mut Network)) {
    let mut network = twin();
    disturb(&mut network);
    assert_eq!(failing(&network), []);
    assert!(is_sound(&network));
    let mut state = Some(network);
    let answer = apply(&mut state, &Call::Step { slot: 0, port: 0 });
    assert_eq!(answer, Answer::Idle);
}

fn port(network: &mut Network, slot: usize, port: usize) -> &mut Port {
    &mut network.nodes[slot].ports[port]
}

fn put(network: &mut Network, slot: usize, place: usize, tokens: &[Token]) {
    port(network, slot, place).tokens.extend(tokens);
}

fn header(bytes: [u8; 3]) -> [Token; 3] {
    bytes.map(|byte| Token::data(byte).in_header(3))
}

const END: u8 = 1;
const PAUSE: u8 = 2;

#[test]
fn both_starts_are_sound() {
    for nodes in 1..=16 {
        assert_eq!(failing(Bench::fresh(nodes).state()), []);
        assert_eq!(failing(Bench::blank(nodes).state()), []);
    }
}

#[test]
fn the_twin_is_sound() {
    assert_eq!(failing(&twin()), []);
}

// Memory and counts.

#[test]
fn memory_length() {
    fails(Clause::Memory, |n| n.memory_words += 1);
    fails(Clause::Memory, |n| n.memory_words -= 1);
    fails(Clause::Memory, |n| n.memory_words = 0);
}

#[test]
fn node_count() {
    for count in [0, 17] {
        let network = Network::fresh(count, count * 13 * 64);
        assert_eq!(failing(&network), [Clause::Counts]);
    }
}

#[test]
fn settings_in_range() {
    fails(Clause::Counts, |n| n.nodes[0].number = 0x1_0000);
    passes(|n| n.nodes[0].number = 0xFFFF);
    for width in [0, 2, 4] {
        fails(Clause::Counts, |n| n.nodes[0].width = width);
    }
    passes(|n| n.nodes[0].width = 1);
    fails(Clause::Counts, |n| n.nodes[1].directions[15] = 16);
    passes(|n| n.nodes[1].directions[15] = 15);
    fails(Clause::Counts, |n| n.nodes[1].links[7].direction = 16);
    passes(|n| n.nodes[1].links[7].direction = 15);
    fails(Clause::Counts, |n| n.nodes[1].links[7].network = 4);
    passes(|n| n.nodes[1].links[7].network = 3);
}

#[test]
fn aims_in_range() {
    let aim = |number, channel, network| {
        move |n: &mut Network| {
            let destination = Destination::Channel { number, channel };
            n.nodes[0].channel_ends[20].aim = Some(Aim {
                destination,
                network,
            });
        }
    };
    passes(aim(0xFFFF, 31, 3));
    passes(aim(0xFFFF, 255, 3));
    fails(Clause::Counts, aim(0x1_0000, 31, 3));
    fails(Clause::Counts, aim(0xFFFF, 32, 3));
    fails(Clause::Counts, aim(0xFFFF, 254, 3));
    fails(Clause::Counts, aim(0xFFFF, 256, 3));
    fails(Clause::Counts, aim(0xFFFF, 31, 4));
    let control = |number| {
        move |n: &mut Network| {
            n.nodes[0].channel_ends[20].aim = Some(Aim {
                destination: Destination::Control { number },
                network: 0,
            });
        }
    };
    passes(control(0xFFFF));
    fails(Clause::Counts, control(0x1_0000));
}

#[test]
fn buffers_and_credits_in_range() {
    fails(Clause::Counts, |n| n.nodes[0].links[1].credit = 65);
    fails(Clause::Counts, |n| n.nodes[0].links[1].credit = usize::MAX);
    passes(|n| put(n, 0, 8, &[Token::data(0); 63]));
    fails(Clause::Counts, |n| put(n, 0, 8, &[Token::data(0); 64]));
    let held = |count| {
        move |n: &mut Network| {
            n.nodes[2].channel_ends[9]
                .tokens
                .extend(vec![Token::data(0); count]);
        }
    };
    passes(held(8));
    fails(Clause::Counts, held(9));
    fails(Clause::Counts, |n| port(n, 0, 8).network = 4);
}

#[test]
fn indices_in_range() {
    let far =
        |slot, link| move |n: &mut Network| n.nodes[0].links[1].far = Some(LinkEnd { slot, link });
    fails(Clause::Counts, far(3, 0));
    fails(Clause::Counts, far(1, 8));
    fails(Clause::Counts, |n| n.nodes[0].links[1].used_by = Some(13));
    fails(Clause::Counts, |n| n.nodes[2].tile_links[0] = Some(13));
    fails(Clause::Counts, |n| {
        n.nodes[2].control_unit.serves = Some(13)
    });
    fails(Clause::Counts, |n| {
        port(n, 0, 8).hop = Some(Hop::Outward(8))
    });
    fails(Clause::Counts, |n| {
        port(n, 2, 0).hop = Some(Hop::Channel(32))
    });
    fails(Clause::Counts, |n| {
        port(n, 2, 0).hop = Some(Hop::Channel(254))
    });
    let sending =
        |sending| move |n: &mut Network| n.nodes[0].channel_ends[0].sending = Some(sending);
    fails(Clause::Counts, sending(Sending::ByPort(13)));
    fails(Clause::Counts, sending(Sending::Straight(32)));
    let claim = |claim| move |n: &mut Network| n.nodes[2].channel_ends[7].claim = Some(claim);
    fails(Clause::Counts, claim(Claim::ByPort(13)));
    fails(Clause::Counts, claim(Claim::ByChannelEnd(32)));
}

// Links and cables.

#[test]
fn credit_only_where_greeted() {
    fails(Clause::CreditGreeted, |n| {
        n.nodes[0].links[1].greeted = false
    });
    passes(|n| {
        n.nodes[0].links[1].greeted = false;
        n.nodes[0].links[1].credit = 0;
    });
    fails(Clause::CreditGreeted, |n| n.nodes[0].links[5].credit = 1);
}

#[test]
fn greeted_only_where_wired_with_both_ends_enabled() {
    fails(Clause::GreetedWired, |n| {
        n.nodes[0].links[5].enabled = true;
        n.nodes[0].links[5].greeted = true;
    });
    let wired = |near, far| {
        move |n: &mut Network| {
            n.nodes[0].links[5].far = Some(LinkEnd { slot: 1, link: 5 });
            n.nodes[1].links[5].far = Some(LinkEnd { slot: 0, link: 5 });
            n.nodes[0].links[5].enabled = near;
            n.nodes[1].links[5].enabled = far;
            n.nodes[0].links[5].greeted = true;
        }
    };
    fails(Clause::GreetedWired, wired(false, true));
    fails(Clause::GreetedWired, wired(true, false));
    passes(wired(true, true));
}

#[test]
fn credit_plus_held_at_most_64() {
    let credit = |more| {
        move |n: &mut Network| {
            let held = n.nodes[1].ports[0].tokens.len();
            n.nodes[0].links[1].credit = 64 - held + more;
        }
    };
    passes(credit(0));
    fails(Clause::CreditAndHeld, credit(1));
}

#[test]
fn cables_agree_at_both_ends() {
    fails(Clause::Cables, |n| {
        n.nodes[0].links[5].far = Some(LinkEnd { slot: 1, link: 5 });
    });
    fails(Clause::Cables, |n| {
        n.nodes[0].links[5].far = Some(LinkEnd { slot: 0, link: 5 });
    });
    fails(Clause::Cables, |n| {
        n.nodes[0].links[5].far = Some(LinkEnd { slot: 1, link: 5 });
        n.nodes[1].links[5].far = Some(LinkEnd { slot: 2, link: 5 });
        n.nodes[2].links[5].far = Some(LinkEnd { slot: 0, link: 5 });
    });
    passes(|n| {
        n.nodes[0].links[5].far = Some(LinkEnd { slot: 0, link: 6 });
        n.nodes[0].links[6].far = Some(LinkEnd { slot: 0, link: 5 });
    });
}

// What is held.

#[test]
fn tokens_are_legal() {
    for value in 0..=255 {
        let in_port = move |n: &mut Network| put(n, 0, 8, &[Token::control(value)]);
        let in_channel_end = move |n: &mut Network| {
            let held = &mut n.nodes[2].channel_ends[9].tokens;
            held.push_back(Token::control(value));
        };
        match value {
            0xC2..=0xFF => {
                fails(Clause::LegalTokens, in_port);
                fails(Clause::LegalTokens, in_channel_end);
            }
            PAUSE => {
                passes(in_port);
                fails(Clause::LegalTokens, in_channel_end);
            }
            _ => {
                passes(in_port);
                passes(in_channel_end);
            }
        }
        passes(move |n| put(n, 0, 8, &[Token::data(value)]));
    }
}

/// In a message that a control unit hears, too; END and PAUSE end it and are not kept.
#[test]
fn tokens_that_a_control_unit_has_heard_are_legal() {
    let hears = |token| move |n: &mut Network| n.nodes[2].control_unit.heard.push(token);
    for value in 0..=255 {
        passes(hears(Token::data(value)));
        match value {
            END | PAUSE | 0xC2..=0xFF => {
                fails(Clause::LegalTokens, hears(Token::control(value)));
            }
            _ => passes(hears(Token::control(value))),
        }
    }
    fails(Clause::HeaderElsewhere, hears(Token::data(0).in_header(1)));
}

/// A port without a circuit to try headers in.
fn waiting(network: &mut Network, tokens: &[Token]) {
    put(network, 1, 5, tokens);
}

#[test]
fn channels_of_headers_are_legal() {
    for channel in 0..=255 {
        let three = move |n: &mut Network| waiting(n, &header([1, 2, channel]));
        match channel {
            0..=31 | 255 => passes(three),
            _ => fails(Clause::LegalHeaders, three),
        }
        passes(move |n| waiting(n, &[Token::data(channel).in_header(1)]));
    }
}

#[test]
fn control_tokens_of_headers_are_legal() {
    let control = |value: u8, width, place: usize| {
        move |n: &mut Network| {
            let mut tokens = vec![Token::data(0).in_header(width); width as usize];
            tokens[place] = Token::control(value).in_header(width);
            waiting(n, &tokens);
        }
    };
    passes(control(0xC3, 3, 2));
    fails(Clause::LegalHeaders, control(0xC2, 3, 2));
    fails(Clause::LegalHeaders, control(0x01, 3, 2));
    fails(Clause::LegalHeaders, control(0xC3, 3, 0));
    fails(Clause::LegalHeaders, control(0xC3, 3, 1));
    fails(Clause::LegalHeaders, control(0xC3, 1, 0));
}

#[test]
fn headers_have_one_width_and_its_length() {
    let [a, b, c] = header([1, 2, 3]);
    let short = Token::data(3).in_header(1);
    passes(|n| waiting(n, &[a, b, c]));
    fails(Clause::LegalHeaders, |n| waiting(n, &[a, b, short]));
    fails(Clause::LegalHeaders, |n| waiting(n, &[a, b, c, c]));
    fails(Clause::LegalHeaders, |n| waiting(n, &[short, short]));
    fails(Clause::LegalHeaders, |n| waiting(n, &[short, a, b, c]));
    fails(Clause::LegalHeaders, |n| {
        waiting(n, &[a.in_header(2), b.in_header(2)])
    });
    fails(Clause::LegalHeaders, |n| waiting(n, &[a.in_header(0)]));
}

/// A short header has the first tokens of a whole one.
#[test]
fn short_headers_are_legal() {
    let high = Token::data(0x40).in_header(3);
    let unit = Token::control(0xC3).in_header(3);
    passes(|n| waiting(n, &[high]));
    passes(|n| waiting(n, &[high, high]));
    fails(Clause::LegalHeaders, |n| waiting(n, &[unit]));
    fails(Clause::LegalHeaders, |n| waiting(n, &[high, unit]));
    passes(|n| waiting(n, &[high, high, unit]));
}

/// The front of a circuit that is sending its header, or being dropped, is the rest
/// of a header: its last tokens.
#[test]
fn rest_of_a_header_is_legal() {
    for (slot, place, left) in [(2, 8, 2), (1, 8, 2)] {
        let change = |at: usize, token: Token| {
            move |n: &mut Network| port(n, slot, place).tokens[at] = token
        };
        let mut network = twin();
        let tokens = &port(&mut network, slot, place).tokens;
        assert_eq!(tokens.iter().filter(|t| t.header.is_some()).count(), left);
        fails(
            Clause::LegalHeaders,
            change(1, Token::data(32).in_header(3)),
        );
        fails(
            Clause::LegalHeaders,
            change(0, Token::control(0xC3).in_header(3)),
        );
        fails(Clause::LegalHeaders, change(0, Token::data(1).in_header(1)));
        passes(change(0, Token::data(32).in_header(3)));
        passes(change(1, Token::control(0xC3).in_header(3)));
        let more = Token::data(0).in_header(3);
        passes(move |n| port(n, slot, place).tokens.push_front(more));
        fails(Clause::LegalHeaders, move |n| {
            port(n, slot, place).tokens.push_front(more);
            port(n, slot, place).tokens.push_front(more);
        });
        passes(move |n| drop(port(n, slot, place).tokens.drain(..2)));
    }
}

#[test]
fn a_port_with_no_circuit_starts_with_a_header() {
    fails(Clause::StartsWithHeader, |n| waiting(n, &[Token::data(5)]));
    fails(Clause::StartsWithHeader, |n| {
        waiting(n, &[Token::control(END)])
    });
    fails(Clause::StartsWithHeader, |n| {
        put(n, 1, 12, &[Token::data(5)])
    });
    fails(Clause::StartsWithHeader, |n| {
        drop(port(n, 0, 9).tokens.drain(..3))
    });
    passes(|n| waiting(n, &header([0, 0, 5])));
}

#[test]
fn what_follows_an_end_starts_with_a_header() {
    for last in [END, PAUSE] {
        let end = Token::control(last);
        let [a, b, c] = header([0, 0, 5]);
        fails(Clause::HeaderAfterEnd, |n| {
            put(n, 0, 8, &[end, Token::data(1)])
        });
        fails(Clause::HeaderAfterEnd, |n| put(n, 0, 8, &[end, end]));
        fails(Clause::HeaderAfterEnd, |n| {
            put(n, 0, 9, &[end, Token::data(1)])
        });
        passes(|n| put(n, 0, 8, &[end]));
        passes(|n| put(n, 0, 8, &[end, a, b, c]));
        passes(|n| put(n, 0, 8, &[end, a, b, c, end, a, b, c, Token::data(1)]));
    }
}

#[test]
fn a_header_is_short_only_at_the_ports_end() {
    let [a, b, c] = header([0, 0, 5]);
    let (data, end) = (Token::data(1), Token::control(END));
    passes(|n| waiting(n, &[a]));
    passes(|n| waiting(n, &[a, b]));
    passes(|n| waiting(n, &[a, b, c, end, a]));
    passes(|n| put(n, 0, 8, &[end, a, b]));
    fails(Clause::ShortHeader, |n| waiting(n, &[a, data]));
    fails(Clause::ShortHeader, |n| waiting(n, &[a, b, data]));
    fails(Clause::ShortHeader, |n| waiting(n, &[a, b, end]));
    fails(Clause::ShortHeader, |n| {
        waiting(n, &[a, b, c, end, a, b, data])
    });
    fails(Clause::ShortHeader, |n| put(n, 0, 8, &[end, a, end]));
}

#[test]
fn header_tokens_stand_nowhere_else() {
    let header = Token::data(0).in_header(3);
    let whole = [header, header, header];
    let data = Token::data(1);
    fails(Clause::HeaderElsewhere, |n| put(n, 0, 8, &[header]));
    fails(Clause::HeaderElsewhere, |n| put(n, 0, 9, &whole));
    fails(Clause::HeaderElsewhere, |n| {
        put(n, 0, 9, &[data, header, data])
    });
    fails(Clause::HeaderElsewhere, |n| put(n, 2, 8, &[header]));
    fails(Clause::HeaderElsewhere, |n| put(n, 1, 8, &[header]));
    fails(Clause::HeaderElsewhere, |n| {
        port(n, 2, 0).tokens.push_front(header)
    });
    fails(Clause::HeaderElsewhere, |n| {
        port(n, 2, 9).tokens.push_front(header)
    });
    passes(|n| port(n, 0, 8).tokens.push_front(header));
    fails(Clause::HeaderElsewhere, |n| {
        n.nodes[2].channel_ends[9].tokens.push_back(header);
    });
}

// Circuits.

#[test]
fn links_name_their_port_back() {
    let clause = Clause::OutputNamesBack;
    fails(clause, |n| n.nodes[0].links[1].used_by = None);
    fails(clause, |n| n.nodes[0].links[1].used_by = Some(9));
    fails(clause, |n| n.nodes[0].links[2].used_by = Some(8));
    fails(clause, |n| n.nodes[0].links[2].used_by = Some(7));
    fails(clause, |n| port(n, 1, 6).hop = Some(Hop::Outward(6)));
    passes(|n| port(n, 1, 6).hop = Some(Hop::Dropped(Cause::Split)));
}

#[test]
fn tile_links_name_their_port_back() {
    let clause = Clause::OutputNamesBack;
    fails(clause, |n| n.nodes[2].tile_links[0] = None);
    fails(clause, |n| n.nodes[2].tile_links[3] = Some(0));
    fails(clause, |n| n.nodes[2].tile_links[3] = Some(1));
    passes(|n| n.nodes[2].tile_links = [None, None, None, Some(0)]);
    fails(clause, |n| port(n, 1, 6).hop = Some(Hop::Channel(255)));
    passes(|n| {
        port(n, 1, 6).hop = Some(Hop::Channel(255));
        n.nodes[1].tile_links[2] = Some(6);
    });
}

#[test]
fn control_units_name_their_port_back() {
    let clause = Clause::OutputNamesBack;
    fails(clause, |n| n.nodes[2].control_unit.serves = None);
    fails(clause, |n| n.nodes[2].control_unit.serves = Some(3));
    fails(clause, |n| n.nodes[1].control_unit.serves = Some(3));
    fails(clause, |n| port(n, 1, 6).hop = Some(Hop::Control));
}

#[test]
fn claims_name_circuits_that_exist() {
    let claim = |slot: usize, end: usize, claim| {
        move |n: &mut Network| n.nodes[slot].channel_ends[end].claim = claim
    };
    fails(Clause::Claims, claim(2, 7, None));
    fails(Clause::Claims, claim(2, 7, Some(Claim::ByPort(1))));
    fails(Clause::Claims, claim(2, 7, Some(Claim::ByChannelEnd(0))));
    fails(Clause::Claims, claim(2, 8, Some(Claim::ByPort(0))));
    fails(Clause::Claims, claim(2, 8, Some(Claim::ByPort(5))));
    fails(Clause::Claims, claim(2, 8, Some(Claim::ByPort(8))));
    fails(Clause::Claims, claim(0, 6, None));
    fails(Clause::Claims, claim(0, 6, Some(Claim::ByPort(8))));
    fails(Clause::Claims, claim(0, 6, Some(Claim::ByChannelEnd(4))));
    fails(Clause::Claims, claim(0, 7, Some(Claim::ByChannelEnd(5))));
    fails(Clause::Claims, claim(0, 7, Some(Claim::ByChannelEnd(9))));
    fails(Clause::Claims, |n| {
        port(n, 2, 0).hop = Some(Hop::Channel(8))
    });
    fails(Clause::Claims, |n| {
        port(n, 2, 0).hop = Some(Hop::Channel(255))
    });
}

#[test]
fn open_channel_ends_name_circuits_that_exist() {
    let sending = |slot: usize, end: usize, sending| {
        move |n: &mut Network| n.nodes[slot].channel_ends[end].sending = Some(sending)
    };
    let open = Clause::OpenChannelEnds;
    fails(open, |n| n.nodes[0].channel_ends[0].aim = None);
    fails(open, |n| n.nodes[0].channel_ends[5].aim = None);
    fails(open, |n| n.nodes[0].channel_ends[9].aim = None);
    fails(open, sending(0, 0, Sending::ByPort(10)));
    fails(open, sending(0, 0, Sending::ByPort(9)));
    fails(open, sending(0, 0, Sending::ByPort(0)));
    fails(open, sending(0, 0, Sending::ByPort(12)));
    fails(open, sending(1, 4, Sending::ByPort(0)));
    passes(sending(0, 0, Sending::Straight(255)));
    // That the circuit is unfinished, and that each taken port has its open
    // channel-end, is not asked (open point 3).
    passes(|n| n.nodes[0].channel_ends[0].sending = None);
    passes(|n| put(n, 0, 8, &[Token::control(END)]));
    passes(|n| drop(port(n, 0, 8).tokens.drain(..)));
}

#[test]
fn port_12_is_empty_while_the_unit_serves() {
    fails(Clause::ReplyPort, |n| put(n, 2, 12, &header([0, 0, 5])));
    passes(|n| put(n, 1, 12, &header([0, 0, 5])));
    passes(|n| {
        n.nodes[2].control_unit.serves = None;
        port(n, 2, 9).hop = Some(Hop::Dropped(Cause::Split));
        put(n, 2, 12, &header([0, 0, 5]));
    });
}

/// What nothing reads is not looked at (open points 5 and 52a).
#[test]
fn unread_things_are_not_looked_at() {
    passes(|n| port(n, 2, 11).network = 9);
    passes(|n| n.nodes[0].control_unit.heard = vec![Token::control(0xFF); 99]);
}

// Runs.

/// 320 random runs: the state is sound after every call, no call but a start is ever
/// Unsound, and what is refused, waits or is idle leaves the digest as it was.
#[test]
fn random_runs_stay_sound() {
    for seed in 0..320 {
        let mut runner = Runner::new(seed);
        let mut digest = 0;
        for _ in 0..600 {
            let (call, found) = runner.call();
            if let Some(network) = runner.network() {
                let failing = failing(network);
                assert!(failing.is_empty(), "seed {seed}: {call} left {failing:?}");
            }
            let unsound = found.answer.to_string() == "no 1";
            let starts = call.start().is_some();
            assert!(starts || !unsound, "seed {seed}: {call}");
            if matches!(found.answer, Answer::No(_) | Answer::Waiting | Answer::Idle) {
                assert_eq!(found.digest, digest, "seed {seed}: {call}");
            }
            digest = found.digest;
        }
    }
}

/// The same with the whole state compared, which holds more than the digest.
#[test]
fn refused_waiting_and_idle_calls_change_nothing() {
    for seed in 1000..1080 {
        let mut runner = Runner::new(seed);
        for _ in 0..500 {
            let before = runner.network().cloned();
            let (call, found) = runner.call();
            if matches!(found.answer, Answer::No(_) | Answer::Waiting | Answer::Idle) {
                assert_eq!(runner.network(), before.as_ref(), "seed {seed}: {call}");
            }
        }
    }
}

/// The same seed gives the same run, and another seed another.
#[test]
fn runs_can_be_made_again() {
    let run = |seed| model::runs::run(seed, 300);
    assert_eq!(run(7), run(7));
    assert_ne!(run(7), run(8));
    assert_eq!(model::runs::calls(7, 300).len(), 300);
}

/// Random runs are worth something only if everything happens in them.
#[test]
fn every_answer_comes_up_in_random_runs() {
    let mut answers = std::collections::BTreeMap::new();
    for seed in 2000..2300 {
        for (_, found) in model::runs::run(seed, 1200) {
            let words = found.answer.to_string();
            let words = if words.starts_with("token") {
                "token"
            } else {
                &words
            };
            *answers.entry(words.to_string()).or_insert(0) += 1;
        }
    }
    let seldom = ["granted 8", "unheard"];
    let mut expected: Vec<_> = (1..=12).map(|number| format!("no {number}")).collect();
    let words = "done|granted 0|granted 8|granted 16|granted 64|token|idle|waiting|moved|\
                 opened link 0|opened link 1|opened link 2|opened channel|opened control|\
                 refused split|refused noroute|dropped split|dropped noroute|malformed|unheard";
    expected.extend(words.split('|').map(str::to_string));
    for words in expected {
        let times = answers.get(&words).copied().unwrap_or(0);
        let enough = if seldom.contains(&words.as_str()) {
            3
        } else {
            50
        };
        assert!(times >= enough, "{words}: {times} times");
    }
}

/// States disturbed at random: no call panics, and a call is Unsound exactly when
/// the list fails, with nothing changed.
#[test]
fn disturbed_states_are_unsound_exactly_when_the_list_fails() {
    let mut random = Random::new(77);
    let (mut sound, mut unsound) = (0, 0);
    for seed in 3000..3150 {
        let mut runner = Runner::new(seed);
        for _ in 0..400 {
            runner.call();
        }
        let reached = runner.network().cloned().expect("a network");
        for _ in 0..40 {
            let mut state = reached.clone();
            (0..1 + random.below(2)).for_each(|_| disturb(&mut random, &mut state));
            let fails = !is_sound(&state);
            *(if fails { &mut unsound } else { &mut sound }) += 1;
            let mut network = Some(state.clone());
            for round in 0..30 {
                let call = any_call(&mut random);
                let answer = apply(&mut network, &call).to_string();
                if fails {
                    assert_eq!(answer, "no 1");
                    assert_eq!(network.as_ref(), Some(&state));
                } else if round == 0 {
                    assert_ne!(answer, "no 1", "{call}");
                }
            }
        }
    }
    assert!(
        sound > 500 && unsound > 500,
        "{sound} sound, {unsound} unsound"
    );
}

fn any_call(random: &mut Random) -> Call {
    let (slot, port) = (random.below(17), random.below(13));
    let (channel_end, link) = (random.below(8), random.below(8));
    match random.below(5) {
        0 => Call::Set {
            slot,
            setting: Setting::Hello { link },
        },
        1 => Call::Output {
            slot,
            channel_end,
            kind: model::tokens::Kind::Control,
            value: random.byte() % 8,
        },
        2 => Call::Input {
            slot,
            channel_end,
            kind: model::tokens::Kind::Data,
        },
        _ => Call::Step { slot, port },
    }
}

/// One random change somewhere in the state.
fn disturb(random: &mut Random, network: &mut Network) {
    let slot = random.below(network.nodes.len());
    let count = network.nodes.len();
    let node = &mut network.nodes[slot];
    match random.below(12) {
        0 => node.number = random.value_below(0x1_8000),
        1 => node.width = random.value_below(5),
        2 => node.tile_links[random.below(4)] = any_port(random),
        3 => node.control_unit.serves = any_port(random),
        4 | 5 => disturb_link(random, node, count),
        6 | 7 => disturb_channel_end(random, node),
        _ => disturb_port(random, node),
    }
}

fn any_port(random: &mut Random) -> Option<usize> {
    let port = random.below(PORTS + 1);
    random.chance(70).then_some(port)
}

fn disturb_link(random: &mut Random, node: &mut Node, count: usize) {
    let link = &mut node.links[random.below(LINKS)];
    match random.below(7) {
        0 => link.credit = random.below(66),
        1 => link.greeted = !link.greeted,
        2 => link.enabled = !link.enabled,
        3 => link.used_by = any_port(random),
        4 => link.far = None,
        5 => {
            let (slot, link_number) = (random.below(count + 1), random.below(9));
            link.far = Some(LinkEnd {
                slot,
                link: link_number,
            });
        }
        _ => link.network = random.value_below(5),
    }
}

fn disturb_channel_end(random: &mut Random, node: &mut Node) {
    let place = random.below(CHANNEL_ENDS + 2);
    let channel = if place == CHANNEL_ENDS { 255 } else { place };
    let claims = [
        None,
        Some(Claim::ByPort(place)),
        Some(Claim::ByChannelEnd(place)),
    ];
    let sendings = [
        None,
        Some(Sending::ByPort(8 + place % 6)),
        Some(Sending::Straight(channel)),
    ];
    let end = &mut node.channel_ends[random.below(8)];
    match random.below(5) {
        0 => end.claim = random.pick(&claims).flatten(),
        1 => end.sending = random.pick(&sendings).flatten(),
        2 => end.aim = None,
        3 => end.tokens.push_back(any_token(random)),
        _ => drop(end.tokens.pop_front()),
    }
}

fn disturb_port(random: &mut Random, node: &mut Node) {
    let hops = [
        None,
        Some(Hop::Outward(random.below(9))),
        Some(Hop::Channel(random.below(34))),
        Some(Hop::Control),
        Some(Hop::Dropped(Cause::Split)),
        Some(Hop::Dropped(Cause::NoRoute)),
    ];
    let port = &mut node.ports[random.below(PORTS)];
    match random.below(6) {
        0 => port.hop = random.pick(&hops).flatten(),
        1 => drop(port.tokens.pop_front()),
        2 => drop(port.tokens.pop_back()),
        3 => port.tokens.push_front(any_token(random)),
        4 => port.tokens.push_back(any_token(random)),
        _ => {
            let place = random.below(port.tokens.len());
            if let Some(token) = port.tokens.get_mut(place) {
                *token = any_token(random);
            }
        }
    }
}

fn any_token(random: &mut Random) -> Token {
    let values = [0, 1, 2, 3, 31, 32, 0xC0, 0xC2, 0xC3, 0xE0, 0xFF];
    let value = random.pick(&values).unwrap_or(0);
    let control = random.chance(50);
    let token = if control {
        Token::control(value)
    } else {
        Token::data(value)
    };
    match random.below(4) {
        0 => token.in_header(3),
        1 => token.in_header(1),
        _ => token,
    }
}
