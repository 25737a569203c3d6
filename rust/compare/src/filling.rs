//! Runs without a Step: what channel-ends put out stays, so that ports 8..11 and channel-ends fill.

use model::calls::Call;
use model::network::Start;
use model::random::Random;
use model::set::Setting;
use model::sizes::HIGHEST_NETWORK;
use model::tokens::{Destination, Kind, END, PAUSE, SINK};

use crate::calls::beginning;
use crate::choice::any_token;

/// How many channel-ends take part: more than there are ports, few enough to meet.
const ENDS: usize = 7;

/// A run of that many calls on one or two boards. The same seed gives the same run.
pub fn calls(seed: u64, count: usize) -> Vec<Call> {
    let mut random = Random::new(seed);
    let nodes = 1 + random.below(2);
    let start = random.pick(&Start::ALL).unwrap_or(Start::Fresh);
    let begun = beginning(start, nodes);
    let widths = (0..nodes).map(|slot| Call::Set {
        slot,
        setting: Setting::Width {
            value: random.pick(&[1, 3]).unwrap_or(3),
        },
    });
    let mut calls: Vec<Call> = [begun].into_iter().chain(widths).collect();
    calls.extend((0..ENDS).map(|end| aim(&mut random, end % nodes, end)));
    let closing = random.pick(&[1, 4, 15]).unwrap_or(4);
    calls.resize_with(count.max(calls.len()), || next(&mut random, nodes, closing));
    calls
}

/// The next call; so many outputs in a hundred close.
fn next(random: &mut Random, nodes: usize, closing: usize) -> Call {
    let (slot, end) = (random.below(nodes), random.below(ENDS));
    match random.below(100) {
        0..=79 => output(random, slot, end, closing),
        80..=87 => Call::Input {
            slot,
            channel_end: random.below(ENDS),
            kind: random
                .pick(&[Kind::Data, Kind::Data, Kind::Control])
                .unwrap_or(Kind::Data),
        },
        88..=97 => aim(random, slot, end),
        98 => Call::Set {
            slot,
            setting: Setting::Width {
                value: random.pick(&[1, 3]).unwrap_or(3),
            },
        },
        _ => Call::Set {
            slot,
            setting: Setting::Number {
                value: random.pick(&[0, 0, 1, 8, 9]).unwrap_or(0),
            },
        },
    }
}

fn output(random: &mut Random, slot: usize, channel_end: usize, closing: usize) -> Call {
    let closes = random.chance(closing);
    let last = random.pick(&[END, PAUSE]).unwrap_or(END);
    let odd = random.chance(4);
    let (kind, value) = match (closes, odd) {
        (true, _) => (Kind::Control, last),
        (false, true) => any_token(random),
        (false, false) => (Kind::Data, random.byte()),
    };
    Call::Output {
        slot,
        channel_end,
        kind,
        value,
    }
}

/// At a channel of a node near or far, at the channel-end itself, at the sink or a control unit.
fn aim(random: &mut Random, slot: usize, channel_end: usize) -> Call {
    let number = random.pick(&[0, 0, 1, 8, 9, 0x125]).unwrap_or(0);
    let channel = match random.below(8) {
        0 => channel_end,
        1 => SINK,
        _ => random.below(ENDS),
    };
    let destination = match random.below(6) {
        0 => Destination::Control { number },
        _ => Destination::Channel { number, channel },
    };
    Call::Aim {
        slot,
        channel_end,
        destination,
        network: random.value_below(HIGHEST_NETWORK + 1),
    }
}
