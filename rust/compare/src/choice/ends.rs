//! Aim, Output and Input, made up at random.

use model::calls::Call;
use model::network::{ChannelEnd, Network};
use model::random::Random;
use model::sizes::{CHANNELS, CHANNEL_ENDS, HIGHEST_NETWORK, HIGHEST_NUMBER};
use model::tokens::{Destination, Kind, END, PAUSE, READC, SINK, WRITEC};

use super::{below_or_beyond, value};

/// A channel-end by slot and place.
#[derive(Clone, Copy)]
struct Place {
    slot: usize,
    end: usize,
}

/// A call of a channel-end, often of one that has something to do.
pub(super) fn any(random: &mut Random, network: Option<&Network>) -> Call {
    let at = any_place(random, network);
    match random.below(20) {
        0..=4 => any_aim(random, network, at),
        5..=14 => any_output(random, at),
        _ => any_input(random, network, at),
    }
}

fn any_place(random: &mut Random, network: Option<&Network>) -> Place {
    let nodes = network.map_or(3, |network| network.nodes.len());
    let busy = network.map(busy_ends).unwrap_or_default();
    match random.pick(&busy) {
        Some(place) if random.chance(75) => place,
        _ => Place {
            slot: below_or_beyond(random, nodes),
            end: below_or_beyond(random, CHANNEL_ENDS),
        },
    }
}

/// The channel-ends that are aimed, claimed or hold a token.
fn busy_ends(network: &Network) -> Vec<Place> {
    let has_work =
        |end: &ChannelEnd| end.aim.is_some() || end.claim.is_some() || !end.tokens.is_empty();
    let nodes = network.nodes.iter().enumerate();
    let ends = nodes.flat_map(|(slot, node)| {
        let ends = node.channel_ends.iter().enumerate();
        ends.map(move |(end, state)| (Place { slot, end }, state))
    });
    let busy = ends.filter(|(_, state)| has_work(state));
    busy.map(|(place, _)| place).collect()
}

fn any_aim(random: &mut Random, network: Option<&Network>, at: Place) -> Call {
    let number = any_number(random, network, at.slot);
    let destination = match random.below(8) {
        0 | 1 => Destination::Control { number },
        _ => Destination::Channel {
            number,
            channel: any_channel(random, at.end),
        },
    };
    Call::Aim {
        slot: at.slot,
        channel_end: at.end,
        destination,
        network: value(random, HIGHEST_NETWORK + 1),
    }
}

/// The node's own number, so that circuits are straight; another's, one that three bits do not tell
/// from a node's own, or any.
fn any_number(random: &mut Random, network: Option<&Network>, slot: usize) -> u32 {
    let nodes = network.map_or(&[][..], |network| &network.nodes);
    let own = nodes.get(slot).map_or(0, |node| node.number);
    let other = nodes.get(random.below(nodes.len()));
    match random.below(8) {
        0..=2 => own,
        3 => own ^ 8,
        4 | 5 => other.map_or(0, |node| node.number),
        _ => value(random, HIGHEST_NUMBER + 1),
    }
}

/// A channel-end aimed at itself is one of the cases.
fn any_channel(random: &mut Random, own: usize) -> usize {
    let edges = [
        CHANNELS - 1,
        CHANNELS,
        SINK - 1,
        SINK + 1,
        u32::MAX as usize,
    ];
    match random.below(12) {
        0 | 1 => own.min(u32::MAX as usize),
        2 | 3 => SINK,
        4 => random.pick(&edges).unwrap_or(CHANNELS),
        5..=7 => random.below(6),
        _ => random.below(CHANNELS),
    }
}

fn any_output(random: &mut Random, at: Place) -> Call {
    let (kind, value) = any_token(random);
    Call::Output {
        slot: at.slot,
        channel_end: at.end,
        kind,
        value,
    }
}

/// A token to be put out: of every class, those at the edges of a class more often.
pub fn any_token(random: &mut Random) -> (Kind, u8) {
    let edges = [0x00, 0x7F, 0x80, 0xBF, 0xC2, 0xC3, 0xDF, 0xE0, 0xFF];
    let control = match random.below(16) {
        0..=2 => END,
        3 | 4 => PAUSE,
        5 => WRITEC,
        6 => READC,
        7 | 8 => random.pick(&edges).unwrap_or(END),
        9 => random.byte(),
        _ => {
            let closing_as_data = random.pick(&[END, PAUSE]).unwrap_or(END);
            let any = random.byte();
            let plain = random.chance(80);
            return (Kind::Data, if plain { any } else { closing_as_data });
        }
    };
    (Kind::Control, control)
}

/// Mostly as what the next token is.
fn any_input(random: &mut Random, network: Option<&Network>, at: Place) -> Call {
    let end = network.and_then(|network| network.channel_end(at.slot, at.end).ok());
    let next = end.and_then(|end| end.tokens.front());
    let any = random.pick(&[Kind::Data, Kind::Control]);
    let kind = match next {
        Some(token) if random.chance(70) => token.kind,
        _ => any.unwrap_or(Kind::Data),
    };
    Call::Input {
        slot: at.slot,
        channel_end: at.end,
        kind,
    }
}
