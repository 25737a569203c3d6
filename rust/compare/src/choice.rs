//! Calls made up at random, with arguments in and out of range.

mod cables;
mod ends;

pub use cables::{lines_in_use, plug};
pub use ends::any_token;

use model::calls::{Beginning, Call, StepRecord};
use model::network::{LinkEnd, Network, Start};
use model::random::Random;
use model::set::Setting;
use model::sizes::{
    BITS, HIGHEST_DIRECTION, HIGHEST_NETWORK, HIGHEST_NUMBER, LINKS, MOST_NODES, PORTS,
};

use crate::layout::{NODE_LINES, NODE_TOKENS};
use crate::runs;

/// A run of that many calls. The first half is one of the model's own runs, which leaves circuits
/// under way; what follows makes no sense, and is mostly refused. The same seed gives the same run.
pub fn calls(seed: u64, count: usize) -> Vec<Call> {
    let mut random = Random::new(seed);
    let mut calls = runs::calls(seed, count / 2);
    let mut network = None;
    for call in &calls {
        model::apply(&mut network, call);
    }
    while calls.len() < count {
        let call = any(&mut random, network.as_ref());
        model::apply(&mut network, &call);
        calls.push(call);
    }
    calls
}

/// Any call, often of a link, line or channel-end whose circuits make a difference.
pub fn any(random: &mut Random, network: Option<&Network>) -> Call {
    let nodes = network.map_or(3, |network| network.nodes.len());
    match random.below(47) {
        0 => any_start(random),
        1..=2 => cables::any(random, network, nodes),
        3..=14 => any_set(random, network, nodes),
        15..=20 => any_record(random, network).into(),
        21 => any_list(random, network),
        22..=28 => any_line(random, network),
        _ => ends::any(random, network),
    }
}

fn any_start(random: &mut Random) -> Call {
    let start = random.pick(&Start::ALL).unwrap_or(Start::Fresh);
    let nodes = below_or_beyond(random, MOST_NODES + 1);
    let [tokens, other] = [(); 2].map(|()| random.below(MOST_NODES + 2));
    let lines = if random.chance(70) { tokens } else { other };
    Call::from(Beginning {
        start,
        nodes,
        memory_words: NODE_TOKENS * tokens,
        line_words: Some(NODE_LINES * lines),
    })
}

/// A line step, often of a line that has something on it.
pub fn any_line(random: &mut Random, network: Option<&Network>) -> Call {
    let nodes = network.map_or(3, |network| network.nodes.len());
    let used = network.map(lines_in_use).unwrap_or_default();
    let any = any_end(random, nodes);
    let LinkEnd { slot, link } = match random.pick(&used) {
        Some(end) if random.chance(80) => end,
        _ => any,
    };
    Call::Line { slot, link }
}

/// No list that is made up among other calls has as many records.
const LIST: usize = 40;

/// A list of Steps, mostly short, sometimes of none.
pub fn any_list(random: &mut Random, network: Option<&Network>) -> Call {
    let count = match random.below(8) {
        0 => 0,
        1 => 1,
        2..=6 => 2 + random.below(6),
        _ => random.below(LIST),
    };
    list_of(random, network, count)
}

/// A list of so many Steps, now and then with results of another length.
pub fn list_of(random: &mut Random, network: Option<&Network>, count: usize) -> Call {
    let records = (0..count).map(|_| any_record(random, network)).collect();
    let others = [0, count + 1, count.wrapping_sub(1), usize::MAX];
    let results = match random.chance(10) {
        true => random.pick(&others).unwrap_or(count),
        false => count,
    };
    Call::Steps { results, records }
}

/// A Step, often of a port that holds a token, such as the end of a message.
pub fn any_record(random: &mut Random, network: Option<&Network>) -> StepRecord {
    let nodes = network.map_or(3, |network| network.nodes.len());
    let busy = network.map(busy_ports).unwrap_or_default();
    let any = (
        below_or_beyond(random, nodes),
        below_or_beyond(random, PORTS),
    );
    let (slot, port) = match random.pick(&busy) {
        Some(place) if random.chance(70) => place,
        _ => any,
    };
    StepRecord { slot, port }
}

/// The ports that hold a token, by slot and place.
pub fn busy_ports(network: &Network) -> Vec<(usize, usize)> {
    let nodes = network.nodes.iter().enumerate();
    let ports = nodes.flat_map(|(slot, node)| {
        let ports = node.ports.iter().enumerate();
        ports.map(move |(place, port)| ((slot, place), port))
    });
    let busy = ports.filter(|(_, port)| !port.tokens.is_empty());
    busy.map(|(place, _)| place).collect()
}

fn any_set(random: &mut Random, network: Option<&Network>, nodes: usize) -> Call {
    let busy = network.map(busy_links).unwrap_or_default();
    let LinkEnd { slot, link } = match random.pick(&busy) {
        Some(end) if random.chance(50) => end,
        _ => any_end(random, nodes),
    };
    let of_link = random.chance(70);
    let setting = if of_link {
        any_of_link(random, link)
    } else {
        any_of_node(random)
    };
    Call::Set { slot, setting }
}

/// The links that are in use, whose port or far port holds a token, or with something on a line of
/// their cable.
fn busy_links(network: &Network) -> Vec<LinkEnd> {
    let holds = |end: LinkEnd| {
        let port = network.port(end.slot, end.link);
        port.is_ok_and(|port| port.is_taken())
    };
    let slots = 0..network.nodes.len();
    let all = slots.flat_map(|slot| (0..LINKS).map(move |link| LinkEnd { slot, link }));
    all.filter(|end| {
        let link = &network.nodes[end.slot].links[end.link];
        let far = network.far_link(link);
        let on_lines = !link.line.is_empty() || far.is_some_and(|far| !far.line.is_empty());
        on_lines || link.used_by.is_some() || holds(*end) || link.far.is_some_and(holds)
    })
    .collect()
}

fn any_end(random: &mut Random, nodes: usize) -> LinkEnd {
    LinkEnd {
        slot: below_or_beyond(random, nodes),
        link: below_or_beyond(random, LINKS),
    }
}

fn any_of_node(random: &mut Random) -> Setting {
    match random.below(3) {
        0 => Setting::Number {
            value: value(random, HIGHEST_NUMBER + 1),
        },
        1 => Setting::Width {
            value: value(random, 4),
        },
        _ => Setting::Direction {
            bit: value(random, BITS as u32) as usize,
            value: value(random, HIGHEST_DIRECTION + 1),
        },
    }
}

fn any_of_link(random: &mut Random, link: usize) -> Setting {
    match random.below(6) {
        0 => Setting::LinkDirection {
            link,
            value: value(random, HIGHEST_DIRECTION + 1),
        },
        1 => Setting::Network {
            link,
            value: value(random, HIGHEST_NETWORK + 1),
        },
        2 | 3 => Setting::Enable {
            link,
            value: value(random, 2),
        },
        _ => Setting::Hello { link },
    }
}

/// A number below the limit, and seldom one that is not.
fn below_or_beyond(random: &mut Random, limit: usize) -> usize {
    let beyond = [limit, limit + 1, 255, 65_536, usize::MAX];
    match random.below(12) {
        0 => random.pick(&beyond).unwrap_or(limit),
        _ => random.below(limit),
    }
}

fn value(random: &mut Random, limit: u32) -> u32 {
    let beyond = [limit, limit + 1, 255, 65_536, u32::MAX];
    match random.below(12) {
        0 => random.pick(&beyond).unwrap_or(limit),
        _ => random.value_below(limit),
    }
}
