//! Random networks: shapes, numbers and routing tables, and the calls that set
//! them up.

use std::collections::VecDeque;

use crate::calls::Call;
use crate::network::{memory_words, LinkEnd, Start};
use crate::random::Random;
use crate::routing::highest_differing_bit;
use crate::set::Setting;
use crate::sizes::{BITS, HIGHEST_DIRECTION, HIGHEST_NETWORK, HIGHEST_NUMBER, LINKS, MOST_NODES};
use crate::tokens::{ONE_BYTE, THREE_BYTES};

/// A planned network. Its calls bring it about; made again later, a Set of it
/// mends what was changed since.
#[derive(Clone, Debug)]
pub struct Plan {
    pub nodes: usize,
    /// The number planned for each slot.
    pub numbers: Vec<u32>,
    /// A start, the cables, and links that are switched off.
    pub cabling: Vec<Call>,
    /// Cables that are plugged in only when circuits are under way.
    pub late: Vec<Call>,
    /// All settings.
    pub settings: Vec<Call>,
}

/// How the boards are joined.
#[derive(Clone, Copy, Debug)]
enum Shape {
    Line,
    Ring,
    Tree,
    Mesh,
}

/// A cable between two slots, and the links it is plugged into.
#[derive(Clone, Copy, Debug)]
struct Cable {
    one: LinkEnd,
    other: LinkEnd,
}

/// Plans a network of 1 to 16 boards.
pub fn plan(random: &mut Random) -> Plan {
    let nodes = match random.below(4) {
        0 => 1 + random.below(3),
        1 | 2 => 2 + random.below(5),
        _ => 1 + random.below(MOST_NODES),
    };
    let pairs = joined_slots(random, nodes);
    let cables = plug(&pairs, random.chance(50));
    let numbers = planned_numbers(random, nodes);
    let start = random.pick(&Start::ALL).unwrap_or(Start::Fresh);
    let words = memory_words(nodes).unwrap_or(0);
    let (late, soon) = wires(random, &cables);
    let mut cabling = vec![Call::beginning(start, nodes, words)];
    cabling.extend(soon);
    if random.chance(50) {
        cabling.extend(switched_off(start, nodes, &cables));
    }
    let mut settings = node_settings(random, &numbers);
    settings.extend(table_settings(random, &numbers, &cables));
    settings.extend(link_settings(random, &cables));
    if random.chance(25) {
        random.shuffle(&mut settings);
    }
    Plan {
        nodes,
        numbers,
        cabling,
        late,
        settings,
    }
}

/// The cables, first those for later: in half of the networks none, in the others
/// about every third.
fn wires(random: &mut Random, cables: &[Cable]) -> (Vec<Call>, Vec<Call>) {
    let late_percent = random.pick(&[0, 35]).unwrap_or(0);
    let wire = |cable: &Cable| Call::Wire {
        one: cable.one,
        other: cable.other,
    };
    let wires = cables.iter().map(wire);
    wires.partition(|_| random.chance(late_percent))
}

/// The links that a start leaves enabled and no cable is planned for, disabled: what
/// would leave by one of them waits.
fn switched_off(start: Start, nodes: usize, cables: &[Cable]) -> Vec<Call> {
    let planned: Vec<_> = cables.iter().flat_map(|c| [c.one, c.other]).collect();
    let ends = (0..nodes).flat_map(|slot| start.enabled().map(move |link| LinkEnd { slot, link }));
    ends.filter(|end| !planned.contains(end))
        .map(|LinkEnd { slot, link }| set(slot, Setting::Enable { link, value: 0 }))
        .collect()
}

/// Pairs of slots to be joined by a cable; some more than once, some with
/// themselves.
fn joined_slots(random: &mut Random, nodes: usize) -> Vec<(usize, usize)> {
    let shapes = [Shape::Line, Shape::Ring, Shape::Tree, Shape::Mesh];
    let shape = random.pick(&shapes).unwrap_or(Shape::Line);
    let mut pairs: Vec<_> = match shape {
        Shape::Line => (1..nodes).map(|slot| (slot - 1, slot)).collect(),
        Shape::Ring => (0..nodes).map(|slot| (slot, (slot + 1) % nodes)).collect(),
        Shape::Tree => (1..nodes).map(|slot| ((slot - 1) / 2, slot)).collect(),
        Shape::Mesh => mesh(nodes),
    };
    let doubled: Vec<_> = pairs
        .iter()
        .copied()
        .filter(|_| random.chance(25))
        .collect();
    pairs.extend(doubled);
    if random.chance(15) {
        let slot = random.below(nodes);
        pairs.push((slot, slot));
    }
    pairs
}

/// Rows of two or four boards.
fn mesh(nodes: usize) -> Vec<(usize, usize)> {
    let columns = if nodes > 4 { 4 } else { 2 };
    let across = (1..nodes)
        .filter(|slot| slot % columns != 0)
        .map(|slot| (slot - 1, slot));
    let down = (columns..nodes).map(|slot| (slot - columns, slot));
    across.chain(down).collect()
}

/// Gives each cable the lowest free link at both its ends, or the highest; a cable
/// that finds none is left out.
fn plug(pairs: &[(usize, usize)], from_above: bool) -> Vec<Cable> {
    let mut used = [0; MOST_NODES];
    let mut cables = Vec::new();
    for &(one, other) in pairs {
        let needed = if one == other { 2 } else { 1 };
        if used[one] + needed > LINKS || used[other] + needed > LINKS {
            continue;
        }
        let mut next = |slot: usize| {
            used[slot] += 1;
            let (lowest, highest) = (used[slot] - 1, LINKS - used[slot]);
            let link = if from_above { highest } else { lowest };
            LinkEnd { slot, link }
        };
        cables.push(Cable {
            one: next(one),
            other: next(other),
        });
    }
    cables
}

/// The slot for a number, most often; all of them far up, or with bits set that one
/// byte does not carry; some twice.
fn planned_numbers(random: &mut Random, nodes: usize) -> Vec<u32> {
    let base = match random.below(4) {
        0 => random.value_below(HIGHEST_NUMBER + 1) & 0xFFF0,
        1 => 8,
        _ => 0,
    };
    let mut numbers: Vec<u32> = (0..nodes as u32).map(|slot| base + slot).collect();
    if random.chance(15) {
        let twin = random.pick(&numbers).unwrap_or(0);
        numbers[random.below(nodes)] = twin;
    }
    numbers
}

/// Numbers and widths; the widths all three, all one, or mixed.
fn node_settings(random: &mut Random, numbers: &[u32]) -> Vec<Call> {
    let short_percent = random.pick(&[0, 0, 100, 20]).unwrap_or(0);
    let mut calls = Vec::new();
    for (slot, &value) in numbers.iter().enumerate() {
        let short = random.chance(short_percent);
        let width = if short { ONE_BYTE } else { THREE_BYTES };
        calls.push(set(slot, Setting::Number { value }));
        calls.push(set(slot, Setting::Width { value: width }));
    }
    calls
}

/// The direction number that a node's links towards one neighbour share.
fn direction_towards(slot: usize, neighbour: usize) -> u32 {
    (5 * slot + 3 * neighbour) as u32 % (HIGHEST_DIRECTION + 1)
}

/// Direction tables that lead towards the nearest board for each bit; in some
/// networks a few entries lead astray, so that circuits loop.
fn table_settings(random: &mut Random, numbers: &[u32], cables: &[Cable]) -> Vec<Call> {
    let astray_percent = random.pick(&[0, 0, 0, 15]).unwrap_or(0);
    let mut calls = Vec::new();
    for slot in 0..numbers.len() {
        let ways = first_steps(slot, numbers.len(), cables);
        for bit in 0..BITS {
            let goal = ways.iter().find(|(goal, _)| {
                let theirs = numbers[*goal];
                highest_differing_bit(numbers[slot], theirs, THREE_BYTES) == Some(bit)
            });
            let astray = random.below(numbers.len());
            let towards = match goal {
                _ if random.chance(astray_percent) => astray,
                Some((_, neighbour)) => *neighbour,
                None => continue,
            };
            let value = direction_towards(slot, towards);
            calls.push(set(slot, Setting::Direction { bit, value }));
        }
    }
    calls
}

/// For each other slot that can be reached, nearest first, the neighbour that the
/// shortest way begins with.
fn first_steps(from: usize, nodes: usize, cables: &[Cable]) -> Vec<(usize, usize)> {
    let mut seen = vec![false; nodes];
    seen[from] = true;
    let mut found = Vec::new();
    let mut waiting = VecDeque::from([(from, None)]);
    while let Some((slot, first)) = waiting.pop_front() {
        for next in neighbours(slot, cables) {
            if std::mem::replace(&mut seen[next], true) {
                continue;
            }
            let first = first.unwrap_or(next);
            found.push((next, first));
            waiting.push_back((next, Some(first)));
        }
    }
    found
}

fn neighbours(slot: usize, cables: &[Cable]) -> Vec<usize> {
    let sides = cables
        .iter()
        .flat_map(|c| [(c.one.slot, c.other.slot), (c.other.slot, c.one.slot)]);
    sides
        .filter(|(near, _)| *near == slot)
        .map(|(_, far)| far)
        .collect()
}

/// Directions, networks, enables and HELLOs of the cables; a few links without a
/// cable are switched on as well.
fn link_settings(random: &mut Random, cables: &[Cable]) -> Vec<Call> {
    let other_network_percent = random.pick(&[0, 0, 30]).unwrap_or(0);
    let mut calls = Vec::new();
    let mut hellos = Vec::new();
    for cable in cables {
        let other_network = random.chance(other_network_percent);
        let network = if other_network {
            random.value_below(HIGHEST_NETWORK + 1)
        } else {
            0
        };
        for (near, far) in [(cable.one, cable.other), (cable.other, cable.one)] {
            let (slot, link) = (near.slot, near.link);
            let value = direction_towards(slot, far.slot);
            calls.push(set(slot, Setting::LinkDirection { link, value }));
            if network != 0 {
                // A start may have left it enabled, and then its network is Busy.
                calls.push(set(slot, Setting::Enable { link, value: 0 }));
            }
            let value = network;
            calls.push(set(slot, Setting::Network { link, value }));
            calls.push(set(slot, Setting::Enable { link, value: 1 }));
            hellos.push(set(slot, Setting::Hello { link }));
        }
    }
    calls.extend(hellos);
    if random.chance(10) {
        let value = random.value_below(HIGHEST_DIRECTION + 1);
        calls.push(set(0, Setting::LinkDirection { link: 7, value }));
        calls.push(set(0, Setting::Enable { link: 7, value: 1 }));
    }
    calls
}

fn set(slot: usize, setting: Setting) -> Call {
    Call::Set { slot, setting }
}
