//! Words changed at random; [`things`] are changed by another way.

pub mod things;

use model::random::Random;
use model::sizes::{LINE_CAPACITY, LINKS, PORTS, PORT_CAPACITY};

use crate::calls::Lent;
use crate::layout::{FIRST_LINE, FIRST_PORT, KINDS, LINE, NODE_WORDS, PORT};

/// Values at the edges of what words mean.
const EDGES: [u32; 24] = [
    0,
    1,
    2,
    3,
    4,
    5,
    7,
    8,
    9,
    11,
    12,
    13,
    15,
    16,
    31,
    32,
    63,
    64,
    65,
    255,
    256,
    65_535,
    65_536,
    u32::MAX,
];

/// Changes one to three words, mostly of the state.
pub fn disturb(random: &mut Random, lent: &mut Lent) {
    for _ in 0..1 + random.below(3) {
        match random.below(20) {
            0..=12 => disturb_state(random, &mut lent.state),
            13..=16 => PORT_RINGS.disturb(random, &lent.state, &mut lent.memory),
            _ => LINE_RINGS.disturb(random, &lent.state, &mut lent.lines),
        }
    }
}

/// The rings of a kind: how many a node has, of how many words, and where their records are, which
/// begin with where the ring begins and how many it holds.
struct Rings {
    many: usize,
    capacity: usize,
    first_record: usize,
    record: usize,
}

const PORT_RINGS: Rings = Rings {
    many: PORTS,
    capacity: PORT_CAPACITY,
    first_record: FIRST_PORT,
    record: PORT,
};

const LINE_RINGS: Rings = Rings {
    many: LINKS,
    capacity: LINE_CAPACITY,
    first_record: FIRST_LINE,
    record: LINE,
};

/// A word of the state, half of the time one that says something.
fn disturb_state(random: &mut Random, state: &mut [u32]) {
    let mut at = any_word(random, state);
    if random.chance(50) {
        let mut tries = (0..50).map(|_| any_word(random, state));
        at = tries.find(|at| state.get(*at) != Some(&0)).unwrap_or(at);
    }
    if let Some(word) = state.get_mut(at) {
        *word = other_value(random, *word);
    }
}

/// A word of a record of some kind; each kind is met as often as another.
fn any_word(random: &mut Random, state: &[u32]) -> usize {
    let (begins, words) = random.pick(&KINDS).unwrap_or((0, 1));
    let node = random.below(state.len() / NODE_WORDS);
    node * NODE_WORDS + begins + random.below(words)
}

impl Rings {
    /// A word among those that a ring holds, where one is found that holds some.
    fn disturb(&self, random: &mut Random, state: &[u32], memory: &mut [u16]) {
        let any = random.below(memory.len() / self.capacity);
        let ring = self.busy(random, state).unwrap_or(any);
        let record = self.record_of(ring);
        let head = state.get(record).map_or(0, |head| *head as usize);
        let held = state.get(record + 1).map_or(1, |held| *held as usize);
        let at = (head % self.capacity + random.below(held.min(self.capacity))) % self.capacity;
        if let Some(word) = memory.get_mut(ring * self.capacity + at) {
            *word = other_word(random, *word);
        }
    }

    /// One of the rings that hold something, counted through all nodes.
    fn busy(&self, random: &mut Random, state: &[u32]) -> Option<usize> {
        let rings = 0..state.len() / NODE_WORDS * self.many;
        let busy = rings.filter(|ring| state[self.record_of(*ring) + 1] > 0);
        random.pick(&busy.collect::<Vec<_>>())
    }

    /// Where the record of a ring begins.
    fn record_of(&self, ring: usize) -> usize {
        let (node, place) = (ring / self.many, ring % self.many);
        node * NODE_WORDS + self.first_record + place * self.record
    }
}

fn other_value(random: &mut Random, word: u32) -> u32 {
    match random.below(6) {
        0 => word.wrapping_add(1),
        1 => word.wrapping_sub(1),
        2 => random.bits() as u32,
        3 => random.value_below(16),
        _ => random.pick(&EDGES).unwrap_or(0),
    }
}

/// Another value, other marks, a credit or a HELLO, or any word.
fn other_word(random: &mut Random, word: u16) -> u16 {
    match random.below(5) {
        0 => word & 0xFF00 | u16::from(random.byte()),
        1 => word & 0x00FF | (random.below(8) as u16) << 8,
        2 => 0x100 + random.below(5) as u16,
        3 => 0x1E0 + random.below(8) as u16,
        _ => random.bits() as u16,
    }
}
