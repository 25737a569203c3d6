//! Which circuit a hop belongs to, so that a circuit has one colour all the way.
//!
//! A circuit is told by following its first header token: the hop that is opened where that token
//! stands is the same circuit's. Whose token it is, is known from which hop it left by.

use std::collections::{BTreeMap, VecDeque};

use bench::{Hop, Looks};

use crate::answer::{Answer, Opening};

/// A port of a board.
type Place = (usize, usize);

/// A hop, and whether its first token has left.
#[derive(Clone, Copy, Debug)]
struct Open {
    circuit: usize,
    begun: bool,
}

/// The circuits of a network.
#[derive(Clone, Debug, Default)]
pub struct Ways {
    /// How many circuits there have been.
    count: usize,
    open: BTreeMap<Place, Open>,
    /// Headers that have been sent to a port, on the line to it or there, and have not been read, oldest
    /// first.
    coming: BTreeMap<Place, VecDeque<usize>>,
}

impl Ways {
    /// The circuit that has a port's hop, by its number.
    pub fn circuit(&self, slot: usize, port: usize) -> Option<usize> {
        self.open.get(&(slot, port)).map(|open| open.circuit)
    }

    /// Takes down a Step, with the hop of its port before it, and the looks behind it.
    pub fn step(&mut self, place: Place, before: Option<Hop>, answer: &Answer, after: Looks) {
        match answer {
            Answer::Opened(Opening::Link(_)) => self.opens(place, false),
            Answer::Opened(_) | Answer::Refused(_) => self.opens(place, true),
            Answer::Moved => self.moves(place, before, after),
            _ => {}
        }
        if after.port(place.0, place.1).hop().is_none() {
            self.open.remove(&place);
        }
    }

    fn opens(&mut self, place: Place, begun: bool) {
        let came = self.coming.get_mut(&place).and_then(VecDeque::pop_front);
        let circuit = came.unwrap_or_else(|| {
            self.count += 1;
            self.count - 1
        });
        self.open.insert(place, Open { circuit, begun });
    }

    /// The first token that goes over a cable is the header's: its circuit comes to the far port, by a
    /// line that keeps the order.
    fn moves(&mut self, place: Place, before: Option<Hop>, after: Looks) {
        let Some(Hop::Link(link)) = before else {
            return;
        };
        let Some((slot, port)) = after.link(place.0, link as usize).far() else {
            return;
        };
        let Some(open) = self.open.get_mut(&place) else {
            return;
        };
        if !std::mem::replace(&mut open.begun, true) {
            let far = (slot as usize, port as usize);
            self.coming.entry(far).or_default().push_back(open.circuit);
        }
    }

    /// The network is made anew.
    pub fn clear(&mut self) {
        self.open.clear();
        self.coming.clear();
    }
}
