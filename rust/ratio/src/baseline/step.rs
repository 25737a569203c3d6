//! Step.

use model::answers::{Cause, Opening};
use model::sizes::{CHANNELS, CHANNEL_END_CAPACITY, HEARD, LINKS, PORTS, REPLY_PORT, TILE_PORTS};
use model::tokens::{ONE_BYTE, SINK};
use model::{Answer, No};

use super::records::{
    closes, Circuit, Hop, Network, Node, NO_ROUTE, OUTWARD, PAUSE, SPLIT, TO_CHANNEL, TO_UNIT,
};

/// What came of a Step.
#[derive(Clone, Copy, Debug, PartialEq, Eq)]
pub enum Stepped {
    Idle,
    Waiting,
    Moved,
    Opened(Opening),
    Refused(Cause),
    Dropped(Cause),
}

impl From<Stepped> for Answer {
    fn from(stepped: Stepped) -> Answer {
        match stepped {
            Stepped::Idle => Answer::Idle,
            Stepped::Waiting => Answer::Waiting,
            Stepped::Moved => Answer::Moved,
            Stepped::Opened(opening) => Answer::Opened(opening),
            Stepped::Refused(cause) => Answer::Refused(cause),
            Stepped::Dropped(cause) => Answer::Dropped(cause),
        }
    }
}

/// What a whole header asks for.
enum Target {
    Channel(usize),
    Unit,
}

impl Network {
    pub(super) fn step(&mut self, slot: usize, place: usize) -> Result<Stepped, No> {
        let node = self.node(slot)?;
        let port = node.ports.get(place).ok_or(No::NoSuch)?;
        if port.held == 0 {
            return Ok(Stepped::Idle);
        }
        Ok(match port.hop() {
            Hop::Shut => self.read_header(slot, place),
            Hop::Outward(link) => self.move_outward(slot, place, link),
            Hop::Channel(channel) => self.hand_to_channel(slot, place, channel),
            Hop::Unit => self.tell_unit(slot, place),
            Hop::Dropped(cause) => {
                self.take_and_close(slot, place);
                Stepped::Dropped(cause)
            }
        })
    }

    fn read_header(&mut self, slot: usize, place: usize) -> Stepped {
        let node = &mut self.nodes[slot];
        let port = &node.ports[place];
        let width = if port.token(0) & 0x400 == 0 { 1 } else { 3 };
        if port.held < width {
            return Stepped::Waiting;
        }
        if width != node.width {
            return node.refuse(place, Cause::Split);
        }
        let (number, target) = node.target(place);
        match node.differing_bits(number).checked_ilog2() {
            Some(bit) => node.open_outward(place, bit as usize),
            None => match target {
                Target::Channel(channel) => self.open_channel(slot, place, channel),
                Target::Unit => self.open_unit(slot, place),
            },
        }
    }

    fn open_channel(&mut self, slot: usize, place: usize, channel: usize) -> Stepped {
        let node = &mut self.nodes[slot];
        let free = node.tile_users.iter().position(|user| user.kind == 0);
        let Some(tile) = free else {
            return Stepped::Waiting;
        };
        if channel != SINK {
            let claim = &mut node.ends[channel].claim;
            if claim.kind != 0 {
                return Stepped::Waiting;
            }
            *claim = Circuit::port(place);
        }
        node.tile_users[tile] = Circuit::port(place);
        node.ports[place].tile = tile as u32;
        node.set_hop(place, TO_CHANNEL, channel);
        self.remove_header(slot, place);
        Stepped::Opened(Opening::Channel)
    }

    fn open_unit(&mut self, slot: usize, place: usize) -> Stepped {
        let node = &mut self.nodes[slot];
        if node.unit.serves.kind != 0 || node.ports[REPLY_PORT].held != 0 {
            return Stepped::Waiting;
        }
        node.unit.serves = Circuit::port(place);
        node.unit.heard = 0;
        node.set_hop(place, TO_UNIT, 0);
        self.remove_header(slot, place);
        Stepped::Opened(Opening::Control)
    }

    fn remove_header(&mut self, slot: usize, place: usize) {
        for _ in 0..self.nodes[slot].width {
            self.take(slot, place);
        }
    }

    /// Takes the oldest token of a port; where that is behind a link, it considers a grant.
    fn take(&mut self, slot: usize, place: usize) -> u16 {
        let token = self.nodes[slot].ports[place].take();
        if place < LINKS {
            self.consider_grant((slot, place));
        }
        token
    }

    fn take_and_close(&mut self, slot: usize, place: usize) -> u16 {
        let token = self.take(slot, place);
        if closes(token) {
            self.nodes[slot].close(place);
        }
        token
    }

    fn move_outward(&mut self, slot: usize, place: usize, link: usize) -> Stepped {
        if self.nodes[slot].links[link].credit == 0 {
            return Stepped::Waiting;
        }
        let token = self.take_and_close(slot, place);
        let node = &mut self.nodes[slot];
        node.links[link].credit -= 1;
        node.lines[link].put(token);
        Stepped::Moved
    }

    fn hand_to_channel(&mut self, slot: usize, place: usize, channel: usize) -> Stepped {
        let node = &mut self.nodes[slot];
        let token = node.ports[place].token(0);
        if channel != SINK && token != PAUSE {
            let end = &mut node.ends[channel];
            if end.held as usize >= CHANNEL_END_CAPACITY {
                return Stepped::Waiting;
            }
            end.keep(token);
        }
        self.take_and_close(slot, place);
        Stepped::Moved
    }

    /// A message is heard; what its end brings is left out.
    fn tell_unit(&mut self, slot: usize, place: usize) -> Stepped {
        let token = self.take_and_close(slot, place);
        let unit = &mut self.nodes[slot].unit;
        if (unit.heard as usize) < HEARD {
            unit.tokens[unit.heard as usize] = u32::from(token);
            unit.heard += 1;
        }
        Stepped::Moved
    }
}

impl Node {
    fn set_hop(&mut self, place: usize, kind: u32, index: usize) {
        let index = index as u32;
        self.ports[place].circuit = Circuit { kind, index };
    }

    fn refuse(&mut self, place: usize, cause: Cause) -> Stepped {
        let kind = match cause {
            Cause::Split => SPLIT,
            Cause::NoRoute => NO_ROUTE,
        };
        self.set_hop(place, kind, 0);
        Stepped::Refused(cause)
    }

    /// The number and the target of the whole header at a port's front, which has the node's width.
    fn target(&self, place: usize) -> (u32, Target) {
        let port = &self.ports[place];
        let byte = |at: u32| u32::from(port.token(at) & 0xFF);
        if self.width == ONE_BYTE {
            let header = byte(0) as usize;
            let channel = Target::Channel(header % CHANNELS);
            return ((header / CHANNELS) as u32, channel);
        }
        let number = byte(0) << 8 | byte(1);
        if port.token(2) & 0x100 != 0 {
            return (number, Target::Unit);
        }
        (number, Target::Channel(byte(2) as usize))
    }

    fn open_outward(&mut self, place: usize, bit: usize) -> Stepped {
        let (direction, network) = (self.direction(bit), self.network_of(place));
        let mut all_in_use = false;
        for link in 0..LINKS {
            let out = &mut self.links[link];
            if out.enabled != 1 || out.direction != direction || out.network != network {
                continue;
            }
            if out.user.kind == 0 {
                out.user = Circuit::port(place);
                self.set_hop(place, OUTWARD, link);
                return Stepped::Opened(Opening::Link(link));
            }
            all_in_use = true;
        }
        if all_in_use {
            return Stepped::Waiting;
        }
        self.refuse(place, Cause::NoRoute)
    }

    /// The network of the circuit at a port's front.
    fn network_of(&self, place: usize) -> u32 {
        match place {
            0..LINKS => self.links[place].network,
            _ if TILE_PORTS.contains(&place) => self.ports[place].network,
            _ => 0,
        }
    }

    /// END or PAUSE has left a port: what its circuit used is free again.
    fn close(&mut self, place: usize) {
        debug_assert!(place < PORTS);
        match self.ports[place].hop() {
            Hop::Outward(link) => self.links[link].user = Circuit::NONE,
            Hop::Channel(channel) => {
                self.tile_users[self.ports[place].tile as usize] = Circuit::NONE;
                if channel != SINK {
                    self.ends[channel].claim = Circuit::NONE;
                }
            }
            Hop::Unit => self.unit.serves = Circuit::NONE,
            Hop::Shut | Hop::Dropped(_) => {}
        }
        let port = &mut self.ports[place];
        port.circuit = Circuit::NONE;
        port.tile = 0;
        if port.held == 0 {
            port.network = 0;
        }
    }
}
