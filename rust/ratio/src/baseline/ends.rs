//! Aim, Output and Input.

use model::sizes::{
    CHANNEL_END_CAPACITY, HIGHEST_NETWORK, HIGHEST_NUMBER, PORT_CAPACITY, TILE_PORTS,
};
use model::tokens::{Destination, Kind, ONE_BYTE, READC, SINK, SSCTRL, WRITEC};
use model::{Answer, No};

use super::records::{closes, is_channel, ChannelEnd, Circuit, Network, Node, Peer, PAUSE};

/// What a channel-end is aimed at, by its word.
const AT_CHANNEL: u32 = 1;
const AT_UNIT: u32 = 2;

impl Network {
    pub(super) fn aim(
        &mut self,
        slot: usize,
        end: usize,
        destination: Destination,
        network: u32,
    ) -> Result<Answer, No> {
        let end = self.node(slot)?.end(end)?;
        let (aim, channel) = match destination {
            Destination::Channel { channel, .. } => (AT_CHANNEL, channel),
            Destination::Control { .. } => (AT_UNIT, 0),
        };
        let number = destination.number();
        if !is_channel(channel) || number > HIGHEST_NUMBER || network > HIGHEST_NETWORK {
            return Err(No::Value);
        }
        if end.sending.kind != 0 {
            return Err(No::Open);
        }
        end.aim = aim;
        end.number = number;
        end.channel = channel as u32;
        end.network = network;
        Ok(Answer::Done)
    }

    pub(super) fn output(
        &mut self,
        slot: usize,
        place: usize,
        kind: Kind,
        value: u8,
    ) -> Result<Answer, No> {
        let node = self.node(slot)?;
        let end = *node.end(place)?;
        if end.aim == 0 {
            return Err(No::Unaimed);
        }
        let token = match kind {
            Kind::Data => u16::from(value),
            Kind::Control => control_word(value, end.aim)?,
        };
        match end.sending.peer() {
            Peer::Nobody => node.open(place, &end, token)?,
            Peer::Port(port) => node.put_behind(place, port, token)?,
            Peer::End(channel) => node.hand_straight(place, channel, token)?,
        }
        Ok(Answer::Done)
    }

    pub(super) fn input(&mut self, slot: usize, end: usize, kind: Kind) -> Result<Answer, No> {
        let end = self.node(slot)?.end(end)?;
        if end.held == 0 {
            return Err(No::Empty);
        }
        let token = end.tokens[0];
        let is_control = token & 0x100 != 0;
        if is_control != (kind == Kind::Control) {
            return Err(No::Trap);
        }
        end.tokens.copy_within(1.., 0);
        end.tokens[CHANNEL_END_CAPACITY - 1] = 0;
        end.held -= 1;
        Ok(Answer::Token(token as u8))
    }
}

/// The word of a control token that may be put out towards such an aim.
fn control_word(value: u8, aim: u32) -> Result<u16, No> {
    match value {
        0xE0..=0xFF => Err(No::Hardware),
        WRITEC | READC if aim == AT_UNIT => Ok(0x100 | u16::from(value)),
        0xC0..=0xDF => Err(No::Privileged),
        _ => Ok(0x100 | u16::from(value)),
    }
}

impl Node {
    /// A channel-end, or NoSuch.
    fn end(&mut self, end: usize) -> Result<&mut ChannelEnd, No> {
        self.ends.get_mut(end).ok_or(No::NoSuch)
    }

    fn open(&mut self, place: usize, end: &ChannelEnd, token: u16) -> Result<(), No> {
        let channel = end.channel as usize;
        let one_byte = self.width == ONE_BYTE;
        if one_byte && (end.aim == AT_UNIT || channel == SINK) {
            return Err(No::Narrow);
        }
        if end.aim == AT_CHANNEL && self.differing_bits(end.number) == 0 {
            if channel != SINK && self.ends[channel].claim.kind != 0 {
                return Err(No::Full);
            }
            return self.hand_straight(place, channel, token);
        }
        let free = TILE_PORTS.into_iter().find(|p| !self.ports[*p].is_taken());
        let port = free.ok_or(No::Full)?;
        self.put_header(port, end);
        self.ports[port].network = end.network;
        self.put_behind(place, port, token)
    }

    /// The bits in which a number differs from the node's own, of those that its width compares.
    pub(super) fn differing_bits(&self, number: u32) -> u32 {
        let compared = if self.width == ONE_BYTE { 7 } else { 0xFFFF };
        (number ^ self.number) & compared
    }

    fn put_header(&mut self, port: usize, end: &ChannelEnd) {
        let port = &mut self.ports[port];
        if self.width == ONE_BYTE {
            port.put(0x200 | ((end.number & 7) << 5 | end.channel) as u16);
            return;
        }
        port.put(0x600 | (end.number >> 8) as u16);
        port.put(0x600 | (end.number & 0xFF) as u16);
        port.put(match end.aim {
            AT_UNIT => 0x700 | u16::from(SSCTRL),
            _ => 0x600 | end.channel as u16,
        });
    }

    fn put_behind(&mut self, place: usize, port: usize, token: u16) -> Result<(), No> {
        let by = &mut self.ports[port];
        if by.held as usize >= PORT_CAPACITY {
            return Err(No::Full);
        }
        by.put(token);
        by.sender = until_closed(token, Circuit::end(place));
        self.ends[place].sending = until_closed(token, Circuit::port(port));
        Ok(())
    }

    /// To a channel of this node, without header or link.
    fn hand_straight(&mut self, place: usize, channel: usize, token: u16) -> Result<(), No> {
        if channel != SINK {
            let receiver = &mut self.ends[channel];
            if token != PAUSE {
                if receiver.held as usize >= CHANNEL_END_CAPACITY {
                    return Err(No::Full);
                }
                receiver.keep(token);
            }
            receiver.claim = until_closed(token, Circuit::end(place));
        }
        self.ends[place].sending = until_closed(token, Circuit::end(channel));
        Ok(())
    }
}

/// A circuit is open until its END or PAUSE.
fn until_closed(token: u16, circuit: Circuit) -> Circuit {
    if closes(token) {
        Circuit::NONE
    } else {
        circuit
    }
}
