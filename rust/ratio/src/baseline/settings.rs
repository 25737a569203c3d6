//! Wire and Set.

use model::network::LinkEnd;
use model::set::Setting;
use model::sizes::{BITS, HIGHEST_DIRECTION, HIGHEST_NETWORK, HIGHEST_NUMBER};
use model::tokens::{ONE_BYTE, THREE_BYTES};
use model::{Answer, No};

use super::lines::HELLO;
use super::records::{Link, Network, Node};

impl Network {
    pub(super) fn wire(&mut self, one: LinkEnd, other: LinkEnd) -> Result<Answer, No> {
        let wired_ends = self.link(one)?.wired | self.link(other)?.wired;
        if one == other {
            return Err(No::Value);
        }
        if wired_ends == 1 {
            return Err(No::Busy);
        }
        self.link(one)?.lead_to(other);
        self.link(other)?.lead_to(one);
        Ok(Answer::Done)
    }

    pub(super) fn set(&mut self, slot: usize, setting: Setting) -> Result<Answer, No> {
        let node = self.node(slot)?;
        match setting {
            Setting::Number { value } => {
                node.number = within(value, HIGHEST_NUMBER)?;
            }
            Setting::Width { value } => {
                let known = value == ONE_BYTE || value == THREE_BYTES;
                node.width = known.then_some(value).ok_or(No::Value)?;
            }
            Setting::Direction { bit, value } => node.set_direction(bit, value)?,
            Setting::LinkDirection { link, value } => {
                let link = self.link(LinkEnd { slot, link })?;
                link.direction = within(value, HIGHEST_DIRECTION)?;
            }
            Setting::Network { link, value } => {
                self.link(LinkEnd { slot, link })?.set_network(value)?;
            }
            Setting::Enable { link, value } => self.set_enable(LinkEnd { slot, link }, value)?,
            Setting::Hello { link } => return self.hello(LinkEnd { slot, link }),
        }
        Ok(Answer::Done)
    }

    /// A link, or NoSuch.
    fn link(&mut self, end: LinkEnd) -> Result<&mut Link, No> {
        let links = &mut self.node(end.slot)?.links;
        links.get_mut(end.link).ok_or(No::NoSuch)
    }

    fn set_enable(&mut self, end: LinkEnd, value: u32) -> Result<(), No> {
        let link = *self.link(end)?;
        let value = within(value, 1)?;
        if value == 0 && link.enabled == 1 {
            let far_in_use = link.far().is_some_and(|far| self.is_in_use(far));
            if far_in_use || self.is_in_use((end.slot, end.link)) {
                return Err(No::Busy);
            }
            self.nodes[end.slot].forget_credit(end.link);
            if let Some((slot, link)) = link.far() {
                self.nodes[slot].forget_credit(link);
            }
        }
        self.link(end)?.enabled = value;
        Ok(())
    }

    /// A link end in whose buffer a token is held, one of whose directions is in a circuit, or with
    /// something on its line.
    fn is_in_use(&self, (slot, link): (usize, usize)) -> bool {
        let node = &self.nodes[slot];
        node.ports[link].is_taken() || node.links[link].user.kind != 0 || node.lines[link].held > 0
    }

    /// HELLO goes on to the line where somebody is there to hear it, and grants nothing yet.
    fn hello(&mut self, end: LinkEnd) -> Result<Answer, No> {
        let link = *self.link(end)?;
        let far = link.far();
        let signalled = |(slot, link): (usize, usize)| self.nodes[slot].lines[link].is_signalled();
        if link.enabled == 0 || signalled((end.slot, end.link)) || far.is_some_and(signalled) {
            return Err(No::Busy);
        }
        self.link(end)?.credit = 0;
        if far.is_some_and(|(slot, far)| self.nodes[slot].links[far].enabled == 1) {
            self.nodes[end.slot].lines[end.link].put(HELLO);
        }
        Ok(Answer::Granted(0))
    }
}

fn within(value: u32, highest: u32) -> Result<u32, No> {
    if value <= highest {
        Ok(value)
    } else {
        Err(No::Value)
    }
}

impl Link {
    fn lead_to(&mut self, far: LinkEnd) {
        self.wired = 1;
        self.far_slot = far.slot as u32;
        self.far_link = far.link as u32;
    }

    fn set_network(&mut self, value: u32) -> Result<(), No> {
        let value = within(value, HIGHEST_NETWORK)?;
        if self.enabled == 1 && self.network != value {
            return Err(No::Busy);
        }
        self.network = value;
        Ok(())
    }
}

impl Node {
    fn forget_credit(&mut self, link: usize) {
        self.links[link].credit = 0;
        self.links[link].greeted = 0;
        self.lines[link].issued = 0;
    }

    fn set_direction(&mut self, bit: usize, value: u32) -> Result<(), No> {
        let value = within(value, HIGHEST_DIRECTION)?;
        if bit >= BITS {
            return Err(No::Value);
        }
        let (register, shift) = (&mut self.directions[bit / 8], 4 * (bit % 8));
        *register = *register & !(15 << shift) | value << shift;
        Ok(())
    }

    /// The direction entry of a bit 0..15.
    pub(super) fn direction(&self, bit: usize) -> u32 {
        self.directions[bit / 8] >> (4 * (bit % 8)) & 15
    }
}
