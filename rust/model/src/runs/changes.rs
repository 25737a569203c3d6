//! Settings that change in the middle of a random run.

use super::Runner;
use crate::calls::Call;
use crate::network::{Link, LinkEnd, Network};
use crate::set::Setting;
use crate::sizes::{BITS, HIGHEST_DIRECTION, HIGHEST_NETWORK, HIGHEST_NUMBER, LINKS};

impl Runner {
    /// Changes one setting: a step of an update, or a mistake.
    pub(super) fn change_setting(&mut self) -> Call {
        let slot = self.any_slot();
        let setting = if self.random.chance(40) {
            self.change_of_node()
        } else {
            self.change_of_link()
        };
        Call::Set { slot, setting }
    }

    fn change_of_node(&mut self) -> Setting {
        match self.random.below(6) {
            0 => Setting::Number {
                value: self.number(),
            },
            1 => Setting::Number {
                value: self.value_below_or_beyond(HIGHEST_NUMBER + 1),
            },
            2 | 3 => Setting::Width {
                value: self.random.pick(&[1, 3]).unwrap_or(3),
            },
            4 => Setting::Width {
                value: self.value_below_or_beyond(4),
            },
            _ => Setting::Direction {
                bit: self.value_below_or_beyond(BITS as u32) as usize,
                value: self.value_below_or_beyond(HIGHEST_DIRECTION + 1),
            },
        }
    }

    fn change_of_link(&mut self) -> Setting {
        let link = self.below_or_beyond(LINKS);
        match self.random.below(6) {
            0 => Setting::LinkDirection {
                link,
                value: self.value_below_or_beyond(HIGHEST_DIRECTION + 1),
            },
            1 => Setting::Network {
                link,
                value: self.value_below_or_beyond(HIGHEST_NETWORK + 1),
            },
            2 => Setting::Enable { link, value: 0 },
            3 => Setting::Enable {
                link,
                value: self.value_below_or_beyond(2),
            },
            _ => Setting::Hello { link },
        }
    }

    /// Makes a planned setting again, best one that is no longer as planned.
    pub(super) fn mend_setting(&mut self) -> Call {
        let network = self.network.as_ref();
        let undone: Vec<_> = self
            .plan
            .settings
            .iter()
            .filter(|call| !network.is_some_and(|network| is_in_force(network, call)))
            .cloned()
            .collect();
        let any = self.random.pick(&self.plan.settings);
        match self.random.pick(&undone).or(any) {
            Some(call) => call,
            None => self.change_setting(),
        }
    }

    /// HELLO on a link whose far end still holds tokens, best on one with many.
    pub(super) fn greet_busy_link(&mut self) -> Call {
        let many = self.links_with(40);
        let some = self.links_with(1);
        let end = self.random.pick(&many).or(self.random.pick(&some));
        match end {
            Some(LinkEnd { slot, link }) => Call::Set {
                slot,
                setting: Setting::Hello { link },
            },
            None => self.change_setting(),
        }
    }

    /// The links with at least so many tokens held at the far end.
    fn links_with(&self, least: usize) -> Vec<LinkEnd> {
        let network = self.network.as_ref();
        let held = |far: LinkEnd| network.map_or(0, |network| network.held_at(far));
        self.links(|link| link.far.is_some_and(|far| held(far) >= least))
    }

    /// The links of which that is so.
    pub(super) fn links(&self, is_meant: impl Fn(&Link) -> bool) -> Vec<LinkEnd> {
        self.nodes()
            .flat_map(|(slot, node)| {
                let links = (0..).zip(&node.links);
                links.map(move |(link, state)| (LinkEnd { slot, link }, state))
            })
            .filter(|(_, state)| is_meant(state))
            .map(|(end, _)| end)
            .collect()
    }

    /// Plugs in a cable that was left for later, or one for a circuit that leaves by a
    /// link without a cable; a link in use at both ends, sometimes.
    pub(super) fn plug(&mut self) -> Call {
        let in_use = self.links(|link| link.far.is_none() && link.used_by.is_some());
        let free = self.links(|link| link.far.is_none());
        let late = self.plan.late.iter().filter(|call| match call {
            Call::Wire { one, other } => free.contains(one) && free.contains(other),
            _ => false,
        });
        let late: Vec<_> = late.cloned().collect();
        let late = self.random.pick(&late);
        if let Some(wire) = late.filter(|_| self.random.chance(60)) {
            return wire;
        }
        let both = self.random.chance(40);
        let other = self.random.pick(if both { &in_use } else { &free });
        match (self.random.pick(&in_use), other) {
            (Some(one), Some(other)) if one != other => self.plug_in(one, other),
            _ => self.step_busy_port(),
        }
    }

    /// A cable that was not planned, mostly with both its ends put to work behind it.
    fn plug_in(&mut self, one: LinkEnd, other: LinkEnd) -> Call {
        if self.random.chance(80) {
            for LinkEnd { slot, link } in [one, other] {
                let setting = Setting::Enable { link, value: 1 };
                self.prepared.push_back(Call::Set { slot, setting });
            }
            for LinkEnd { slot, link } in [one, other] {
                let setting = Setting::Hello { link };
                self.prepared.push_back(Call::Set { slot, setting });
            }
        }
        Call::Wire { one, other }
    }
}

/// Is this planned setting as it was planned?
fn is_in_force(network: &Network, call: &Call) -> bool {
    let Call::Set { slot, setting } = *call else {
        return true;
    };
    let Some(node) = network.nodes.get(slot) else {
        return true;
    };
    let link = |link: usize| node.links.get(link);
    match setting {
        Setting::Number { value } => node.number == value,
        Setting::Width { value } => node.width == value,
        Setting::Direction { bit, value } => node.directions.get(bit) == Some(&value),
        Setting::LinkDirection { link: l, value } => link(l).is_some_and(|l| l.direction == value),
        Setting::Network { link: l, value } => link(l).is_some_and(|l| l.network == value),
        // Only on the way to another network.
        Setting::Enable { value: 0, .. } => true,
        Setting::Enable { link: l, value } => link(l).is_some_and(|l| l.enabled == (value == 1)),
        Setting::Hello { link: l } => link(l).is_some_and(|l| l.greeted || !l.enabled),
    }
}
