//! Set: a node's and a link's settings.

use crate::answers::{Answer, No};
use crate::lines::Freight;
use crate::network::{Link, LinkEnd, Network};
use crate::sizes::{BITS, HIGHEST_DIRECTION, HIGHEST_NETWORK, HIGHEST_NUMBER};
use crate::tokens::{ONE_BYTE, THREE_BYTES};

/// "Set: a node's number, width, one direction entry; a link's direction, network,
/// enable, HELLO."
#[derive(Clone, Copy, Debug, PartialEq, Eq)]
pub enum Setting {
    Number { value: u32 },
    Width { value: u32 },
    Direction { bit: usize, value: u32 },
    LinkDirection { link: usize, value: u32 },
    Network { link: usize, value: u32 },
    Enable { link: usize, value: u32 },
    Hello { link: usize },
}

impl Setting {
    /// The link that the setting is of, if it is a link's.
    fn link(&self) -> Option<usize> {
        match *self {
            Setting::Number { .. } | Setting::Width { .. } | Setting::Direction { .. } => None,
            Setting::LinkDirection { link, .. }
            | Setting::Network { link, .. }
            | Setting::Enable { link, .. }
            | Setting::Hello { link } => Some(link),
        }
    }

    /// "a setting or direction bit out of range"
    fn is_out_of_range(&self) -> bool {
        match *self {
            Setting::Number { value } => value > HIGHEST_NUMBER,
            Setting::Width { value } => value != ONE_BYTE && value != THREE_BYTES,
            Setting::Direction { bit, value } => bit >= BITS || value > HIGHEST_DIRECTION,
            Setting::LinkDirection { value, .. } => value > HIGHEST_DIRECTION,
            Setting::Network { value, .. } => value > HIGHEST_NETWORK,
            Setting::Enable { value, .. } => value > 1,
            Setting::Hello { .. } => false,
        }
    }
}

/// The call Set, on a state that is known to be sound. Refusals in order: NoSuch
/// for slot or link, Value, Busy.
pub(crate) fn set(network: &mut Network, slot: usize, setting: Setting) -> Result<Answer, No> {
    network.node(slot)?;
    if let Some(link) = setting.link() {
        network.link(LinkEnd { slot, link })?;
    }
    if setting.is_out_of_range() {
        return Err(No::Value);
    }
    let node = &mut network.nodes[slot];
    match setting {
        Setting::Number { value } => node.number = value,
        Setting::Width { value } => node.width = value,
        Setting::Direction { bit, value } => node.directions[bit] = value,
        Setting::LinkDirection { link, value } => node.links[link].direction = value,
        Setting::Network { link, value } => set_network(network, LinkEnd { slot, link }, value)?,
        Setting::Enable { link, value: 0 } => disable(network, LinkEnd { slot, link })?,
        Setting::Enable { link, .. } => node.links[link].enabled = true,
        Setting::Hello { link } => return hello(network, LinkEnd { slot, link }),
    }
    Ok(Answer::Done)
}

/// Busy: "network changed to another while enabled".
fn set_network(network: &mut Network, end: LinkEnd, value: u32) -> Result<(), No> {
    let link = network.link_mut(end);
    if link.enabled && link.network != value {
        return Err(No::Busy);
    }
    link.network = value;
    Ok(())
}

/// "Disabling zeroes and un-greets both ends." Busy: "disabling an enabled link
/// while either end's buffer holds a token or either direction is in a circuit"; by
/// line also while anything is "on either line".
fn disable(network: &mut Network, end: LinkEnd) -> Result<(), No> {
    let link = network.link(end)?;
    if !link.enabled {
        return Ok(());
    }
    let ends = [Some(end), link.far];
    if ends.into_iter().flatten().any(|end| is_busy(network, end)) {
        return Err(No::Busy);
    }
    network.forget_credit(end);
    network.link_mut(end).enabled = false;
    Ok(())
}

/// Does the buffer behind this link end hold a token, is the link in use outward or
/// its line not empty, or has the port behind it a hop open (open point 19)?
fn is_busy(network: &Network, end: LinkEnd) -> bool {
    let node = &network.nodes[end.slot];
    let link = &node.links[end.link];
    link.used_by.is_some() || !link.line.is_empty() || node.ports[end.link].is_taken()
}

/// "The answer to HELLO gives the grant." Busy: "HELLO on a disabled link", and
/// "HELLO is Busy while a credit or HELLO is on either line" (document 02, Ask 4).
fn hello(network: &mut Network, end: LinkEnd) -> Result<Answer, No> {
    let link = network.link(end)?;
    let in_the_way = |link: &Link| link.freight().any(|freight| freight != Freight::Token);
    if !link.enabled || in_the_way(link) || network.far_link(link).is_some_and(in_the_way) {
        return Err(No::Busy);
    }
    Ok(Answer::Granted(network.say_hello(end)))
}
