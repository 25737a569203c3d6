//! Which ways a board has for a header, asked of the proved bench itself.

use bench::sizes::{BITS, LINKS, TILE_PORTS};
use bench::{Bench, Destination, Kind, Looks, Opening, Refusal, Setting, Stepped};

use crate::names::END;

/// Where a header may go from a board.
#[derive(Clone, Debug, PartialEq, Eq)]
pub enum Ways {
    /// Outward, by one of these links; none is NoRoute.
    Links(Vec<usize>),
    /// To a channel of this very board.
    Channel,
    /// To this board's control unit.
    Control,
}

/// The ways of a board for a destination that has a header at the board's width. A message is sent
/// from a bare board of the same settings, where nothing is in use; the link that it takes is then
/// left disabled and the message sent again, until no link is left.
pub fn ways(looks: Looks, slot: usize, destination: Destination, network: u32) -> Ways {
    let mut links = Vec::new();
    loop {
        let mut bare = bare(looks, slot, &links).expect("a board's settings can be set");
        match first(&mut bare, destination, network).expect("such a message can be sent") {
            Some(Stepped::Opened(Opening::Link(link))) => links.push(link),
            Some(Stepped::Opened(Opening::Control)) => return Ways::Control,
            Some(Stepped::Refused(_)) => return Ways::Links(links),
            _ => return Ways::Channel,
        }
    }
}

/// A network of one board with the settings of this one, but for these links, which stay disabled.
fn bare(looks: Looks, slot: usize, disabled: &[usize]) -> Result<Bench, Refusal> {
    let mut bare = Bench::blank(1)?;
    let node = looks.node(slot);
    bare.set(0, Setting::Number(node.number))?;
    bare.set(0, Setting::Width(node.width))?;
    for bit in 0..BITS {
        let value = looks.direction(slot, bit);
        bare.set(0, Setting::Direction { bit, value })?;
    }
    for index in (0..LINKS).filter(|link| !disabled.contains(link)) {
        let (link, seen) = (index, looks.link(slot, index));
        let value = seen.direction;
        bare.set(0, Setting::LinkDirection { link, value })?;
        let value = seen.network;
        bare.set(0, Setting::Network { link, value })?;
        let value = seen.enabled;
        bare.set(0, Setting::Enable { link, value })?;
    }
    Ok(bare)
}

/// What the switch of a bare board does with the header; none where the message goes straight to a
/// channel-end and no switch reads one.
fn first(
    bare: &mut Bench,
    destination: Destination,
    network: u32,
) -> Result<Option<Stepped>, Refusal> {
    bare.aim(0, 0, destination, network)?;
    bare.output(0, 0, Kind::Control, END)?;
    let port = TILE_PORTS.start;
    match bare.looks().port(0, port).is_taken() {
        true => bare.step(0, port).map(Some),
        false => Ok(None),
    }
}
