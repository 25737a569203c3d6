//! Which way a header goes.

use crate::network::Node;
use crate::sizes::BITS;
use crate::tokens::ONE_BYTE;

/// The bits of a number that are compared: "sixteen bits at three-byte width, the
/// low three at one-byte width".
fn bits_compared(width: u32) -> u32 {
    if width == ONE_BYTE {
        0x0007
    } else {
        0xFFFF
    }
}

/// "Take the highest differing bit, 15..0; none means this node."
pub fn highest_differing_bit(one: u32, other: u32, width: u32) -> Option<usize> {
    let difference = (one ^ other) & bits_compared(width);
    (0..BITS).rev().find(|bit| difference >> bit & 1 == 1)
}

/// Where a header for another node can go.
#[derive(Clone, Copy, Debug, PartialEq, Eq)]
pub enum Route {
    /// "No candidate"
    None,
    /// "Candidates, all in use outward"
    AllInUse,
    /// "the lowest-numbered free one"
    Link(usize),
}

/// "Otherwise look the bit up in the direction table. [...] Candidates are links
/// that are enabled, have that direction and have the circuit's network number. No
/// candidate: the circuit is discarded, cause NoRoute. Candidates, all in use
/// outward: it waits. Otherwise the lowest-numbered free one is taken (bench).
/// Cabling is not looked at."
pub fn route(node: &Node, bit: usize, network: u32) -> Route {
    let Some(&direction) = node.directions.get(bit) else {
        return Route::None;
    };
    let mut candidates = (0..)
        .zip(&node.links)
        .filter(|(_, link)| link.enabled && link.direction == direction && link.network == network)
        .peekable();
    if candidates.peek().is_none() {
        return Route::None;
    }
    match candidates.find(|(_, link)| link.used_by.is_none()) {
        Some((link, _)) => Route::Link(link),
        None => Route::AllInUse,
    }
}
