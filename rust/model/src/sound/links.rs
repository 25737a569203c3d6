//! Sound: credits, greetings and cables.

use crate::network::{Link, LinkEnd, Network};
use crate::sizes::MOST_CREDIT;

/// "credit only where greeted"
pub(super) fn credit_only_where_greeted(network: &Network) -> bool {
    all_links(network, |_, link| link.credit == 0 || link.greeted)
}

/// "greeted only where wired with both ends enabled"
pub(super) fn greeted_only_where_wired(network: &Network) -> bool {
    all_links(network, |_, link| {
        !link.greeted || (link.enabled && network.far_link(link).is_some_and(|far| far.enabled))
    })
}

/// "credit plus tokens held at the far end at most 64"; and "Sound counts tokens on a
/// line", with the credit that is on the line to this end (A4.17).
pub(super) fn credit_and_held_at_most_64(network: &Network) -> bool {
    all_links(network, |_, link| {
        let held = link.far.map_or(0, |far| network.held_at(far));
        let credit_coming = network.far_link(link).map_or(0, Link::credit_on_line);
        let tokens_going = link.tokens_on_line().count();
        link.credit + credit_coming + tokens_going + held <= MOST_CREDIT
    })
}

/// "cables agree at both ends", and no end is its own far end.
pub(super) fn cables_agree(network: &Network) -> bool {
    all_links(network, |end, link| {
        link.far != Some(end)
            && network
                .far_link(link)
                .is_none_or(|far| far.far == Some(end))
    })
}

pub(super) fn all_links(network: &Network, holds: impl Fn(LinkEnd, &Link) -> bool) -> bool {
    (0..).zip(&network.nodes).all(|(slot, node)| {
        let mut links = (0..).zip(&node.links);
        links.all(|(link, state)| holds(LinkEnd { slot, link }, state))
    })
}
