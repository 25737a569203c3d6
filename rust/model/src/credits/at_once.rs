//! "Credits and HELLO take effect at once, and so does a token's crossing."

use super::grant;
use crate::network::{LinkEnd, Network};
use crate::tokens::Token;

/// "A grant is considered [...] on a greeted link": gives what the far end grants
/// and answers how much that is.
fn consider(network: &mut Network, end: LinkEnd) -> usize {
    let link = &network.nodes[end.slot].links[end.link];
    let Some(far) = link.far.filter(|_| link.greeted) else {
        return 0;
    };
    let granted = grant(link.credit, network.held_at(far));
    network.link_mut(end).credit += granted;
    granted
}

/// A token was taken from the port behind this end: the link that sent it has a grant
/// considered, "after each token [...] taken from the far buffer".
pub(super) fn taken(network: &mut Network, receiver: LinkEnd) {
    if let Some(sender) = network.link_mut(receiver).far {
        consider(network, sender);
    }
}

/// Puts a token into the port at the far end of a link, and then a grant is
/// considered: "after each token sent over it".
pub(super) fn send(network: &mut Network, end: LinkEnd, far: LinkEnd, token: Token) {
    let port = &mut network.nodes[far.slot].ports[far.link];
    port.tokens.push_back(token);
    consider(network, end);
}

/// "HELLO on an enabled link sets its own credit to 0; if the far end exists and is
/// enabled, the link becomes greeted and the far end may grant." Answers the grant.
/// The far end's own credit and greeting are untouched (open point 28); a HELLO that
/// nobody hears greets nobody (open point 29).
pub(super) fn hello(network: &mut Network, end: LinkEnd) -> usize {
    network.link_mut(end).greeted = network.is_heard(end);
    consider(network, end)
}
