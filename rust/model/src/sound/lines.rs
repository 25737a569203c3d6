//! Sound: what is on the lines, and the counts of what was issued.

use super::links::all_links;
use crate::lines::{Crossing, Freight};
use crate::network::Network;

/// "allows one credit and one HELLO there": on each line.
pub(super) fn one_credit_and_one_hello(network: &Network) -> bool {
    all_links(network, |_, link| {
        let credits = link.freight().filter(|f| matches!(f, Freight::Credit(_)));
        let hellos = link.freight().filter(|f| *f == Freight::Hello);
        credits.count() <= 1 && hellos.count() <= 1
    })
}

/// "while no HELLO is coming to a receiver, holds its count to the far end's credit
/// plus the credit on the line to that end and the tokens on the line from it". Where
/// tokens cross at once nothing is counted.
pub(super) fn issued_is_on_its_way(network: &Network) -> bool {
    let at_once = network.crossing == Crossing::AtOnce;
    at_once
        || all_links(network, |_, receiver| {
            network.far_link(receiver).is_none_or(|sender| {
                let on_lines = receiver.credit_on_line() + sender.tokens_on_line().count();
                sender.hello_on_line() || receiver.issued == sender.credit + on_lines
            })
        })
}

/// "Each direction of a cable becomes a line": where there is no cable there is none,
/// and nothing was issued (A4.19).
pub(super) fn nothing_without_a_cable(network: &Network) -> bool {
    all_links(network, |_, link| {
        link.far.is_some() || (link.line.is_empty() && link.issued == 0)
    })
}
