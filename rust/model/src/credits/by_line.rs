//! "Credits that travel" (document 02, Ask 4).

use super::grant;
use crate::answers::{Answer, No};
use crate::lines::{credit, freight, Freight};
use crate::network::{LinkEnd, Network};
use crate::sizes::LINE_CAPACITY;
use crate::tokens::{Token, HELLO};

/// "A receiver counts what it has issued and not yet received, and considers a grant
/// by that count [...]: room = 64 − held − issued, below 8 as before." Only to a
/// greeted link, as in document 01 (A4.8), and "a receiver grants nothing while a
/// HELLO is coming to it". What is granted goes on to the line back; one that is full takes no
/// grant, which no run meets.
fn consider(network: &mut Network, receiver: LinkEnd) -> usize {
    let link = &network.nodes[receiver.slot].links[receiver.link];
    let sender = network.far_link(link);
    let heard = sender.is_some_and(|sender| sender.greeted && !sender.hello_on_line());
    if !heard || link.line.len() >= LINE_CAPACITY {
        return 0;
    }
    let granted = grant(link.issued, network.held_at(receiver));
    if granted > 0 {
        let link = network.link_mut(receiver);
        link.issued += granted;
        link.line.push_back(credit(granted));
    }
    granted
}

/// "considers a grant [...] at each arrival and taking". No answer tells it (A4.3).
pub(super) fn taken(network: &mut Network, receiver: LinkEnd) {
    consider(network, receiver);
}

/// A token goes behind what is on the line.
pub(super) fn send(network: &mut Network, end: LinkEnd, token: Token) {
    network.link_mut(end).line.push_back(token);
}

/// HELLO goes on to the line; "one sent to an absent or disabled end is lost", and
/// nothing is put there (A4.5). No grant is made at that moment (A4.4).
pub(super) fn hello(network: &mut Network, end: LinkEnd) -> usize {
    if network.is_heard(end) {
        let line = &mut network.link_mut(end).line;
        line.push_back(Token::control(HELLO));
    }
    0
}

/// The call Line, on a state that is known to be sound: "a line step takes one off
/// the far end: Moved, with any grant, or Idle". It is the line that starts at that
/// end (A4.1), and where there is no cable nothing is on it (A4.2).
pub(crate) fn step(network: &mut Network, end: LinkEnd) -> Result<Answer, No> {
    let Some(far) = network.link(end)?.far else {
        return Ok(Answer::Idle);
    };
    let Some(first) = network.link_mut(end).line.pop_front() else {
        return Ok(Answer::Idle);
    };
    Ok(Answer::Arrived(match freight(&first) {
        Freight::Token => token_arrives(network, far, first),
        Freight::Credit(size) => credit_arrives(network, far, size),
        Freight::Hello => hello_arrives(network, end, far),
    }))
}

/// One more is held and one less is issued, and then a grant is considered. Elsewhere
/// than in reached states the count stops at 0 (A4.10).
fn token_arrives(network: &mut Network, receiver: LinkEnd, token: Token) -> usize {
    let port = &mut network.nodes[receiver.slot].ports[receiver.link];
    port.tokens.push_back(token);
    let link = network.link_mut(receiver);
    link.issued = link.issued.saturating_sub(1);
    consider(network, receiver)
}

/// "On reception of a CREDIT token, the receiving XMOS link increases its
/// credit-counter." (002, 3.2.) It considers nothing (A4.8).
fn credit_arrives(network: &mut Network, receiver: LinkEnd, size: usize) -> usize {
    network.link_mut(receiver).credit += size;
    0
}

/// "A link becomes greeted when its HELLO arrives", and the receiver's count "an
/// arriving HELLO and a disabling set to 0"; then it considers a grant.
fn hello_arrives(network: &mut Network, sender: LinkEnd, receiver: LinkEnd) -> usize {
    network.link_mut(sender).greeted = true;
    network.link_mut(receiver).issued = 0;
    consider(network, receiver)
}
