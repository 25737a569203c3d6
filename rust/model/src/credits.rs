//! Credits: how they are granted, and when a grant is considered. What happens at
//! once in document 01 and what travels in document 02, Ask 4, stand beside each
//! other in `at_once` and `by_line`.

mod at_once;
pub(crate) mod by_line;

use crate::lines::Crossing;
use crate::network::{LinkEnd, Network};
use crate::sizes::PORT_CAPACITY;
use crate::tokens::Token;

/// "if credit is below 8, let room = 64 − tokens held at the far end − credit;
/// grant the largest of 64, 16, 8 that room covers, else none." By line what was
/// issued takes the place of the credit: "room = 64 − held − issued, below 8 as
/// before".
pub fn grant(credit: usize, held: usize) -> usize {
    if credit >= 8 {
        return 0;
    }
    let room = PORT_CAPACITY.saturating_sub(held + credit);
    let sizes = [64, 16, 8];
    sizes.into_iter().find(|size| *size <= room).unwrap_or(0)
}

impl Network {
    /// Takes the oldest token of a port. If that is a link's, a grant is considered.
    pub(crate) fn take(&mut self, slot: usize, port: usize) -> Option<Token> {
        let node = &mut self.nodes[slot];
        let token = node.ports[port].tokens.pop_front()?;
        if port < node.links.len() {
            let receiver = LinkEnd { slot, link: port };
            match self.crossing {
                Crossing::AtOnce => at_once::taken(self, receiver),
                Crossing::ByLine { .. } => by_line::taken(self, receiver),
            }
        }
        Some(token)
    }

    /// Sends a token over a link. "Each token moved over a link, header included,
    /// costs one credit."
    pub(crate) fn send(&mut self, end: LinkEnd, token: Token) {
        let link = self.link_mut(end);
        let Some(far) = link.far else { return };
        link.credit = link.credit.saturating_sub(1);
        match self.crossing {
            Crossing::AtOnce => at_once::send(self, end, far, token),
            Crossing::ByLine { .. } => by_line::send(self, end, token),
        }
    }

    /// HELLO on an enabled link, and what it answers: "The answer to HELLO gives the
    /// grant."
    pub(crate) fn say_hello(&mut self, end: LinkEnd) -> usize {
        self.link_mut(end).credit = 0;
        match self.crossing {
            Crossing::AtOnce => at_once::hello(self, end),
            Crossing::ByLine { .. } => by_line::hello(self, end),
        }
    }

    /// Does a HELLO that is sent over a link reach anyone? "if the far end exists and
    /// is enabled"; "one sent to an absent or disabled end is lost".
    fn is_heard(&self, end: LinkEnd) -> bool {
        let link = &self.nodes[end.slot].links[end.link];
        self.far_link(link).is_some_and(|far| far.enabled)
    }

    /// "Disabling zeroes and un-greets both ends", and sets the count of what was
    /// issued to 0 at both (A4.11).
    pub(crate) fn forget_credit(&mut self, end: LinkEnd) {
        let far = self.link_mut(end).far;
        for each in [Some(end), far].into_iter().flatten() {
            let link = self.link_mut(each);
            link.credit = 0;
            link.greeted = false;
            link.issued = 0;
        }
    }
}
