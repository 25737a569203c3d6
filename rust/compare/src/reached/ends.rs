//! The ends of switch messages, told apart by what was asked and by the reply that port 12 holds.

use model::calls::Call;
use model::messages::{reply_address, request, Request};
use model::network::{Hop, Network};
use model::registers;
use model::sizes::REPLY_PORT;
use model::tokens::ACK;
use model::Answer;

use super::Case;

/// The ends that bring a reply.
pub(super) const ANSWERED: &[&str] = &[
    "ACK of a write",
    "ACK of a read",
    "NACK of another form",
    "NACK of a read at an unknown address",
    "NACK of a write at an unknown address",
    "NACK of a write that Set refuses",
];

/// The ends that bring none.
pub(super) const NOT_ANSWERED: &[&str] = &[
    "Malformed by END",
    "Malformed by PAUSE without a reply address",
    "Malformed by PAUSE with a reply address",
    "Unheard after a write",
    "Unheard after a read",
    "Unheard after another form",
];

/// A message whose last token is next.
pub(crate) struct Message {
    slot: usize,
    has_reply_address: bool,
    request: Request,
    by_pause: bool,
}

impl Message {
    /// The message that this call is about to end: a Step of the port that a control unit serves,
    /// with END or PAUSE in front.
    pub(super) fn ended_by(network: &Network, call: &Call) -> Option<Message> {
        let Call::Step { slot, port } = *call else {
            return None;
        };
        let stepped = network.port(slot, port).ok()?;
        let last = stepped.tokens.front()?;
        if stepped.hop != Some(Hop::Control) || !last.ends_circuit() {
            return None;
        }
        let heard = &network.nodes[slot].control_unit.heard;
        Some(Message {
            slot,
            has_reply_address: reply_address(heard).is_some(),
            request: request(heard),
            by_pause: last.is_pause(),
        })
    }

    /// How it ended; it did not where the Step was refused.
    pub(super) fn case(&self, answer: &Answer, after: &Network) -> Option<Case> {
        match answer {
            Answer::No(_) => None,
            Answer::Malformed => Some(("message not answered", self.malformed())),
            Answer::Unheard => Some(("message not answered", self.unheard())),
            Answer::Moved => Some(("message answered", self.answered(after))),
            _ => Some(("message", "ended in another way")),
        }
    }

    fn malformed(&self) -> &'static str {
        match (self.by_pause, self.has_reply_address) {
            (false, _) => "Malformed by END",
            (true, false) => "Malformed by PAUSE without a reply address",
            (true, true) => "Malformed by PAUSE with a reply address",
        }
    }

    fn unheard(&self) -> &'static str {
        match self.request {
            Request::Write { .. } => "Unheard after a write",
            Request::Read { .. } => "Unheard after a read",
            Request::Wrong => "Unheard after another form",
        }
    }

    /// Port 12 was empty while the message was heard: what it holds now is the reply.
    fn answered(&self, after: &Network) -> &'static str {
        let reply = &after.nodes[self.slot].ports[REPLY_PORT].tokens;
        let first = reply.iter().find(|token| token.header.is_none());
        let acknowledged = first.is_some_and(|token| token.is_control(ACK));
        match self.request {
            Request::Write { .. } if acknowledged => "ACK of a write",
            Request::Read { .. } if acknowledged => "ACK of a read",
            Request::Wrong if acknowledged => "ACK of another form",
            Request::Wrong => "NACK of another form",
            Request::Read { .. } => "NACK of a read at an unknown address",
            Request::Write { address, data } => match registers::settings(address, data) {
                None => "NACK of a write at an unknown address",
                Some(_) => "NACK of a write that Set refuses",
            },
        }
    }
}
