//! The lines of document 02, Ask 4: what is on a cable, in each direction.

use std::collections::VecDeque;

use crate::network::{Link, LinkEnd, Network};
use crate::sizes::{LINE_CAPACITY, LINKS};
use crate::tokens::{Token, CREDIT16, CREDIT64, CREDIT8, HELLO};

/// How tokens, credits and HELLO get over a cable.
#[derive(Clone, Copy, Debug, PartialEq, Eq)]
pub enum Crossing {
    /// "Credits and HELLO take effect at once, and so does a token's crossing."
    AtOnce,
    /// "Each direction of a cable becomes a line of up to 66 tokens in order, in a
    /// second lent memory": its length.
    ByLine { line_words: usize },
}

/// "a second lent memory of nodes × 8 × 66 words"
pub fn line_words(nodes: usize) -> Option<usize> {
    nodes.checked_mul(LINKS * LINE_CAPACITY)
}

/// What a token on a line is. "Document 002 section 3 sends HELLO and credits as
/// tokens"; they enter no port.
#[derive(Clone, Copy, Debug, PartialEq, Eq)]
pub enum Freight {
    /// What a Step moved on to the line.
    Token,
    /// So much credit for the end that the line goes to.
    Credit(usize),
    Hello,
}

/// "CREDIT8 0xE0", "CREDIT64 0xE1", "CREDIT16 0xE4", "HELLO 0xE6" (002, 3.1).
pub fn freight(token: &Token) -> Freight {
    let sizes = [8, 16, 64].into_iter();
    match sizes
        .zip([CREDIT8, CREDIT16, CREDIT64])
        .find(|(_, value)| token.is_control(*value))
    {
        Some((size, _)) => Freight::Credit(size),
        None if token.is_control(HELLO) => Freight::Hello,
        None => Freight::Token,
    }
}

/// The token that brings a grant of that size over a line.
pub fn credit(size: usize) -> Token {
    Token::control(match size {
        64 => CREDIT64,
        16 => CREDIT16,
        _ => CREDIT8,
    })
}

impl Link {
    /// What is on the line that starts at this link, that nearest the far end first.
    pub fn freight(&self) -> impl Iterator<Item = Freight> + '_ {
        self.line.iter().map(freight)
    }

    /// The tokens on the line, credits and HELLO left out.
    pub fn tokens_on_line(&self) -> impl Iterator<Item = &Token> {
        let tokens = self.line.iter();
        tokens.filter(|token| freight(token) == Freight::Token)
    }

    /// The credit that is on the line.
    pub fn credit_on_line(&self) -> usize {
        let credits = self.freight().map(|freight| match freight {
            Freight::Credit(size) => size,
            Freight::Token | Freight::Hello => 0,
        });
        credits.sum()
    }

    /// Is a HELLO on the line?
    pub fn hello_on_line(&self) -> bool {
        self.freight().any(|freight| freight == Freight::Hello)
    }
}

impl Network {
    /// The link at the other end of a cable.
    pub fn far_link(&self, link: &Link) -> Option<&Link> {
        self.link(link.far?).ok()
    }

    /// The tokens on the line to a port, that nearest the port first; none where no
    /// cable ends.
    pub fn coming_to(&self, slot: usize, port: usize) -> impl Iterator<Item = &Token> {
        let end = self.link(LinkEnd { slot, link: port }).ok();
        let sender = end.and_then(|link| self.far_link(link));
        sender.into_iter().flat_map(Link::tokens_on_line)
    }

    /// What a port holds with the line to it behind: "a line's tokens held at the
    /// port they go to" (document 02, Ask 12).
    pub fn held_and_coming(&self, slot: usize, port: usize) -> VecDeque<Token> {
        let held = self.nodes[slot].ports[port].tokens.iter();
        held.chain(self.coming_to(slot, port)).copied().collect()
    }
}
