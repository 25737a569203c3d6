//! Cables: what their ends were when they were plugged in, and the tokens that went out later by an
//! end that was in use then.

use model::calls::Call;
use model::network::{Hop, Link, LinkEnd, Network};
use model::tokens::Token;
use model::Answer;

use super::Case;

/// What the ends of a cable can have been.
pub(super) const WIRED: &[&str] = &[
    "both disabled",
    "one enabled",
    "both enabled",
    "one in use",
    "both in use",
    "both in use, of one node",
];

/// What can go out by an end that was in use when its cable was plugged in.
pub(super) const CROSSED: &[&str] = &["header token", "token", "END or PAUSE"];

/// The ends that were in use when their cables were plugged in, since the last start.
#[derive(Clone, Debug, Default)]
pub(crate) struct Plugged(Vec<LinkEnd>);

/// What a call is about to do with a cable, if it is done.
pub(crate) enum Cable {
    Wired {
        case: Case,
        in_use: Vec<LinkEnd>,
    },
    Crossed(Case),
    /// All cables are gone.
    Unplugged,
}

impl Plugged {
    /// What this call is about to do.
    pub(crate) fn touched_by(&self, network: Option<&Network>, call: &Call) -> Option<Cable> {
        match *call {
            Call::Wire { one, other } => wired(network?, [one, other]),
            Call::Step { slot, port } => self.crossed(network?, slot, port),
            _ => call.start().map(|_| Cable::Unplugged),
        }
    }

    fn crossed(&self, network: &Network, slot: usize, port: usize) -> Option<Cable> {
        let port = network.port(slot, port).ok()?;
        let Some(Hop::Outward(link)) = port.hop else {
            return None;
        };
        let meant = self.0.contains(&LinkEnd { slot, link });
        let token = port.tokens.front().filter(|_| meant)?;
        let case = ("over a cable wired in use", token_name(token));
        Some(Cable::Crossed(case))
    }

    /// Remembers what was done, and gives the case to be counted.
    pub(super) fn note(&mut self, cable: Option<Cable>, answer: &Answer) -> Option<Case> {
        match (cable?, answer) {
            (Cable::Wired { case, in_use }, Answer::Done) => {
                self.0.extend(in_use);
                Some(case)
            }
            (Cable::Crossed(case), Answer::Moved) => Some(case),
            (Cable::Unplugged, Answer::Done) => {
                self.0.clear();
                None
            }
            _ => None,
        }
    }
}

fn wired(network: &Network, ends: [LinkEnd; 2]) -> Option<Cable> {
    let links = [network.link(ends[0]).ok()?, network.link(ends[1]).ok()?];
    let both = ends.into_iter().zip(links);
    let in_use: Vec<_> = both
        .filter(|(_, link)| link.used_by.is_some())
        .map(|(end, _)| end)
        .collect();
    let one_node = ends[0].slot == ends[1].slot;
    let case = ("cable, its ends", ends_name(links, in_use.len(), one_node));
    Some(Cable::Wired { case, in_use })
}

fn ends_name(links: [&Link; 2], in_use: usize, one_node: bool) -> &'static str {
    let enabled = links.iter().filter(|link| link.enabled).count();
    match (in_use, enabled, one_node) {
        (2, _, true) => "both in use, of one node",
        (2, _, false) => "both in use",
        (1, ..) => "one in use",
        (_, 2, _) => "both enabled",
        (_, 1, _) => "one enabled",
        _ => "both disabled",
    }
}

fn token_name(token: &Token) -> &'static str {
    match token.header {
        Some(_) => "header token",
        None if token.ends_circuit() => "END or PAUSE",
        None => "token",
    }
}
