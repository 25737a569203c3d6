//! What came off lines, and what HELLO and disabling were refused for.

use model::calls::Call;
use model::lines::{freight, Freight};
use model::network::{Link, LinkEnd, Network};
use model::set::Setting;
use model::tokens::Token;
use model::{Answer, No};

use super::Case;

/// What can come off a line, with a grant that its arrival brings or without.
pub(super) const ARRIVED: &[&str] = &[
    "header token",
    "token",
    "END or PAUSE",
    "token that brings a grant",
    "credit",
    "HELLO",
    "HELLO that brings a grant",
];

/// What a HELLO, or a disabling of a link that nobody uses, can find on the lines of its cable.
pub(super) const IN_THE_WAY: &[&str] = &[
    "of a HELLO, a credit",
    "of a HELLO, a HELLO",
    "of a disabling, a credit",
    "of a disabling, a HELLO",
    "of a disabling, a token",
];

/// What a call is about to meet on a line, if it is one that looks there.
pub(crate) struct Met {
    what: What,
}

enum What {
    First(Token),
    InTheWay(&'static str),
}

impl Met {
    pub(super) fn by(network: &Network, call: &Call) -> Option<Met> {
        let what = match *call {
            Call::Line { slot, link } => {
                let link = network.link(LinkEnd { slot, link }).ok()?;
                What::First(*link.line.front()?)
            }
            Call::Set { slot, setting } => What::InTheWay(in_the_way(network, slot, setting)?),
            _ => return None,
        };
        Some(Met { what })
    }

    /// The case to be counted, by what the call has answered.
    pub(super) fn case(&self, answer: &Answer) -> Option<Case> {
        match (&self.what, answer) {
            (What::First(token), Answer::Arrived(grant)) => {
                Some(("off a line", arrived(token, *grant)))
            }
            (What::InTheWay(what), Answer::No(No::Busy)) => Some(("in the way on a line", what)),
            _ => None,
        }
    }
}

fn arrived(token: &Token, grant: usize) -> &'static str {
    match freight(token) {
        Freight::Credit(_) => "credit",
        Freight::Hello if grant > 0 => "HELLO that brings a grant",
        Freight::Hello => "HELLO",
        Freight::Token if grant > 0 => "token that brings a grant",
        Freight::Token if token.header.is_some() => "header token",
        Freight::Token if token.ends_circuit() => "END or PAUSE",
        Freight::Token => "token",
    }
}

/// What is on the lines of its cable that such a setting is refused for; nothing where it has
/// another reason to be refused.
fn in_the_way(network: &Network, slot: usize, setting: Setting) -> Option<&'static str> {
    let (link, disables) = match setting {
        Setting::Hello { link } => (link, false),
        Setting::Enable { link, value: 0 } => (link, true),
        _ => return None,
    };
    let link = network.link(LinkEnd { slot, link }).ok()?;
    let far = network.far_link(link).filter(|_| link.enabled)?;
    let on_lines: Vec<Freight> = [link, far].into_iter().flat_map(Link::freight).collect();
    let has = |is_meant: fn(&Freight) -> bool| on_lines.iter().any(is_meant);
    let in_use = link.used_by.is_some() || far.used_by.is_some();
    let credit = has(|it| matches!(it, Freight::Credit(_)));
    let hello = has(|it| *it == Freight::Hello);
    match disables {
        _ if disables && in_use => None,
        false if credit => Some("of a HELLO, a credit"),
        false if hello => Some("of a HELLO, a HELLO"),
        true if credit => Some("of a disabling, a credit"),
        true if hello => Some("of a disabling, a HELLO"),
        true if !on_lines.is_empty() => Some("of a disabling, a token"),
        _ => None,
    }
}
