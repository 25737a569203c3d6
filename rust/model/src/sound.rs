//! The list "Sound", clause by clause.
//!
//! The check is the list and nothing more (open point 1). Words that hold no token
//! are no part of the state here, and what an idle control unit heard last is not
//! looked at (open points 5 and 52a). Where tokens cross at once every line is empty,
//! and nothing is counted as issued.

mod circuits;
mod counts;
mod held;
mod lines;
mod links;

use crate::network::Network;

/// What a state can fail, in the document's order. `Memory` is the other half of
/// refusal 1, "memory of the wrong length"; the rest is the list.
#[derive(Clone, Copy, Debug, PartialEq, Eq, Hash)]
pub enum Clause {
    Memory,
    Counts,
    CreditGreeted,
    GreetedWired,
    CreditAndHeld,
    Cables,
    LegalTokens,
    LegalHeaders,
    StartsWithHeader,
    HeaderAfterEnd,
    ShortHeader,
    HeaderElsewhere,
    OutputNamesBack,
    Claims,
    OpenChannelEnds,
    ReplyPort,
    /// Of networks whose tokens cross by line, and so are all below.
    OneCreditOneHello,
    IssuedCount,
    UnwiredLine,
}

type Check = fn(&Network) -> bool;

/// Each clause with its check, in order.
const CLAUSES: [(Clause, Check); 19] = [
    (Clause::Memory, counts::memory_has_its_length),
    (Clause::Counts, counts::counts_within_limits),
    (Clause::CreditGreeted, links::credit_only_where_greeted),
    (Clause::GreetedWired, links::greeted_only_where_wired),
    (Clause::CreditAndHeld, links::credit_and_held_at_most_64),
    (Clause::Cables, links::cables_agree),
    (Clause::LegalTokens, held::tokens_legal),
    (Clause::LegalHeaders, held::headers_legal),
    (Clause::StartsWithHeader, held::starts_with_header),
    (Clause::HeaderAfterEnd, held::header_after_end),
    (Clause::ShortHeader, held::short_only_at_the_end),
    (Clause::HeaderElsewhere, held::no_header_elsewhere),
    (Clause::OutputNamesBack, circuits::outputs_name_back),
    (Clause::Claims, circuits::claims_name_circuits),
    (Clause::OpenChannelEnds, circuits::open_ends_name_circuits),
    (Clause::ReplyPort, circuits::reply_port_empty_while_serving),
    (Clause::OneCreditOneHello, lines::one_credit_and_one_hello),
    (Clause::IssuedCount, lines::issued_is_on_its_way),
    (Clause::UnwiredLine, lines::nothing_without_a_cable),
];

/// Does the state, with its memory, pass the whole list?
pub fn is_sound(network: &Network) -> bool {
    first_failing(network).is_none()
}

/// The first clause that the state fails.
pub fn first_failing(network: &Network) -> Option<Clause> {
    let mut clauses = CLAUSES.into_iter();
    clauses
        .find(|(_, holds)| !holds(network))
        .map(|(clause, _)| clause)
}

/// All clauses that the state fails. The clauses after `Counts` follow indices, so
/// they are looked at only where the counts hold.
pub fn failing(network: &Network) -> Vec<Clause> {
    let counts_hold = counts::counts_within_limits(network);
    CLAUSES
        .into_iter()
        .filter(|(clause, _)| counts_hold || matches!(clause, Clause::Memory | Clause::Counts))
        .filter(|(_, holds)| !holds(network))
        .map(|(clause, _)| clause)
        .collect()
}
