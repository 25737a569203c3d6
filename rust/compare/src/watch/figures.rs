//! What a watcher has met, so that it can be seen not to have watched nothing.

use std::collections::BTreeMap;
use std::fmt;
use std::ops::AddAssign;

use bench::Cause;
use model::calls::Call;
use model::network::Start;
use model::Answer;

use super::Seen;
use crate::books::{Books, Fate, Happening, Sender, Touched};

/// Something that can be met.
#[derive(Clone, Copy, Debug, PartialEq, Eq, PartialOrd, Ord)]
pub enum Met {
    /// Calls, a list counted as its Steps.
    Calls,
    /// Lists, each of them seen as its Steps.
    Lists,
    Refusals,
    /// A start done that was not the first call.
    BegunAnew,
    /// Starts done that leave every link disabled, the first of a run among them.
    Blank,
    /// A start refused, with books that stay.
    StartRefused,
    Circuits,
    /// Circuits within a node.
    Local,
    Landed,
    /// Landed at a node that had another number when the circuit was opened.
    Renumbered,
    Split,
    NoRoute,
    /// Circuits that go back by the link that they came by, and hops by the very link that feeds
    /// their port.
    TurnedBack,
    Circles,
    /// Circuits that were to leave by a link without a cable when it was given one, and such as
    /// landed then.
    Joined,
    JoinedLanded,
    /// Tokens that went on to lines, that came off them, and what else came off them.
    Carried,
    Arrived,
    Credited,
    Greeted,
    Handed,
    Dropped,
    /// Circuits that a PAUSE ended, and such PAUSEs as came to a door.
    EndedByPause,
    PausesAtDoors,
    /// Switch messages heard to their end, those that were answered, and replies that landed.
    Heard,
    Answered,
    RepliesLanded,
    /// Replies at one-byte width, and such as were refused as Split.
    NarrowReplies,
    RepliesSplit,
}

impl Met {
    fn name(self) -> &'static str {
        match self {
            Met::Calls => "calls watched",
            Met::Lists => "lists of Steps",
            Met::Refusals => "refused",
            Met::BegunAnew => "begun anew",
            Met::Blank => "begun blank",
            Met::StartRefused => "starts refused",
            Met::Circuits => "circuits",
            Met::Local => "within a node",
            Met::Landed => "landed",
            Met::Renumbered => "landed at a node renumbered since",
            Met::Split => "split",
            Met::NoRoute => "without a route",
            Met::TurnedBack => "turned back",
            Met::Circles => "back into their own port",
            Met::Joined => "given a cable under way",
            Met::JoinedLanded => "landed over such a cable",
            Met::Carried => "tokens on to lines",
            Met::Arrived => "tokens off lines",
            Met::Credited => "credits off lines",
            Met::Greeted => "HELLOs off lines",
            Met::Handed => "tokens handed",
            Met::Dropped => "tokens dropped",
            Met::EndedByPause => "circuits ended by PAUSE",
            Met::PausesAtDoors => "PAUSEs at doors",
            Met::Heard => "messages heard",
            Met::Answered => "messages answered",
            Met::RepliesLanded => "replies landed",
            Met::NarrowReplies => "replies of one-byte width",
            Met::RepliesSplit => "replies split",
        }
    }
}

/// How often each thing was met.
#[derive(Clone, Debug, Default, PartialEq, Eq)]
pub struct Figures(BTreeMap<Met, usize>);

impl Figures {
    pub fn of(&self, met: Met) -> usize {
        self.0.get(&met).copied().unwrap_or(0)
    }

    pub(super) fn add(&mut self, met: Met) {
        *self.0.entry(met).or_default() += 1;
    }

    fn add_if(&mut self, so: bool, met: Met) {
        if so {
            self.add(met);
        }
    }

    /// Counts what one call did.
    pub(super) fn count(&mut self, books: &Books, seen: &Seen, touched: &Touched) {
        self.add(Met::Calls);
        let refused = matches!(seen.answer, Answer::No(_));
        self.add_if(refused, Met::Refusals);
        match (seen.call.start(), &seen.call) {
            (Some(_), _) if refused => self.add(Met::StartRefused),
            (Some(start), _) => {
                self.add_if(seen.place > 0, Met::BegunAnew);
                self.add_if(start == Start::Blank, Met::Blank);
            }
            (None, Call::Output { .. }) if !refused => {
                let mut circuits = touched.circuits.iter();
                let paused = circuits.any(|number| books.is_paused(*number));
                self.add_if(paused, Met::EndedByPause);
            }
            _ => {}
        }
        for happening in &touched.happened {
            self.count_one(books, *happening);
        }
    }

    fn count_one(&mut self, books: &Books, happening: Happening) {
        match happening {
            Happening::Opened { circuit } => self.count_opening(books, circuit),
            Happening::Landed { circuit } => self.count_landing(books, circuit),
            Happening::Refused { circuit, cause } => {
                let split = cause == Cause::Split;
                self.add(if split { Met::Split } else { Met::NoRoute });
                self.add_if(split && is_reply(books, circuit), Met::RepliesSplit);
            }
            Happening::Handed { .. } => self.add(Met::Handed),
            Happening::Paused { .. } => self.add(Met::PausesAtDoors),
            Happening::Joined { .. } => self.add(Met::Joined),
            Happening::Carried { .. } => self.add(Met::Carried),
            Happening::Arrived { .. } => self.add(Met::Arrived),
            Happening::Credited => self.add(Met::Credited),
            Happening::Greeted => self.add(Met::Greeted),
            Happening::TurnedBack { .. } => self.add(Met::TurnedBack),
            Happening::Circles { .. } => self.add(Met::Circles),
            Happening::Dropped { .. } => self.add(Met::Dropped),
            Happening::Heard { reply, .. } => {
                self.add(Met::Heard);
                self.add_if(reply.is_some(), Met::Answered);
            }
        }
    }

    fn count_opening(&mut self, books: &Books, number: usize) {
        self.add(Met::Circuits);
        if let Some(circuit) = books.circuits.get(number) {
            let local = matches!(circuit.fate, Fate::Here { .. });
            self.add_if(local, Met::Local);
            let narrow = circuit.width == 1;
            self.add_if(narrow && is_reply(books, number), Met::NarrowReplies);
        }
    }

    fn count_landing(&mut self, books: &Books, number: usize) {
        self.add(Met::Landed);
        self.add_if(is_reply(books, number), Met::RepliesLanded);
        let Some(circuit) = books.circuits.get(number) else {
            return;
        };
        self.add_if(circuit.joined, Met::JoinedLanded);
        if let Fate::Landed { at, number, .. } = circuit.fate {
            let before = circuit.numbers.get(at.slot);
            let other = before.is_some_and(|before| *before != number);
            self.add_if(other, Met::Renumbered);
        }
    }
}

fn is_reply(books: &Books, number: usize) -> bool {
    let circuit = books.circuits.get(number);
    circuit.is_some_and(|circuit| matches!(circuit.sender, Sender::Unit(_)))
}

impl AddAssign for Figures {
    fn add_assign(&mut self, more: Figures) {
        for (met, times) in more.0 {
            *self.0.entry(met).or_default() += times;
        }
    }
}

impl fmt::Display for Figures {
    fn fmt(&self, f: &mut fmt::Formatter<'_>) -> fmt::Result {
        let each = self.0.iter();
        let named: Vec<_> = each
            .map(|(met, times)| format!("{times} {}", met.name()))
            .collect();
        f.write_str(&named.join(", "))
    }
}
