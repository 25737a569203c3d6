//! What came of Steps.

use bench::{Freight, Hop, LinkEnd, Looks};

use super::story::{Fact, Tone};
use crate::answer::{Answer, Opening};
use crate::boards::Boards;
use crate::call::Call;
use crate::facts;
use crate::host::{Host, Made};
use crate::names::{channel, letter, link, port};
use crate::route::why;
use crate::words::printable;

/// What is told of a Step: where, what and how.
type Told = (String, Fact, Tone);

/// What the looks showed of a port before its Step.
#[derive(Clone, Copy, Debug, Default)]
struct Before {
    hop: Option<Hop>,
    oldest: Option<u32>,
}

impl Before {
    fn of(looks: Looks, slot: usize, port: usize) -> Before {
        Before {
            hop: looks.port(slot, port).hop(),
            oldest: looks.port_tokens(slot, port).next(),
        }
    }
}

/// What is known before a call that steps.
#[derive(Clone, Debug, Default)]
pub struct Steps {
    before: Before,
    /// Of a line step: what is to arrive.
    arriving: Option<u32>,
    /// Of a list: the network, on which its Steps are made one by one.
    copy: Option<Host>,
}

/// A port of a board.
pub fn place(boards: &Boards, slot: usize, index: usize) -> String {
    format!("{}, {}", printable(&boards.called(slot)), port(index))
}

impl Steps {
    pub fn before(&mut self, host: &Host, call: &Call) {
        match *call {
            Call::Step { slot, port } => self.before = Before::of(host.looks(), slot, port),
            Call::Line { slot, link } => {
                self.arriving = host.looks().line_tokens(slot, link).next();
            }
            Call::Steps { .. } => self.copy = Some(host.clone()),
            _ => {}
        }
    }

    /// What came of a Step, of a line step, or of each of a list.
    pub fn told(&mut self, boards: &Boards, after: &Host, made: &Made) -> Vec<Told> {
        match (&made.call, self.copy.take()) {
            (Call::Steps { list, .. }, Some(mut copy)) => {
                let one = |record: &bench::StepRecord| {
                    let (slot, port) = (record.slot, record.port);
                    self.before = Before::of(copy.looks(), slot, port);
                    let made = copy.make(made.line, Call::Step { slot, port });
                    self.step(boards, &copy, slot, port, &made.found.answer)
                };
                list.iter().map(one).collect()
            }
            (Call::Step { slot, port }, _) => {
                vec![self.step(boards, after, *slot, *port, &made.found.answer)]
            }
            (Call::Line { slot, link }, _) => {
                let end = LinkEnd {
                    slot: *slot,
                    link: *link,
                };
                self.line(boards, after.looks(), end, &made.found.answer)
            }
            _ => Vec::new(),
        }
    }

    fn step(
        &self,
        boards: &Boards,
        after: &Host,
        slot: usize,
        port: usize,
        answer: &Answer,
    ) -> Told {
        let looks = after.looks();
        let (fact, tone) = match answer {
            Answer::Opened(opening) => {
                let to = opened(boards, looks, slot, port, *opening);
                (Fact::Begins(format!("circuit opened, {to}")), Tone::Plain)
            }
            Answer::Refused(cause) => {
                let why = why(looks, slot, *cause);
                let said = format!("refused as {cause}: {why}");
                (Fact::Begins(said), Tone::Bad)
            }
            Answer::Moved => (self.counted(moved(self.before.hop)), Tone::Plain),
            Answer::Dropped(cause) => (self.counted(format!("dropped as {cause}")), Tone::Bad),
            Answer::Waiting => {
                let on = facts::waits(&after.copy(), slot, port);
                let on = on.unwrap_or_else(|| "waits".to_owned());
                (Fact::Said(on), Tone::Waits)
            }
            Answer::Idle => (Fact::Said("holds nothing".to_owned()), Tone::Plain),
            Answer::Malformed => (Fact::Said(MALFORMED.to_owned()), Tone::Bad),
            Answer::Unheard => (Fact::Said(UNHEARD.to_owned()), Tone::Bad),
            other => (Fact::Refused(format!("Step refused, {other}")), Tone::Bad),
        };
        (place(boards, slot, port), fact, tone)
    }

    /// What a line has brought to its far end, and what that has granted for it.
    fn line(&self, boards: &Boards, looks: Looks, end: LinkEnd, answer: &Answer) -> Vec<Told> {
        let Answer::Arrived(grant) = *answer else {
            let nothing = Fact::Said("nothing is on it".to_owned());
            return vec![(line_place(boards, end), nothing, Tone::Plain)];
        };
        let far = far_end(boards, looks, end);
        let arrived = match self.arriving.and_then(Freight::from_word) {
            Some(Freight::Hello) => Fact::Said(format!("HELLO arrives at {far}")),
            Some(Freight::Credit(credit)) => {
                Fact::Said(format!("credit for {credit} tokens arrives at {far}"))
            }
            _ => Fact::Counted {
                what: format!("arrived at {far}"),
                words: self.arriving.into_iter().collect(),
            },
        };
        let granted = (grant > 0).then(|| Fact::Said(format!("{far} grants {grant}")));
        let facts = std::iter::once(arrived).chain(granted);
        facts
            .map(|fact| (line_place(boards, end), fact, Tone::Plain))
            .collect()
    }

    fn counted(&self, what: String) -> Fact {
        let words = self.before.oldest.into_iter().collect();
        Fact::Counted { what, words }
    }
}

/// The line that starts at a link.
pub fn line_place(boards: &Boards, end: LinkEnd) -> String {
    let board = printable(&boards.called(end.slot));
    format!("{board}, line from {}", link(end.link))
}

/// The other end of a cable.
fn far_end(boards: &Boards, looks: Looks, end: LinkEnd) -> String {
    match looks.link(end.slot, end.link).far() {
        Some((slot, far)) => {
            let board = printable(&boards.called(slot as usize));
            format!("{board}, {}", link(far as usize))
        }
        None => "the far end".to_owned(),
    }
}

const MALFORMED: &str =
    "the message ends malformed: no reply address is known, or PAUSE ended it; \
                         nothing is written, and there is no reply";
const UNHEARD: &str = "the message ends unheard: a header of this width cannot name the reply's \
                       channel; what was written stays, and there is no reply";

fn opened(boards: &Boards, looks: Looks, slot: usize, port: usize, opening: Opening) -> String {
    match (opening, looks.port(slot, port).hop()) {
        (Opening::Link(link), _) => {
            let by = format!("out by link {}", letter(link));
            match looks.link(slot, link).far() {
                Some((far, end)) => {
                    let far = printable(&boards.called(far as usize));
                    format!("{by} to {far}, link {}", letter(end as usize))
                }
                None => format!("{by}, which has no cable"),
            }
        }
        (Opening::Channel, Some(Hop::Channel(end))) => format!("to {}", channel(end)),
        (Opening::Channel, _) => "to a channel-end".to_owned(),
        (Opening::Control, _) => "to the control unit".to_owned(),
    }
}

/// What became of a token that left by this hop.
fn moved(hop: Option<Hop>) -> String {
    match hop {
        Some(Hop::Channel(end)) => format!("handed to {}", channel(end)),
        Some(Hop::Control) => "heard by the control unit".to_owned(),
        _ => "moved".to_owned(),
    }
}
