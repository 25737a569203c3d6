//! A person beside the bench, who keeps [books] of a run and holds the third demand
//! of the order: streams arrive whole and at the right door.
//!
//! The watcher is written from the order and document 01, and from nothing that is proved. It looks
//! at the state before each call through the looks alone, sees the call and its answer, writes its
//! books and holds every [`Sentence`] against them. Behind each call it looks at what the call
//! named and touched; [every so many calls](EVERY), before and behind each start and at the end of
//! a run at everything. What it watches is anything that can be looked at and called: the proved
//! library, or a model whose state is written as words.

mod figures;
mod sentences;
mod ties;

pub use figures::{Figures, Met};
pub use sentences::Sentence;

use std::fmt;

use bench::sizes::TILE_PORTS;
use bench::{Destination, Hop, Looks, Node, Peer};
use model::calls::Call;
use model::network::{LinkEnd, Network};
use model::random::Random;
use model::{Answer, StepRecord};

use crate::books::{self, Books, Line, Note, Port, Touched};
use crate::calls::{make, Lent};
use crate::pair::Differing;

/// After so many calls everything is held against everything.
pub const EVERY: usize = 64;

/// What can be watched.
pub trait Watched {
    /// The words that the looks are over.
    fn words(&self) -> &Lent;
    fn call(&mut self, call: &Call) -> Answer;
    /// What a call answers and which words it leaves, made on a copy.
    fn aside(&mut self, call: &Call) -> (Answer, Lent);

    fn looks(&self) -> Looks<'_> {
        self.words().looks()
    }
}

/// The proved library.
impl Watched for Lent {
    fn words(&self) -> &Lent {
        self
    }

    fn call(&mut self, call: &Call) -> Answer {
        make(self, call)
    }

    fn aside(&mut self, call: &Call) -> (Answer, Lent) {
        let mut copy = self.clone();
        (make(&mut copy, call), copy)
    }
}

/// A model, mostly one that is wrong on purpose. Its state is shown as the words that the library
/// would have for it.
pub struct Modelled<A> {
    apply: A,
    network: Option<Network>,
    shown: Lent,
}

impl<A: FnMut(&mut Option<Network>, &Call) -> Answer> Modelled<A> {
    pub fn new(apply: A) -> Modelled<A> {
        Modelled {
            apply,
            network: None,
            shown: Lent::default(),
        }
    }
}

impl<A: FnMut(&mut Option<Network>, &Call) -> Answer> Watched for Modelled<A> {
    fn words(&self) -> &Lent {
        &self.shown
    }

    fn call(&mut self, call: &Call) -> Answer {
        let answer = (self.apply)(&mut self.network, call);
        self.shown = shown(self.network.as_ref());
        answer
    }

    fn aside(&mut self, call: &Call) -> (Answer, Lent) {
        let mut copy = self.network.clone();
        let answer = (self.apply)(&mut copy, call);
        (answer, shown(copy.as_ref()))
    }
}

/// The words for a model's state, always the same.
fn shown(network: Option<&Network>) -> Lent {
    Lent::of(network, &mut Random::new(0))
}

/// What the watcher remembers of the state before a call.
#[derive(Clone, Copy, Debug)]
pub enum Glimpse {
    Output {
        node: Node,
        /// What the channel-end is aimed at.
        destination: Option<Destination>,
        /// The lowest free port 8..11.
        free: Option<usize>,
    },
    Step {
        node: Node,
        /// Where the port's circuit goes.
        hop: Option<Hop>,
        /// The port's first word.
        first: Option<u32>,
        /// The line of the cable by which its circuit leaves.
        out: Option<Line>,
    },
    Line {
        /// The word of what is first on the line.
        first: Option<u32>,
        /// The port that the line leads to.
        far: Option<Port>,
    },
    Wire {
        /// The ports whose circuits are to leave by its ends.
        leaving: [Option<Port>; 2],
    },
    /// Nothing that the books need.
    Other,
}

impl Glimpse {
    fn before(looks: Looks, call: &Call) -> Glimpse {
        match *call {
            Call::Output {
                slot, channel_end, ..
            } => Glimpse::Output {
                node: looks.node(slot),
                destination: looks.channel_end(slot, channel_end).destination(),
                free: TILE_PORTS
                    .into_iter()
                    .find(|port| !looks.port(slot, *port).is_taken()),
            },
            Call::Step { slot, port } => {
                let hop = looks.port(slot, port).hop();
                Glimpse::Step {
                    node: looks.node(slot),
                    hop,
                    first: looks.port_tokens(slot, port).next(),
                    out: hop.and_then(|hop| out(looks, slot, hop)),
                }
            }
            Call::Line { slot, link } => Glimpse::Line {
                first: looks.line_tokens(slot, link).next(),
                far: far(looks, Line { slot, link }),
            },
            Call::Wire { one, other } => Glimpse::Wire {
                leaving: [one, other].map(|end| leaving(looks, end)),
            },
            _ => Glimpse::Other,
        }
    }
}

/// The port whose circuit is to leave by a link.
fn leaving(looks: Looks, LinkEnd { slot, link }: LinkEnd) -> Option<Port> {
    match looks.link(slot, link).user.peer()? {
        Peer::Port(port) => Some(Port {
            slot,
            port: port as usize,
        }),
        Peer::ChannelEnd(_) => None,
    }
}

/// The line by which a circuit leaves; none where the link has no cable.
fn out(looks: Looks, slot: usize, hop: Hop) -> Option<Line> {
    let Hop::Link(link) = hop else { return None };
    let on = Line {
        slot,
        link: link as usize,
    };
    far(looks, on).map(|_| on)
}

/// The port at the far end of a line's cable.
fn far(looks: Looks, Line { slot, link }: Line) -> Option<Port> {
    let (slot, link) = looks.link(slot, link).far()?;
    Some(Port {
        slot: slot as usize,
        port: link as usize,
    })
}

/// One call of a run, as the watcher has it.
pub struct Seen<'a> {
    /// Which call of the run it is, from 0.
    pub place: usize,
    pub call: Call,
    pub answer: Answer,
    pub before: Glimpse,
    pub after: Looks<'a>,
}

impl Seen<'_> {
    /// A sentence that this call has broken.
    pub fn broken(&self, sentence: Sentence, what: String) -> Broken {
        Broken {
            sentence,
            what,
            place: self.place,
            call: format!("{} -> {}", self.call, self.answer),
        }
    }

    /// An answer of which no books can be written.
    pub fn odd(&self, what: &str) -> Broken {
        self.broken(Sentence::Answers, what.to_owned())
    }

    /// The numbers of all nodes behind the call, by slot.
    pub fn numbers(&self) -> Vec<u32> {
        let slots = 0..self.after.nodes();
        slots.map(|slot| self.after.node(slot).number).collect()
    }
}

/// A sentence that does not hold: which, of what, and behind which call.
#[derive(Clone, Debug, PartialEq, Eq)]
pub struct Broken {
    pub sentence: Sentence,
    pub what: String,
    pub place: usize,
    pub call: String,
}

impl fmt::Display for Broken {
    fn fmt(&self, f: &mut fmt::Formatter<'_>) -> fmt::Result {
        let Broken {
            sentence,
            what,
            place,
            call,
        } = self;
        write!(f, "behind call {place}, {call}: {what}; {sentence}")
    }
}

/// The watcher of one run.
pub struct Watcher {
    note: Note,
    held: Vec<Sentence>,
    /// How many calls of the run were begun.
    begun: usize,
    /// How many calls were seen, a list as its Steps.
    calls: usize,
    pub books: Books,
    pub figures: Figures,
}

impl Default for Watcher {
    fn default() -> Watcher {
        Watcher::with(books::note, &Sentence::ALL)
    }
}

impl Watcher {
    /// A watcher that writes its books in another way, or holds some sentences alone.
    pub fn with(note: Note, held: &[Sentence]) -> Watcher {
        Watcher {
            note,
            held: held.to_vec(),
            begun: 0,
            calls: 0,
            books: Books::default(),
            figures: Figures::default(),
        }
    }

    /// Has a call made, writes it down, and says the first sentence that it breaks. A list is seen
    /// as its Steps; one with results of another length is none.
    pub fn watch(&mut self, bench: &mut impl Watched, call: &Call) -> Result<Answer, Broken> {
        if call.start().is_some() {
            self.hold_all(bench.looks(), call)?;
        }
        self.begun += 1;
        match call {
            Call::Steps { results, records } if *results == records.len() => {
                self.watch_list(bench, call, records)
            }
            _ => self.watch_one(bench, call),
        }
    }

    /// Which call of the run is the last begun, from 0.
    fn place(&self) -> usize {
        self.begun.saturating_sub(1)
    }

    /// The list is made on a copy, its Steps one by one on what is watched, and both must agree.
    fn watch_list(
        &mut self,
        bench: &mut impl Watched,
        call: &Call,
        records: &[StepRecord],
    ) -> Result<Answer, Broken> {
        let (answer, left) = bench.aside(call);
        let each = records.iter().map(|record| (*record).into());
        let each: Result<_, _> = each.map(|step| self.watch_one(bench, &step)).collect();
        let single = Answer::Results(each?);
        if answer != single || left != *bench.words() {
            return Err(Broken {
                sentence: Sentence::Answers,
                what: format!("its Steps one by one are {single}, or leave other words"),
                place: self.place(),
                call: format!("{call} -> {answer}"),
            });
        }
        self.figures.add(Met::Lists);
        Ok(answer)
    }

    fn watch_one(&mut self, bench: &mut impl Watched, call: &Call) -> Result<Answer, Broken> {
        let before = Glimpse::before(bench.looks(), call);
        let answer = bench.call(call);
        let seen = Seen {
            place: self.place(),
            call: call.clone(),
            answer: answer.clone(),
            before,
            after: bench.looks(),
        };
        self.calls += 1;
        let touched = (self.note)(&mut self.books, &seen)?;
        self.hold(&seen, &touched)?;
        self.figures.count(&self.books, &seen, &touched);
        if self.calls.is_multiple_of(EVERY) || call.start().is_some() {
            self.hold_all(seen.after, call)?;
        }
        Ok(answer)
    }

    /// Holds every sentence against what a call touched.
    fn hold(&self, seen: &Seen, touched: &Touched) -> Result<(), Broken> {
        for sentence in &self.held {
            let held = sentence.hold(&self.books, seen, touched);
            held.map_err(|what| seen.broken(*sentence, what))?;
        }
        Ok(())
    }

    /// Holds every sentence against all there is.
    pub fn hold_all(&self, looks: Looks, call: &Call) -> Result<(), Broken> {
        for sentence in &self.held {
            let held = sentence.hold_all(&self.books, looks);
            held.map_err(|what| Broken {
                sentence: *sentence,
                what,
                place: self.place(),
                call: call.to_string(),
            })?;
        }
        Ok(())
    }

    /// Watches a whole run.
    pub fn run(&mut self, bench: &mut impl Watched, calls: &[Call]) -> Result<(), Broken> {
        for call in calls {
            self.watch(bench, call)?;
        }
        match calls.last() {
            Some(last) => self.hold_all(bench.looks(), last),
            None => Ok(()),
        }
    }
}

/// A run of calls, watched: what was met, or the run up to the call that breaks a sentence.
pub fn watched(bench: &mut impl Watched, calls: &[Call]) -> Result<Figures, Differing> {
    let mut watcher = Watcher::default();
    match watcher.run(bench, calls) {
        Ok(()) => Ok(watcher.figures),
        Err(broken) => Err(Differing {
            calls: calls.iter().take(broken.place + 1).cloned().collect(),
            how: broken.to_string(),
        }),
    }
}

/// A run of the proved library, watched.
pub fn library(calls: &[Call]) -> Result<Figures, Differing> {
    watched(&mut Lent::default(), calls)
}
