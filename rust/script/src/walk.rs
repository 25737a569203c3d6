//! An END sent on a copy of the network and followed from switch to switch.
//!
//! Every fact comes from real calls: Aim, Output and then Steps of all ports and of all lines, by slot
//! and port, in rounds. What is followed is the place of the END's first header token, in a port or on
//! a line, so that other streams in the same buffers are not mistaken for it.
//!
//! The Steps are made up to that of the port or line where the END is. So the network is looked at
//! before and behind every Step that can move it.

use bench::sizes::{CHANNEL_ENDS, TILE_PORTS};
use bench::{Bench, Cause, Hop, Kind, LinkEnd, Looks, Opening, Refusal, Stepped, Token, Width};

use crate::names::END;
use crate::question::Question;
use crate::rounds::{changes, Listed, Rounds, Watched};
pub use crate::rounds::{Place, MOST_STEPS};
use crate::waits::{wait, Wait};

/// What became of an END.
#[derive(Clone, Debug)]
pub struct Walk {
    /// The channel-end that sent it.
    pub channel_end: usize,
    /// The switches on its way that opened a hop for it, in order; none where it went straight to
    /// a channel-end of its own board.
    pub switches: Vec<Switch>,
    pub end: Ending,
}

/// A switch on the way, and where it opened the circuit to.
#[derive(Clone, Copy, Debug, PartialEq, Eq)]
pub struct Switch {
    pub place: Place,
    pub hop: Hop,
}

/// How a walk ends.
#[derive(Clone, Debug, PartialEq, Eq)]
pub enum Ending {
    /// Aim or Output was refused: nothing was sent.
    Unsent {
        call: &'static str,
        refusal: Refusal,
    },
    /// A board got the END, by its channel or, with none, by its control unit.
    Got { slot: usize, channel: Option<u32> },
    /// A switch refused the circuit.
    Refused { place: Place, cause: Cause },
    /// A whole round of Steps changed nothing.
    Waiting {
        place: Place,
        /// So many tokens stand before it in the same port.
        ahead: usize,
        /// What the port waits for.
        on: Option<Wait>,
    },
    /// It is still on its way after so many Steps.
    Steps,
}

/// Sends an END on a network, which should be a copy, and follows it.
pub fn walk(mut bench: Bench, question: Question) -> Walk {
    let channel_end = lowest_not_open(bench.looks(), question.slot);
    let (switches, end) = match send(&mut bench, channel_end, question) {
        Err(unsent) => (Vec::new(), unsent),
        Ok(None) => (Vec::new(), straight(question)),
        Ok(Some(port)) => follow(bench, question.slot, port),
    };
    Walk {
        channel_end,
        switches,
        end,
    }
}

/// The lowest channel-end with no circuit open; where all are, the first, which Aim then refuses.
fn lowest_not_open(looks: Looks, slot: usize) -> usize {
    let is_open = |end: &usize| looks.channel_end(slot, *end).sending.peer().is_some();
    (0..CHANNEL_ENDS).find(|end| !is_open(end)).unwrap_or(0)
}

/// Sends the END: the port that received its header, or none where it went straight.
fn send(
    bench: &mut Bench,
    channel_end: usize,
    question: Question,
) -> Result<Option<usize>, Ending> {
    let slot = question.slot;
    let is_taken = |bench: &Bench, port: usize| bench.looks().port(slot, port).is_taken();
    let free: Vec<usize> = TILE_PORTS.filter(|port| !is_taken(bench, *port)).collect();
    let aimed = bench.aim(slot, channel_end, question.destination(), question.network);
    aimed.map_err(|refusal| unsent("Aim", refusal))?;
    let put = bench.output(slot, channel_end, Kind::Control, END);
    put.map_err(|refusal| unsent("Output", refusal))?;
    Ok(free.into_iter().find(|port| is_taken(bench, *port)))
}

fn unsent(call: &'static str, refusal: Refusal) -> Ending {
    Ending::Unsent { call, refusal }
}

/// The END of a circuit within the board has been handed already.
fn straight(question: Question) -> Ending {
    Ending::Got {
        slot: question.slot,
        channel: question.door.channel(),
    }
}

fn follow(bench: Bench, slot: usize, port: usize) -> (Vec<Switch>, Ending) {
    let mut chase = Chase {
        front: Place { slot, port },
        line: None,
        ahead: 0,
        switches: Vec::new(),
        rounds: Rounds::of(bench),
    };
    let end = chase.end();
    (chase.switches, end)
}

/// An END that is being followed.
struct Chase {
    /// The port where its first token is, the header's while there is one, or that it comes to.
    front: Place,
    /// The line that it is on, while it is on one.
    line: Option<LinkEnd>,
    /// How much stands before it in the same port, or on the same line.
    ahead: usize,
    switches: Vec<Switch>,
    rounds: Rounds,
}

impl Chase {
    /// Follows it to its end.
    fn end(&mut self) -> Ending {
        loop {
            let oldest = self.oldest();
            let watched = self.line.map_or(Watched::Port(self.front), Watched::Line);
            let end = match self.rounds.up_to(watched) {
                Listed::Made(stepped) if changes(stepped) => self.advance(stepped, oldest),
                Listed::Taken(true) => {
                    self.arrive();
                    None
                }
                Listed::Made(_) | Listed::Taken(false) => None,
                Listed::AtRest => Some(self.waiting()),
                Listed::Out => Some(Ending::Steps),
            };
            if let Some(end) = end {
                return end;
            }
        }
    }

    /// The oldest token of the port where the END is: only a Step of that port takes it.
    fn oldest(&self) -> Option<u32> {
        let Place { slot, port } = self.front;
        self.rounds.bench().looks().port_tokens(slot, port).next()
    }

    /// The line that the END is on has brought one thing to its far end.
    fn arrive(&mut self) {
        if self.ahead > 0 {
            self.ahead -= 1;
            return;
        }
        let Place { slot, port } = self.front;
        let held = self.rounds.bench().looks().port(slot, port).held as usize;
        self.line = None;
        self.ahead = held.saturating_sub(1);
    }

    /// The port where the END is has made a Step that changed something.
    fn advance(&mut self, stepped: Stepped, oldest: Option<u32>) -> Option<Ending> {
        if self.ahead > 0 {
            self.ahead -= left(stepped, oldest);
            return None;
        }
        match stepped {
            Stepped::Opened(_) => self.opened(),
            Stepped::Refused(cause) => Some(Ending::Refused {
                place: self.front,
                cause,
            }),
            _ => self.moved(),
        }
    }

    fn hop(&self) -> Option<Hop> {
        let Place { slot, port } = self.front;
        self.rounds.bench().looks().port(slot, port).hop()
    }

    fn opened(&mut self) -> Option<Ending> {
        let (place, hop) = (self.front, self.hop()?);
        self.switches.push(Switch { place, hop });
        None
    }

    /// A token of the END's own circuit has left: over a cable its header's first, else the END.
    fn moved(&mut self) -> Option<Ending> {
        let slot = self.front.slot;
        let looks = self.rounds.bench().looks();
        match self.switches.last()?.hop {
            Hop::Link(link) => {
                let link = link as usize;
                let (far, port) = looks.link(slot, link).far()?;
                let (far, port) = (far as usize, port as usize);
                let on_line = looks.line(slot, link).held as usize;
                self.front = Place { slot: far, port };
                self.line = Some(LinkEnd { slot, link });
                self.ahead = on_line.saturating_sub(1);
                None
            }
            Hop::Channel(channel) => {
                let channel = Some(channel);
                Some(Ending::Got { slot, channel })
            }
            _ => {
                let channel = None;
                Some(Ending::Got { slot, channel })
            }
        }
    }

    /// Nothing is on a line at rest: the END is in a port.
    fn waiting(&self) -> Ending {
        Ending::Waiting {
            place: self.front,
            ahead: self.ahead,
            on: wait(self.rounds.bench(), self.front.slot, self.front.port),
        }
    }
}

/// How many tokens left a port with a Step that changed something.
fn left(stepped: Stepped, oldest: Option<u32>) -> usize {
    match stepped {
        Stepped::Opened(Opening::Channel | Opening::Control) => header_tokens(oldest),
        Stepped::Opened(Opening::Link(_)) | Stepped::Refused(_) => 0,
        _ => 1,
    }
}

/// How many tokens the header has that begins with this one.
fn header_tokens(oldest: Option<u32>) -> usize {
    match oldest
        .and_then(Token::from_word)
        .and_then(|token| token.header)
    {
        Some(Width::Three) => 3,
        _ => 1,
    }
}
