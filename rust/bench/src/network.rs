//! A network that owns its memories.

use crate::answer::{Answer, Stepped};
use crate::list::{StepRecord, StepResult};
use crate::looks::Looks;
use crate::raw;
use crate::records::Destination;
use crate::refusal::Refusal;
use crate::sizes::MOST_NODES;
use crate::token::Kind;

/// One end of a cable: a link of the node in a slot.
#[derive(Clone, Copy, Debug, PartialEq, Eq, Hash)]
pub struct LinkEnd {
    pub slot: usize,
    pub link: usize,
}

/// What [`Bench::set`] sets. Values are as wide as they are asked for: those out of range are
/// refused.
#[derive(Clone, Copy, Debug, PartialEq, Eq, Hash)]
pub enum Setting {
    /// The node's number, 0..65535.
    Number(u32),
    /// The node's width, 1 or 3.
    Width(u32),
    /// The node's direction entry, 0..15, for a bit, 0..15.
    Direction { bit: u32, value: u32 },
    /// A link's direction, 0..15.
    LinkDirection { link: usize, value: u32 },
    /// A link's network, 0..3.
    Network { link: usize, value: u32 },
    /// A link enabled, 1, or disabled, 0.
    Enable { link: usize, value: u32 },
}

/// A network of 1 to 16 nodes, by slot.
///
/// A slot is a place in the bench's table, a `usize`; a node's number is what is written into its
/// switch, a `u32`. Each call takes any arguments. A refused call says why by the paper's number
/// and changes nothing.
///
/// ```
/// use bench::{Bench, LinkEnd, Refusal, Setting};
///
/// # fn main() -> Result<(), Refusal> {
/// let mut bench = Bench::fresh(2)?;
/// let (one, other) = (LinkEnd { slot: 0, link: 0 }, LinkEnd { slot: 1, link: 4 });
/// bench.wire(one, other)?;
/// // Link E is enabled from the start, link A is not.
/// assert_eq!(bench.hello(0, 0), Err(Refusal::Busy));
/// bench.set(0, Setting::Enable { link: 0, value: 1 })?;
/// bench.hello(0, 0)?;
/// // The HELLO is on its way; when it arrives the far end grants, and the credit travels back.
/// assert_eq!(bench.line(0, 0)?, Some(64));
/// assert_eq!(bench.line(1, 4)?, Some(0));
/// assert_eq!(bench.looks().link(0, 0).credit, 64);
/// # Ok(())
/// # }
/// ```
#[derive(Clone, Debug)]
pub struct Bench {
    state: Vec<u32>,
    memory: Vec<u16>,
    lines: Vec<u16>,
}

/// An answer that says only whether the call was refused.
fn done(answer: Answer) -> Result<(), Refusal> {
    match answer {
        Answer::No(refusal) => Err(refusal),
        _ => Ok(()),
    }
}

impl Bench {
    /// Fresh: boards as the boot ROM leaves them. All nodes number 0, width three, directions 0, links
    /// unwired, network 0, E..H enabled and A..D disabled; channel-ends unaimed.
    ///
    /// This is the start for boards of a machine. No link is greeted, so no token leaves: a header for
    /// another number takes link E and waits there for a cable and a HELLO.
    ///
    /// ```
    /// use bench::{Bench, Refusal};
    ///
    /// let bench = Bench::fresh(16).unwrap();
    /// assert_eq!(bench.looks().nodes(), 16);
    /// assert_eq!(bench.looks().link(15, 3).enabled, 0);
    /// assert_eq!(bench.looks().link(15, 4).enabled, 1);
    /// assert_eq!(Bench::fresh(17).unwrap_err(), Refusal::NoSuch);
    /// ```
    pub fn fresh(nodes: usize) -> Result<Bench, Refusal> {
        Bench::started(nodes, raw::fresh)
    }

    /// Blank: the same with every link disabled, A..H.
    ///
    /// This is the start where a link is to be used only once it has been set: a header for another
    /// number finds none, and is refused. Document 01 calls it Fresh; document 02 gave that name to
    /// the other.
    ///
    /// ```
    /// use bench::{Bench, Refusal};
    ///
    /// let bench = Bench::blank(16).unwrap();
    /// assert_eq!(bench.looks().nodes(), 16);
    /// assert_eq!(bench.looks().link(15, 4).enabled, 0);
    /// assert_eq!(Bench::blank(0).unwrap_err(), Refusal::NoSuch);
    /// ```
    pub fn blank(nodes: usize) -> Result<Bench, Refusal> {
        Bench::started(nodes, raw::blank)
    }

    /// A network of its own memories, by one of the two starts.
    fn started(
        nodes: usize,
        start: fn(&mut [u32], &mut [u16], &mut [u16], usize) -> Answer,
    ) -> Result<Bench, Refusal> {
        // A count that is refused is refused at any length of the memories.
        let lent = if nodes <= MOST_NODES { nodes } else { 0 };
        let mut bench = Bench {
            state: vec![0; lent * raw::state_words()],
            memory: vec![0; lent * raw::memory_words()],
            lines: vec![0; lent * raw::line_words()],
        };
        let (memory, lines) = (&mut bench.memory, &mut bench.lines);
        done(start(&mut bench.state, memory, lines, nodes))?;
        Ok(bench)
    }

    /// A network over these memories, whatever they hold: a call on memories that are not sound is
    /// refused with 1.
    ///
    /// ```
    /// use bench::{raw, Bench, Refusal, Setting};
    ///
    /// let mut bench = Bench::over(vec![0; raw::state_words()], Vec::new(), Vec::new());
    /// assert_eq!(bench.set(0, Setting::Number(1)), Err(Refusal::Unsound));
    /// ```
    pub fn over(state: Vec<u32>, memory: Vec<u16>, lines: Vec<u16>) -> Bench {
        Bench {
            state,
            memory,
            lines,
        }
    }

    /// The memories back, state, token memory and lines, as the calls have left them.
    ///
    /// ```
    /// use bench::{raw, Bench};
    ///
    /// let (state, memory, lines) = Bench::fresh(2).unwrap().into_parts();
    /// assert_eq!(raw::node_count(&state), 2);
    /// let same = Bench::over(state, memory, lines);
    /// assert!(same.looks().is_sound());
    /// ```
    pub fn into_parts(self) -> (Vec<u32>, Vec<u16>, Vec<u16>) {
        (self.state, self.memory, self.lines)
    }

    /// Wire: join two different link ends, both unwired. Enabled or not, in use or not, does not
    /// matter; nobody is greeted by it.
    ///
    /// ```
    /// use bench::{Bench, LinkEnd, Refusal};
    ///
    /// let mut bench = Bench::fresh(1).unwrap();
    /// let a = LinkEnd { slot: 0, link: 0 };
    /// let e = LinkEnd { slot: 0, link: 4 };
    /// assert_eq!(bench.wire(a, a), Err(Refusal::Value));
    /// assert_eq!(bench.wire(a, e), Ok(()));
    /// assert_eq!(bench.looks().link(0, 4).far(), Some((0, 0)));
    /// assert_eq!(bench.wire(e, a), Err(Refusal::Busy));
    /// ```
    pub fn wire(&mut self, one: LinkEnd, other: LinkEnd) -> Result<(), Refusal> {
        let (state, memory, lines) = (&mut self.state, &self.memory, &self.lines);
        done(raw::wire(
            state, memory, lines, one.slot, one.link, other.slot, other.link,
        ))
    }

    /// Set: a node's number, width, one direction entry; a link's direction, network, enable.
    ///
    /// ```
    /// use bench::{Bench, Refusal, Setting};
    ///
    /// let mut bench = Bench::fresh(3).unwrap();
    /// assert_eq!(bench.set(2, Setting::Number(0x0125)), Ok(()));
    /// assert_eq!(bench.looks().node(2).number, 0x0125);
    /// assert_eq!(bench.set(2, Setting::Width(2)), Err(Refusal::Value));
    /// assert_eq!(bench.set(3, Setting::Width(1)), Err(Refusal::NoSuch));
    /// ```
    pub fn set(&mut self, slot: usize, setting: Setting) -> Result<(), Refusal> {
        let (state, memory, lines) = (&mut self.state, &self.memory, &mut self.lines);
        done(match setting {
            Setting::Number(value) => raw::set_number(state, memory, lines, slot, value),
            Setting::Width(value) => raw::set_width(state, memory, lines, slot, value),
            Setting::Direction { bit, value } => {
                raw::set_direction(state, memory, lines, slot, bit, value)
            }
            Setting::LinkDirection { link, value } => {
                raw::set_link_direction(state, memory, lines, slot, link, value)
            }
            Setting::Network { link, value } => {
                raw::set_network(state, memory, lines, slot, link, value)
            }
            Setting::Enable { link, value } => {
                raw::set_enable(state, memory, lines, slot, link, value)
            }
        })
    }

    /// HELLO on a link: it goes on the line, and the grant comes when it has arrived, so that the
    /// answer is 0. Sent to an end that is absent or disabled it is lost. Busy while a credit or a
    /// HELLO is on a line of the cable.
    ///
    /// ```
    /// use bench::{Bench, Refusal};
    ///
    /// let mut bench = Bench::fresh(1).unwrap();
    /// assert_eq!(bench.hello(0, 0), Err(Refusal::Busy));
    /// assert_eq!(bench.hello(0, 4), Ok(0)); // enabled, and no cable: nobody hears it
    /// assert_eq!(bench.hello(0, 8), Err(Refusal::NoSuch));
    /// ```
    pub fn hello(&mut self, slot: usize, link: usize) -> Result<u32, Refusal> {
        match raw::hello(&mut self.state, &self.memory, &mut self.lines, slot, link) {
            Answer::No(refusal) => Err(refusal),
            Answer::Granted(credit) => Ok(credit),
            other => unreachable!("HELLO answers with a grant, not {other:?}"),
        }
    }

    /// Aim: a channel-end's destination and network. Refused while it has a circuit open.
    ///
    /// ```
    /// use bench::{Bench, Destination, Kind, Refusal};
    ///
    /// let mut bench = Bench::fresh(1).unwrap();
    /// let neighbour = Destination::Channel { number: 0, channel: 7 };
    /// let beyond = Destination::Channel { number: 0, channel: 32 };
    /// assert_eq!(bench.aim(0, 2, beyond, 0), Err(Refusal::Value));
    /// assert_eq!(bench.aim(0, 2, neighbour, 4), Err(Refusal::Value));
    /// assert_eq!(bench.aim(0, 2, neighbour, 0), Ok(()));
    /// assert_eq!(bench.looks().channel_end(0, 2).destination(), Some(neighbour));
    /// bench.output(0, 2, Kind::Data, 5).unwrap();
    /// assert_eq!(bench.aim(0, 2, neighbour, 0), Err(Refusal::Open));
    /// ```
    pub fn aim(
        &mut self,
        slot: usize,
        channel_end: usize,
        destination: Destination,
        network: u32,
    ) -> Result<(), Refusal> {
        let (state, memory, lines) = (&mut self.state, &self.memory, &self.lines);
        done(match destination {
            Destination::Channel { number, channel } => raw::aim_channel(
                state,
                memory,
                lines,
                slot,
                channel_end,
                number,
                channel,
                network,
            ),
            Destination::Control { number } => {
                raw::aim_unit(state, memory, lines, slot, channel_end, number, network)
            }
        })
    }

    /// Output a token. The first opens a circuit: straight to a channel-end of the same node, or by
    /// the lowest free port 8..11, which receives header and token. END and PAUSE end it.
    ///
    /// ```
    /// use bench::{Bench, Destination, Kind, Peer, Refusal, Token};
    ///
    /// let mut bench = Bench::fresh(1).unwrap();
    /// assert_eq!(bench.output(0, 2, Kind::Control, 0xE0), Err(Refusal::Unaimed));
    /// bench.aim(0, 2, Destination::Channel { number: 0x0125, channel: 7 }, 0).unwrap();
    /// assert_eq!(bench.output(0, 2, Kind::Control, 0xE0), Err(Refusal::Hardware));
    /// assert_eq!(bench.output(0, 2, Kind::Data, 9), Ok(()));
    /// let tokens = bench.looks().port_tokens(0, 8).filter_map(Token::from_word);
    /// assert!(tokens.map(|token| token.value).eq([0x01, 0x25, 7, 9]));
    /// assert_eq!(bench.looks().channel_end(0, 2).sending.peer(), Some(Peer::Port(8)));
    /// ```
    pub fn output(
        &mut self,
        slot: usize,
        channel_end: usize,
        kind: Kind,
        value: u8,
    ) -> Result<(), Refusal> {
        let (state, memory, lines) = (&mut self.state, &mut self.memory, &self.lines);
        done(match kind {
            Kind::Data => raw::output_data(state, memory, lines, slot, channel_end, value),
            Kind::Control => raw::output_control(state, memory, lines, slot, channel_end, value),
        })
    }

    /// Input the next token as data or as control. The answer gives its value; a token of the other
    /// kind stays.
    ///
    /// ```
    /// use bench::{Bench, Destination, Kind, Refusal};
    ///
    /// let mut bench = Bench::fresh(1).unwrap();
    /// bench.aim(0, 2, Destination::Channel { number: 0, channel: 7 }, 0).unwrap();
    /// assert_eq!(bench.input(0, 7, Kind::Data), Err(Refusal::Empty));
    /// bench.output(0, 2, Kind::Data, 9).unwrap();
    /// assert_eq!(bench.input(0, 7, Kind::Control), Err(Refusal::Trap));
    /// assert_eq!(bench.input(0, 7, Kind::Data), Ok(9));
    /// ```
    pub fn input(&mut self, slot: usize, channel_end: usize, kind: Kind) -> Result<u8, Refusal> {
        let (state, memory, lines) = (&mut self.state, &self.memory, &self.lines);
        let answer = match kind {
            Kind::Data => raw::input_data(state, memory, lines, slot, channel_end),
            Kind::Control => raw::input_control(state, memory, lines, slot, channel_end),
        };
        match answer {
            Answer::No(refusal) => Err(refusal),
            Answer::Token(value) => Ok(value),
            other => unreachable!("Input answers with a token, not {other:?}"),
        }
    }

    /// One Step of a port: its circuit is opened, refused or made to wait, or one token passes. A
    /// token that leaves by a link goes on the line that starts there; it is in the far port when
    /// [`line`](Bench::line) has taken it off.
    ///
    /// The Step that takes the END of a switch message has the control unit obey it: the write is
    /// made, whole or not at all, and the reply is put into port 12.
    ///
    /// ```
    /// use bench::{Bench, Destination, Kind, Opening, Refusal, Setting, Stepped};
    ///
    /// let mut bench = Bench::fresh(1).unwrap();
    /// bench.set(0, Setting::Number(5)).unwrap();
    /// bench.aim(0, 2, Destination::Channel { number: 9, channel: 7 }, 0).unwrap();
    /// bench.output(0, 2, Kind::Data, 1).unwrap();
    /// // The header waits in port 8; the node takes the number for which it was made.
    /// bench.set(0, Setting::Number(9)).unwrap();
    /// assert_eq!(bench.step(0, 8), Ok(Stepped::Opened(Opening::Channel)));
    /// assert_eq!(bench.step(0, 8), Ok(Stepped::Moved));
    /// assert_eq!(bench.input(0, 7, Kind::Data), Ok(1));
    /// assert_eq!(bench.step(0, 8), Ok(Stepped::Idle));
    /// assert_eq!(bench.step(0, 13), Err(Refusal::NoSuch));
    /// ```
    ///
    /// A message that writes the number of its own node, with channel 7 of that node for the reply:
    ///
    /// ```
    /// use bench::{Bench, Destination, Kind, Opening, Stepped};
    ///
    /// let mut bench = Bench::fresh(1).unwrap();
    /// bench.aim(0, 2, Destination::Control { number: 0 }, 0).unwrap();
    /// bench.output(0, 2, Kind::Control, 0xC0).unwrap(); // WRITEC
    /// // Number and channel for the reply, address, data: the node will have the number 0x0125.
    /// for byte in [0x01, 0x25, 7, 0x00, 0x05, 0x00, 0x00, 0x01, 0x25] {
    ///     bench.output(0, 2, Kind::Data, byte).unwrap();
    /// }
    /// bench.output(0, 2, Kind::Control, 1).unwrap(); // END
    /// assert_eq!(bench.step(0, 8), Ok(Stepped::Opened(Opening::Control)));
    /// for _ in 0..10 {
    ///     assert_eq!(bench.step(0, 8), Ok(Stepped::Moved));
    /// }
    /// assert_eq!(bench.looks().node(0).number, 0);
    /// assert_eq!(bench.step(0, 8), Ok(Stepped::Moved)); // END: the write is made
    /// assert_eq!(bench.looks().node(0).number, 0x0125);
    /// assert_eq!(bench.step(0, 12), Ok(Stepped::Opened(Opening::Channel)));
    /// assert_eq!(bench.step(0, 12), Ok(Stepped::Moved));
    /// assert_eq!(bench.input(0, 7, Kind::Control), Ok(0x03)); // ACK
    /// ```
    pub fn step(&mut self, slot: usize, port: usize) -> Result<Stepped, Refusal> {
        match raw::step(
            &mut self.state,
            &mut self.memory,
            &mut self.lines,
            slot,
            port,
        ) {
            Answer::No(refusal) => Err(refusal),
            Answer::Step(stepped) => Ok(stepped),
            other => unreachable!("Step answers what came of it, not {other:?}"),
        }
    }

    /// A line step: one off the far end of the line that starts at a link. A token comes to the far
    /// port, a credit or a HELLO to the far link. The answer is the grant that the arrival brought,
    /// 0, 8, 16 or 64, and none where nothing was on the line or no cable is there.
    ///
    /// ```
    /// use bench::{Bench, Destination, Kind, LinkEnd, Refusal, Setting, Stepped};
    ///
    /// let mut bench = Bench::fresh(2).unwrap();
    /// bench.wire(LinkEnd { slot: 0, link: 4 }, LinkEnd { slot: 1, link: 4 }).unwrap();
    /// assert_eq!(bench.line(0, 4), Ok(None));
    /// bench.hello(0, 4).unwrap();
    /// assert_eq!(bench.hello(0, 4), Err(Refusal::Busy)); // one is on its way
    /// assert_eq!(bench.line(0, 4), Ok(Some(64)));
    /// assert_eq!(bench.looks().link(0, 4).credit, 0);
    /// assert_eq!(bench.line(1, 4), Ok(Some(0))); // the credit
    /// assert_eq!(bench.looks().link(0, 4).credit, 64);
    /// assert_eq!(bench.line(0, 8), Err(Refusal::NoSuch));
    ///
    /// // A token that a Step sends out is in the far port when the line has brought it there.
    /// bench.set(1, Setting::Number(1)).unwrap();
    /// bench.aim(0, 2, Destination::Channel { number: 1, channel: 7 }, 0).unwrap();
    /// bench.output(0, 2, Kind::Data, 9).unwrap();
    /// bench.step(0, 8).unwrap(); // opened by link E
    /// assert_eq!(bench.step(0, 8), Ok(Stepped::Moved));
    /// assert_eq!((bench.looks().line(0, 4).held, bench.looks().port(1, 4).held), (1, 0));
    /// assert_eq!(bench.line(0, 4), Ok(Some(0)));
    /// assert_eq!((bench.looks().line(0, 4).held, bench.looks().port(1, 4).held), (0, 1));
    /// ```
    pub fn line(&mut self, slot: usize, link: usize) -> Result<Option<u32>, Refusal> {
        let (memory, lines) = (&mut self.memory, &mut self.lines);
        match raw::line_step(&mut self.state, memory, lines, slot, link) {
            Answer::No(refusal) => Err(refusal),
            Answer::Step(Stepped::Idle) => Ok(None),
            Answer::Arrived(granted) => Ok(Some(granted)),
            other => unreachable!("a line step answers Idle or a grant, not {other:?}"),
        }
    }

    /// A list of Steps at once, in order, each made on what the one before has left: the same as
    /// [`step`](Bench::step) for one record after the other, with the same answers, and much faster.
    /// A Step that is refused stops nothing.
    ///
    /// ```
    /// use bench::{Bench, Destination, Kind, Opening, Refusal, Setting, StepRecord, Stepped};
    ///
    /// let mut bench = Bench::fresh(1).unwrap();
    /// bench.set(0, Setting::Number(5)).unwrap();
    /// bench.aim(0, 2, Destination::Channel { number: 9, channel: 7 }, 0).unwrap();
    /// bench.output(0, 2, Kind::Data, 1).unwrap();
    /// bench.set(0, Setting::Number(9)).unwrap();
    /// let list = [8, 13, 8, 8].map(|port| StepRecord { slot: 0, port });
    /// let answers = bench.steps(&list);
    /// assert_eq!(answers[0], Ok(Stepped::Opened(Opening::Channel)));
    /// assert_eq!(answers[1], Err(Refusal::NoSuch));
    /// assert_eq!(answers[2..], [Ok(Stepped::Moved), Ok(Stepped::Idle)]);
    /// assert_eq!(bench.input(0, 7, Kind::Data), Ok(1));
    /// assert!(bench.steps(&[]).is_empty());
    /// ```
    pub fn steps(&mut self, list: &[StepRecord]) -> Vec<Result<Stepped, Refusal>> {
        let mut results = vec![StepResult::default(); list.len()];
        let made = self.steps_into(list, &mut results);
        made.expect("a list is refused only where the results are more or fewer");
        let answers = results.into_iter().map(StepResult::answer);
        answers
            .map(|answer| answer.expect("each record has its result"))
            .collect()
    }

    /// The same into a buffer of the caller's, one result for each record: nothing is allocated.
    /// Where the buffer is longer or shorter than the list this is NoSuch; then no Step is made, and
    /// the results stay as they were.
    ///
    /// ```
    /// use bench::{Bench, Refusal, StepRecord, StepResult, Stepped};
    ///
    /// let mut bench = Bench::fresh(2).unwrap();
    /// let list = [StepRecord { slot: 1, port: 12 }, StepRecord { slot: 2, port: 0 }];
    /// let mut results = [StepResult::default(); 3];
    /// assert_eq!(bench.steps_into(&list, &mut results), Err(Refusal::NoSuch));
    /// assert_eq!(results, [StepResult::default(); 3]);
    /// assert_eq!(bench.steps_into(&list, &mut results[..2]), Ok(()));
    /// assert_eq!(results[0].answer(), Some(Ok(Stepped::Idle)));
    /// assert_eq!(results[1].answer(), Some(Err(Refusal::NoSuch)));
    /// assert_eq!(results[2].answer(), None);
    /// ```
    pub fn steps_into(
        &mut self,
        list: &[StepRecord],
        results: &mut [StepResult],
    ) -> Result<(), Refusal> {
        let (state, memory, lines) = (&mut self.state, &mut self.memory, &mut self.lines);
        done(raw::steps(
            state,
            memory,
            lines,
            list,
            raw::numbers(results),
        ))
    }

    /// The state, to be looked at.
    ///
    /// ```
    /// let bench = bench::Bench::fresh(1).unwrap();
    /// assert!(bench.looks().is_sound() && bench.looks().is_quiet());
    /// assert_eq!(bench.looks().node(0).width, 3);
    /// ```
    pub fn looks(&self) -> Looks<'_> {
        Looks::over(&self.state, &self.memory, &self.lines)
    }
}
