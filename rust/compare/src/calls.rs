//! The same call made on both sides, and what came of it compared.

use bench::{raw, Looks};
use model::answers::{Cause, Opening};
use model::calls::{Beginning, Call};
use model::lines::Crossing;
use model::network::{LinkEnd, Network, Start};
use model::random::Random;
use model::set::Setting;
use model::tokens::{Destination, Kind};
use model::{Answer, No, StepRecord};

use crate::difference;
use crate::layout;
use crate::lists;
use crate::reading::read;

/// The words that a host lends.
#[derive(Clone, Debug, Default, PartialEq, Eq)]
pub struct Lent {
    pub state: Vec<u32>,
    /// What ports hold.
    pub memory: Vec<u16>,
    /// What is on its way between ports.
    pub lines: Vec<u16>,
}

impl Lent {
    /// The words of a model's state; none where there is no network.
    pub fn of(network: Option<&Network>, random: &mut Random) -> Lent {
        let words = network.map(|network| layout::write(network, random));
        words.unwrap_or_default()
    }

    pub fn looks(&self) -> Looks<'_> {
        Looks::over(&self.state, &self.memory, &self.lines)
    }
}

/// The call that begins a network so, lent memories of the right lengths.
pub fn beginning(start: Start, nodes: usize) -> Call {
    Call::from(Beginning {
        start,
        nodes,
        memory_words: nodes * layout::NODE_TOKENS,
        line_words: Some(nodes * layout::NODE_LINES),
    })
}

/// A network of so many nodes by line, as a start leaves it.
pub fn begun(start: Start, nodes: usize) -> Network {
    let line_words = nodes * layout::NODE_LINES;
    let crossing = Crossing::ByLine { line_words };
    Network::crossed(start, nodes, nodes * layout::NODE_TOKENS, crossing)
}

/// How the model makes a call: [`model::apply`], or another where it is to be wrong on purpose.
pub type Apply = fn(&mut Option<Network>, &Call) -> Answer;

/// Makes a call on lent words. A list must have written one answer a record, or nothing.
pub fn make(lent: &mut Lent, call: &Call) -> Answer {
    let answer = match *call {
        Call::Fresh { .. } | Call::Blank { .. } | Call::WithLines { .. } => start(lent, call),
        Call::Wire { one, other } => wire(lent, one, other),
        Call::Set { slot, setting } => set(lent, slot, setting),
        Call::Aim {
            slot,
            channel_end,
            destination,
            network,
        } => aim(lent, slot, channel_end, destination, network),
        Call::Output {
            slot,
            channel_end,
            kind,
            value,
        } => output(lent, slot, channel_end, kind, value),
        Call::Input {
            slot,
            channel_end,
            kind,
        } => input(lent, slot, channel_end, kind),
        Call::Step { slot, port } => {
            let Lent {
                state,
                memory,
                lines,
            } = lent;
            raw::step(state, memory, lines, slot, port)
        }
        Call::Steps {
            results,
            ref records,
        } => return list(lent, call, results, records),
        Call::Line { slot, link } => {
            let Lent {
                state,
                memory,
                lines,
            } = lent;
            raw::line_step(state, memory, lines, slot, link)
        }
    };
    of_bench(answer)
}

fn list(lent: &mut Lent, call: &Call, results: usize, records: &[StepRecord]) -> Answer {
    let made = lists::make(lists::library, lent, results, records);
    made.unwrap_or_else(|how| panic!("{call}: {how}"))
}

fn wire(lent: &mut Lent, one: LinkEnd, other: LinkEnd) -> bench::Answer {
    let (state, memory, lines) = (&mut lent.state, &lent.memory, &lent.lines);
    raw::wire(
        state, memory, lines, one.slot, one.link, other.slot, other.link,
    )
}

fn aim(
    lent: &mut Lent,
    slot: usize,
    end: usize,
    destination: Destination,
    network: u32,
) -> bench::Answer {
    let (state, memory, lines) = (&mut lent.state, &lent.memory, &lent.lines);
    match destination {
        Destination::Channel { number, channel } => {
            let channel = u32::try_from(channel).unwrap_or(u32::MAX);
            raw::aim_channel(state, memory, lines, slot, end, number, channel, network)
        }
        Destination::Control { number } => {
            raw::aim_unit(state, memory, lines, slot, end, number, network)
        }
    }
}

fn output(lent: &mut Lent, slot: usize, end: usize, kind: Kind, value: u8) -> bench::Answer {
    let (state, memory, lines) = (&mut lent.state, &mut lent.memory, &lent.lines);
    match kind {
        Kind::Data => raw::output_data(state, memory, lines, slot, end, value),
        Kind::Control => raw::output_control(state, memory, lines, slot, end, value),
    }
}

fn input(lent: &mut Lent, slot: usize, end: usize, kind: Kind) -> bench::Answer {
    let (state, memory, lines) = (&mut lent.state, &lent.memory, &lent.lines);
    match kind {
        Kind::Data => raw::input_data(state, memory, lines, slot, end),
        Kind::Control => raw::input_control(state, memory, lines, slot, end),
    }
}

/// A start with what it lends. One that says nothing of lines lends no words for them, which is a
/// wrong length for any network.
fn start(lent: &mut Lent, call: &Call) -> bench::Answer {
    match call.begins() {
        Some(beginning) => begin(lent, beginning),
        None => unreachable!("{call} begins no network"),
    }
}

/// A start is made on memories of its own, full of rubbish, which take the place of the others where
/// it succeeds.
fn begin(lent: &mut Lent, beginning: Beginning) -> bench::Answer {
    // More than any network needs, so that a length cut down to it is still a wrong one.
    const MOST: usize = 20_000;
    let nodes = beginning.nodes;
    let words = nodes.min(bench::sizes::MOST_NODES + 1) * raw::state_words();
    let rubbish = Lent {
        state: (0..words as u32).collect(),
        memory: vec![0xBAD; beginning.memory_words.min(MOST)],
        lines: vec![0xBAD; beginning.line_words.unwrap_or(0).min(MOST)],
    };
    let mut made = rubbish.clone();
    let Lent {
        state,
        memory,
        lines,
    } = &mut made;
    let answer = match beginning.start {
        Start::Fresh => raw::fresh(state, memory, lines, nodes),
        Start::Blank => raw::blank(state, memory, lines, nodes),
    };
    match answer {
        bench::Answer::Done => *lent = made,
        _ => assert!(made == rubbish, "a refused start has changed a word"),
    }
    answer
}

fn set(lent: &mut Lent, slot: usize, setting: Setting) -> bench::Answer {
    let (state, memory, lines) = (&mut lent.state, &lent.memory, &mut lent.lines);
    match setting {
        Setting::Number { value } => raw::set_number(state, memory, lines, slot, value),
        Setting::Width { value } => raw::set_width(state, memory, lines, slot, value),
        Setting::Direction { bit, value } => {
            let bit = u32::try_from(bit).unwrap_or(u32::MAX);
            raw::set_direction(state, memory, lines, slot, bit, value)
        }
        Setting::LinkDirection { link, value } => {
            raw::set_link_direction(state, memory, lines, slot, link, value)
        }
        Setting::Network { link, value } => {
            raw::set_network(state, memory, lines, slot, link, value)
        }
        Setting::Enable { link, value } => raw::set_enable(state, memory, lines, slot, link, value),
        Setting::Hello { link } => raw::hello(state, memory, lines, slot, link),
    }
}

pub(crate) fn of_bench(answer: bench::Answer) -> Answer {
    match answer {
        bench::Answer::No(refusal) => match No::from_number(refusal.number()) {
            Some(no) => Answer::No(no),
            None => unreachable!("the paper has no {refusal}"),
        },
        bench::Answer::Done => Answer::Done,
        bench::Answer::Granted(credit) => Answer::Granted(credit as usize),
        bench::Answer::Token(value) => Answer::Token(value),
        bench::Answer::Step(stepped) => of_step(stepped),
        bench::Answer::Arrived(credit) => Answer::Arrived(credit as usize),
        other => unreachable!("the model has no {other:?}"),
    }
}

fn of_step(stepped: bench::Stepped) -> Answer {
    match stepped {
        bench::Stepped::Idle => Answer::Idle,
        bench::Stepped::Waiting => Answer::Waiting,
        bench::Stepped::Moved => Answer::Moved,
        bench::Stepped::Opened(bench::Opening::Link(link)) => Answer::Opened(Opening::Link(link)),
        bench::Stepped::Opened(bench::Opening::Channel) => Answer::Opened(Opening::Channel),
        bench::Stepped::Opened(bench::Opening::Control) => Answer::Opened(Opening::Control),
        bench::Stepped::Refused(cause) => Answer::Refused(of_cause(cause)),
        bench::Stepped::Dropped(cause) => Answer::Dropped(of_cause(cause)),
        bench::Stepped::Malformed => Answer::Malformed,
        bench::Stepped::Unheard => Answer::Unheard,
        other => unreachable!("the model has no {other:?}"),
    }
}

fn of_cause(cause: bench::Cause) -> Cause {
    match cause {
        bench::Cause::Split => Cause::Split,
        bench::Cause::NoRoute => Cause::NoRoute,
        other => unreachable!("the model has no {other}"),
    }
}

/// "A Waiting or Idle step changes nothing either": neither does what is refused, nor a list of such.
fn changes_nothing(answer: &Answer) -> bool {
    match answer {
        Answer::No(_) | Answer::Idle | Answer::Waiting => true,
        Answer::Results(each) => each.iter().all(changes_nothing),
        _ => false,
    }
}

/// Complains where an answer that changes nothing has changed a word of a lent memory.
pub fn hold_unchanged(answer: &Answer, before: &Lent, after: &Lent) -> Result<(), String> {
    match changes_nothing(answer) && before != after {
        true => Err(format!("{answer}, and a word has changed")),
        false => Ok(()),
    }
}

/// Makes a call on lent words; of a list it holds, besides, that it is its Steps one by one.
fn make_held(lent: &mut Lent, call: &Call) -> Result<Answer, String> {
    match call {
        Call::Steps { results, records } => {
            lists::held_to_single_steps(lists::library, lent, *results, records)
        }
        _ => Ok(make(lent, call)),
    }
}

/// How two answers to a call differ, of two lists the first record that does.
fn differing(call: &Call, found: &Answer, expected: &Answer) -> Option<String> {
    if let (Call::Steps { records, .. }, Answer::Results(found), Answer::Results(expected)) =
        (call, found, expected)
    {
        let mut pairs = found.iter().zip(expected).zip(records).enumerate();
        let first = pairs.find(|(_, ((found, expected), _))| found != expected);
        if let Some((place, ((found, expected), record))) = first {
            return Some(format!(
                "record {place}, {record}: the library {found}, the model {expected}"
            ));
        }
    }
    (found != expected).then(|| format!("the library {found}, the model {expected}"))
}

/// Makes a call on both sides, whose states are the same before it, and gives the answer of both.
/// Says how the answers or the states behind it differ, or that a call which was refused, waits or
/// is idle has changed a word. Words are read only where one has changed: where none has, they say
/// what the model's state said before.
pub fn compare(
    apply: Apply,
    network: &mut Option<Network>,
    lent: &mut Lent,
    call: &Call,
) -> Result<Answer, String> {
    let (before, state_before) = (lent.clone(), network.clone());
    let found = make_held(lent, call).map_err(|how| format!("{call}: {how}"))?;
    let expected = apply(network, call);
    if let Some(how) = differing(call, &found, &expected) {
        return Err(format!("{call}: {how}"));
    }
    hold_unchanged(&found, &before, lent).map_err(|how| format!("{call}: {how}"))?;
    let Some(network) = network else {
        return Ok(found);
    };
    let seen = match state_before {
        Some(state) if *lent == before => state,
        _ => read(lent).map_err(|why| format!("{call}: {}", why.0))?,
    };
    match difference::first(&seen, network) {
        Some(difference) => Err(format!("{call}: {difference}")),
        None => Ok(found),
    }
}
