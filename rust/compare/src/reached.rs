//! What compared calls have reached: how often each call gave each answer, each switch message each
//! of its ends, what cables were plugged into, and what came off lines. A call is counted where both sides gave the answer
//! and were left the same.

mod cables;
mod ends;
mod lines;

use std::collections::BTreeMap;
use std::fmt;
use std::ops::AddAssign;

use model::answers::{Cause, Opening};
use model::calls::Call;
use model::network::{Network, Start};
use model::set::Setting;
use model::{Answer, No, StepRecord};

pub(crate) use cables::{Cable, Plugged};
use ends::Message;
use lines::Met;

/// What can be reached, by call: its answers, and each number for no that document 01 has for it.
#[rustfmt::skip]
const CASES: [(&str, &[&str]); 23] = [
    ("fresh", &["done", "no 1", "no 2"]),
    ("blank", &["done", "no 1", "no 2"]),
    ("wire", &["done", "no 1", "no 2", "no 3", "no 4"]),
    ("set number", &["done", "no 1", "no 2", "no 3"]),
    ("set width", &["done", "no 1", "no 2", "no 3"]),
    ("set direction", &["done", "no 1", "no 2", "no 3"]),
    ("set linkdirection", &["done", "no 1", "no 2", "no 3"]),
    ("set network", &["done", "no 1", "no 2", "no 3", "no 4"]),
    ("set enable", &["done", "no 1", "no 2", "no 3", "no 4"]),
    ("set hello", &["granted 0", "no 1", "no 2", "no 4"]),
    ("aim", &["done", "no 1", "no 2", "no 3", "no 6"]),
    ("output", &["done", "no 1", "no 2", "no 5", "no 7", "no 8", "no 9", "no 10"]),
    ("input", &["token", "no 1", "no 2", "no 11", "no 12"]),
    ("step", STEP),
    ("line", &["idle", "moved 0", "moved 8", "moved 16", "moved 64", "no 1", "no 2"]),
    ("steps", &["results", "results of none", "no 2"]),
    ("record of steps", STEP),
    ("message answered", ends::ANSWERED),
    ("message not answered", ends::NOT_ANSWERED),
    ("cable, its ends", cables::WIRED),
    ("over a cable wired in use", cables::CROSSED),
    ("off a line", lines::ARRIVED),
    ("in the way on a line", lines::IN_THE_WAY),
];

/// What a Step can answer, alone or as a record of a list.
#[rustfmt::skip]
const STEP: &[&str] = &[
    "idle", "waiting", "moved", "opened link", "opened channel", "opened control",
    "refused split", "refused noroute", "dropped split", "dropped noroute", "malformed",
    "unheard", "no 1", "no 2",
];

/// A call, and what it answered; a record of a list, and what it did; a message, and its end; a
/// cable, and its ends or what went over it; or a line, and what came off it or stood in the way.
type Case = (&'static str, &'static str);

/// How often each case was reached.
#[derive(Clone, Debug, Default, PartialEq, Eq)]
pub struct Reached(BTreeMap<Case, usize>);

impl Reached {
    /// How often a call gave an answer, both by their names in the table.
    pub fn times(&self, call: &str, answer: &str) -> usize {
        self.0.get(&(call, answer)).copied().unwrap_or(0)
    }

    /// The cases of the table that were not reached.
    pub fn missing(&self) -> Vec<Case> {
        let reached = |(call, answer): &Case| self.times(call, answer) > 0;
        all().filter(|case| !reached(case)).collect()
    }

    /// What was reached and has no place in the table.
    pub fn unforeseen(&self) -> Vec<Case> {
        let known: Vec<Case> = all().collect();
        let met = self.0.keys().copied();
        met.filter(|case| !known.contains(case)).collect()
    }

    fn count(&mut self, case: Case) {
        *self.0.entry(case).or_default() += 1;
    }

    /// Counts a call that was made on a state, answered so and left another.
    pub(crate) fn call(
        &mut self,
        ending: Option<Message>,
        call: &Call,
        answer: &Answer,
        after: Option<&Network>,
    ) {
        self.count((call_name(call), answer_name(answer)));
        self.ended(ending, answer, after);
    }

    /// Counts what a call has met on a line.
    pub(crate) fn line(&mut self, met: Option<Met>, answer: &Answer) {
        if let Some(case) = met.and_then(|met| met.case(answer)) {
            self.count(case);
        }
    }

    /// Counts what a call did with a cable, and has it remembered.
    pub(crate) fn cable(&mut self, plugged: &mut Plugged, cable: Option<Cable>, answer: &Answer) {
        if let Some(case) = plugged.note(cable, answer) {
            self.count(case);
        }
    }

    fn ended(&mut self, ending: Option<Message>, answer: &Answer, after: Option<&Network>) {
        let ended = ending.zip(after);
        if let Some(case) = ended.and_then(|(message, after)| message.case(answer, after)) {
            self.count(case);
        }
    }

    /// Counts the records of a list that was made on a state and answered so, and the messages that
    /// they ended: what is not refused is done once more, to see the states between.
    pub(crate) fn records(
        &mut self,
        plugged: &mut Plugged,
        mut network: Option<Network>,
        records: &[StepRecord],
        each: &[Answer],
    ) {
        for (record, answer) in records.iter().zip(each) {
            self.count(("record of steps", answer_name(answer)));
            let step = (*record).into();
            let ending = message_ended_by(network.as_ref(), &step);
            let cable = plugged.touched_by(network.as_ref(), &step);
            self.cable(plugged, cable, answer);
            if let (Some(network), false) = (&mut network, matches!(answer, Answer::No(_))) {
                // The answer is known.
                let _ = model::step::step(network, record.slot, record.port);
            }
            self.ended(ending, answer, network.as_ref());
        }
    }
}

/// The message that a call is about to end, for [`Reached::call`].
pub(crate) fn message_ended_by(network: Option<&Network>, call: &Call) -> Option<Message> {
    Message::ended_by(network?, call)
}

/// What a call is about to meet on a line, for [`Reached::line`].
pub(crate) fn met_on_line(network: Option<&Network>, call: &Call) -> Option<Met> {
    Met::by(network?, call)
}

fn all() -> impl Iterator<Item = Case> {
    let calls = CASES.iter();
    calls.flat_map(|(call, answers)| answers.iter().map(move |answer| (*call, *answer)))
}

impl AddAssign for Reached {
    fn add_assign(&mut self, more: Reached) {
        for (case, times) in more.0 {
            *self.0.entry(case).or_default() += times;
        }
    }
}

/// A line a call: every answer of the table with its count, those at zero too, and a line for each
/// that the table has not.
impl fmt::Display for Reached {
    fn fmt(&self, f: &mut fmt::Formatter<'_>) -> fmt::Result {
        for (call, answers) in CASES {
            let counted = answers
                .iter()
                .map(|answer| format!("{answer} {}", self.times(call, answer)));
            let counted: Vec<String> = counted.collect();
            writeln!(f, "{call}: {}", counted.join(", "))?;
        }
        for (call, answer) in self.unforeseen() {
            writeln!(f, "not in the table, {call}: {answer}")?;
        }
        Ok(())
    }
}

fn call_name(call: &Call) -> &'static str {
    match call {
        Call::Fresh { .. } => start_name(Start::Fresh),
        Call::Blank { .. } => start_name(Start::Blank),
        Call::WithLines { start, .. } => start_name(*start),
        Call::Wire { .. } => "wire",
        Call::Set { setting, .. } => setting_name(setting),
        Call::Aim { .. } => "aim",
        Call::Output { .. } => "output",
        Call::Input { .. } => "input",
        Call::Step { .. } => "step",
        Call::Steps { .. } => "steps",
        Call::Line { .. } => "line",
    }
}

fn start_name(start: Start) -> &'static str {
    match start {
        Start::Fresh => "fresh",
        Start::Blank => "blank",
    }
}

fn setting_name(setting: &Setting) -> &'static str {
    match setting {
        Setting::Number { .. } => "set number",
        Setting::Width { .. } => "set width",
        Setting::Direction { .. } => "set direction",
        Setting::LinkDirection { .. } => "set linkdirection",
        Setting::Network { .. } => "set network",
        Setting::Enable { .. } => "set enable",
        Setting::Hello { .. } => "set hello",
    }
}

/// The answer as scripts have it, without a token's value, a link's place or a record's result.
fn answer_name(answer: &Answer) -> &'static str {
    match answer {
        Answer::No(no) => no_name(*no),
        Answer::Done => "done",
        Answer::Granted(credit) => grant_name(*credit),
        Answer::Token(_) => "token",
        Answer::Idle => "idle",
        Answer::Waiting => "waiting",
        Answer::Moved => "moved",
        Answer::Opened(Opening::Link(_)) => "opened link",
        Answer::Opened(Opening::Channel) => "opened channel",
        Answer::Opened(Opening::Control) => "opened control",
        Answer::Refused(Cause::Split) => "refused split",
        Answer::Refused(Cause::NoRoute) => "refused noroute",
        Answer::Dropped(Cause::Split) => "dropped split",
        Answer::Dropped(Cause::NoRoute) => "dropped noroute",
        Answer::Malformed => "malformed",
        Answer::Unheard => "unheard",
        Answer::Arrived(credit) => arrival_name(*credit),
        Answer::Results(each) if each.is_empty() => "results of none",
        Answer::Results(_) => "results",
    }
}

fn grant_name(credit: usize) -> &'static str {
    match credit {
        0 => "granted 0",
        _ => "granted another number",
    }
}

fn arrival_name(credit: usize) -> &'static str {
    match credit {
        0 => "moved 0",
        8 => "moved 8",
        16 => "moved 16",
        64 => "moved 64",
        _ => "moved with another grant",
    }
}

fn no_name(no: No) -> &'static str {
    match no {
        No::Unsound => "no 1",
        No::NoSuch => "no 2",
        No::Value => "no 3",
        No::Busy => "no 4",
        No::Unaimed => "no 5",
        No::Open => "no 6",
        No::Hardware => "no 7",
        No::Privileged => "no 8",
        No::Narrow => "no 9",
        No::Full => "no 10",
        No::Empty => "no 11",
        No::Trap => "no 12",
    }
}
