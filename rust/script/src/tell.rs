//! `bench tell`: a run in words, call by call.
//!
//! What is said of a call is what it answered and what the looks showed before and behind it. Calls
//! at one place share a line; so do the Steps of a port for one circuit.

mod advice;
mod stepping;
mod story;

use std::io::{self, Write};

use bench::{Freight, Kind, LinkEnd, Setting};

use crate::answer::Answer;
use crate::boards::Boards;
use crate::call::Call;
use crate::facts;
use crate::host::{Host, Made};
use crate::names::{counted, destination, link};
use crate::play::Watch;
use crate::reader::{Entry, Said};
use crate::settle::Settled;
use crate::words::printable;
use stepping::Steps;
use story::{Fact, Story, Tone};

pub const HELP: &str = "\
bench tell FILE: makes the calls of FILE and tells the run in words

The script's own comments are the headings. Below them stands what came of the calls, a line for each
place with all that was done there in a row, and for each circuit of a port: how it opened or was
refused, and how many tokens were moved, handed, heard or dropped; and for each line what has arrived
at its far end. A call that was refused has a line
of its own, with its number and name and what to do about it. Behind settle stands what still waits,
and for what; of one settle at most 60 lines are told.

Boards have the names that the script gives them. On a terminal headings are bold, what was refused or
dropped is red and what waits is yellow; not so where the output goes elsewhere, or where NO_COLOR is
set.

Exit status: 0 told; 1 something else was received than a line expects, and the line is named; 2 the
script was not run to its end.
";

/// So many lines are told of one `settle`: what goes round and round is told at its beginning.
const MOST_LINES: usize = 60;

/// Whether colours are used.
#[derive(Clone, Copy, Debug, PartialEq, Eq)]
pub enum Colours {
    On,
    Off,
}

/// Tells a run as it goes.
pub struct Telling<'a, W> {
    out: W,
    boards: &'a Boards,
    colours: Colours,
    story: Story,
    steps: Steps,
    /// Whether the line under way expects to receive nothing.
    expects_nothing: bool,
    /// Whether the last thing written was a heading.
    in_heading: bool,
    /// Whether the line under way is a plain Step.
    in_steps: bool,
    /// How many lines the `settle` under way may still have, and how many it had beyond.
    room: Option<usize>,
    beyond: usize,
    calls: usize,
    refused: usize,
    /// How many were refused as their line expects.
    expected: usize,
}

impl<'a, W: Write> Telling<'a, W> {
    pub fn to(out: W, boards: &'a Boards, colours: Colours) -> Telling<'a, W> {
        Telling {
            out,
            boards,
            colours,
            story: Story::default(),
            steps: Steps::default(),
            expects_nothing: false,
            in_heading: false,
            in_steps: false,
            room: None,
            beyond: 0,
            calls: 0,
            refused: 0,
            expected: 0,
        }
    }

    /// Writes what is still to be told, and how many calls there were.
    pub fn finish(&mut self) -> io::Result<()> {
        self.tell_all()?;
        let calls = counted(self.calls, "call");
        let expected = match self.expected {
            0 => String::new(),
            some => format!(", {some} more as expected"),
        };
        writeln!(
            self.out,
            "\n{calls} made, {} refused{expected}",
            self.refused
        )?;
        self.out.flush()
    }

    fn heading(&mut self, text: &str) -> io::Result<()> {
        self.tell_all()?;
        let text = text.trim_start_matches(['/', ':']).trim();
        if text.starts_with("asks ") {
            return Ok(());
        }
        if !self.in_heading && self.calls > 0 {
            writeln!(self.out)?;
        }
        self.in_heading = true;
        let text = self.painted(Tone::Heading, &printable(text));
        writeln!(self.out, "{text}")
    }

    fn painted(&self, tone: Tone, text: &str) -> String {
        match self.colours {
            Colours::On => tone.painted(text),
            Colours::Off => text.to_owned(),
        }
    }

    fn tell_all(&mut self) -> io::Result<()> {
        for line in self.story.take() {
            if self.room == Some(0) {
                self.beyond += 1;
                continue;
            }
            self.room = self.room.map(|lines| lines - 1);
            let text = self.painted(line.tone(), &line.text());
            writeln!(self.out, "  {text}")?;
            self.in_heading = false;
        }
        Ok(())
    }

    /// Adds to the line of a place; those before it are told where this is another matter.
    fn add(&mut self, place: String, fact: Fact, tone: Tone) -> io::Result<()> {
        if self.story.is_elsewhere(&place, &fact) {
            self.tell_all()?;
        }
        self.story.add(place, fact, tone);
        Ok(())
    }

    /// A line of its own.
    fn alone(&mut self, place: String, said: String, tone: Tone) -> io::Result<()> {
        self.tell_all()?;
        self.story.add(place, Fact::Said(said), tone);
        self.tell_all()
    }

    /// Plain Steps that follow each other are told as one matter, as those of `settle` are.
    fn next_line(&mut self, entry: &Entry) {
        let call = match &entry.said {
            Said::Plain { call, .. } => Some(call),
            _ => None,
        };
        let is_step = call.is_some_and(steps);
        if !(is_step && self.in_steps) {
            self.story.next_line();
        }
        self.in_steps = is_step;
    }

    fn board(&self, slot: usize) -> String {
        printable(&self.boards.called(slot))
    }

    fn link_end(&self, end: LinkEnd) -> String {
        format!("{}, {}", self.board(end.slot), link(end.link))
    }

    fn channel_end(&self, slot: usize, end: usize) -> String {
        format!("{}, channel-end {end}", self.board(slot))
    }

    fn refusal(&mut self, made: &Made) -> io::Result<()> {
        let Answer::No(refusal) = made.found.answer else {
            return Ok(());
        };
        let place = self.place(&made.call);
        if self.expects_nothing {
            self.expected += 1;
            let said = Fact::Said("holds nothing, as the line expects".to_owned());
            return self.add(place, said, Tone::Plain);
        }
        self.refused += 1;
        let what = advice::name(&made.call);
        let todo = advice::advice(&made.call, refusal);
        let said = format!("{what} refused, {refusal}: {todo}");
        self.alone(place, said, Tone::Bad)
    }

    /// Where a call is made.
    fn place(&self, call: &Call) -> String {
        match *call {
            Call::Fresh { .. } | Call::Blank { .. } => "start".to_owned(),
            Call::Wire { one, .. } => self.link_end(one),
            Call::Hello { slot, link } => self.link_end(LinkEnd { slot, link }),
            Call::Set { slot, setting } => self.set_place(slot, setting),
            Call::Aim {
                slot, channel_end, ..
            }
            | Call::Output {
                slot, channel_end, ..
            }
            | Call::Input {
                slot, channel_end, ..
            } => self.channel_end(slot, channel_end),
            Call::Step { slot, port } => stepping::place(self.boards, slot, port),
            Call::Line { slot, link } => stepping::line_place(self.boards, LinkEnd { slot, link }),
            Call::Steps { .. } => "list of Steps".to_owned(),
        }
    }

    fn set_place(&self, slot: usize, setting: Setting) -> String {
        match setting {
            Setting::LinkDirection { link, .. }
            | Setting::Network { link, .. }
            | Setting::Enable { link, .. } => self.link_end(LinkEnd { slot, link }),
            _ => self.board(slot),
        }
    }

    /// What a call that was not refused has done, where it is no Step.
    fn done(&self, call: &Call, answer: &Answer, after: &Host) -> Fact {
        let said = match *call {
            Call::Fresh { nodes, .. } => {
                let boards = counted(nodes, "board");
                format!("{boards}, as the boot ROM leaves them: links E..H enabled")
            }
            Call::Blank { nodes, .. } => {
                format!("{}, every link disabled", counted(nodes, "board"))
            }
            Call::Wire { other, .. } => format!("cable to {}", self.link_end(other)),
            Call::Set { setting, .. } => return set(setting),
            Call::Aim {
                destination: to,
                network,
                ..
            } => return Fact::Begins(format!("aimed at {}, network {network}", destination(to))),
            Call::Output { kind, value, .. } => return Fact::token("puts out", kind, value),
            Call::Input { kind, .. } => {
                let Answer::Token(value) = *answer else {
                    return Fact::Said(answer.to_string());
                };
                return Fact::token("takes", kind, value);
            }
            Call::Hello { slot, link } => hello(after, slot, link).to_owned(),
            Call::Step { .. } | Call::Line { .. } | Call::Steps { .. } => answer.to_string(),
        };
        Fact::Said(said)
    }
}

impl Telling<'_, Vec<u8>> {
    /// Whether the line under way expects to receive nothing.
    pub(crate) fn expects_nothing(&self) -> bool {
        self.expects_nothing
    }

    /// What was told since this was last asked, as one line, however much there is to tell.
    pub(crate) fn drain(&mut self) -> io::Result<String> {
        self.room = None;
        self.tell_all()?;
        let text = String::from_utf8_lossy(&self.out).into_owned();
        self.out.clear();
        let lines: Vec<&str> = text.lines().map(str::trim).collect();
        Ok(lines.join("; "))
    }
}

/// Whether a call steps ports or a line.
fn steps(call: &Call) -> bool {
    matches!(
        call,
        Call::Step { .. } | Call::Line { .. } | Call::Steps { .. }
    )
}

/// A HELLO that was said. It is on the line behind the call, or lost.
fn hello(after: &Host, slot: usize, link: usize) -> &'static str {
    let on_line = after.looks().line_tokens(slot, link);
    let mut on_line = on_line.filter_map(Freight::from_word);
    match on_line.any(|thing| thing == Freight::Hello) {
        true => "says HELLO",
        false => "says HELLO, which nobody hears",
    }
}

/// A setting that was made.
fn set(setting: Setting) -> Fact {
    Fact::Said(match setting {
        Setting::Number(value) => format!("number {value}"),
        Setting::Width(1) => "one-byte headers".to_owned(),
        Setting::Width(_) => "three-byte headers".to_owned(),
        Setting::Direction { bit, value } => {
            let direction = value;
            return Fact::Leads {
                bits: vec![bit],
                direction,
            };
        }
        Setting::LinkDirection { value, .. } => format!("direction {value}"),
        Setting::Network { value, .. } => format!("network {value}"),
        Setting::Enable { value: 0, .. } => "disabled".to_owned(),
        Setting::Enable { .. } => "enabled".to_owned(),
    })
}

/// A token as the looks would show it.
pub(crate) fn word(kind: Kind, value: u8) -> u32 {
    match kind {
        Kind::Data => u32::from(value),
        Kind::Control => u32::from(value) | 0x100,
    }
}

impl<W: Write> Watch for Telling<'_, W> {
    fn entry(&mut self, entry: &Entry) -> io::Result<()> {
        self.expects_nothing = matches!(&entry.said, Said::Words(word) if word.expects_nothing());
        match entry.said {
            Said::Comment => self.heading(entry.text),
            _ => {
                if std::mem::take(&mut self.in_heading) {
                    writeln!(self.out)?;
                }
                self.next_line(entry);
                self.room = entry.said.settles().then_some(MOST_LINES);
                Ok(())
            }
        }
    }

    fn makes(&mut self, before: &Host, call: &Call) {
        self.steps.before(before, call);
    }

    fn made(&mut self, after: &Host, made: &Made) -> io::Result<()> {
        self.calls += 1;
        match (&made.call, &made.found.answer) {
            (_, Answer::No(_)) => self.refusal(made),
            (call, _) if steps(call) => {
                let told = self.steps.told(self.boards, after, made);
                for (place, fact, tone) in told {
                    self.refused += usize::from(matches!(fact, Fact::Refused(_)));
                    self.add(place, fact, tone)?;
                }
                Ok(())
            }
            (call, answer) => {
                let fact = self.done(call, answer, after);
                self.add(self.place(call), fact, Tone::Plain)
            }
        }
    }

    fn settled(&mut self, after: &Host, settled: Settled) -> io::Result<()> {
        self.tell_all()?;
        self.room = None;
        match std::mem::take(&mut self.beyond) {
            0 => {}
            more => writeln!(self.out, "  .. and {}", counted(more, "more such line"))?,
        }
        let outcome = crate::expand::outcome(settled);
        writeln!(self.out, "  {outcome}")?;
        let bench = after.copy();
        for (slot, port) in facts::ports(bench.looks()) {
            if let Some(on) = facts::waits(&bench, slot, port) {
                self.alone(stepping::place(self.boards, slot, port), on, Tone::Waits)?;
            }
        }
        Ok(())
    }
}
