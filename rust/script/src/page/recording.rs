//! A run, taken down call by call.

use std::io;

use bench::{Bench, Hop, StepRecord};

use super::json::{array, lines, string, strings};
use super::snapshot::{difference, snapshot, Snapshot};
use super::ways::Ways;
use crate::answer::Answer;
use crate::boards::Boards;
use crate::call::Call;
use crate::host::{Host, Made};
use crate::names::chips;
use crate::play::Watch;
use crate::reader::{Entry, Said};
use crate::settle::Settled;
use crate::tell::{Colours, Telling};

/// So many calls are shown: a page has what changed behind each of them.
pub const MOST_CALLS: usize = 5000;

/// A run that has been taken down, or is being.
pub struct Recording<'a> {
    boards: &'a Boards,
    /// What each call did, in the words of `tell`.
    telling: Telling<'a, Vec<u8>>,
    /// The script's comments, those that stand together as one.
    notes: Vec<Vec<String>>,
    in_note: bool,
    /// The lines that calls were made of: the line's number, its text and its note.
    lines: Vec<String>,
    calls: Vec<String>,
    /// How many calls more there were than are shown.
    more: usize,
    last: Snapshot,
    ways: Ways,
    before: Option<Before>,
}

/// What is known before a call that steps.
enum Before {
    /// Where the port's circuit goes.
    Step(Option<Hop>),
    /// What is to arrive.
    Line(Option<u32>),
    /// A list's Steps are made one by one on a copy.
    Steps(Host),
}

/// What a line step has brought over a cable: from which link of which board.
type Crossed = (usize, usize, u32);

impl<'a> Recording<'a> {
    pub fn of(boards: &'a Boards) -> Recording<'a> {
        Recording {
            boards,
            telling: Telling::to(Vec::new(), boards, Colours::Off),
            notes: Vec::new(),
            in_note: false,
            lines: Vec::new(),
            calls: Vec::new(),
            more: 0,
            last: Snapshot::new(),
            ways: Ways::default(),
            before: None,
        }
    }

    /// All of it, as JSON.
    pub fn into_json(self, name: &str) -> String {
        let most = bench::sizes::MOST_NODES;
        let names: Vec<String> = (0..most).map(|slot| self.boards.called(slot)).collect();
        let notes = self.notes.iter();
        let notes = notes.map(|note| strings(note.iter().map(String::as_str)));
        let parts = [
            ("file", string(name)),
            ("boards", strings(names.iter().map(String::as_str))),
            ("notes", array(notes)),
            ("lines", lines(self.lines)),
            ("calls", lines(self.calls)),
            ("more", self.more.to_string()),
        ];
        let parts = parts.map(|(name, part)| format!("{}:{part}", string(name)));
        format!("{{{}}}", parts.join(",\n"))
    }

    /// Follows a call; what it has brought over a cable, if it is a line step that has.
    fn follow(&mut self, made: &Made, after: &Host) -> Option<Crossed> {
        let answer = &made.found.answer;
        match (&made.call, self.before.take()?) {
            (Call::Step { slot, port }, Before::Step(hop)) => {
                self.ways.step((*slot, *port), hop, answer, after.looks());
                None
            }
            (Call::Line { slot, link }, Before::Line(arriving)) => match answer {
                Answer::Arrived(_) => Some((*slot, *link, arriving?)),
                _ => None,
            },
            (Call::Steps { list, .. }, Before::Steps(copy)) => {
                self.follow_list(list, copy);
                None
            }
            _ => None,
        }
    }

    fn follow_list(&mut self, list: &[StepRecord], mut copy: Host) {
        for StepRecord { slot, port } in list.iter().copied() {
            let hop = copy.looks().port(slot, port).hop();
            let made = copy.make(0, Call::Step { slot, port });
            let answer = &made.found.answer;
            self.ways.step((slot, port), hop, answer, copy.looks());
        }
    }

    /// A start that is done makes the network anew, and there is no way in it.
    fn start_anew(&mut self, made: &Made) {
        let is_start = matches!(made.call, Call::Fresh { .. } | Call::Blank { .. });
        if is_start && made.found.answer == Answer::Done {
            self.ways.clear();
        }
    }

    /// The call as the page has it: its line, itself, its answer, the sentence, how that is meant, what
    /// has changed, and what has crossed a cable.
    fn take_down(&mut self, bench: &Bench, made: &Made, said: &str, crossed: Option<Crossed>) {
        let now = snapshot(bench, &self.ways);
        let crossed = crossed.map(|(slot, link, word)| {
            let token = chips(std::iter::once(word)).pop();
            let (kind, text) = token.unwrap_or(("d", String::new()));
            let token = strings([kind, text.as_str()]);
            array([slot.to_string(), link.to_string(), token])
        });
        let line = self.lines.len().saturating_sub(1);
        let tone = match self.telling.expects_nothing() {
            true => "plain",
            false => tone(&made.found.answer),
        };
        let parts = [
            line.to_string(),
            string(&made.call.to_string()),
            string(&made.found.answer.to_string()),
            string(said),
            string(tone),
            difference(&self.last, &now),
            array(crossed),
        ];
        self.calls.push(array(parts));
        self.last = now;
    }
}

/// How an answer is meant: of a list as its worst one.
fn tone(answer: &Answer) -> &'static str {
    match answer {
        Answer::No(_) | Answer::Refused(_) | Answer::Dropped(_) => "bad",
        Answer::Malformed | Answer::Unheard => "bad",
        Answer::Waiting => "waits",
        Answer::Results(answers) => {
            let tones: Vec<&str> = answers.iter().map(tone).collect();
            let worst = ["bad", "waits"]
                .into_iter()
                .find(|tone| tones.contains(tone));
            worst.unwrap_or("plain")
        }
        _ => "plain",
    }
}

impl Watch for Recording<'_> {
    fn entry(&mut self, entry: &Entry) -> io::Result<()> {
        self.telling.entry(entry)?;
        self.telling.drain()?;
        if let Said::Comment = entry.said {
            let text = entry.text.trim_start_matches(['/', ':']).trim();
            if !self.in_note {
                self.notes.push(Vec::new());
            }
            self.in_note = true;
            let is_head = text.starts_with("asks ");
            if let Some(note) = self.notes.last_mut().filter(|_| !is_head) {
                note.push(text.to_owned());
            }
            return Ok(());
        }
        self.in_note = false;
        let note = self.notes.len().checked_sub(1);
        let note = note.map_or("null".to_owned(), |note| note.to_string());
        let number = entry.line.to_string();
        if self.calls.len() < MOST_CALLS {
            self.lines.push(array([number, string(entry.text), note]));
        }
        Ok(())
    }

    fn makes(&mut self, before: &Host, call: &Call) {
        self.telling.makes(before, call);
        self.before = match *call {
            Call::Step { slot, port } => Some(Before::Step(before.looks().port(slot, port).hop())),
            Call::Line { slot, link } => {
                let mut on_line = before.looks().line_tokens(slot, link);
                Some(Before::Line(on_line.next()))
            }
            Call::Steps { .. } => Some(Before::Steps(before.clone())),
            _ => None,
        };
    }

    fn made(&mut self, after: &Host, made: &Made) -> io::Result<()> {
        if self.calls.len() == MOST_CALLS {
            self.more += 1;
            return Ok(());
        }
        self.telling.made(after, made)?;
        let said = self.telling.drain()?;
        self.start_anew(made);
        let crossed = self.follow(made, after);
        self.take_down(&after.copy(), made, &said, crossed);
        Ok(())
    }

    fn settled(&mut self, _after: &Host, _settled: Settled) -> io::Result<()> {
        Ok(())
    }
}
