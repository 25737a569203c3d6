//! Reading lines, calls and answers.

use std::error::Error;
use std::fmt;

use bench::{Cause, Destination, Kind, LinkEnd, Refusal, Setting, StepRecord};

use crate::answer::{Answer, Opening};
use crate::boards::Boards;
use crate::call::{Call, FORMS};
use crate::host::Outcome;
use crate::names::LETTERS;
use crate::words::{number_of, Expected, Words};

/// A line that has a call, with what it states of it.
#[derive(Clone, Debug, PartialEq, Eq)]
pub struct Line {
    /// Counted from 1, through all lines of the script.
    pub number: usize,
    pub call: Call,
    pub stated: Option<Outcome>,
}

/// The first line that is no call, or that names a value that no call can take.
#[derive(Clone, Debug, PartialEq, Eq)]
pub struct BadLine {
    pub line: usize,
    pub expected: Expected,
}

impl fmt::Display for BadLine {
    fn fmt(&self, f: &mut fmt::Formatter<'_>) -> fmt::Result {
        let (line, column) = (self.line, self.expected.column());
        write!(f, "line {line}, column {column}: {}", self.expected)
    }
}

impl Error for BadLine {}

/// Reads a plain script: its calls, or what is wrong with the first line that has none.
/// [`read`](crate::read) reads scripts for people too.
pub fn parse(text: &str) -> Result<Vec<Line>, BadLine> {
    let numbered = (1..).zip(text.lines());
    let calls = numbered.filter(|(_, line)| has_words(line));
    let read = |(number, line)| {
        let (call, stated) = read_plain(line, None)?;
        Ok(Line {
            number,
            call,
            stated,
        })
    };
    calls
        .map(|(line, text)| read((line, text)).map_err(|expected| BadLine { line, expected }))
        .collect()
}

/// Whether a line is more than empty or a comment.
fn has_words(line: &str) -> bool {
    let line = line.trim();
    !line.is_empty() && !line.starts_with("//")
}

/// `CALL` or `CALL -> ANSWER # DIGEST`; where boards have names, those may stand for slots.
pub fn read_plain(
    line: &str,
    boards: Option<&Boards>,
) -> Result<(Call, Option<Outcome>), Expected> {
    let (call, stated) = match line.split_once("->") {
        Some((call, stated)) => (call, Some(stated)),
        None => (line, None),
    };
    let call = read_call(Words::within(line, call, boards))?;
    let stated = stated.map(|stated| read_outcome(line, stated));
    Ok((call, stated.transpose()?))
}

/// Reads a call; a complaint about it ends with how the call is written.
fn read_call(mut words: Words) -> Result<Call, Expected> {
    let names = FORMS.map(|(name, _)| (name, name));
    let name = words.choice(&names)?;
    let form = FORMS.iter().find(|(known, _)| *known == name);
    let form = form.map_or("", |(_, form)| form);
    let read = call_named(name, &mut words);
    read.and_then(|call| words.end().map(|()| call))
        .map_err(|complaint| complaint.in_form(form))
}

fn call_named(name: &str, words: &mut Words) -> Result<Call, Expected> {
    match name {
        "fresh" | "blank" => start(name, words),
        "wire" => Ok(Call::Wire {
            one: link_end(words)?,
            other: link_end(words)?,
        }),
        "set" => set(words),
        "aim" => aim(words),
        "output" => output(words),
        "input" => Ok(Call::Input {
            slot: slot(words)?,
            channel_end: channel_end(words)?,
            kind: kind(words)?,
        }),
        "steps" => steps(words),
        "line" => {
            let LinkEnd { slot, link } = link_end(words)?;
            Ok(Call::Line { slot, link })
        }
        _ => {
            let StepRecord { slot, port } = record(words)?;
            Ok(Call::Step { slot, port })
        }
    }
}

/// `NODES MEMORY_WORDS lines LINE_WORDS`, of either start.
fn start(name: &str, words: &mut Words) -> Result<Call, Expected> {
    let nodes = words.number("a number of nodes")?;
    let memory_words = words.number("a number of memory words")?;
    words.exactly("lines")?;
    let line_words = words.number("a number of words for lines")?;
    Ok(match name {
        "fresh" => Call::Fresh {
            nodes,
            memory_words,
            line_words,
        },
        _ => Call::Blank {
            nodes,
            memory_words,
            line_words,
        },
    })
}

/// A slot: its number or, where boards have names, that of the board in it.
pub fn slot(words: &mut Words) -> Result<usize, Expected> {
    let Some(boards) = words.boards() else {
        return words.number("a slot");
    };
    let what = "a board's name or slot";
    let word = words.word(what)?;
    match boards.slot(word).or_else(|| number(word)) {
        Some(slot) => Ok(slot),
        None => Err(words.unmet_by(what, word, boards.names())),
    }
}

fn number(word: &str) -> Option<usize> {
    usize::try_from(number_of(word)?).ok()
}

/// A link's number or, where boards have names, its letter.
fn link(words: &mut Words) -> Result<usize, Expected> {
    lettered(words, "a link")
}

/// A number; where boards have names, the letter of a link stands for the link's.
fn lettered(words: &mut Words, what: &str) -> Result<usize, Expected> {
    if words.boards().is_none() {
        return words.number(what);
    }
    let letter = |word: &str| LETTERS.iter().position(|letter| *letter == word);
    let what = format!("{what}, a letter A..H or a number");
    words.meaning(&what, |word| letter(word).or_else(|| number(word)))
}

pub fn channel_end(words: &mut Words) -> Result<usize, Expected> {
    words.number("a channel-end")
}

fn value(words: &mut Words) -> Result<u32, Expected> {
    words.number("a value of 32 bits")
}

/// `SLOT LINK`, or for people `hub.A`.
pub fn link_end(words: &mut Words) -> Result<LinkEnd, Expected> {
    Ok(LinkEnd {
        slot: slot(words)?,
        link: link(words)?,
    })
}

fn kind(words: &mut Words) -> Result<Kind, Expected> {
    words.choice(&[("data", Kind::Data), ("control", Kind::Control)])
}

#[rustfmt::skip]
const SETTINGS: [&str; 7] = [
    "number", "width", "direction", "linkdirection", "network", "enable", "hello",
];

/// `SLOT SETTING INDEX VALUE`. "Index is 0 for number and width, value is 0 for hello".
fn set(words: &mut Words) -> Result<Call, Expected> {
    let slot = slot(words)?;
    let name = words.choice(&SETTINGS.map(|name| (name, name)))?;
    let setting = match name {
        "number" | "width" => {
            words.nought("the index")?;
            let value = value(words)?;
            match name {
                "number" => Setting::Number(value),
                _ => Setting::Width(value),
            }
        }
        "direction" => Setting::Direction {
            bit: words.number("a bit of 32 bits")?,
            value: value(words)?,
        },
        "hello" => {
            let link = link(words)?;
            words.nought("the value")?;
            return Ok(Call::Hello { slot, link });
        }
        _ => link_setting(name, words)?,
    };
    Ok(Call::Set { slot, setting })
}

/// "index: the link, for these four".
fn link_setting(name: &str, words: &mut Words) -> Result<Setting, Expected> {
    let link = link(words)?;
    let value = value(words)?;
    Ok(match name {
        "linkdirection" => Setting::LinkDirection { link, value },
        "network" => Setting::Network { link, value },
        _ => Setting::Enable { link, value },
    })
}

fn aim(words: &mut Words) -> Result<Call, Expected> {
    let (slot, channel_end) = (slot(words)?, channel_end(words)?);
    let at_control = words.choice(&[("channel", false), ("control", true)])?;
    let number = words.number("a node number of 32 bits")?;
    let destination = if at_control {
        words.nought("the channel of a control unit")?;
        Destination::Control { number }
    } else {
        let channel = words.number("a channel of 32 bits")?;
        Destination::Channel { number, channel }
    };
    Ok(Call::Aim {
        slot,
        channel_end,
        destination,
        network: words.number("a network of 32 bits")?,
    })
}

fn output(words: &mut Words) -> Result<Call, Expected> {
    Ok(Call::Output {
        slot: slot(words)?,
        channel_end: channel_end(words)?,
        kind: kind(words)?,
        value: words.number("a token value 0..255")?,
    })
}

/// `SLOT PORT`, of one Step; for people a link's letter stands for the port that it comes in by.
pub fn record(words: &mut Words) -> Result<StepRecord, Expected> {
    Ok(StepRecord {
        slot: slot(words)?,
        port: lettered(words, "a port")?,
    })
}

/// `RESULTS SLOT PORT SLOT PORT ..`, "any number of records, also none".
fn steps(words: &mut Words) -> Result<Call, Expected> {
    let results = words.number("a number of results")?;
    let mut list = Vec::new();
    while words.has_more() {
        list.push(record(words)?);
    }
    Ok(Call::Steps { results, list })
}

/// `ANSWER # DIGEST`, "the digest is 16 hexadecimal digits".
fn read_outcome(line: &str, text: &str) -> Result<Outcome, Expected> {
    let Some((answer, digest)) = text.split_once('#') else {
        let words = Words::within(line, text.trim_start(), None);
        return Err(words.unmet("ANSWER # DIGEST behind ->", Some(text.trim())));
    };
    let answer = read_answer(line, answer)?;
    let digest = digest.trim();
    let is_whole = digest.len() == 16 && digest.bytes().all(|digit| digit.is_ascii_hexdigit());
    match u64::from_str_radix(digest, 16) {
        Ok(digest) if is_whole => Ok(Outcome { answer, digest }),
        _ => {
            let words = Words::within(line, digest, None);
            Err(words.unmet("a digest of 16 hexadecimal digits", Some(digest)))
        }
    }
}

/// The answer of one call: `results ANSWER; ANSWER; ..` of a list, also of one with no Steps.
fn read_answer(line: &str, text: &str) -> Result<Answer, Expected> {
    let mut words = text.trim().splitn(2, char::is_whitespace);
    match (words.next(), words.next()) {
        (Some("results"), None) => Ok(Answer::Results(Vec::new())),
        (Some("results"), Some(answers)) => {
            let answers = answers.split(';').map(|text| read_stepped(line, text));
            Ok(Answer::Results(answers.collect::<Result<_, _>>()?))
        }
        _ => read_single(Words::within(line, text, None)),
    }
}

/// What the Step of one record answers.
fn read_stepped(line: &str, text: &str) -> Result<Answer, Expected> {
    let words = Words::within(line, text, None);
    match read_single(words)? {
        Answer::Done | Answer::Granted(_) | Answer::Token(_) | Answer::Arrived(_) => {
            let words = Words::within(line, text.trim_start(), None);
            Err(words.unmet("an answer of a Step", Some(text.trim())))
        }
        answer => Ok(answer),
    }
}

/// What one Step answers, or any other call but a list.
fn read_single(mut words: Words) -> Result<Answer, Expected> {
    let answer = single(&mut words)?;
    words.end()?;
    Ok(answer)
}

#[rustfmt::skip]
const ANSWERS: [&str; 12] = [
    "no", "done", "granted", "token", "idle", "waiting", "moved", "opened", "refused", "dropped",
    "malformed", "unheard",
];

fn single(words: &mut Words) -> Result<Answer, Expected> {
    let name = words.word("an answer")?;
    Ok(match name {
        "no" => Answer::No(words.number_for("a refusal 1..12", Refusal::from_number)?),
        "done" => Answer::Done,
        "granted" => Answer::Granted(grant(words)?),
        "token" => Answer::Token(words.number("a token value 0..255")?),
        "idle" => Answer::Idle,
        "waiting" => Answer::Waiting,
        "moved" if words.has_more() => Answer::Arrived(grant(words)?),
        "moved" => Answer::Moved,
        "opened" => Answer::Opened(opening(words)?),
        "refused" => Answer::Refused(cause(words)?),
        "dropped" => Answer::Dropped(cause(words)?),
        "malformed" => Answer::Malformed,
        "unheard" => Answer::Unheard,
        other => return Err(words.unmet_by("an answer", other, ANSWERS)),
    })
}

/// What a HELLO or an arrival brought.
fn grant(words: &mut Words) -> Result<u32, Expected> {
    let is_grant = |credit: u32| [0, 8, 16, 64].contains(&credit).then_some(credit);
    words.number_for("a grant of 0, 8, 16 or 64", is_grant)
}

fn opening(words: &mut Words) -> Result<Opening, Expected> {
    let names = ["link", "channel", "control"];
    Ok(match words.choice(&names.map(|name| (name, name)))? {
        "link" => Opening::Link(words.number_for("a link 0..7", |link| {
            (link < bench::sizes::LINKS as u32).then_some(link as usize)
        })?),
        "channel" => Opening::Channel,
        _ => Opening::Control,
    })
}

fn cause(words: &mut Words) -> Result<Cause, Expected> {
    words.choice(&[("split", Cause::Split), ("noroute", Cause::NoRoute)])
}
