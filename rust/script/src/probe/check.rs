//! `bench probe check`: lines of tokens and transitions, with what they state.

use std::error::Error;
use std::fmt;

use bench::probe::{self, Form, Refused};

use super::text::{digits, read_digits, read_tokens, tokens};
use super::unmet;
use crate::words::{Expected, Words};

/// Why a file was not checked to its end.
#[derive(Clone, Debug, PartialEq, Eq)]
#[non_exhaustive]
pub enum Fault {
    /// A line that is none, or the first one, which names no form.
    Line { line: usize, expected: Expected },
    /// A line that states something else than was found.
    Differs {
        line: usize,
        asked: String,
        found: String,
        stated: String,
    },
}

impl Fault {
    /// The exit status that the command ends with.
    pub fn exit_status(&self) -> u8 {
        match self {
            Fault::Differs { .. } => 1,
            Fault::Line { .. } => 2,
        }
    }
}

impl fmt::Display for Fault {
    fn fmt(&self, f: &mut fmt::Formatter<'_>) -> fmt::Result {
        match self {
            Fault::Line { line, expected } => write!(f, "line {line}: {expected}"),
            Fault::Differs {
                line,
                asked,
                found,
                stated,
            } => write!(f, "line {line}: {asked} gives {found}, stated is {stated}"),
        }
    }
}

impl Error for Fault {}

/// What is asked of the library.
enum Asked {
    /// To write these tokens.
    Write(Vec<u16>),
    /// To read these transitions.
    Read(Vec<u8>),
}

/// What comes of it.
#[derive(PartialEq, Eq)]
enum Outcome {
    Digits(Vec<u8>),
    Tokens(Vec<u16>),
    Refused(Refused),
}

impl fmt::Display for Asked {
    fn fmt(&self, f: &mut fmt::Formatter<'_>) -> fmt::Result {
        match self {
            Asked::Write(words) => write!(f, "write {}", tokens(words)),
            Asked::Read(transitions) => write!(f, "read {}", digits(transitions)),
        }
    }
}

impl fmt::Display for Outcome {
    fn fmt(&self, f: &mut fmt::Formatter<'_>) -> fmt::Result {
        let text = match self {
            Outcome::Digits(transitions) => digits(transitions),
            Outcome::Tokens(words) => tokens(words),
            Outcome::Refused(refused) => refused.to_string(),
        };
        f.write_str(if text.is_empty() { "nothing" } else { &text })
    }
}

/// Checks the lines of a file: how many agree, or the first that does not.
pub fn check(file: &str) -> Result<usize, Fault> {
    let numbered = (1..).zip(file.lines().map(str::trim));
    let mut lines = numbered.filter(|(_, line)| !line.is_empty() && !line.starts_with("//"));
    let bad = |line, expected| Fault::Line { line, expected };
    let Some((line, first)) = lines.next() else {
        return Err(bad(1, unmet("serial or fast", "")));
    };
    let form = super::read_form(first).map_err(|expected| bad(line, expected))?;
    let read = |(line, text)| match read_line(text) {
        Ok((asked, stated)) => Ok((line, asked, stated)),
        Err(expected) => Err(bad(line, expected)),
    };
    // All of them, before the first is asked: a bad line is found as in a script.
    let lines: Vec<(usize, Asked, Outcome)> = lines.map(read).collect::<Result<_, _>>()?;
    for (line, asked, stated) in &lines {
        let found = found(form, asked, stated);
        if found != *stated {
            return Err(Fault::Differs {
                line: *line,
                asked: asked.to_string(),
                found: found.to_string(),
                stated: stated.to_string(),
            });
        }
    }
    Ok(lines.len())
}

/// `write TOKENS = DIGITS`, `read DIGITS = TOKENS`, or either with a refusal.
fn read_line(line: &str) -> Result<(Asked, Outcome), Expected> {
    let Some((left, right)) = line.split_once('=') else {
        return Err(unmet("= and what comes of it", ""));
    };
    let (verb, rest) = match left.trim_start().split_once(char::is_whitespace) {
        Some(split) => split,
        None => (left.trim(), ""),
    };
    match verb {
        "write" => Ok((
            Asked::Write(read_tokens(rest)?),
            stated(right, |text| read_digits(text).map(Outcome::Digits))?,
        )),
        "read" => Ok((
            Asked::Read(read_digits(rest)?),
            stated(right, |text| read_tokens(text).map(Outcome::Tokens))?,
        )),
        other => Err(unmet("write or read", other)),
    }
}

/// A refusal, or what is read otherwise.
fn stated(
    text: &str,
    otherwise: impl FnOnce(&str) -> Result<Outcome, Expected>,
) -> Result<Outcome, Expected> {
    let mut words = Words::of(text);
    let refused = match text.split_whitespace().next() {
        Some("bad") => {
            words.word("bad")?;
            let place = words.number("a place")?;
            Refused::Bad { place }
        }
        Some("cut") => {
            words.word("cut")?;
            Refused::Cut
        }
        Some("nosuch") => {
            words.word("nosuch")?;
            Refused::NoSuch
        }
        _ => return otherwise(text),
    };
    words.end()?;
    Ok(Outcome::Refused(refused))
}

/// What the library says. Where NoSuch is stated there is room for one less than the whole result.
fn found(form: Form, asked: &Asked, stated: &Outcome) -> Outcome {
    let is_short = *stated == Outcome::Refused(Refused::NoSuch);
    let said = match asked {
        Asked::Write(words) => probe::write(form, words).and_then(|whole| {
            let mut out = vec![0; whole.len().saturating_sub(is_short.into())];
            probe::write_into(form, words, &mut out).map(|_| Outcome::Digits(out))
        }),
        Asked::Read(transitions) => probe::read(form, transitions).and_then(|whole| {
            let mut out = vec![0; whole.len().saturating_sub(is_short.into())];
            probe::read_into(form, transitions, &mut out).map(|_| Outcome::Tokens(out))
        }),
    };
    said.unwrap_or_else(Outcome::Refused)
}
