//! Reading calls and answers of the script and trace format, word by word. An error
//! says what was expected and what was found.

use std::str::SplitWhitespace;

use crate::answers::{Answer, Cause, No, Opening};
use crate::calls::{Beginning, Call, StepRecord};
use crate::network::{LinkEnd, Start};
use crate::script::Outcome;
use crate::set::Setting;
use crate::sizes::LINKS;
use crate::tokens::{Destination, Kind};

const CALLS: &str = "fresh, blank, wire, set, aim, output, input, step, line or steps";

/// Reads a call.
pub fn parse_call(text: &str) -> Result<Call, String> {
    let mut words = Words(text.split_whitespace());
    let call = match words.word(CALLS)? {
        "fresh" => words.beginning(Start::Fresh)?,
        "blank" => words.beginning(Start::Blank)?,
        "wire" => Call::Wire {
            one: words.link_end()?,
            other: words.link_end()?,
        },
        "set" => Call::Set {
            slot: words.slot()?,
            setting: words.setting()?,
        },
        "aim" => words.aim()?,
        "output" => words.output()?,
        "input" => words.input()?,
        "step" => words.step()?.into(),
        "steps" => Call::Steps {
            results: words.number("a number of results")?,
            records: words.steps()?,
        },
        "line" => Call::Line {
            slot: words.slot()?,
            link: words.link()?,
        },
        other => return Err(expected(CALLS, Some(other))),
    };
    words.end()?;
    Ok(call)
}

/// Reads `ANSWER # DIGEST`.
pub fn parse_outcome(text: &str) -> Result<Outcome, String> {
    let Some((answer, digest)) = text.split_once('#') else {
        return Err("expected ANSWER # DIGEST behind ->".to_string());
    };
    Ok(Outcome {
        answer: parse_answer(answer)?,
        digest: parse_digest(digest.trim())?,
    })
}

/// "the digest is 16 hexadecimal digits"
fn parse_digest(text: &str) -> Result<u64, String> {
    let digits = text.len() == 16 && text.bytes().all(|b| b.is_ascii_hexdigit());
    u64::from_str_radix(text, 16)
        .ok()
        .filter(|_| digits)
        .ok_or_else(|| expected("a digest of 16 hexadecimal digits", Some(text)))
}

/// Reads an answer.
pub fn parse_answer(text: &str) -> Result<Answer, String> {
    let text = text.trim();
    match text.strip_prefix("results") {
        Some("") => Ok(Answer::Results(Vec::new())),
        Some(each) if each.starts_with(char::is_whitespace) => {
            let each = each.split(';').map(parse_result);
            Ok(Answer::Results(each.collect::<Result<_, _>>()?))
        }
        _ => parse_single(text),
    }
}

/// Reads the answer of one record, "as `step` gives it".
fn parse_result(text: &str) -> Result<Answer, String> {
    match parse_single(text)? {
        Answer::Done | Answer::Granted(_) | Answer::Token(_) | Answer::Arrived(_) => {
            Err(expected("an answer of a step", Some(text.trim())))
        }
        answer => Ok(answer),
    }
}

/// Reads the answer of any call but a list of steps.
fn parse_single(text: &str) -> Result<Answer, String> {
    let mut words = Words(text.split_whitespace());
    let answer = match words.word("an answer")? {
        "no" => Answer::No(words.one_of("a refusal 1..12", No::from_number)?),
        "done" => Answer::Done,
        "granted" => Answer::Granted(words.grant()?),
        "token" => Answer::Token(words.number("a token value 0..255")?),
        "idle" => Answer::Idle,
        "waiting" => Answer::Waiting,
        "moved" if words.is_at_end() => Answer::Moved,
        "moved" => Answer::Arrived(words.grant()?),
        "opened" => Answer::Opened(words.opening()?),
        "refused" => Answer::Refused(words.cause()?),
        "dropped" => Answer::Dropped(words.cause()?),
        "malformed" => Answer::Malformed,
        "unheard" => Answer::Unheard,
        other => return Err(expected("an answer", Some(other))),
    };
    words.end()?;
    Ok(answer)
}

fn expected(what: &str, found: Option<&str>) -> String {
    match found {
        Some(found) => format!("expected {what}, found {found}"),
        None => format!("expected {what}, found nothing"),
    }
}

/// "Numbers are decimal, or hexadecimal with `0x`".
fn parse_number(word: &str) -> Option<u64> {
    let (digits, radix) = match word.strip_prefix("0x") {
        Some(digits) => (digits, 16),
        None => (word, 10),
    };
    let only_digits = digits.chars().all(|c| c.is_digit(radix));
    u64::from_str_radix(digits, radix)
        .ok()
        .filter(|_| only_digits)
}

/// The words of a line, read from left to right.
struct Words<'a>(SplitWhitespace<'a>);

impl<'a> Words<'a> {
    fn word(&mut self, what: &str) -> Result<&'a str, String> {
        self.0.next().ok_or_else(|| expected(what, None))
    }

    fn is_at_end(&self) -> bool {
        self.0.clone().next().is_none()
    }

    fn end(&mut self) -> Result<(), String> {
        match self.0.next() {
            None => Ok(()),
            extra => Err(expected("no more words", extra)),
        }
    }

    /// A number that fits where it is to go.
    fn number<T: TryFrom<u64>>(&mut self, what: &str) -> Result<T, String> {
        let word = self.word(what)?;
        parse_number(word)
            .and_then(|number| T::try_from(number).ok())
            .ok_or_else(|| expected(what, Some(word)))
    }

    /// A number that stands for one of a few things.
    fn one_of<N: TryFrom<u64>, T>(
        &mut self,
        what: &str,
        meaning: impl Fn(N) -> Option<T>,
    ) -> Result<T, String> {
        let word = self.word(what)?;
        parse_number(word)
            .and_then(|number| N::try_from(number).ok())
            .and_then(meaning)
            .ok_or_else(|| expected(what, Some(word)))
    }

    /// The 0 that stands where a call has nothing to say.
    fn nought(&mut self, where_: &str) -> Result<(), String> {
        let what = format!("0 as {where_}");
        self.one_of(&what, |number: u64| (number == 0).then_some(()))
    }

    /// `NODES WORDS`, "with the same words" for both starts, or with them
    /// `lines LINEWORDS`.
    fn beginning(&mut self, start: Start) -> Result<Call, String> {
        Ok(Call::from(Beginning {
            start,
            nodes: self.number("a number of nodes")?,
            memory_words: self.number("a number of memory words")?,
            line_words: self.line_words()?,
        }))
    }

    fn line_words(&mut self) -> Result<Option<usize>, String> {
        if self.is_at_end() {
            return Ok(None);
        }
        match self.word("lines")? {
            "lines" => self.number("a number of line words").map(Some),
            other => Err(expected("no more words", Some(other))),
        }
    }

    fn grant(&mut self) -> Result<usize, String> {
        let sizes = [0, 8, 16, 64];
        let size = |size| sizes.contains(&size).then_some(size);
        self.one_of("a grant of 0, 8, 16 or 64", size)
    }

    fn slot(&mut self) -> Result<usize, String> {
        self.number("a slot")
    }

    fn step(&mut self) -> Result<StepRecord, String> {
        Ok(StepRecord {
            slot: self.slot()?,
            port: self.number("a port")?,
        })
    }

    /// "any number of records, also none"
    fn steps(&mut self) -> Result<Vec<StepRecord>, String> {
        let mut records = Vec::new();
        while !self.is_at_end() {
            records.push(self.step()?);
        }
        Ok(records)
    }

    fn channel_end(&mut self) -> Result<usize, String> {
        self.number("a channel-end")
    }

    fn link(&mut self) -> Result<usize, String> {
        self.number("a link")
    }

    /// A bit or a channel: a number of 32 bits, as settings are, which the model has as an index.
    fn index_of_32_bits(&mut self, what: &str) -> Result<usize, String> {
        let number: u32 = self.number(what)?;
        Ok(number as usize)
    }

    fn value(&mut self) -> Result<u32, String> {
        self.number("a value up to 4294967295")
    }

    fn link_end(&mut self) -> Result<LinkEnd, String> {
        Ok(LinkEnd {
            slot: self.slot()?,
            link: self.link()?,
        })
    }

    fn kind(&mut self) -> Result<Kind, String> {
        match self.word("data or control")? {
            "data" => Ok(Kind::Data),
            "control" => Ok(Kind::Control),
            other => Err(expected("data or control", Some(other))),
        }
    }

    /// `SETTING INDEX VALUE`.
    fn setting(&mut self) -> Result<Setting, String> {
        let names = "number, width, direction, linkdirection, network, enable or hello";
        match self.word(names)? {
            name @ ("number" | "width") => self.node_setting(name),
            "direction" => Ok(Setting::Direction {
                bit: self.index_of_32_bits("a bit")?,
                value: self.value()?,
            }),
            name @ ("linkdirection" | "network" | "enable" | "hello") => self.link_setting(name),
            other => Err(expected(names, Some(other))),
        }
    }

    /// "Index is 0 for number and width".
    fn node_setting(&mut self, name: &str) -> Result<Setting, String> {
        self.nought("the index")?;
        let value = self.value()?;
        Ok(match name {
            "number" => Setting::Number { value },
            _ => Setting::Width { value },
        })
    }

    /// "index: the link, for these four"; "value is 0 for hello".
    fn link_setting(&mut self, name: &str) -> Result<Setting, String> {
        let link = self.link()?;
        if name == "hello" {
            self.nought("the value")?;
            return Ok(Setting::Hello { link });
        }
        let value = self.value()?;
        Ok(match name {
            "linkdirection" => Setting::LinkDirection { link, value },
            "network" => Setting::Network { link, value },
            _ => Setting::Enable { link, value },
        })
    }

    /// `SLOT CHANNELEND channel NUMBER CHANNEL NETWORK` or
    /// `SLOT CHANNELEND control NUMBER 0 NETWORK`.
    fn aim(&mut self) -> Result<Call, String> {
        let slot = self.slot()?;
        let channel_end = self.channel_end()?;
        let to = self.word("channel or control")?;
        let number = self.number("a node number")?;
        let destination = match to {
            "channel" => Destination::Channel {
                number,
                channel: self.index_of_32_bits("a channel")?,
            },
            "control" => {
                self.nought("the channel of a control unit")?;
                Destination::Control { number }
            }
            other => return Err(expected("channel or control", Some(other))),
        };
        Ok(Call::Aim {
            slot,
            channel_end,
            destination,
            network: self.number("a network")?,
        })
    }

    /// `SLOT CHANNELEND KIND VALUE`.
    fn output(&mut self) -> Result<Call, String> {
        Ok(Call::Output {
            slot: self.slot()?,
            channel_end: self.channel_end()?,
            kind: self.kind()?,
            value: self.number("a token value 0..255")?,
        })
    }

    /// `SLOT CHANNELEND KIND`.
    fn input(&mut self) -> Result<Call, String> {
        Ok(Call::Input {
            slot: self.slot()?,
            channel_end: self.channel_end()?,
            kind: self.kind()?,
        })
    }

    fn opening(&mut self) -> Result<Opening, String> {
        match self.word("link, channel or control")? {
            "link" => {
                let link = |n| (n < LINKS).then_some(Opening::Link(n));
                self.one_of("a link 0..7", link)
            }
            "channel" => Ok(Opening::Channel),
            "control" => Ok(Opening::Control),
            other => Err(expected("link, channel or control", Some(other))),
        }
    }

    fn cause(&mut self) -> Result<Cause, String> {
        match self.word("split or noroute")? {
            "split" => Ok(Cause::Split),
            "noroute" => Ok(Cause::NoRoute),
            other => Err(expected("split or noroute", Some(other))),
        }
    }
}
