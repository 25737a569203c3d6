//! Reading a line of words for people.

use bench::{Kind, LinkEnd, Setting, StepRecord};

use super::{start, End, Put, Request, Whose, Word, FORMS};
use crate::boards::{is_name, Boards};
use crate::call::{self, Call};
use crate::names::{CONTROLS, UNNAMED};
use crate::parse::{channel_end, link_end, record, slot};
use crate::rounds::MOST_STEPS;
use crate::words::{either, number_of, Expected, Words};

/// Reads a line of words; none where it is a plain call.
pub fn read_words(line: &str, boards: &Boards) -> Result<Option<Word>, Expected> {
    let mut words = Words::within(line, line, Some(boards));
    let name = words.next();
    let is_named = |(known, _): &&(&str, &str)| Some(*known) == name;
    match (
        FORMS.iter().find(is_named),
        call::FORMS.iter().find(is_named),
    ) {
        (Some((name, form)), _) if is_for_people(name, line) => {
            let read = word_named(name, line, words);
            read.map(Some).map_err(|wrong| wrong.in_form(form))
        }
        (None, None) => Err(words.no_choice(name, &all_names())),
        _ => Ok(None),
    }
}

/// What a line may begin with, of either kind.
fn all_names() -> Vec<&'static str> {
    let plain = call::FORMS.iter().map(|(name, _)| *name);
    let words = FORMS.iter().map(|(name, _)| *name);
    let words = words.filter(|name| call::FORMS.iter().all(|(plain, _)| plain != name));
    plain.chain(words).collect()
}

/// Some words are plain calls too: a start that has its memories' lengths, a single Step of a port or
/// of a line.
fn is_for_people(name: &str, line: &str) -> bool {
    let mut words = line.split_whitespace();
    match name {
        "fresh" | "blank" => words.count() == 2,
        "step" | "line" => words.next_back() == Some("times"),
        _ => true,
    }
}

fn word_named(name: &str, line: &str, mut words: Words) -> Result<Word, Expected> {
    let word = match name {
        "fresh" | "blank" => {
            let boards = words.number("a number of boards")?;
            Word::Calls(vec![start(name, boards)])
        }
        "board" => board(&mut words)?,
        "cable" => Word::Cable {
            one: link_end(&mut words)?,
            other: link_end(&mut words)?,
        },
        "route" => route(&mut words)?,
        "link" => link(&mut words)?,
        "step" | "line" => times(name, &mut words)?,
        "settle" => Word::Settle,
        // The others have a colon.
        _ => return with_tokens(name, line, words),
    };
    words.end()?;
    Ok(word)
}

/// `send`, `message` and `receive`: what stands before the colon, and what behind.
fn with_tokens(name: &str, line: &str, words: Words) -> Result<Word, Expected> {
    let Some((head, _)) = line.split_once(':') else {
        return Err(words.unmet("a colon and what is meant", None));
    };
    let (mut head, mut rest) = words.parted(head.len());
    let word = match name {
        "send" => send(&mut head, &mut rest)?,
        "message" => message(&mut head, &mut rest)?,
        _ => receive(&mut head, &mut rest)?,
    };
    head.end()?;
    rest.end()?;
    Ok(word)
}

/// `NAME SLOT ..` of a board that gets its name here, else `BOARD ..`.
fn board(words: &mut Words) -> Result<Word, Expected> {
    let known = words.boards().and_then(|boards| boards.slot(words.peek()?));
    let is_number = words.peek().is_some_and(|word| number_of(word).is_some());
    let (name, slot) = match known.is_some() || is_number {
        true => (None, slot(words)?),
        false => {
            let what =
                "a name for a board: a letter, then letters, digits, - and _, and not number";
            let name = words.meaning(what, |word| is_name(word).then(|| word.to_owned()))?;
            (Some(name), words.number("the slot of the board")?)
        }
    };
    let mut settings = Vec::new();
    while words.has_more() {
        settings.push(match words.choice(&[("number", true), ("width", false)])? {
            true => Setting::Number(words.number("a board's number")?),
            false => Setting::Width(words.number("a width, 1 or 3")?),
        });
    }
    Ok(Word::Board {
        name,
        slot,
        settings,
    })
}

/// `BOARD bit BIT -> direction DIRECTION`, or bits `FIRST..LAST`.
fn route(words: &mut Words) -> Result<Word, Expected> {
    let slot = slot(words)?;
    words.choice(&[("bit", ()), ("bits", ())])?;
    let word = words.next_whole();
    let Some(bits) = word.and_then(bits) else {
        return Err(words.unmet("a bit, or bits FIRST..LAST of 0..15", word));
    };
    words.exactly("->")?;
    words.exactly("direction")?;
    let direction = words.number("a direction")?;
    Ok(Word::Route {
        slot,
        bits,
        direction,
    })
}

/// A single bit may be one that is not there, as for the call; of several each is.
fn bits(word: &str) -> Option<(u32, u32)> {
    let bit = |word: &str| u32::try_from(number_of(word)?).ok();
    match word.split_once("..") {
        Some((first, last)) => {
            let (first, last) = (bit(first)?, bit(last)?);
            (first <= last && last < bench::sizes::BITS).then_some((first, last))
        }
        None => bit(word).map(|bit| (bit, bit)),
    }
}

/// `BOARD.LINK` and what is set of it, in the order written.
fn link(words: &mut Words) -> Result<Word, Expected> {
    let LinkEnd { slot, link } = link_end(words)?;
    let mut calls = Vec::new();
    while words.has_more() || calls.is_empty() {
        calls.push(link_call(slot, link, words)?);
    }
    Ok(Word::Calls(calls))
}

fn link_call(slot: usize, link: usize, words: &mut Words) -> Result<Call, Expected> {
    let names = ["direction", "network", "enable", "disable", "hello"];
    let setting = match words.choice(&names.map(|name| (name, name)))? {
        "direction" => {
            let value = words.number("a direction")?;
            Setting::LinkDirection { link, value }
        }
        "network" => {
            let value = words.number("a network")?;
            Setting::Network { link, value }
        }
        "enable" => Setting::Enable { link, value: 1 },
        "disable" => Setting::Enable { link, value: 0 },
        _ => return Ok(Call::Hello { slot, link }),
    };
    Ok(Call::Set { slot, setting })
}

/// `BOARD.PORT COUNT times`, or with a link, of a line.
fn times(name: &str, words: &mut Words) -> Result<Word, Expected> {
    let step = match name {
        "step" => {
            let StepRecord { slot, port } = record(words)?;
            Call::Step { slot, port }
        }
        _ => {
            let LinkEnd { slot, link } = link_end(words)?;
            Call::Line { slot, link }
        }
    };
    let most = |count: u32| (count as usize <= MOST_STEPS).then_some(count as usize);
    let count = words.number_for(&format!("a count, at most {MOST_STEPS}"), most)?;
    words.exactly("times")?;
    Ok(Word::Times { step, count })
}

/// `BOARD.CHANNELEND`.
fn end(words: &mut Words) -> Result<End, Expected> {
    Ok(End {
        slot: slot(words)?,
        channel_end: channel_end(words)?,
    })
}

/// `to BOARD` or `to number NUMBER`.
fn whose(words: &mut Words) -> Result<Whose, Expected> {
    words.exactly("to")?;
    match words.peek() {
        Some("number") => {
            words.exactly("number")?;
            Ok(Whose::Number(words.number("a number of 32 bits")?))
        }
        _ => slot(words).map(Whose::Board),
    }
}

/// `.CHANNEL` of a board, `channel CHANNEL` of a number.
fn channel(words: &mut Words, whose: Whose) -> Result<u32, Expected> {
    if let Whose::Number(_) = whose {
        words.exactly("channel")?;
    }
    words.number("a channel")
}

/// `on network NETWORK`, which may be left out.
fn network(words: &mut Words) -> Result<u32, Expected> {
    if !words.has_more() {
        return Ok(0);
    }
    words.exactly("on")?;
    words.exactly("network")?;
    words.number("a network")
}

fn send(head: &mut Words, rest: &mut Words) -> Result<Word, Expected> {
    let from = end(head)?;
    let to = match head.has_more() {
        true => {
            let whose = whose(head)?;
            Some((whose, channel(head, whose)?, network(head)?))
        }
        false => None,
    };
    let tokens = tokens(rest, &[])?.unwrap_or_default();
    Ok(Word::Send { from, to, tokens })
}

fn message(head: &mut Words, rest: &mut Words) -> Result<Word, Expected> {
    let (from, to) = (end(head)?, whose(head)?);
    let network = network(head)?;
    let is_write = rest.choice(&[("write", true), ("read", false)])?;
    let address = rest.number("a register's address of 16 bits")?;
    let request = match is_write {
        true => Request::Write {
            address,
            value: rest.number("a value of 32 bits")?,
        },
        false => Request::Read { address },
    };
    Ok(Word::Message {
        from,
        to,
        network,
        request,
    })
}

/// The word of a channel-end that holds nothing.
const NOTHING: &str = "nothing";

fn receive(head: &mut Words, rest: &mut Words) -> Result<Word, Expected> {
    let end = end(head)?;
    let tokens = tokens(rest, &[NOTHING])?;
    Ok(Word::Receive { end, tokens })
}

/// One token or more; none where one of these words stands in their place.
fn tokens(words: &mut Words, instead: &[&str]) -> Result<Option<Vec<Put>>, Expected> {
    if words.peek().is_some_and(|word| instead.contains(&word)) {
        words.next();
        return Ok(None);
    }
    let mut tokens = vec![token(words, instead)?];
    while words.has_more() {
        tokens.push(token(words, &[])?);
    }
    Ok(Some(tokens))
}

/// Data by its value, control by its name or as `control-VALUE`.
fn token(words: &mut Words, instead: &[&str]) -> Result<Put, Expected> {
    let word = words.next_whole();
    word.and_then(put)
        .ok_or_else(|| no_token(words, word, instead))
}

fn no_token(words: &Words, word: Option<&str>, instead: &[&str]) -> Expected {
    let names: Vec<&str> = CONTROLS.iter().map(|(name, _)| *name).collect();
    let names = [&names, instead].concat();
    let unnamed = format!("{UNNAMED}VALUE");
    let all = [&["a value 0..255"], &names[..], &[&unnamed]].concat();
    let what = format!("a token: {}", either(&all));
    match word {
        Some(word) => words.unmet_by(&what, word, names),
        None => words.unmet(&what, None),
    }
}

fn put(word: &str) -> Option<Put> {
    let byte = |word: &str| u8::try_from(number_of(word)?).ok();
    let named = CONTROLS.iter().find(|(name, _)| *name == word);
    let control = match (named, word.strip_prefix(UNNAMED)) {
        (Some((_, value)), _) => Some(*value),
        (None, Some(value)) => Some(byte(value)?),
        (None, None) => None,
    };
    match control {
        Some(value) => Some(Put {
            kind: Kind::Control,
            value,
        }),
        None => byte(word).map(|value| Put {
            kind: Kind::Data,
            value,
        }),
    }
}
