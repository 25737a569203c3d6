//! Reading a script of either kind: plain calls, and words for people.

use crate::boards::Boards;
use crate::call::Call;
use crate::host::Outcome;
use crate::parse::{read_plain, BadLine};
use crate::people::{read_words, Word};
use crate::words::Expected;

/// A script that can be read to its end. Its lines are read once more when their turn comes: a script
/// may be long, and what its lines stand for longer.
#[derive(Clone, Debug, PartialEq, Eq)]
pub struct Script<'a> {
    text: &'a str,
    /// The boards that it gives names to.
    pub boards: Boards,
}

impl<'a> Script<'a> {
    /// Its lines that are not empty, in order.
    pub fn entries(&self) -> impl Iterator<Item = Entry<'a>> {
        // Each was read before.
        Entries::of(self.text).filter_map(Result::ok)
    }
}

/// A line that is not empty.
#[derive(Clone, Debug, PartialEq, Eq)]
pub struct Entry<'a> {
    /// Counted from 1, through all lines of the script.
    pub line: usize,
    /// As it is written, without the spaces around it and without a comment behind it.
    pub text: &'a str,
    pub said: Said,
}

/// What a line says.
#[derive(Clone, Debug, PartialEq, Eq)]
pub enum Said {
    Comment,
    /// A plain call, and what the line states of it.
    Plain {
        call: Call,
        stated: Option<Outcome>,
    },
    Words(Word),
}

impl Said {
    /// Whether it is the word `settle`.
    pub fn settles(&self) -> bool {
        *self == Said::Words(Word::Settle)
    }
}

/// Reads a script of either kind, or says what is wrong with the first line that is neither a call
/// nor words. In a plain call of it a board's name may stand for a slot, and a link's letter for a
/// link.
pub fn read(text: &str) -> Result<Script<'_>, BadLine> {
    let mut entries = Entries::of(text);
    for entry in &mut entries {
        entry?;
    }
    let boards = entries.boards;
    Ok(Script { text, boards })
}

/// The lines of a script, one by one, with the boards that have names by then.
struct Entries<'a> {
    lines: std::iter::Enumerate<std::str::Lines<'a>>,
    boards: Boards,
}

impl<'a> Entries<'a> {
    fn of(text: &'a str) -> Entries<'a> {
        Entries {
            lines: text.lines().enumerate(),
            boards: Boards::default(),
        }
    }
}

impl<'a> Iterator for Entries<'a> {
    type Item = Result<Entry<'a>, BadLine>;

    fn next(&mut self) -> Option<Self::Item> {
        let (index, written) = self.lines.find(|(_, line)| !line.trim().is_empty())?;
        let line = index + 1;
        Some(match read_entry(written, &mut self.boards) {
            Ok((text, said)) => Ok(Entry { line, text, said }),
            Err(expected) => Err(BadLine { line, expected }),
        })
    }
}

/// What a line says, and its text.
fn read_entry<'a>(line: &'a str, boards: &mut Boards) -> Result<(&'a str, Said), Expected> {
    match line.find(COMMENT) {
        Some(at) if line[..at].trim().is_empty() => Ok((line.trim(), Said::Comment)),
        Some(at) => Ok((line[..at].trim(), read_said(&line[..at], boards)?)),
        None => Ok((line.trim(), read_said(line, boards)?)),
    }
}

const COMMENT: &str = "//";

fn read_said(line: &str, boards: &mut Boards) -> Result<Said, Expected> {
    let Some(word) = read_words(line, boards)? else {
        let (call, stated) = read_plain(line, Some(boards))?;
        return Ok(Said::Plain { call, stated });
    };
    if let Word::Board {
        name: Some(name),
        slot,
        ..
    } = &word
    {
        boards.give(name, *slot);
    }
    Ok(Said::Words(word))
}
