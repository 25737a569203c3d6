//! The words of a line, read from left to right. An error says in which column, what was expected,
//! what stands there, and which of the words that may stand there is nearest to it.

use std::error::Error;
use std::fmt;

use crate::boards::Boards;
use crate::nearest::nearest;

/// What was expected, and what was found instead: `expected a link, found nothing`.
#[derive(Clone, Debug, PartialEq, Eq)]
pub struct Expected {
    said: String,
    column: usize,
}

impl Expected {
    /// The same, with how the whole is written.
    pub fn in_form(self, form: &str) -> Expected {
        let said = format!("{self} ({form})");
        Expected { said, ..self }
    }

    /// Where in its line it was expected: the letter, counted from 1.
    pub fn column(&self) -> usize {
        self.column
    }
}

impl fmt::Display for Expected {
    fn fmt(&self, f: &mut fmt::Formatter<'_>) -> fmt::Result {
        f.write_str(&self.said)
    }
}

impl Error for Expected {}

/// Words that are still to be read.
#[derive(Clone, Copy)]
pub struct Words<'a> {
    /// The line that they stand in.
    line: &'a str,
    /// Where the next one may begin, and where the last one ends, in bytes of the line.
    next: usize,
    end: usize,
    /// Where the one begins that was read last.
    last: usize,
    /// In a script for people the boards that have names: a name may then stand for a slot and a
    /// letter for a link, and a full stop parts words as a space does.
    boards: Option<&'a Boards>,
}

/// So much of a word is shown: a file that is no script may have words as long as itself.
const MOST_SHOWN: usize = 60;

fn shown(word: &str) -> String {
    match word.char_indices().nth(MOST_SHOWN) {
        Some((end, _)) => printable(&word[..end]) + "..",
        None if word.is_empty() => "nothing".to_owned(),
        None => printable(word),
    }
}

/// A text with its letters as they are, and by number what would move the cursor, end the line or
/// not be seen.
pub fn printable(text: &str) -> String {
    let quotes = ['\'', '"', '\\'];
    let one = |letter: char| match quotes.contains(&letter) {
        true => letter.to_string(),
        false => letter.escape_debug().to_string(),
    };
    text.chars().map(one).collect()
}

/// "Numbers are decimal, or hexadecimal with `0x`". No sign, no more than 64 bits.
pub fn number_of(word: &str) -> Option<u64> {
    let (digits, radix) = match word.strip_prefix("0x") {
        Some(digits) => (digits, 16),
        None => (word, 10),
    };
    if !digits.chars().all(|digit| digit.is_digit(radix)) {
        return None;
    }
    u64::from_str_radix(digits, radix).ok()
}

/// A list as a sentence has it: `data or control`.
pub fn either(names: &[&str]) -> String {
    match names {
        [] => String::new(),
        [only] => (*only).to_owned(),
        [most @ .., last] => format!("{} or {last}", most.join(", ")),
    }
}

impl<'a> Words<'a> {
    /// The words of a plain text.
    pub fn of(text: &'a str) -> Words<'a> {
        Words::within(text, text, None)
    }

    /// The words of a part of a line, which must be a part of that very text.
    pub fn within(line: &'a str, part: &'a str, boards: Option<&'a Boards>) -> Words<'a> {
        let next = (part.as_ptr() as usize).saturating_sub(line.as_ptr() as usize);
        Words {
            line,
            next,
            end: next + part.len(),
            last: next,
            boards,
        }
    }

    /// The names of boards that may stand for slots, where names may.
    pub fn boards(&self) -> Option<&'a Boards> {
        self.boards
    }

    /// Those that stand before this byte of the line, and those behind it.
    pub fn parted(self, at: usize) -> (Words<'a>, Words<'a>) {
        let before = Words { end: at, ..self };
        let next = (at + 1).min(self.end);
        let behind = Words {
            next,
            last: next,
            ..self
        };
        (before, behind)
    }

    /// Takes the next word off, which ends at a space or at any of these letters.
    fn take(&mut self, parted: impl Fn(char) -> bool) -> Option<&'a str> {
        let rest = &self.line[self.next..self.end];
        let word = rest.trim_start();
        if word.is_empty() {
            return None;
        }
        self.last = self.end - word.len();
        let ends = |letter: char| letter.is_whitespace() || parted(letter);
        let (length, parting) = match word.char_indices().find(|(_, letter)| ends(*letter)) {
            Some((length, letter)) => (length, letter.len_utf8()),
            None => (word.len(), 0),
        };
        self.next = self.last + length + parting;
        Some(&word[..length])
    }

    /// The next word, if there is one.
    pub fn next(&mut self) -> Option<&'a str> {
        let dotted = self.boards.is_some();
        self.take(|letter| dotted && letter == '.')
    }

    /// The next word.
    pub fn word(&mut self, what: &str) -> Result<&'a str, Expected> {
        let word = self.next();
        word.ok_or_else(|| self.unmet(what, None))
    }

    /// The next word with the full stops in it, if there is one.
    pub fn next_whole(&mut self) -> Option<&'a str> {
        self.take(|_| false)
    }

    /// The complaint that something else was expected than what was read last, or than nothing.
    pub fn unmet(&self, what: &str, found: Option<&str>) -> Expected {
        let place = match found {
            Some(_) => self.last,
            None => self.line[..self.end].trim_end().len(),
        };
        let found = found.map_or("nothing".to_owned(), shown);
        Expected {
            said: format!("expected {what}, found {found}"),
            column: self.line[..place].chars().count() + 1,
        }
    }

    /// The same, with the nearest of the words that may stand there.
    pub fn unmet_by<'b>(
        &self,
        what: &str,
        found: &str,
        words: impl IntoIterator<Item = &'b str>,
    ) -> Expected {
        let unmet = self.unmet(what, Some(found));
        match nearest(found, words) {
            Some(meant) => Expected {
                said: format!("{}, nearest is {meant}", unmet.said),
                ..unmet
            },
            None => unmet,
        }
    }

    /// The next word, where it has a meaning.
    pub fn meaning<T>(
        &mut self,
        what: &str,
        of: impl FnOnce(&str) -> Option<T>,
    ) -> Result<T, Expected> {
        let word = self.word(what)?;
        of(word).ok_or_else(|| self.unmet(what, Some(word)))
    }

    /// The next word, which is to be one of these; what it stands for.
    pub fn choice<T: Copy>(&mut self, choices: &[(&str, T)]) -> Result<T, Expected> {
        let word = self.next();
        let found = choices.iter().find(|(name, _)| Some(*name) == word);
        match found {
            Some((_, meant)) => Ok(*meant),
            None => {
                let names: Vec<&str> = choices.iter().map(|(name, _)| *name).collect();
                Err(self.no_choice(word, &names))
            }
        }
    }

    /// The complaint that it is none of these.
    pub fn no_choice(&self, word: Option<&str>, names: &[&str]) -> Expected {
        let what = either(names);
        match word {
            Some(word) => self.unmet_by(&what, word, names.iter().copied()),
            None => self.unmet(&what, None),
        }
    }

    /// The next word, which is to be this one.
    pub fn exactly(&mut self, name: &str) -> Result<(), Expected> {
        self.choice(&[(name, ())])
    }

    /// A number that the call can take: one that fits the type of its argument.
    pub fn number<T: TryFrom<u64>>(&mut self, what: &str) -> Result<T, Expected> {
        self.meaning(what, |word| T::try_from(number_of(word)?).ok())
    }

    /// A number that stands for something.
    pub fn number_for<T>(
        &mut self,
        what: &str,
        of: impl FnOnce(u32) -> Option<T>,
    ) -> Result<T, Expected> {
        self.meaning(what, |word| of(u32::try_from(number_of(word)?).ok()?))
    }

    /// The 0 that stands where a call has nothing to say.
    pub fn nought(&mut self, place: &str) -> Result<(), Expected> {
        let nought = |number: u32| (number == 0).then_some(());
        self.number_for(&format!("0 as {place}"), nought)
    }

    /// Whether another word follows.
    pub fn has_more(&self) -> bool {
        !self.line[self.next..self.end].trim_start().is_empty()
    }

    /// The next word, which stays.
    pub fn peek(&self) -> Option<&'a str> {
        let mut ahead = *self;
        ahead.next()
    }

    /// That there are no more words.
    pub fn end(&mut self) -> Result<(), Expected> {
        match self.take(|_| false) {
            None => Ok(()),
            more => Err(self.unmet("no more words", more)),
        }
    }
}
