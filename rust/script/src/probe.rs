//! `bench probe`: tokens as transitions of a link's wires, and back, for the logic probe.
//!
//! What is written and read is the proved library's ([`bench::probe`]); here stand the texts.

pub mod check;
mod csv;
pub mod recording;
pub mod text;
mod vcd;

use std::convert::Infallible;

use bench::probe::{self, Form, Refused};
use bench::sizes::{LINKS, PORTS};
use bench::{Looks, Token};

use crate::words::{Expected, Words};
use recording::{Recording, Unclear};

pub const HELP: &str = "\
bench probe port|line|write|read|tokens|check ..: tokens as transitions of a link's wires, and back

  bench probe port FILE SLOT PORT serial|fast
  bench probe line FILE SLOT LINK serial|fast
  bench probe write serial|fast
  bench probe read serial|fast
  bench probe tokens CAPTURE serial|fast WIRE WIRE ..
  bench probe check FILE

Tokens as transitions of a link's wires, and back, by the two forms of the maker's papers: serial, two
wires and ten transitions a token; fast, five wires and four transitions a sequence. A transition is a
digit, the number of the wire that changes. Every wire is low before the first.

  port     makes the calls of FILE and writes the tokens that a port then holds, oldest first
  line     the same of what is then on the line that starts at a link, the first to arrive first:
           tokens, credits and HELLO
  write    writes tokens that come in on standard input: data 42 control 1 ..
  read     reads digits that come in on standard input; blanks and ends of lines are passed over
  tokens   reads a file that a probe or an analyser has recorded, VCD or CSV. The wires are named in
           order, wire 0 first: two for serial, five for fast
  check    makes the lines of FILE, and compares with what they state

Tokens are printed as write reads them, and without the marks of a header. A header is written as the
tokens that it is made of.

write says bad PLACE where a token has no form: control 252 to 255 in fast, where they are the returns
that every reader passes over. PLACE counts tokens from 0. read and tokens say bad PLACE where a
sequence has no meaning or a wrong parity; PLACE counts transitions from 0, and tokens adds the time.
They say cut where the end is no whole sequence. The first that is found from the front is said, and
then nothing is printed.

In a VCD a wire is a variable of one bit, NAME or SCOPE.NAME. What stands at time 0, or before the first
time, is where the wires start; a wire that is not there starts low. A CSV has its columns' names in its
first line that has a comma, but for lines that begin with ; or #, and then an instant a line, a level 0
or 1 for each wire; a column whose name begins with Time has the instant's. Of a level that a wire
starts with nothing is asked. Two wires that change at one instant are refused with the time: nobody
knows which was first.

FILE of check has serial or fast on its first line. The others are, with // and empty lines between:

  write TOKENS = DIGITS       write TOKENS = bad PLACE
  read DIGITS = TOKENS        read DIGITS = bad PLACE       read DIGITS = cut

and either of them = nosuch, which is asked with room for one less than the whole result.

Exit status: 0 written or read, and all that is stated agrees; 1 it is bad, cut, or has two wires at one
instant, or a line differs; 2 a file that cannot be read, or a word that is not what is expected.
";

/// A port or a link of a board, and the form that its tokens are to be written in.
#[derive(Clone, Copy, Debug, PartialEq, Eq)]
pub struct Asked {
    pub slot: usize,
    /// The port, or the link.
    pub index: usize,
    pub form: Form,
}

impl Asked {
    /// `SLOT PORT serial|fast`, or with a link, of a command line.
    pub fn read(given: &[&str], what: &str) -> Result<Asked, Expected> {
        let text = given.join(" ");
        let mut words = Words::of(&text);
        let asked = Asked {
            slot: words.number("a slot")?,
            index: words.number(what)?,
            form: form(&mut words)?,
        };
        words.end()?;
        Ok(asked)
    }
}

/// `serial` or `fast`, and nothing else.
pub fn read_form(given: &str) -> Result<Form, Expected> {
    let mut words = Words::of(given);
    let form = form(&mut words)?;
    words.end()?;
    Ok(form)
}

fn form(words: &mut Words) -> Result<Form, Expected> {
    words.meaning("serial or fast", |word| {
        Form::ALL.into_iter().find(|form| form.name() == word)
    })
}

/// The complaint that something else was expected than this word, or than nothing.
fn unmet(what: &str, found: &str) -> Expected {
    match Words::of(found).meaning(what, |_| None::<Infallible>) {
        Err(expected) => expected,
        Ok(never) => match never {},
    }
}

/// That the board is there, and this place of it.
pub fn is_there(looks: Looks, asked: Asked, what: &str, most: usize) -> Result<(), String> {
    let Asked { slot, index, .. } = asked;
    match looks.nodes() {
        0 => return Err("no network: no fresh or blank of it succeeds".to_owned()),
        1 if slot > 0 => return Err(format!("no board {slot}: there is board 0 alone")),
        boards if slot >= boards => {
            let last = boards.saturating_sub(1);
            return Err(format!("no board {slot}: there are boards 0..{last}"));
        }
        _ => (),
    }
    if index >= most {
        let last = most - 1;
        return Err(format!("no {what} {index}: a board has {what}s 0..{last}"));
    }
    Ok(())
}

/// The words of the tokens that a port holds, oldest first.
pub fn port(looks: Looks, asked: Asked) -> Result<Vec<u16>, String> {
    is_there(looks, asked, "port", PORTS)?;
    let tokens = looks.port_tokens(asked.slot, asked.index);
    Ok(words_of(tokens))
}

/// The words of what is on the line that starts at a link, the first to arrive first.
pub fn line(looks: Looks, asked: Asked) -> Result<Vec<u16>, String> {
    is_there(looks, asked, "link", LINKS)?;
    let on_line = looks.line_tokens(asked.slot, asked.index);
    Ok(words_of(on_line))
}

/// Token words as the library takes them.
pub fn words_of(tokens: impl Iterator<Item = u32>) -> Vec<u16> {
    let tokens = tokens.filter_map(Token::from_word);
    tokens.map(Token::word).collect()
}

/// Tokens written, as a line of digits; nothing at all where there is no token.
pub fn written(form: Form, tokens: &[u16]) -> Result<String, Refused> {
    probe::write(form, tokens).map(|transitions| line_of(text::digits(&transitions)))
}

/// Transitions read, as a line of tokens; nothing at all where there is none.
pub fn read(form: Form, transitions: &[u8]) -> Result<String, Refused> {
    probe::read(form, transitions).map(|tokens| line_of(text::tokens(&tokens)))
}

fn line_of(text: String) -> String {
    match text.is_empty() {
        true => text,
        false => text + "\n",
    }
}

/// The transitions of a file that a probe has recorded.
pub fn recorded<'a>(file: &'a str, form: Form, wires: &[&str]) -> Result<Recording<'a>, Unclear> {
    if wires.len() != form.wires() {
        let what = format!("{} wires for {}", form.wires(), form.name());
        let found = wires.len().to_string();
        return Err(Unclear::Words(unmet(&what, &found)));
    }
    if let Some(twice) = named_twice(wires) {
        let what = "each wire under a name of its own";
        return Err(Unclear::Words(unmet(what, twice)));
    }
    // Some programs begin a text with a mark of its order of bytes.
    let file = file.strip_prefix('\u{feff}').unwrap_or(file);
    // Every VCD has this keyword, and no CSV has.
    match file.contains(vcd::END_OF_NAMES) {
        true => vcd::read(file, wires),
        false => csv::read(file, wires),
    }
}

fn named_twice<'a>(wires: &[&'a str]) -> Option<&'a str> {
    let is_before = |place: usize| wires[..place].contains(&wires[place]);
    let twice = (0..wires.len()).find(|place| is_before(*place));
    twice.map(|place| wires[place])
}
