//! Transitions for the logic probe (document 02, Ask 8): tokens written as changes of wires and
//! read back, by 002 sections 4.2 and 4.3, with 000 section 3.1 where it says more.
//!
//! "A transition on one of the five wires transmits a *symbol*": a transition is the number of the
//! wire that changes, and a symbol is the same number. Levels follow from "the links assume that
//! they start low" (002, 4.4).

mod fast;
mod serial;
mod wires;

pub use wires::Wires;

use crate::tokens::Token;

/// "XMOS links can be switched between a slow serial mode [...], and a fast, wide mode".
#[derive(Clone, Copy, Debug, PartialEq, Eq)]
pub enum Form {
    Serial,
    Fast,
}

/// Why nothing was written or read: "the first found from the front is given, NoSuch last".
#[derive(Clone, Copy, Debug, PartialEq, Eq)]
pub enum Refused {
    /// "a sequence of no meaning or bad parity names its place": how many transitions stand before
    /// it. Of writing: how many tokens stand before the one that has no form.
    Bad(usize),
    /// "a short capture says Cut"
    Cut,
    /// "an output buffer too short for the whole result is NoSuch"
    NoSuch,
}

/// What one sequence of transitions says.
#[derive(Clone, Copy, Debug, PartialEq, Eq)]
pub enum Says {
    Token(Token),
    /// A token "that is ignored by the receiver": it only returns wires to low.
    Return,
    Nothing,
}

impl Form {
    pub const ALL: [Form; 2] = [Form::Serial, Form::Fast];

    /// How many transitions a sequence has.
    pub fn sequence(self) -> usize {
        match self {
            Form::Serial => serial::TRANSITIONS,
            Form::Fast => fast::TRANSITIONS,
        }
    }

    /// What a sequence says, of so many transitions as the form has.
    pub fn says(self, sequence: &[u8]) -> Says {
        match self {
            Form::Serial => serial::says(sequence),
            Form::Fast => fast::says(sequence),
        }
    }

    /// One token, written when the wires are so; none where it has no form. A header's mark is not
    /// looked at.
    pub fn one(self, wires: Wires, token: Token) -> Option<Vec<u8>> {
        match self {
            Form::Serial => Some(serial::write(token)),
            Form::Fast => fast::write(wires, token),
        }
    }
}

/// Writes tokens, oldest first, as transitions of wires that are low before, where there is room
/// for so many transitions.
pub fn write(form: Form, tokens: &[Token], room: usize) -> Result<Vec<u8>, Refused> {
    let mut wires = Wires::LOW;
    let mut transitions = Vec::new();
    for (place, token) in tokens.iter().enumerate() {
        let one = form.one(wires, *token).ok_or(Refused::Bad(place))?;
        wires = wires.after(&one);
        transitions.extend(one);
    }
    within(room, transitions)
}

/// Reads transitions as tokens, oldest first and without marks, where there is room for so many
/// tokens.
pub fn read(form: Form, transitions: &[u8], room: usize) -> Result<Vec<Token>, Refused> {
    let sequences = transitions.chunks_exact(form.sequence());
    let is_cut = !sequences.remainder().is_empty();
    let mut tokens = Vec::new();
    for (count, sequence) in sequences.enumerate() {
        match form.says(sequence) {
            Says::Token(token) => tokens.push(token),
            Says::Return => (),
            Says::Nothing => return Err(Refused::Bad(count * form.sequence())),
        }
    }
    if is_cut {
        return Err(Refused::Cut);
    }
    within(room, tokens)
}

fn within<T>(room: usize, all: Vec<T>) -> Result<Vec<T>, Refused> {
    match all.len() <= room {
        true => Ok(all),
        false => Err(Refused::NoSuch),
    }
}
