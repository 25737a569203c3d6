//! Tokens as transitions of a link's wires, for the logic probe: written, and read back.
//!
//! A transition is the number of the wire that changes, 0 or 1 on the serial link, 0 to 4 on the fast
//! one. Tokens are words as [`Token`](crate::Token) reads them, and may be a port's, with the marks of
//! a header: what is read back has none. Every wire is low at the beginning.
//!
//! ```
//! use bench::probe::{self, Form, Refused};
//!
//! // Control token 9 and END, as the maker's paper has them.
//! let written = probe::write(Form::Fast, &[0x109, 0x101]).unwrap();
//! assert_eq!(written, [0, 2, 1, 4, 4, 4, 0, 1, 4, 3, 3, 2]);
//! assert_eq!(probe::read(Form::Fast, &written), Ok(vec![0x109, 0x101]));
//!
//! assert_eq!(probe::read(Form::Fast, &[0, 2, 1, 4, 4]), Err(Refused::Cut));
//! assert_eq!(probe::read(Form::Fast, &[0, 2, 1, 4, 0, 0, 1, 4]), Err(Refused::Bad { place: 4 }));
//! ```

use std::error::Error;
use std::fmt;

use crate::raw;

/// What writing tokens as transitions, or reading a capture, came to. Every answer but
/// [`Filled`](Probed::Filled) is a refusal, and has left the buffer as it was.
#[derive(Clone, Copy, Debug, PartialEq, Eq)]
pub enum Probed {
    /// So many words of the buffer were filled, from its start; those behind are as they were.
    Filled(usize),
    /// The word, or the sequence that begins, at this place of the list or capture has no form or no
    /// meaning. Places are counted from 0; a sequence begins at a multiple of 10 or of 4.
    Bad(usize),
    /// The capture ends within a sequence.
    Cut,
    /// The buffer is too short for the whole result.
    NoSuch,
}

impl Probed {
    /// The answer of a number and of the word that it bears.
    pub(crate) fn from_crossed(number: u8, value: usize) -> Option<Probed> {
        match number {
            0 => Some(Probed::Filled(value)),
            2 => Some(Probed::NoSuch),
            14 => Some(Probed::Bad(value)),
            15 => Some(Probed::Cut),
            _ => None,
        }
    }
}

impl From<Probed> for Result<usize, Refused> {
    /// How many, or the refusal.
    fn from(probed: Probed) -> Result<usize, Refused> {
        match probed {
            Probed::Filled(count) => Ok(count),
            Probed::Bad(place) => Err(Refused::Bad { place }),
            Probed::Cut => Err(Refused::Cut),
            Probed::NoSuch => Err(Refused::NoSuch),
        }
    }
}

impl fmt::Display for Probed {
    fn fmt(&self, to: &mut fmt::Formatter<'_>) -> fmt::Result {
        match self {
            Probed::Filled(count) => write!(to, "filled {count}"),
            Probed::Bad(place) => write!(to, "bad {place}"),
            Probed::Cut => write!(to, "cut"),
            Probed::NoSuch => write!(to, "nosuch"),
        }
    }
}

impl Error for Probed {}

/// How a link uses its wires.
#[derive(Clone, Copy, Debug, PartialEq, Eq, Hash)]
pub enum Form {
    /// Two wires, ten transitions for each token.
    Serial,
    /// Five wires, four transitions for each sequence: a token, or one that returns wires to low.
    Fast,
}

impl Form {
    pub const ALL: [Form; 2] = [Form::Serial, Form::Fast];

    /// How many wires there are in one direction.
    pub const fn wires(self) -> usize {
        match self {
            Form::Serial => 2,
            Form::Fast => 5,
        }
    }

    /// How many transitions a sequence has.
    pub const fn sequence(self) -> usize {
        match self {
            Form::Serial => 10,
            Form::Fast => 4,
        }
    }

    /// What the form is called.
    ///
    /// ```
    /// assert_eq!(bench::probe::Form::Fast.name(), "fast");
    /// ```
    pub fn name(self) -> &'static str {
        match self {
            Form::Serial => "serial",
            Form::Fast => "fast",
        }
    }
}

/// Why nothing was written or read: what is first from the front, and the room last.
#[derive(Clone, Copy, Debug, PartialEq, Eq, Hash)]
#[non_exhaustive]
pub enum Refused {
    /// Of reading: the sequence that begins at this transition, counted from 0, has no meaning. Of
    /// writing: the word at this place, counted from 0, has no form.
    Bad { place: usize },
    /// Some transitions at the end are no whole sequence.
    Cut,
    /// The buffer is too short for the whole result.
    NoSuch,
}

impl fmt::Display for Refused {
    fn fmt(&self, f: &mut fmt::Formatter<'_>) -> fmt::Result {
        match self {
            Refused::Bad { place } => write!(f, "bad {place}"),
            Refused::Cut => f.write_str("cut"),
            Refused::NoSuch => f.write_str("nosuch"),
        }
    }
}

impl Error for Refused {}

/// Writes tokens, oldest first. No token takes more than ten transitions, in either form.
pub fn write(form: Form, tokens: &[u16]) -> Result<Vec<u8>, Refused> {
    let mut transitions = vec![0; 10 * tokens.len()];
    let count = write_into(form, tokens, &mut transitions)?;
    transitions.truncate(count);
    Ok(transitions)
}

/// Reads transitions as tokens, oldest first. There are no more tokens than sequences.
pub fn read(form: Form, transitions: &[u8]) -> Result<Vec<u16>, Refused> {
    let mut tokens = vec![0; transitions.len() / form.sequence()];
    let count = read_into(form, transitions, &mut tokens)?;
    tokens.truncate(count);
    Ok(tokens)
}

/// Writes tokens into a buffer of your own: how many transitions they took. What stands behind them,
/// and all of it where nothing is written, stays as it was.
pub fn write_into(form: Form, tokens: &[u16], out: &mut [u8]) -> Result<usize, Refused> {
    let write = match form {
        Form::Serial => raw::write_serial,
        Form::Fast => raw::write_fast,
    };
    write(tokens, out).into()
}

/// Reads transitions into a buffer of your own: how many tokens they are. What stands behind them, and
/// all of it where nothing is read, stays as it was.
pub fn read_into(form: Form, transitions: &[u8], out: &mut [u16]) -> Result<usize, Refused> {
    let read = match form {
        Form::Serial => raw::read_serial,
        Form::Fast => raw::read_fast,
    };
    read(transitions, out).into()
}
