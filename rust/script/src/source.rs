//! The text of a script, from a file of any size and any contents.

use std::error::Error;
use std::fmt;
use std::fs::File;
use std::io::{self, Read};
use std::path::Path;
use std::string::FromUtf8Error;

use crate::words::printable;

/// The most bytes that a script may have: it is read whole before any call is made.
pub const MOST_BYTES: u64 = 64 << 20;

/// Why a file has no script.
#[derive(Debug)]
#[non_exhaustive]
pub enum Unread {
    /// It cannot be opened or read.
    File(io::Error),
    /// It has more than [`MOST_BYTES`].
    TooLong,
    /// From this line on it is no text in UTF-8.
    NoText { line: usize },
}

impl fmt::Display for Unread {
    fn fmt(&self, f: &mut fmt::Formatter<'_>) -> fmt::Result {
        match self {
            Unread::File(error) => write!(f, "{error}"),
            Unread::TooLong => write!(f, "more than {} MiB, too long", MOST_BYTES >> 20),
            Unread::NoText { line } => write!(f, "line {line}: no text in UTF-8"),
        }
    }
}

impl Error for Unread {}

/// Reads a script.
pub fn read(path: &Path) -> Result<String, Unread> {
    text(bytes(path))
}

/// Reads what comes in, as from standard input, to its end.
pub fn read_from(incoming: impl Read) -> Result<String, Unread> {
    text(limited(incoming))
}

fn text(bytes: io::Result<Option<Vec<u8>>>) -> Result<String, Unread> {
    let bytes = bytes.map_err(Unread::File)?;
    let bytes = bytes.ok_or(Unread::TooLong)?;
    String::from_utf8(bytes).map_err(|error| no_text(&error))
}

/// What a file is called in a message, which stays one line whatever the name has in it.
pub fn name(path: &Path) -> String {
    printable(&path.to_string_lossy())
}

/// All bytes of a file; none where they are too many. One that states its length is then not read,
/// and of an endless one no more than the limit.
fn bytes(path: &Path) -> io::Result<Option<Vec<u8>>> {
    let file = File::open(path)?;
    if file.metadata()?.len() > MOST_BYTES {
        return Ok(None);
    }
    limited(file)
}

fn limited(incoming: impl Read) -> io::Result<Option<Vec<u8>>> {
    let mut bytes = Vec::new();
    incoming.take(MOST_BYTES + 1).read_to_end(&mut bytes)?;
    Ok((bytes.len() as u64 <= MOST_BYTES).then_some(bytes))
}

/// The line that has the first bytes that are no text.
fn no_text(error: &FromUtf8Error) -> Unread {
    let good = &error.as_bytes()[..error.utf8_error().valid_up_to()];
    let line = 1 + good.iter().filter(|byte| **byte == b'\n').count();
    Unread::NoText { line }
}
