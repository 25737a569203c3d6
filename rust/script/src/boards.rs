//! The names that a script gives to boards.

use std::collections::BTreeMap;

/// Boards by name, and names by slot.
#[derive(Clone, Debug, Default, PartialEq, Eq)]
pub struct Boards {
    slots: BTreeMap<String, usize>,
    names: BTreeMap<usize, String>,
}

/// Words that stand where a board's name may, so that no board is called so.
const RESERVED: [&str; 1] = ["number"];

/// Whether a word can be a board's name: it begins with a letter, and has letters, digits, `-` and `_`.
pub fn is_name(word: &str) -> bool {
    let fits = |letter: char| letter.is_alphanumeric() || letter == '-' || letter == '_';
    word.starts_with(char::is_alphabetic) && word.chars().all(fits) && !RESERVED.contains(&word)
}

impl Boards {
    /// Gives a name to the board in a slot. A board that has one keeps it for what is said of it.
    pub fn give(&mut self, name: &str, slot: usize) {
        self.slots.insert(name.to_owned(), slot);
        self.names.entry(slot).or_insert_with(|| name.to_owned());
    }

    pub fn slot(&self, name: &str) -> Option<usize> {
        self.slots.get(name).copied()
    }

    /// All names.
    pub fn names(&self) -> impl Iterator<Item = &str> {
        self.slots.keys().map(String::as_str)
    }

    /// What the board in a slot is called: `hub`, or `board 0` where it has no name.
    pub fn called(&self, slot: usize) -> String {
        match self.names.get(&slot) {
            Some(name) => name.clone(),
            None => format!("board {slot}"),
        }
    }
}
