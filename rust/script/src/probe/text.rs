//! Tokens and transitions as text.

use bench::{Kind, Token};

use super::unmet;
use crate::words::{Expected, Words};

/// `data 42 control 1 ..`, as the words of unmarked tokens.
pub fn read_tokens(text: &str) -> Result<Vec<u16>, Expected> {
    let mut words = Words::of(text);
    let mut tokens = Vec::new();
    while words.has_more() {
        let kind = words.meaning("data or control", |word| match word {
            "data" => Some(Kind::Data),
            "control" => Some(Kind::Control),
            _ => None,
        })?;
        let value = words.number("a token value 0..255")?;
        let header = None;
        let token = Token {
            kind,
            value,
            header,
        };
        tokens.push(token.word());
    }
    Ok(tokens)
}

/// The same text of tokens, whose marks are not shown.
pub fn tokens(words: &[u16]) -> String {
    let tokens = words
        .iter()
        .filter_map(|word| Token::from_word((*word).into()));
    let shown = tokens.map(|token| match token.kind {
        Kind::Data => format!("data {}", token.value),
        Kind::Control => format!("control {}", token.value),
    });
    shown.collect::<Vec<_>>().join(" ")
}

/// Digits, one a transition, with blanks anywhere. A digit may be no wire of a form: that is for the
/// reader to say.
pub fn read_digits(text: &str) -> Result<Vec<u8>, Expected> {
    let mut transitions = Vec::with_capacity(text.len());
    for letter in text.chars().filter(|letter| !letter.is_whitespace()) {
        match letter.to_digit(10) {
            Some(digit) => transitions.push(digit as u8),
            None => {
                let found = letter.to_string();
                return Err(unmet("a digit, the number of a wire", &found));
            }
        }
    }
    Ok(transitions)
}

/// Transitions as digits.
pub fn digits(transitions: &[u8]) -> String {
    // Every wire that is written is 0..4.
    let digit = |wire: &u8| char::from_digit((*wire).into(), 10).unwrap_or('?');
    transitions.iter().map(digit).collect()
}
