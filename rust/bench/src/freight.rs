//! What is on a line, as a word shows it.

use crate::token::{Kind, Token};

/// One thing on its way over a cable. "Document 002 section 3 sends HELLO and credits as tokens"
/// (document 02, Ask 4): control tokens that Output never lets out and that no port holds.
#[derive(Clone, Copy, Debug, PartialEq, Eq)]
pub enum Freight {
    /// A token on its way to the far port.
    Token(Token),
    /// So much credit for the far link: 8, 16 or 64.
    Credit(u32),
    Hello,
}

impl Freight {
    /// What a word on a line stands for; none where it is no token's word.
    ///
    /// ```
    /// use bench::{Freight, Token};
    ///
    /// assert_eq!(Freight::from_word(0x1E1), Some(Freight::Credit(64)));
    /// assert_eq!(Freight::from_word(0x1E6), Some(Freight::Hello));
    /// let data = Token::from_word(0xE1).unwrap();
    /// assert_eq!(Freight::from_word(0xE1), Some(Freight::Token(data)));
    /// assert_eq!(Freight::from_word(0x4E1), None);
    /// ```
    pub fn from_word(word: u32) -> Option<Freight> {
        let token = Token::from_word(word)?;
        Some(match (token.kind, token.header, token.value) {
            (Kind::Control, None, 0xE0) => Freight::Credit(8),
            (Kind::Control, None, 0xE4) => Freight::Credit(16),
            (Kind::Control, None, 0xE1) => Freight::Credit(64),
            (Kind::Control, None, 0xE6) => Freight::Hello,
            _ => Freight::Token(token),
        })
    }
}
