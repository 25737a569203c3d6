//! Tokens, as a word shows them.

/// A token is data or control.
#[derive(Clone, Copy, Debug, PartialEq, Eq)]
pub enum Kind {
    Data,
    Control,
}

/// How many bytes the header has that a token is part of.
#[derive(Clone, Copy, Debug, PartialEq, Eq)]
pub enum Width {
    One,
    Three,
}

/// A token as the bench holds it.
#[derive(Clone, Copy, Debug, PartialEq, Eq)]
pub struct Token {
    pub kind: Kind,
    pub value: u8,
    /// The width of the header that it is part of, if it is.
    pub header: Option<Width>,
}

impl Token {
    /// The token of a word: the value in bits 0..7, bit 8 control, bit 9 part of a header, bit 10,
    /// with bit 9, of a three-byte header. No token has other marks.
    ///
    /// ```
    /// use bench::{Kind, Token, Width};
    ///
    /// let last = Token { kind: Kind::Control, value: 0xC3, header: Some(Width::Three) };
    /// assert_eq!(Token::from_word(0x7C3), Some(last));
    /// assert_eq!(Token::from_word(0x4C3), None);
    /// ```
    pub fn from_word(word: u32) -> Option<Token> {
        let header = match word >> 9 {
            0 => None,
            1 => Some(Width::One),
            3 => Some(Width::Three),
            _ => return None,
        };
        let control = word >> 8 & 1 == 1;
        Some(Token {
            kind: if control { Kind::Control } else { Kind::Data },
            value: word.to_le_bytes()[0],
            header,
        })
    }

    /// Its word, which [`Token::from_word`] reads.
    ///
    /// ```
    /// use bench::Token;
    ///
    /// for word in (0..0x400).chain(0x600..0x800) {
    ///     assert_eq!(Token::from_word(word).map(|token| u32::from(token.word())), Some(word));
    /// }
    /// ```
    pub fn word(self) -> u16 {
        let marks = match self.header {
            None => 0,
            Some(Width::One) => 1 << 9,
            Some(Width::Three) => 3 << 9,
        };
        let control = u16::from(self.kind == Kind::Control) << 8;
        marks | control | u16::from(self.value)
    }
}
