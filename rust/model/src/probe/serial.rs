//! The serial link: 002, 4.2; 000, 3.1.1.

use super::Says;
use crate::tokens::{Kind, Token};

/// "For each token 10 transitions are made."
pub const TRANSITIONS: usize = 10;

/// "The first eight transitions encode the 8 bits of the token value, transmitted most significant
/// bit first. The ninth transition signals whether this is a *control* or *data* token. [...] The
/// final transition causes both wires to go back to low state."
pub fn write(token: Token) -> Vec<u8> {
    let value = token.value;
    let mut bits: Vec<u8> = (0..8).rev().map(|bit| value >> bit & 1).collect();
    bits.push(u8::from(token.kind == Kind::Control));
    bits.push(parity(&bits));
    bits
}

/// "an even parity bit that causes both wires to go back to low state": the one that makes the
/// number of ones even.
fn parity(bits: &[u8]) -> u8 {
    let ones = bits.iter().filter(|bit| **bit == 1).count();
    u8::from(ones % 2 == 1)
}

pub fn says(sequence: &[u8]) -> Says {
    let [bits @ .., kind, last] = sequence else {
        return Says::Nothing;
    };
    let is_bit = |wire: &u8| *wire <= 1;
    if bits.len() != 8 || !sequence.iter().all(is_bit) || parity(&sequence[..9]) != *last {
        return Says::Nothing;
    }
    let value = bits.iter().fold(0, |value, bit| value << 1 | bit);
    Says::Token(match kind {
        1 => Token::control(value),
        _ => Token::data(value),
    })
}
