//! What channel-ends say in random runs: streams, packets and switch messages,
//! good and damaged.

mod messages;

pub use messages::{message, write};

use std::collections::VecDeque;

use crate::random::Random;
use crate::tokens::{Token, END, PAUSE};

/// Tokens that a channel-end is still going to put out.
#[derive(Clone, Debug)]
pub struct Speech {
    pub slot: usize,
    pub channel_end: usize,
    pub tokens: VecDeque<Token>,
}

/// A stream of any tokens, mostly short, mostly ended.
pub fn stream(random: &mut Random) -> VecDeque<Token> {
    let length = match random.below(10) {
        0 | 1 => 0,
        2 => 40 + random.below(120),
        3 => 8 + random.below(20),
        _ => 1 + random.below(6),
    };
    let mut tokens: VecDeque<_> = (0..length).map(|_| any_token(random)).collect();
    match random.below(20) {
        0 => {}
        1..=4 => tokens.push_back(Token::control(PAUSE)),
        _ => tokens.push_back(Token::control(END)),
    }
    tokens
}

fn any_token(random: &mut Random) -> Token {
    match random.below(12) {
        0 => Token::control(0x05 + random.byte() % 0xBB),
        1 => Token::data(END),
        2 => Token::data(PAUSE),
        _ => Token::data(random.byte()),
    }
}
