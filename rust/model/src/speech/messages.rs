//! Switch messages made up at random: good ones, and such as have one thing wrong.

use std::collections::VecDeque;

use crate::network::Node;
use crate::random::Random;
use crate::registers;
use crate::sizes::CHANNELS;
use crate::tokens::{Token, END, PAUSE, READC, SINK, WRITEC};

const HELLO: u32 = 1 << 24;
const ENABLE: u32 = 1 << 31;

/// A message for the control unit of that node, with the reply address given, and
/// now and then damaged.
pub fn message(random: &mut Random, node: &Node, number: u32, channel: usize) -> VecDeque<Token> {
    if random.chance(5) {
        return last_words(number);
    }
    let channel = any_channel(random, channel);
    let address = any_address(random);
    let mut tokens = if random.chance(65) {
        write(number, channel, address, any_data(random, node, address))
    } else {
        read(number, channel, address)
    };
    if random.chance(40) {
        damage(random, &mut tokens);
    }
    tokens.into()
}

/// A write with that reply address.
pub fn write(number: u32, channel: usize, address: u32, data: u32) -> Vec<Token> {
    let data = data.to_be_bytes();
    whole(WRITEC, &front(number, channel, address), &data)
}

fn read(number: u32, channel: usize, address: u32) -> Vec<Token> {
    whole(READC, &front(number, channel, address), &[])
}

/// Reply number, reply channel and address, "high byte first".
fn front(number: u32, channel: usize, address: u32) -> [u8; 5] {
    let [.., number_high, number_low] = number.to_be_bytes();
    let [.., high, low] = address.to_be_bytes();
    [number_high, number_low, channel as u8, high, low]
}

fn whole(command: u8, front: &[u8], data: &[u8]) -> Vec<Token> {
    let bytes = front.iter().chain(data);
    let mut tokens = vec![Token::control(command)];
    tokens.extend(bytes.map(|byte| Token::data(*byte)));
    tokens.push(Token::control(END));
    tokens
}

/// A write that sets one-byte width and asks for a reply to the sink, which that
/// width cannot carry.
fn last_words(number: u32) -> VecDeque<Token> {
    write(number, SINK, 0x04, 1).into()
}

/// The channel given, the sink, or seldom one that is no channel.
fn any_channel(random: &mut Random, channel: usize) -> usize {
    match random.below(25) {
        0 | 1 => SINK,
        2 => random
            .pick(&[CHANNELS, CHANNELS + 1, 127, 253, 254])
            .unwrap_or(CHANNELS),
        _ => channel,
    }
}

/// A known address, width more often than others; or one beside those.
fn any_address(random: &mut Random) -> u32 {
    let odd = [
        0x00, 0x01, 0x03, 0x06, 0x0B, 0x0E, 0x1F, 0x28, 0x40, 0x7F, 0x88, 0xA0, 0x0104, 0x8004,
    ];
    let known = registers::known_addresses();
    match random.below(10) {
        0 | 1 => random.pick(&odd).unwrap_or(0),
        2 | 3 => 0x04,
        _ => random.pick(&known).unwrap_or(0),
    }
}

/// What the register holds, with a bit or two changed, or anything at all: another
/// network, a link disabled, a HELLO with and without enable are among it.
fn any_data(random: &mut Random, node: &Node, address: u32) -> u32 {
    let kept = registers::read(node, address).unwrap_or(0);
    match random.below(12) {
        0 => random.bits() as u32,
        1 => kept ^ 1 << random.below(32),
        2 => kept ^ 1,
        3 => kept ^ 1 << 4,
        4 => kept | HELLO,
        5 => ENABLE | HELLO,
        6 => kept & !ENABLE,
        7 => HELLO,
        _ => kept,
    }
}

/// One thing wrong with a message.
fn damage(random: &mut Random, tokens: &mut Vec<Token>) {
    let place = random.below(tokens.len());
    let last = tokens.len() - 1;
    match random.below(12) {
        0 => drop(tokens.remove(place)),
        1 => tokens.insert(place, Token::data(random.byte())),
        2 | 3 => tokens[place] = passing_control(random),
        4 => tokens[place] = Token::data(random.byte()),
        5 => tokens[last] = Token::control(PAUSE),
        6 | 7 => tokens.truncate(place),
        8 => tokens
            .splice(place.., [Token::control(PAUSE)])
            .for_each(drop),
        9 => tokens[0] = other_command(random, tokens[0]),
        _ => {
            let extra = random.pick(&[1, 2, 3, 4, 5, 40, 90]).unwrap_or(1);
            let closing = random.pick(&[END, END, END, PAUSE]).unwrap_or(END);
            tokens.truncate(last);
            tokens.extend((0..extra).map(Token::data));
            tokens.push(Token::control(closing));
        }
    }
    if !tokens.last().is_some_and(Token::ends_circuit) {
        tokens.push(Token::control(END));
    }
}

/// A control token that Output lets pass towards a control unit; END and PAUSE are
/// among them.
fn passing_control(random: &mut Random) -> Token {
    let command = random.pick(&[WRITEC, READC]).unwrap_or(READC);
    let any = random.byte() % 0xC0;
    Token::control(if random.chance(20) { command } else { any })
}

/// The command of the other kind of message, one that is none, or a byte of the
/// same value.
fn other_command(random: &mut Random, command: Token) -> Token {
    let other = command.value ^ WRITEC ^ READC;
    match random.below(4) {
        0 | 1 => Token::control(other),
        2 => Token::control(0x03 + random.byte() % 0xBD),
        _ => Token::data(command.value),
    }
}
