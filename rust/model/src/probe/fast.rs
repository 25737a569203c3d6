//! The fast link: 002, 4.3; 000, 3.1.2.

use super::{Says, Wires};
use crate::tokens::{Kind, Token, CREDIT16, CREDIT64, CREDIT8, END, HELLO, PAUSE};

/// "A sequence of four symbols is used to encode tokens."
pub const TRANSITIONS: usize = 4;

/// The wire whose transition is the escape.
const ESCAPE: u8 = 4;

/// "In 5-wire mode, the link-level tokens use special encodings that guarantee that the wire state
/// is not affected": escape, value, escape and the same value.
const LINK_LEVEL: [(u8, u8); 4] = [(CREDIT8, 0), (CREDIT64, 1), (HELLO, 2), (CREDIT16, 3)];

/// "RTNZ0 (control token 0xFC)" to "RTNZ3 (control token 0xFF)".
fn is_return(control: u8) -> bool {
    control >= 0xFC
}

/// The value that stands twice in a link-level token's own form.
fn link_level(control: u8) -> Option<u8> {
    let own = LINK_LEVEL.into_iter().find(|(token, _)| *token == control);
    own.map(|(_, value)| value)
}

/// One token, when the wires are so.
pub fn write(wires: Wires, token: Token) -> Option<Vec<u8>> {
    match (token.kind, token.value) {
        (Kind::Data, value) => Some(pairs(value).to_vec()),
        (Kind::Control, END) => Some(ending(wires, &end_forms())),
        (Kind::Control, PAUSE) => Some(ending(wires, &pause_forms())),
        (Kind::Control, value) if is_return(value) => None,
        (Kind::Control, value) => Some(match link_level(value) {
            Some(twice) => vec![ESCAPE, twice, ESCAPE, twice],
            None => single_escape(value),
        }),
    }
}

/// "The bits of data and control tokens are always transmitted starting with the two most
/// significant bits."
fn pairs(value: u8) -> [u8; 4] {
    [value >> 6, value >> 4 & 3, value >> 2 & 3, value & 3]
}

/// "the first two bits of the control token are determined by the position of the escape symbol":
/// 11 first, 10 second, 01 third, 00 fourth.
fn single_escape(control: u8) -> Vec<u8> {
    let [top, others @ ..] = pairs(control);
    let mut symbols = others.to_vec();
    symbols.insert(usize::from(3 - top), ESCAPE);
    symbols
}

/// Every form with two values, in order: `00`, `01`, .. `33`.
fn with_two_values(form: impl Fn(u8, u8) -> [u8; 4]) -> Vec<[u8; 4]> {
    let firsts = 0..4;
    let both = firsts.flat_map(|first| (0..4).map(move |second| (first, second)));
    both.map(|(first, second)| form(first, second)).collect()
}

/// "escape escape value value: 16 different END tokens"
fn end_forms() -> Vec<[u8; 4]> {
    with_two_values(|first, second| [ESCAPE, ESCAPE, first, second])
}

/// "value value escape escape: 16 different PAUSE tokens"
fn pause_forms() -> Vec<[u8; 4]> {
    with_two_values(|first, second| [first, second, ESCAPE, ESCAPE])
}

/// "escape value value escape: 16 NOPD tokens", and "escape value11 value11 value", the four RTNZ.
fn return_forms() -> Vec<[u8; 4]> {
    let mut forms = with_two_values(|first, second| [ESCAPE, first, second, ESCAPE]);
    forms.extend((0..4).map(|last| [ESCAPE, 3, 3, last]));
    forms
}

/// "a sequence of an END or PAUSE token and an optional return-to-zero token [...] chosen so that
/// after them all wires are low". The return is sent where wires "are still high".
fn ending(wires: Wires, forms: &[[u8; 4]]) -> Vec<u8> {
    let mut symbols = best(wires, forms).to_vec();
    let left = wires.after(&symbols);
    if left != Wires::LOW {
        symbols.extend(best(left, &return_forms()));
    }
    symbols
}

/// "the one that leaves fewest wires high, then the one with the smallest symbols in order"
fn best(wires: Wires, forms: &[[u8; 4]]) -> [u8; 4] {
    let rank = |form: &&[u8; 4]| (wires.after(*form).high().len(), **form);
    // No list of forms is empty.
    forms.iter().min_by_key(rank).copied().unwrap_or_default()
}

/// What a transition transmits.
#[derive(Clone, Copy)]
enum Symbol {
    Value(u8),
    Escape,
}

fn symbol(wire: u8) -> Option<Symbol> {
    match wire {
        0..=3 => Some(Symbol::Value(wire)),
        4 => Some(Symbol::Escape),
        _ => None,
    }
}

pub fn says(sequence: &[u8]) -> Says {
    use Symbol::{Escape as E, Value as V};
    let symbols: Option<Vec<Symbol>> = sequence.iter().map(|wire| symbol(*wire)).collect();
    match symbols.unwrap_or_default()[..] {
        [V(a), V(b), V(c), V(d)] => Says::Token(Token::data(byte([a, b, c, d]))),
        [E, V(a), V(b), V(c)] => control(byte([3, a, b, c])),
        [V(a), E, V(b), V(c)] => control(byte([2, a, b, c])),
        [V(a), V(b), E, V(c)] => control(byte([1, a, b, c])),
        [V(a), V(b), V(c), E] => control(byte([0, a, b, c])),
        [E, E, V(_), V(_)] => Says::Token(Token::control(END)),
        [V(_), V(_), E, E] => Says::Token(Token::control(PAUSE)),
        [E, V(_), V(_), E] => Says::Return,
        [E, V(a), E, V(b)] if a == b => said_by_link(a),
        _ => Says::Nothing,
    }
}

fn byte(pairs: [u8; 4]) -> u8 {
    pairs.into_iter().fold(0, |value, pair| value << 2 | pair)
}

/// The control token of a single escape. END and PAUSE "are not transmitted using the conventional
/// single escape", credits and HELLO "use special encodings": so sent they say nothing.
fn control(value: u8) -> Says {
    match value {
        END | PAUSE => Says::Nothing,
        _ if is_return(value) => Says::Return,
        _ if link_level(value).is_some() => Says::Nothing,
        _ => Says::Token(Token::control(value)),
    }
}

fn said_by_link(twice: u8) -> Says {
    let own = LINK_LEVEL.into_iter().find(|(_, value)| *value == twice);
    own.map_or(Says::Nothing, |(token, _)| {
        Says::Token(Token::control(token))
    })
}
