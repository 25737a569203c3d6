//! Transitions as VCD, with the tokens beside them as text.

use std::fmt::Write;

use bench::probe::{self, Form, Refused};
use bench::{Kind, LinkEnd, Token};

use crate::names::{letter, token_word};

/// Nanoseconds between transitions: "for a 400 MHz system clock and symbol/token spacing of 2 the
/// transition rate achievable is 200 Mtransitions/second".
const SPACING: u64 = 5;

/// The code of a wire, and the one of the text.
const WIRES: [char; 5] = ['a', 'b', 'c', 'd', 'e'];
const TEXT: char = 't';

/// Transitions that tokens were written as, with the tokens.
pub fn written(
    form: Form,
    end: LinkEnd,
    tokens: &[u16],
    transitions: &[u8],
) -> Result<String, Refused> {
    let mut tokens = tokens.iter();
    let mut dump = Dump::of(form, end);
    for sequence in transitions.chunks(form.sequence()) {
        // By itself a sequence is one token, or none where it only returns wires to low.
        let said = match probe::read(form, sequence)?.is_empty() {
            true => "return".to_owned(),
            false => tokens.next().map_or(String::new(), |word| shown(*word)),
        };
        dump.sequence(&said, sequence);
    }
    Ok(dump.ended())
}

/// A token in one word, as no blank can stand in a text of a VCD: `header-25`, `data-42`, `END`.
fn shown(word: u16) -> String {
    let Some(token) = Token::from_word(word.into()) else {
        return String::new();
    };
    let value = token_word(token);
    match (token.header, token.kind) {
        (Some(_), _) => format!("header-{value}"),
        (None, Kind::Data) => format!("data-{value}"),
        (None, Kind::Control) => value,
    }
}

/// A file that is being written.
struct Dump {
    text: String,
    /// Of the latest transition.
    time: u64,
    is_high: [bool; WIRES.len()],
}

impl Dump {
    /// What is declared, and the wires at time 0: low.
    fn of(form: Form, end: LinkEnd) -> Dump {
        let codes = &WIRES[..form.wires()];
        let (slot, link, name) = (end.slot, letter(end.link), form.name());
        let mut text = format!(
            "$comment board {slot}, out by link {link}, {name} $end\n\
             $version Tarvelgyo, bench capture $end\n\
             $timescale 1 ns $end\n\
             $scope module board{slot}_link{link} $end\n"
        );
        for (wire, code) in codes.iter().enumerate() {
            let _ = writeln!(text, "$var wire 1 {code} wire{wire} $end");
        }
        let _ = writeln!(text, "$var string 1 {TEXT} token $end");
        text += "$upscope $end\n$enddefinitions $end\n#0\n$dumpvars\n";
        for code in codes {
            let _ = writeln!(text, "0{code}");
        }
        let _ = writeln!(text, "s {TEXT}\n$end");
        Dump {
            text,
            time: 0,
            is_high: [false; WIRES.len()],
        }
    }

    /// The next transition, or none where wires rest, and what is said from then on.
    fn next(&mut self, said: Option<&str>, wire: Option<u8>) {
        self.time += SPACING;
        let _ = writeln!(self.text, "#{}", self.time);
        if let Some(said) = said {
            let _ = writeln!(self.text, "s{said} {TEXT}");
        }
        let wire = wire.map_or(WIRES.len(), usize::from);
        if let (Some(is_high), Some(code)) = (self.is_high.get_mut(wire), WIRES.get(wire)) {
            *is_high = !*is_high;
            let _ = writeln!(self.text, "{}{code}", u8::from(*is_high));
        }
    }

    /// A sequence of transitions, and what it says.
    fn sequence(&mut self, said: &str, wires: &[u8]) {
        for (place, wire) in wires.iter().enumerate() {
            self.next((place == 0).then_some(said), Some(*wire));
        }
    }

    /// Behind the last transition nothing is said.
    fn ended(mut self) -> String {
        if self.time > 0 {
            self.next(Some(""), None);
        }
        self.text
    }
}
