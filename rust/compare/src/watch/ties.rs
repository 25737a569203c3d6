//! What ties the books to the bench: ports, lines, channel-ends, control units and doors, each held
//! against what the looks show there.

use std::collections::BTreeSet;
use std::fmt::Display;

use bench::sizes::UNIT_BUFFER;
use bench::{Looks, Peer, Token};

use super::sentences::Held;
use crate::books::words::{is_credit, is_hello, is_pause, shown};
use crate::books::{Books, Cell, Circuit, Door, End, Fate, Line, Port, Sender, Way};

/// A token without its mark.
fn bare(token: Token) -> Token {
    Token {
        header: None,
        ..token
    }
}

/// The tokens of words; nothing where one of them is none.
fn tokens(words: impl Iterator<Item = u32>) -> Option<Vec<Token>> {
    words.map(Token::from_word).collect()
}

/// What is found somewhere, and what the books have of it.
fn differ(place: impl Display, found: impl Display, books: impl Display) -> Held {
    Err(format!("{place} has {found}, the books {books}"))
}

/// Tokens that are found, or that there is something else.
fn found(tokens: Option<Vec<Token>>) -> String {
    tokens.map_or("no tokens".to_owned(), |tokens| shown(&tokens))
}

/// Kinds and values of a port's tokens; [`marks`] has the marks.
pub(super) fn cells(books: &Books, looks: Looks, at: Port) -> Held {
    let held = tokens(looks.port_tokens(at.slot, at.port));
    same_tokens(at, held, books.cells.get(&at).into_iter().flatten())
}

/// The same of the tokens on a line.
pub(super) fn on_line(books: &Books, looks: Looks, on: Line) -> Held {
    same_tokens(
        on,
        tokens_on(looks, on),
        books.lines.get(&on).into_iter().flatten(),
    )
}

/// What is on a line and of a circuit: neither credit nor HELLO.
fn tokens_on(looks: Looks, Line { slot, link }: Line) -> Option<Vec<Token>> {
    let things = tokens(looks.line_tokens(slot, link))?.into_iter();
    let of_circuits = things.filter(|token| !is_credit(*token) && !is_hello(*token));
    Some(of_circuits.collect())
}

fn same_tokens<'a>(
    place: impl Display,
    held: Option<Vec<Token>>,
    cells: impl Iterator<Item = &'a Cell>,
) -> Held {
    let held: Option<Vec<_>> = held.map(|held| held.into_iter().map(bare).collect());
    let written: Vec<_> = cells.map(|cell| bare(cell.token)).collect();
    match held {
        Some(held) if held == written => Ok(()),
        held => differ(place, found(held), shown(&written)),
    }
}

/// The mark of each token of a port is that of its place in its circuit's stream.
pub(super) fn marks(books: &Books, looks: Looks, at: Port) -> Held {
    let held = tokens(looks.port_tokens(at.slot, at.port)).unwrap_or_default();
    same_marks(books, at, held, books.cells.get(&at).into_iter().flatten())
}

/// The same of the tokens on a line.
pub(super) fn marks_on_line(books: &Books, looks: Looks, on: Line) -> Held {
    let there = tokens_on(looks, on).unwrap_or_default();
    same_marks(books, on, there, books.lines.get(&on).into_iter().flatten())
}

fn same_marks<'a>(
    books: &Books,
    place: impl Display,
    held: Vec<Token>,
    cells: impl Iterator<Item = &'a Cell>,
) -> Held {
    for (token, cell) in held.into_iter().zip(cells) {
        let found = token.header;
        let circuit = books.circuits.get(cell.circuit);
        let expected = circuit.and_then(|circuit| circuit.mark(cell.position));
        if found != expected {
            let (number, position) = (cell.circuit, cell.position);
            let which = format!("token {position} of circuit {number} in {place}");
            return differ(which, format!("{found:?}"), format!("{expected:?}"));
        }
    }
    Ok(())
}

/// "no other token ever bears one": a channel-end holds none.
pub(super) fn unmarked(looks: Looks, end: End) -> Held {
    let held = tokens(looks.end_tokens(end.slot, end.end));
    match held {
        Some(held) if held.iter().all(|token| token.header.is_none()) => Ok(()),
        held => differ(end, found(held), "no marks"),
    }
}

/// "no channel-end buffer holds it"
pub(super) fn no_pause(looks: Looks, end: End) -> Held {
    let held = tokens(looks.end_tokens(end.slot, end.end)).unwrap_or_default();
    match held.iter().any(|token| is_pause(*token)) {
        true => Err(format!("{end} holds a PAUSE")),
        false => Ok(()),
    }
}

/// All that was handed, in the order of the run, is what Input took and then what is held.
pub(super) fn inputs(books: &Books, looks: Looks, end: End) -> Held {
    let door = Door::Channel {
        slot: end.slot,
        channel: end.end as u32,
    };
    let handed: Vec<Token> = books.log(door).iter().map(|(token, _)| *token).collect();
    let taken = books.ends.get(&end).map_or(&[][..], |book| &book.taken);
    let held = tokens(looks.end_tokens(end.slot, end.end));
    match held.map(|held| [taken, &held].concat()) {
        Some(seen) if seen == handed => Ok(()),
        seen => differ(end, found(seen), shown(&handed)),
    }
}

/// The circuits of a channel-end, in the order of the run, without their headers, are its done
/// Outputs; and the one that it has open goes the way that the books have.
pub(super) fn outputs(books: &Books, looks: Looks, end: End) -> Held {
    let own = |circuit: &&Circuit| circuit.sender == Sender::End(end);
    let circuits = books.circuits.iter().filter(own);
    let streams: Vec<Token> = circuits.flat_map(Circuit::put_out).copied().collect();
    let put_out = books.ends.get(&end).map_or(&[][..], |book| &book.put_out);
    if streams != put_out {
        return differ(end, shown(put_out), shown(&streams));
    }
    let open = books.ends.get(&end).and_then(|book| book.open);
    let written = open.map(|(_, way)| way);
    let peer = looks.channel_end(end.slot, end.end).sending.peer();
    let found = peer.map(|peer| match peer {
        Peer::Port(port) => Way::Port(port as usize),
        Peer::ChannelEnd(channel) => Way::Straight(channel),
    });
    match found == written {
        true => Ok(()),
        false => differ(end, format!("{found:?}"), format!("{written:?}")),
    }
}

/// What a channel-end is aimed at is what its latest done Aim gave.
pub(super) fn aim(books: &Books, looks: Looks, end: End) -> Held {
    let found = looks.channel_end(end.slot, end.end).destination();
    let written = books.ends.get(&end).and_then(|book| book.aimed);
    match found == written {
        true => Ok(()),
        false => differ(end, format!("{found:?}"), format!("{written:?}")),
    }
}

/// And so it was when it opened the circuit.
pub(super) fn as_aimed(circuit: &Circuit) -> Held {
    let by_end = matches!(circuit.sender, Sender::End(_));
    match by_end && circuit.aimed != Some(circuit.destination) {
        true => Err(format!(
            "towards {:?}, and aimed at {:?}",
            circuit.destination, circuit.aimed
        )),
        false => Ok(()),
    }
}

/// What a control unit has heard is the first of what its present circuit handed.
pub(super) fn hearing(books: &Books, looks: Looks, slot: usize) -> Held {
    let unit = looks.control_unit(slot);
    let circuit = books.hearing.get(&slot);
    let circuit = circuit.and_then(|number| books.circuits.get(*number));
    let served = circuit.and_then(|circuit| match circuit.fate {
        Fate::Landed { at, .. } => Some(Peer::Port(at.port as u32)),
        _ => None,
    });
    let (name, serves) = (Sender::Unit(slot), unit.serves.peer());
    if serves != served {
        return differ(name, format!("{serves:?}"), format!("{served:?}"));
    }
    let Some(circuit) = circuit else {
        return Ok(());
    };
    let kept = circuit.handed.iter().take(UNIT_BUFFER).copied();
    let kept: Vec<Token> = kept.collect();
    let heard = unit.tokens.iter().take(unit.heard as usize).copied();
    match tokens(heard) {
        Some(heard) if heard == kept => Ok(()),
        heard => differ(name, found(heard), shown(&kept)),
    }
}

/// What a circuit handed is what the log of its door has of it.
pub(super) fn in_its_log(books: &Books, number: usize) -> Held {
    let Some(circuit) = books.circuits.get(number) else {
        return Err(format!("circuit {number} is not in the books"));
    };
    let log = circuit.fate.door().map_or(&[][..], |door| books.log(door));
    let own = log.iter().filter(|(_, by)| *by == number);
    let logged: Vec<Token> = own.map(|(token, _)| *token).collect();
    match logged == circuit.handed {
        true => Ok(()),
        false => differ(
            format!("the door of circuit {number}"),
            shown(&logged),
            shown(&circuit.handed),
        ),
    }
}

/// Each door was handed tokens by circuits that came to it alone.
pub(super) fn logs(books: &Books) -> Held {
    let entries = books.logs.iter().flat_map(|(door, log)| {
        let circuits = log.iter().map(|(_, circuit)| *circuit);
        circuits.map(move |circuit| (circuit, *door))
    });
    let doors: BTreeSet<(usize, Door)> = entries.collect();
    for (number, door) in doors {
        let fate = books.circuits.get(number).map(|circuit| circuit.fate);
        if fate.and_then(Fate::door) != Some(door) {
            let tokens = format!("tokens of circuit {number}");
            return differ(door, tokens, format!("{fate:?}"));
        }
    }
    Ok(())
}
