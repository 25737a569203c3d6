//! The sentences that a watcher holds, each against its books and against the looks.

use std::fmt;

use bench::{Cause, Destination, Looks, Token};
use model::{answers, Answer};

use super::{ties, Seen};
use crate::books::words::{self, is_pause, shown};
use crate::books::{Books, Circuit, Door, Fate, Happening, Line, Port, Touched};

/// What a sentence says of the run so far: nothing, or how it is broken.
pub(super) type Held = Result<(), String>;

/// A sentence of the third demand, or, from Aims on, of what ties the books to the bench. They are
/// held in this order.
#[derive(Clone, Copy, Debug, PartialEq, Eq)]
pub enum Sentence {
    Answers,
    Split,
    Order,
    Door,
    Replies,
    Hearing,
    Pause,
    Aims,
    Outputs,
    Places,
    Inputs,
    Cells,
    Marks,
}

/// What each says, in their order.
const TEXTS: [&str; 13] = [
    "a call answers as the documents let it, and the books have what it moves",
    "a circuit is refused as Split exactly when a switch of the other width reads its whole \
     header, and it hands nothing",
    "what a circuit handed is the first so many that were put out on it after its header, pauses \
     left out; all of them within a node",
    "the destination at the opening named the door that the circuit came to and, in the bits \
     compared, the number that the node had then; before that it hands nothing",
    "a control unit replies to the address that was put out to it, at the width that its node has \
     behind the write",
    "a control unit has heard the first eleven tokens that one circuit handed it",
    "PAUSE is handed to nobody",
    "a circuit goes where the latest done Aim of its channel-end said",
    "the streams of a channel-end's circuits are the tokens of its done Outputs",
    "a circuit hands at one place only, and each door has what its circuits handed",
    "what a channel-end was handed is what Input took, and then what it holds",
    "the tokens of a port, and those on a line, are those of the books",
    "header tokens keep their mark, and no other token bears one",
];

impl Sentence {
    /// All of them, in their order.
    pub const ALL: [Sentence; 13] = [
        Sentence::Answers,
        Sentence::Split,
        Sentence::Order,
        Sentence::Door,
        Sentence::Replies,
        Sentence::Hearing,
        Sentence::Pause,
        Sentence::Aims,
        Sentence::Outputs,
        Sentence::Places,
        Sentence::Inputs,
        Sentence::Cells,
        Sentence::Marks,
    ];

    /// Holds it against what a call answered and touched.
    pub(super) fn hold(self, books: &Books, seen: &Seen, touched: &Touched) -> Held {
        match self {
            Sentence::Split => split_as_answered(books, seen, touched)?,
            Sentence::Replies => return all(&touched.happened, |it| reply(books, seen, *it)),
            Sentence::Pause => pause_taken(seen)?,
            Sentence::Places => all(&touched.happened, |it| at_its_place(books, *it))?,
            _ => {}
        }
        self.hold_over(books, seen.after, touched)
    }

    /// Holds it against everything.
    pub(super) fn hold_all(self, books: &Books, looks: Looks) -> Held {
        self.hold_over(books, looks, &everything(books, looks))?;
        match self {
            Sentence::Places => ties::logs(books),
            _ => Ok(()),
        }
    }

    /// Holds it of these circuits, ports, lines, channel-ends and units.
    fn hold_over(self, books: &Books, looks: Looks, over: &Touched) -> Held {
        let circuits = |check: fn(&Circuit) -> Held| {
            all(&over.circuits, |number| circuit(books, *number, check))
        };
        match self {
            Sentence::Answers | Sentence::Replies => Ok(()),
            Sentence::Split => circuits(split_hands_nothing),
            Sentence::Order => circuits(in_order),
            Sentence::Door => circuits(at_the_right_door),
            Sentence::Hearing => all(&over.units, |slot| ties::hearing(books, looks, *slot)),
            Sentence::Pause => {
                circuits(pause_unhanded)?;
                all(&over.ends, |end| ties::no_pause(looks, *end))
            }
            Sentence::Aims => {
                circuits(ties::as_aimed)?;
                all(&over.ends, |end| ties::aim(books, looks, *end))
            }
            Sentence::Outputs => all(&over.ends, |end| ties::outputs(books, looks, *end)),
            Sentence::Places => all(&over.circuits, |number| ties::in_its_log(books, *number)),
            Sentence::Inputs => all(&over.ends, |end| ties::inputs(books, looks, *end)),
            Sentence::Cells => {
                all(&over.ports, |at| ties::cells(books, looks, *at))?;
                all(&over.lines, |on| ties::on_line(books, looks, *on))
            }
            Sentence::Marks => {
                all(&over.ports, |at| ties::marks(books, looks, *at))?;
                all(&over.lines, |on| ties::marks_on_line(books, looks, *on))?;
                all(&over.ends, |end| ties::unmarked(looks, *end))
            }
        }
    }
}

impl fmt::Display for Sentence {
    fn fmt(&self, f: &mut fmt::Formatter<'_>) -> fmt::Result {
        write!(f, "{self:?}: {}", TEXTS[*self as usize])
    }
}

fn all<T>(items: &[T], check: impl FnMut(&T) -> Held) -> Held {
    items.iter().try_for_each(check)
}

/// All there is: what the books have, and every place that can be looked at.
fn everything(books: &Books, looks: Looks) -> Touched {
    let slots = 0..looks.nodes();
    let ports = slots.clone().flat_map(|slot| {
        let ports = 0..bench::sizes::PORTS;
        ports.map(move |port| Port { slot, port })
    });
    let lines = slots.clone().flat_map(|slot| {
        let links = 0..bench::sizes::LINKS;
        links.map(move |link| Line { slot, link })
    });
    let ends = slots.clone().flat_map(|slot| {
        let ends = 0..bench::sizes::CHANNEL_ENDS;
        ends.map(move |end| crate::books::End { slot, end })
    });
    Touched {
        circuits: (0..books.circuits.len()).collect(),
        ports: books.cells.keys().copied().chain(ports).collect(),
        lines: books.lines.keys().copied().chain(lines).collect(),
        ends: books.ends.keys().copied().chain(ends).collect(),
        units: books.hearing.keys().copied().chain(slots).collect(),
        ..Touched::default()
    }
}

/// Holds something of a circuit of the books.
fn circuit(books: &Books, number: usize, check: impl Fn(&Circuit) -> Held) -> Held {
    let circuit = books.circuits.get(number);
    let circuit = circuit.ok_or(format!("circuit {number} is not in the books"))?;
    check(circuit).map_err(|what| format!("circuit {number} of {}: {what}", circuit.sender))
}

/// Both ways: the answer is Split exactly when the Step misread a header; and what is dropped is
/// dropped for the cause that its circuit was refused for.
fn split_as_answered(books: &Books, seen: &Seen, touched: &Touched) -> Held {
    let answered = seen.answer == Answer::Refused(answers::Cause::Split);
    match (touched.misread, answered) {
        (Some(number), false) => {
            return Err(format!(
                "the header of circuit {number} is misread, and not refused"
            ));
        }
        (None, true) => return Err("no whole header of the other width is in front".to_owned()),
        _ => {}
    }
    all(&touched.happened, |happening| match *happening {
        Happening::Dropped {
            circuit: number,
            cause,
        } => circuit(books, number, |circuit| match circuit.fate {
            Fate::Refused(refused) if refused == cause => Ok(()),
            fate => Err(format!("dropped for {cause:?}, and its fate is {fate:?}")),
        }),
        _ => Ok(()),
    })
}

fn split_hands_nothing(circuit: &Circuit) -> Held {
    let split = circuit.fate == Fate::Refused(Cause::Split);
    if split != circuit.misread {
        let fate = circuit.fate;
        return Err(format!(
            "misread: {}, and its fate is {fate:?}",
            circuit.misread
        ));
    }
    if split && !circuit.handed.is_empty() {
        return Err(format!("split, and handed {}", shown(&circuit.handed)));
    }
    Ok(())
}

/// "the first so many that its sender put out on that circuit after its header, pauses left out, in
/// order"
fn in_order(circuit: &Circuit) -> Held {
    let owed: Vec<Token> = circuit.owed().copied().collect();
    let whole = owed.len() == circuit.handed.len();
    let local = matches!(circuit.fate, Fate::Here { .. });
    if !owed.starts_with(&circuit.handed) || (local && !whole) {
        return Err(format!(
            "handed {} of {}",
            shown(&circuit.handed),
            shown(&owed)
        ));
    }
    Ok(())
}

/// "the sender's destination, as it stood when it opened the circuit, named that channel and, in
/// the bits compared, the number that the node had when the circuit opened to it"
fn at_the_right_door(circuit: &Circuit) -> Held {
    let (Some(number), door) = (circuit.fate.number(), circuit.fate.door()) else {
        return match circuit.handed.len() {
            0 => Ok(()),
            more => Err(format!("{more} handed, and its fate is {:?}", circuit.fate)),
        };
    };
    let named = match (circuit.destination, door) {
        (Destination::Channel { channel: named, .. }, Some(Door::Channel { channel, .. })) => {
            named == channel
        }
        (Destination::Control { .. }, Some(Door::Unit { .. })) => true,
        _ => false,
    };
    let asked = words::number(circuit.destination);
    let [asked, had] = [asked, number].map(|number| words::compared(number, circuit.width));
    if named && asked == had {
        return Ok(());
    }
    let (destination, width) = (circuit.destination, circuit.width);
    let door = door.map_or("no door".to_owned(), |door| door.to_string());
    Err(format!(
        "{destination:?} at width {width} came to {door}, whose number was {number}"
    ))
}

/// The end of a message: the answer that it has, and the reply that stands in port 12.
fn reply(books: &Books, seen: &Seen, happening: Happening) -> Held {
    let Happening::Heard {
        circuit: number,
        slot,
        paused,
        reply,
    } = happening
    else {
        return Ok(());
    };
    let message = books.circuits.get(number).map_or(&[][..], Circuit::put_out);
    let address = words::reply_address(message).filter(|_| !paused);
    let width = seen.after.node(slot).width;
    let header = address.and_then(|address| words::header(address, width));
    let expected = match (address, &header) {
        (None, _) => Answer::Malformed,
        (Some(_), None) => Answer::Unheard,
        (Some(_), Some(_)) => Answer::Moved,
    };
    if seen.answer != expected {
        return Err(format!(
            "the end of circuit {number} is to answer {expected}"
        ));
    }
    let (Some(header), Some(_)) = (header, reply) else {
        return Ok(());
    };
    let held = seen.after.port_tokens(slot, bench::sizes::REPLY_PORT);
    let held: Vec<Token> = held.filter_map(Token::from_word).collect();
    match held.strip_prefix(header.as_slice()) {
        Some(said) if words::is_reply(said) => Ok(()),
        _ => Err(format!(
            "{} in port 12, to {address:?} at width {width}",
            shown(&held)
        )),
    }
}

fn pause_unhanded(circuit: &Circuit) -> Held {
    match circuit.handed.iter().any(|token| is_pause(*token)) {
        true => Err("a PAUSE is handed".to_owned()),
        false => Ok(()),
    }
}

/// "no Input ever answers control 2"
fn pause_taken(seen: &Seen) -> Held {
    match (&seen.call, &seen.answer) {
        (&model::Call::Input { kind, .. }, &Answer::Token(value))
            if is_pause(words::plain(crate::books::kind_of(kind), value)) =>
        {
            Err("Input has given a PAUSE".to_owned())
        }
        _ => Ok(()),
    }
}

/// A token that was handed came from the port at which its circuit landed, and went to its door.
fn at_its_place(books: &Books, happening: Happening) -> Held {
    let Happening::Handed {
        circuit: number,
        from,
        door,
    } = happening
    else {
        return Ok(());
    };
    circuit(books, number, |circuit| {
        let place = match circuit.fate {
            Fate::Landed { at, .. } => Some(at),
            _ => None,
        };
        match place == from && circuit.fate.door() == Some(door) {
            true => Ok(()),
            false => Err(format!(
                "handed from {from:?} at {door:?}: {:?}",
                circuit.fate
            )),
        }
    })
}
