//! The observer: what is written of a call, from the state before it, the call and its answer.
//!
//! Two things are looked at behind the call, because only a person who sees the state then can know
//! them: the door that a landed circuit was led to, and the reply that a control unit put out.

use bench::sizes::CHANNEL_ENDS;
use bench::{Destination, Kind, Token};
use model::calls::Call;
use model::{tokens, Answer};

use super::words::{self, ends_circuit, is_pause, plain};
use super::{Books, Cell, Circuit, Door, End, Fate, Happening, Line, Port, Sender, Touched, Way};
use crate::watch::{Broken, Glimpse, Seen, Sentence};

/// How a watcher writes its books: [`note`], or another where it is to be wrong on purpose.
pub type Note = fn(&mut Books, &Seen) -> Result<Touched, Broken>;

/// Writes what was seen of one call, and says what it touched. Fails where no books can be written,
/// because no rule of document 01 gives such an answer there.
pub fn note(books: &mut Books, seen: &Seen) -> Result<Touched, Broken> {
    match (&seen.call, &seen.answer) {
        (&Call::Step { slot, port }, _) => super::step::step(books, seen, Port { slot, port }),
        (&Call::Line { slot, link }, _) => super::line::step(books, seen, Line { slot, link }),
        (call, Answer::No(_)) => Ok(named(books, call)),
        (call, Answer::Done) if call.start().is_some() => {
            *books = Books::default();
            Ok(Touched::default())
        }
        (Call::Wire { .. }, Answer::Done) => Ok(wire(books, seen)),
        (Call::Set { .. }, Answer::Done | Answer::Granted(_)) => Ok(Touched::default()),
        (call, _) => match end_of(call) {
            Some(end) => of_end(books, seen, end),
            None => Err(seen.odd("no such call answers so")),
        },
    }
}

/// A cable was plugged in. What is to leave by one of its ends is as it was, and is looked at.
fn wire(books: &mut Books, seen: &Seen) -> Touched {
    let mut touched = Touched::default();
    let Glimpse::Wire { leaving } = seen.before else {
        return touched;
    };
    for at in leaving.into_iter().flatten() {
        touched.ports.push(at);
        let Some(Cell { circuit, .. }) = books.front(at) else {
            continue;
        };
        if let Some(joined) = books.circuits.get_mut(circuit) {
            joined.joined = true;
        }
        touched.circuits.push(circuit);
        touched.happened.push(Happening::Joined { circuit });
    }
    touched
}

/// What a channel-end was asked and did.
fn of_end(books: &mut Books, seen: &Seen, end: End) -> Result<Touched, Broken> {
    let mut touched = named(books, &seen.call);
    match (&seen.call, &seen.answer) {
        (Call::Aim { destination, .. }, Answer::Done) => {
            books.ends.entry(end).or_default().aimed = Some(aimed_at(*destination));
        }
        (&Call::Input { kind, .. }, &Answer::Token(value)) => {
            let token = plain(kind_of(kind), value);
            books.ends.entry(end).or_default().taken.push(token);
        }
        (&Call::Output { kind, value, .. }, Answer::Done) => {
            let token = plain(kind_of(kind), value);
            output(books, seen, end, token, &mut touched)?;
        }
        _ => return Err(seen.odd("no such call answers so")),
    }
    Ok(touched)
}

/// The channel-end that a call names, if there is such a one.
fn end_of(call: &Call) -> Option<End> {
    let (Call::Aim {
        slot, channel_end, ..
    }
    | Call::Output {
        slot, channel_end, ..
    }
    | Call::Input {
        slot, channel_end, ..
    }) = *call
    else {
        return None;
    };
    (channel_end < CHANNEL_ENDS).then_some(End {
        slot,
        end: channel_end,
    })
}

/// The places that a call names, touched or not: a refused call is to have left them alone.
fn named(books: &Books, call: &Call) -> Touched {
    let mut touched = Touched::default();
    let Some(end) = end_of(call) else {
        return touched;
    };
    touched.ends.push(end);
    let open = books.ends.get(&end).and_then(|book| book.open);
    if let Some((_, Way::Port(port))) = open {
        let slot = end.slot;
        touched.ports.push(Port { slot, port });
    }
    touched
}

fn aimed_at(destination: tokens::Destination) -> Destination {
    match destination {
        tokens::Destination::Channel { number, channel } => Destination::Channel {
            number,
            channel: u32::try_from(channel).unwrap_or(u32::MAX),
        },
        tokens::Destination::Control { number } => Destination::Control { number },
    }
}

pub(crate) fn kind_of(kind: tokens::Kind) -> Kind {
    match kind {
        tokens::Kind::Data => Kind::Data,
        tokens::Kind::Control => Kind::Control,
    }
}

/// A done Output: the first token of a circuit, or one more.
fn output(
    books: &mut Books,
    seen: &Seen,
    end: End,
    token: Token,
    touched: &mut Touched,
) -> Result<(), Broken> {
    let slot = end.slot;
    let book = books.ends.entry(end).or_default();
    book.put_out.push(token);
    let (circuit, way) = match book.open {
        Some(open) => open,
        None => open(books, seen, end, touched)?,
    };
    let Some(cell) = books.put_out(circuit, token) else {
        return Err(seen.odd("its circuit is not in the books"));
    };
    touched.circuits.push(circuit);
    match way {
        Way::Port(port) => {
            books.put(Port { slot, port }, cell);
            touched.ports.push(Port { slot, port });
        }
        Way::Straight(channel) => {
            let door = Door::Channel { slot, channel };
            touched.hand(books, None, door, circuit, token);
        }
    }
    let book = books.ends.entry(end).or_default();
    book.open = (!ends_circuit(token)).then_some((circuit, way));
    Ok(())
}

/// "The first opens a circuit. It has the node's width at that moment. If the destination matches
/// this node at that width and is a channel, tokens go straight to that channel-end with no header
/// and no link [...]. Otherwise the lowest free port 8..11 is taken and receives header and token."
fn open(
    books: &mut Books,
    seen: &Seen,
    end: End,
    touched: &mut Touched,
) -> Result<(usize, Way), Broken> {
    let Glimpse::Output {
        node,
        destination,
        free,
    } = seen.before
    else {
        return Err(seen.odd("nobody looked before it"));
    };
    let Some(destination) = destination else {
        return Err(seen.broken(Sentence::Aims, "done, and aimed nowhere".to_owned()));
    };
    let here = words::compared(words::number(destination), node.width)
        == words::compared(node.number, node.width);
    let sender = Sender::End(end);
    let mut circuit = Circuit::new(sender, destination, node.width, seen.numbers());
    circuit.aimed = books.ends.get(&end).and_then(|book| book.aimed);
    let (slot, number) = (end.slot, node.number);
    if let (true, Destination::Channel { channel, .. }) = (here, destination) {
        let door = Door::Channel { slot, channel };
        circuit.fate = Fate::Here { door, number };
        return Ok((touched.open(books, circuit), Way::Straight(channel)));
    }
    let port = free.ok_or_else(|| seen.odd("opened with no port free"))?;
    let header = words::header(destination, node.width);
    let header = header.ok_or_else(|| seen.odd("opened where the width has no header"))?;
    let number = touched.open_by(books, circuit, Port { slot, port }, header);
    Ok((number, Way::Port(port)))
}

impl Touched {
    /// The next circuit of the books.
    pub(super) fn open(&mut self, books: &mut Books, circuit: Circuit) -> usize {
        let number = books.open(circuit);
        self.circuit(number, Happening::Opened { circuit: number });
        number
    }

    /// The next circuit, with its header put into a port.
    pub(super) fn open_by(
        &mut self,
        books: &mut Books,
        circuit: Circuit,
        at: Port,
        header: Vec<Token>,
    ) -> usize {
        let length = header.len();
        let number = self.open(
            books,
            Circuit {
                header: length,
                ..circuit
            },
        );
        for token in header {
            if let Some(cell) = books.put_out(number, token) {
                books.put(at, cell);
            }
        }
        self.ports.push(at);
        number
    }

    /// A token that came to a door: handed, or a PAUSE, which is handed to nobody.
    pub(super) fn hand(
        &mut self,
        books: &mut Books,
        from: Option<Port>,
        door: Door,
        circuit: usize,
        token: Token,
    ) {
        self.door(door);
        if is_pause(token) {
            self.circuit(circuit, Happening::Paused { circuit });
            return;
        }
        books.hand(door, circuit, token);
        let handed = Happening::Handed {
            circuit,
            from,
            door,
        };
        self.circuit(circuit, handed);
    }
}
