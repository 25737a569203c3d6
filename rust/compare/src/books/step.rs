//! What is written of a Step.

use bench::{Hop, Token};
use model::answers::{Cause, Opening};
use model::Answer;

use super::words::{self, ends_circuit, is_pause};
use super::{Books, Cell, Circuit, Door, Fate, Happening, Port, Sender, Touched};
use crate::watch::{Broken, Glimpse, Seen};

/// The port by which the replies of a control unit leave.
const REPLY_PORT: usize = bench::sizes::REPLY_PORT;

/// A Step, by its answer and by where the port's circuit went before it.
pub(super) fn step(books: &mut Books, seen: &Seen, at: Port) -> Result<Touched, Broken> {
    let mut touched = Touched {
        ports: vec![at],
        ..Touched::default()
    };
    let Glimpse::Step { hop, .. } = seen.before else {
        return Err(seen.odd("nobody looked before it"));
    };
    if !matches!(seen.answer, Answer::No(_)) {
        note_reading(books, seen, at, &mut touched);
    }
    let mut noting = Noting {
        books,
        seen,
        at,
        touched: &mut touched,
    };
    match (&seen.answer, hop) {
        (Answer::No(_) | Answer::Idle | Answer::Waiting, _) => {}
        (Answer::Opened(Opening::Link(link)), None) => noting.leave_by(*link)?,
        (Answer::Opened(Opening::Channel | Opening::Control), None) => noting.land()?,
        // Whether a Split is answered where it may be, its own sentence says.
        (Answer::Refused(cause), None) | (Answer::Refused(cause @ Cause::Split), _) => {
            noting.refuse(*cause)?;
        }
        (Answer::Dropped(cause), Some(Hop::Dropped(_))) => noting.drop_one(*cause)?,
        (Answer::Moved, Some(Hop::Link(_))) => noting.carry()?,
        (Answer::Moved, Some(Hop::Channel(channel))) => {
            let slot = at.slot;
            noting.hand(Door::Channel { slot, channel })?;
        }
        (Answer::Moved | Answer::Malformed | Answer::Unheard, Some(Hop::Control)) => {
            noting.tell()?;
        }
        _ => return Err(seen.odd("no Step answers so where its port's circuit goes")),
    }
    Ok(touched)
}

/// "With a whole header the switch reads it": one of the other width is misread, whatever the
/// answer says.
fn note_reading(books: &mut Books, seen: &Seen, at: Port, touched: &mut Touched) {
    let Glimpse::Step {
        node, hop: None, ..
    } = seen.before
    else {
        return;
    };
    touched.misread = books.misread_by(at, node.width);
    if let Some(number) = touched.misread {
        touched.circuits.push(number);
        if let Some(circuit) = books.circuits.get_mut(number) {
            circuit.misread = true;
        }
    }
}

fn of_model(cause: Cause) -> bench::Cause {
    match cause {
        Cause::Split => bench::Cause::Split,
        Cause::NoRoute => bench::Cause::NoRoute,
    }
}

/// A Step that is being written down.
struct Noting<'a, 'b> {
    books: &'a mut Books,
    seen: &'a Seen<'b>,
    at: Port,
    touched: &'a mut Touched,
}

impl Noting<'_, '_> {
    fn odd<T>(&self, what: &str) -> Result<T, Broken> {
        Err(self.seen.odd(what))
    }

    /// The number of the circuit whose token is in front.
    fn front(&self) -> Result<usize, Broken> {
        match self.books.front(self.at) {
            Some(front) => Ok(front.circuit),
            None => self.odd("the books have no token in this port"),
        }
    }

    fn circuit(&mut self, number: usize) -> Result<&mut Circuit, Broken> {
        let missing = self
            .seen
            .odd("the circuit of this token is not in the books");
        self.books.circuits.get_mut(number).ok_or(missing)
    }

    fn take(&mut self) -> Result<Cell, Broken> {
        match self.books.take(self.at) {
            Some(cell) => Ok(cell),
            None => self.odd("the books have no token in this port"),
        }
    }

    /// The token that the Step took: the port's first word before the call.
    fn taken(&self) -> Result<Token, Broken> {
        let Glimpse::Step { first, .. } = self.seen.before else {
            return self.odd("nobody looked before it");
        };
        match first.and_then(Token::from_word) {
            Some(token) => Ok(token),
            None => self.odd("no token was in front"),
        }
    }

    /// Opened outward. Nothing moves yet.
    fn leave_by(&mut self, link: usize) -> Result<(), Broken> {
        let circuit = self.front()?;
        let Port { slot, port } = self.at;
        let far = self.seen.after.link(slot, link).far();
        let into = far.map(|(slot, link)| (slot as usize, link as usize));
        if link == port {
            let back = Happening::TurnedBack { circuit };
            self.touched.circuit(circuit, back);
        }
        if into == Some((slot, port)) {
            let circles = Happening::Circles { circuit };
            self.touched.circuit(circuit, circles);
        }
        Ok(())
    }

    /// "Opened and the header is removed."
    fn land(&mut self) -> Result<(), Broken> {
        let Glimpse::Step { node, .. } = self.seen.before else {
            return self.odd("nobody looked before it");
        };
        let number = self.front()?;
        let header = self.books.header_in_front(self.at);
        if header == 0 || header != self.circuit(number)?.header {
            return self.odd("opened with no whole header in front");
        }
        for _ in 0..header {
            self.take()?;
        }
        let (at, door) = (self.at, self.door_behind());
        if let Some(door) = door {
            self.touched.door(door);
        }
        if let Some(Door::Unit { slot }) = door {
            self.books.hearing.insert(slot, number);
        }
        self.circuit(number)?.fate = Fate::Landed {
            at,
            door,
            number: node.number,
        };
        let landed = Happening::Landed { circuit: number };
        self.touched.circuit(number, landed);
        Ok(())
    }

    /// Where the port's circuit leads, behind the call.
    fn door_behind(&self) -> Option<Door> {
        let Port { slot, port } = self.at;
        match self.seen.after.port(slot, port).hop() {
            Some(Hop::Channel(channel)) => Some(Door::Channel { slot, channel }),
            Some(Hop::Control) => Some(Door::Unit { slot }),
            _ => None,
        }
    }

    fn refuse(&mut self, cause: Cause) -> Result<(), Broken> {
        let circuit = self.front()?;
        let cause = of_model(cause);
        self.circuit(circuit)?.fate = Fate::Refused(cause);
        let refused = Happening::Refused { circuit, cause };
        self.touched.circuit(circuit, refused);
        Ok(())
    }

    fn drop_one(&mut self, cause: Cause) -> Result<(), Broken> {
        let circuit = self.take()?.circuit;
        let dropped = Happening::Dropped {
            circuit,
            cause: of_model(cause),
        };
        self.touched.circuit(circuit, dropped);
        Ok(())
    }

    /// On to the line that starts at the link that the circuit leaves by, behind what is on it.
    fn carry(&mut self) -> Result<(), Broken> {
        let Glimpse::Step { out: Some(on), .. } = self.seen.before else {
            return self.odd("a token has left by a cable that is not there");
        };
        let cell = self.take()?;
        self.books.lines.entry(on).or_default().push_back(cell);
        self.touched.lines.push(on);
        let circuit = cell.circuit;
        self.touched
            .circuit(circuit, Happening::Carried { circuit });
        Ok(())
    }

    /// Hands the token that the Step took. Whose it is, the books say.
    fn hand(&mut self, door: Door) -> Result<(usize, Token), Broken> {
        let token = self.taken()?;
        let circuit = self.take()?.circuit;
        let from = Some(self.at);
        self.touched.hand(self.books, from, door, circuit, token);
        Ok((circuit, token))
    }

    /// The control unit hears a token; with the last of a message it may put out a reply.
    fn tell(&mut self) -> Result<(), Broken> {
        let slot = self.at.slot;
        let (circuit, token) = self.hand(Door::Unit { slot })?;
        if !ends_circuit(token) {
            return match self.seen.answer {
                Answer::Moved => Ok(()),
                _ => self.odd("the end of a message that goes on"),
            };
        }
        self.books.hearing.remove(&slot);
        self.touched.ports.push(Port {
            slot,
            port: REPLY_PORT,
        });
        let reply = match self.seen.answer {
            Answer::Moved => self.reply(circuit),
            _ => None,
        };
        let heard = Happening::Heard {
            circuit,
            slot,
            paused: is_pause(token),
            reply,
        };
        self.touched.circuit(circuit, heard);
        Ok(())
    }

    /// The circuit that the unit opens for its reply: towards the address that was put out to it,
    /// at the width that the node has behind the call. What it says is what port 12 holds then.
    /// None where it could not have opened one.
    fn reply(&mut self, message: usize) -> Option<usize> {
        let slot = self.at.slot;
        let destination = words::reply_address(self.books.circuits.get(message)?.put_out())?;
        let width = self.seen.after.node(slot).width;
        let header = words::header(destination, width)?;
        let held = self.seen.after.port_tokens(slot, REPLY_PORT);
        let said: Vec<Token> = held
            .skip(header.len())
            .filter_map(Token::from_word)
            .collect();
        let sender = Sender::Unit(slot);
        let circuit = Circuit::new(sender, destination, width, self.seen.numbers());
        let at = Port {
            slot,
            port: REPLY_PORT,
        };
        let number = self.touched.open_by(self.books, circuit, at, header);
        for token in said {
            if let Some(cell) = self.books.put_out(number, token) {
                self.books.put(at, cell);
            }
        }
        Some(number)
    }
}
