//! What is asked of the network: whether an END from one board reaches a number.

use bench::Destination;

use crate::words::{Expected, Words};

/// A channel of a board, or its control unit.
#[derive(Clone, Copy, Debug, PartialEq, Eq)]
pub enum Door {
    Channel(u32),
    Control,
}

impl Door {
    pub fn channel(self) -> Option<u32> {
        match self {
            Door::Channel(channel) => Some(channel),
            Door::Control => None,
        }
    }
}

/// To whom an END is sent, and on which network. Values may be out of range: Aim refuses those.
#[derive(Clone, Copy, Debug, PartialEq, Eq)]
pub struct Question {
    /// The board that sends.
    pub slot: usize,
    pub number: u32,
    pub door: Door,
    pub network: u32,
}

impl Question {
    pub fn destination(self) -> Destination {
        let number = self.number;
        match self.door {
            Door::Channel(channel) => Destination::Channel { number, channel },
            Door::Control => Destination::Control { number },
        }
    }

    /// `SLOT NUMBER CHANNEL [NETWORK]`, of a command line.
    pub fn read(given: &[&str]) -> Result<Question, Expected> {
        let (board, way) = given.split_at(given.len().min(2));
        let text = board.join(" ");
        let mut words = Words::of(&text);
        let slot = words.number("a slot")?;
        let number = words.number("a number of 32 bits")?;
        words.end()?;
        let (door, network) = read_door(way)?;
        Ok(Question {
            slot,
            number,
            door,
            network,
        })
    }
}

/// `CHANNEL [NETWORK]`, where CHANNEL may be `control`.
pub fn read_door(given: &[&str]) -> Result<(Door, u32), Expected> {
    let text = given.join(" ");
    let mut words = Words::of(&text);
    let control = given.first() == Some(&"control");
    let door = match control {
        true => words.word("control").map(|_| Door::Control)?,
        false => Door::Channel(words.number("a channel of 32 bits, or control")?),
    };
    let network = match given.len() {
        1 => 0,
        _ => words.number("a network of 32 bits")?,
    };
    words.end()?;
    Ok((door, network))
}
