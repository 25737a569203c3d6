//! The books that a person beside the bench keeps of a run.
//!
//! They speak of circuits and tokens, in the words of the order's third demand: who opened a
//! circuit, towards where and at which width; what was put out on it; what it handed, and at which
//! door. [`note`] writes them, from the call, its answer and what the looks show; nobody reads a
//! header to find out where a token belongs, and nothing of the bench or of the model reads the
//! books. Credits and HELLO are of no circuit, and are not in them.

mod line;
mod note;
mod step;
pub mod words;

pub(crate) use note::kind_of;
pub use note::{note, Note};

use std::collections::{BTreeMap, VecDeque};
use std::fmt;

use bench::{Cause, Destination, Token};

use words::is_pause;

/// A port of the node in a slot.
#[derive(Clone, Copy, Debug, PartialEq, Eq, PartialOrd, Ord)]
pub struct Port {
    pub slot: usize,
    pub port: usize,
}

/// The line that starts at a link of the node in a slot.
#[derive(Clone, Copy, Debug, PartialEq, Eq, PartialOrd, Ord)]
pub struct Line {
    pub slot: usize,
    pub link: usize,
}

/// A channel-end of the node in a slot.
#[derive(Clone, Copy, Debug, PartialEq, Eq, PartialOrd, Ord)]
pub struct End {
    pub slot: usize,
    pub end: usize,
}

/// Who opened a circuit.
#[derive(Clone, Copy, Debug, PartialEq, Eq, PartialOrd, Ord)]
pub enum Sender {
    End(End),
    /// The control unit of a slot, with a reply.
    Unit(usize),
}

/// Where tokens are handed: a channel of a node, the sink among them, or a control unit.
#[derive(Clone, Copy, Debug, PartialEq, Eq, PartialOrd, Ord)]
pub enum Door {
    Channel { slot: usize, channel: u32 },
    Unit { slot: usize },
}

impl Door {
    pub fn slot(self) -> usize {
        match self {
            Door::Channel { slot, .. } | Door::Unit { slot } => slot,
        }
    }
}

impl fmt::Display for Port {
    fn fmt(&self, f: &mut fmt::Formatter<'_>) -> fmt::Result {
        write!(f, "port {} of slot {}", self.port, self.slot)
    }
}

impl fmt::Display for Line {
    fn fmt(&self, f: &mut fmt::Formatter<'_>) -> fmt::Result {
        write!(f, "the line from link {} of slot {}", self.link, self.slot)
    }
}

impl fmt::Display for End {
    fn fmt(&self, f: &mut fmt::Formatter<'_>) -> fmt::Result {
        write!(f, "channel-end {} of slot {}", self.end, self.slot)
    }
}

impl fmt::Display for Sender {
    fn fmt(&self, f: &mut fmt::Formatter<'_>) -> fmt::Result {
        match self {
            Sender::End(end) => write!(f, "{end}"),
            Sender::Unit(slot) => write!(f, "the control unit of slot {slot}"),
        }
    }
}

impl fmt::Display for Door {
    fn fmt(&self, f: &mut fmt::Formatter<'_>) -> fmt::Result {
        match self {
            Door::Channel { slot, channel } => write!(f, "channel {channel} of slot {slot}"),
            Door::Unit { slot } => write!(f, "the control unit of slot {slot}"),
        }
    }
}

/// What has become of a circuit.
#[derive(Clone, Copy, Debug, PartialEq, Eq)]
pub enum Fate {
    /// Its header is still on its way.
    Flying,
    Refused(Cause),
    /// Its header was taken off at a port, and the port's circuit has led to this door since. The
    /// number is the one that the node had at that Step.
    Landed {
        at: Port,
        door: Option<Door>,
        number: u32,
    },
    /// It stayed within its node. The number is the one at the opening Output.
    Here {
        door: Door,
        number: u32,
    },
}

impl Fate {
    /// The door that it came to, if it came to one.
    pub fn door(self) -> Option<Door> {
        match self {
            Fate::Landed { door, .. } => door,
            Fate::Here { door, .. } => Some(door),
            Fate::Flying | Fate::Refused(_) => None,
        }
    }

    /// The number that the node had when the circuit came to it.
    pub fn number(self) -> Option<u32> {
        match self {
            Fate::Landed { number, .. } | Fate::Here { number, .. } => Some(number),
            Fate::Flying | Fate::Refused(_) => None,
        }
    }
}

/// An opening, by an Output or by a control unit for its reply, and all that came of it.
#[derive(Clone, Debug)]
pub struct Circuit {
    pub sender: Sender,
    /// Where it is to go, and the width of its node, when it was opened.
    pub destination: Destination,
    pub width: u32,
    /// What the latest done Aim of its channel-end had given then; nothing for a reply.
    pub aimed: Option<Destination>,
    /// How many tokens its header has; none within a node.
    pub header: usize,
    /// Its header, then all that was put out on it.
    pub stream: Vec<Token>,
    /// What it has handed, in the order of the run.
    pub handed: Vec<Token>,
    pub fate: Fate,
    /// Has some Step read its whole header with a switch of the other width?
    pub misread: bool,
    /// Was a cable plugged into a link by which it was to leave?
    pub joined: bool,
    /// The numbers of all nodes when it was opened, by slot.
    pub numbers: Vec<u32>,
}

impl Circuit {
    /// What was put out on it after its header.
    pub fn put_out(&self) -> &[Token] {
        self.stream.get(self.header..).unwrap_or_default()
    }

    /// What there is to be handed of it, as far as it was put out: pauses left out.
    pub fn owed(&self) -> impl Iterator<Item = &Token> {
        self.put_out().iter().filter(|token| !is_pause(**token))
    }

    /// One that is opened now, with nothing put out.
    pub fn new(sender: Sender, destination: Destination, width: u32, numbers: Vec<u32>) -> Circuit {
        Circuit {
            sender,
            destination,
            width,
            aimed: None,
            header: 0,
            stream: Vec::new(),
            handed: Vec::new(),
            fate: Fate::Flying,
            misread: false,
            joined: false,
            numbers,
        }
    }

    /// The mark that the token at a place of its stream bears.
    pub fn mark(&self, position: usize) -> Option<bench::Width> {
        let width = words::width(self.width);
        width.filter(|_| position < self.header)
    }
}

/// A token in a port or on a line: which circuit it is of, and which of its stream.
#[derive(Clone, Copy, Debug, PartialEq, Eq)]
pub struct Cell {
    pub token: Token,
    pub circuit: usize,
    pub position: usize,
}

/// How an open circuit of a channel-end goes.
#[derive(Clone, Copy, Debug, PartialEq, Eq)]
pub enum Way {
    /// By this port 8..11.
    Port(usize),
    /// Straight to this channel of the same node.
    Straight(u32),
}

/// What is written of a channel-end.
#[derive(Clone, Debug, Default)]
pub struct EndBook {
    /// What its latest done Aim gave.
    pub aimed: Option<Destination>,
    /// The tokens of its done Outputs.
    pub put_out: Vec<Token>,
    /// The tokens that Input took.
    pub taken: Vec<Token>,
    /// Its open circuit, with the way it goes.
    pub open: Option<(usize, Way)>,
}

/// All that is written of a run since its last done start.
#[derive(Clone, Debug, Default)]
pub struct Books {
    /// Circuits, numbered as they were opened.
    pub circuits: Vec<Circuit>,
    /// What each port holds, oldest first.
    pub cells: BTreeMap<Port, VecDeque<Cell>>,
    /// The tokens on each line, the first to arrive first.
    pub lines: BTreeMap<Line, VecDeque<Cell>>,
    /// What was handed at each door, with the circuit that handed it, in the order of the run.
    pub logs: BTreeMap<Door, Vec<(Token, usize)>>,
    pub ends: BTreeMap<End, EndBook>,
    /// The circuit that the control unit of a slot hears.
    pub hearing: BTreeMap<usize, usize>,
}

impl Books {
    /// Writes the next circuit, and says its number.
    pub fn open(&mut self, circuit: Circuit) -> usize {
        self.circuits.push(circuit);
        self.circuits.len() - 1
    }

    /// The circuit whose token is the first of a port.
    pub fn front(&self, at: Port) -> Option<Cell> {
        self.cells.get(&at)?.front().copied()
    }

    /// How many tokens stand in front of a port that are the header of its first circuit.
    pub fn header_in_front(&self, at: Port) -> usize {
        let (Some(front), Some(cells)) = (self.front(at), self.cells.get(&at)) else {
            return 0;
        };
        let length = self.circuits.get(front.circuit).map_or(0, |it| it.header);
        let in_order = |(place, cell): &(usize, &Cell)| {
            cell.circuit == front.circuit && cell.position == *place && *place < length
        };
        cells.iter().enumerate().take_while(in_order).count()
    }

    /// The circuit whose whole header a switch of that width would take for another's.
    pub fn misread_by(&self, at: Port, width: u32) -> Option<usize> {
        let number = self.front(at)?.circuit;
        let circuit = self.circuits.get(number)?;
        let whole = circuit.header > 0 && self.header_in_front(at) == circuit.header;
        (whole && circuit.width != width).then_some(number)
    }

    /// Was the last token put out on a circuit a PAUSE?
    pub fn is_paused(&self, circuit: usize) -> bool {
        let last = self
            .circuits
            .get(circuit)
            .and_then(|it| it.put_out().last());
        last.is_some_and(|last| is_pause(*last))
    }

    /// A token put out on a circuit: the next of its stream.
    pub fn put_out(&mut self, circuit: usize, token: Token) -> Option<Cell> {
        let stream = &mut self.circuits.get_mut(circuit)?.stream;
        stream.push(token);
        Some(Cell {
            token,
            circuit,
            position: stream.len() - 1,
        })
    }

    /// A cell behind all others of a port.
    pub fn put(&mut self, at: Port, cell: Cell) {
        self.cells.entry(at).or_default().push_back(cell);
    }

    /// The first cell of a port, taken off.
    pub fn take(&mut self, at: Port) -> Option<Cell> {
        self.cells.get_mut(&at)?.pop_front()
    }

    /// A token handed by a circuit at a door.
    pub fn hand(&mut self, door: Door, circuit: usize, token: Token) {
        self.logs.entry(door).or_default().push((token, circuit));
        if let Some(circuit) = self.circuits.get_mut(circuit) {
            circuit.handed.push(token);
        }
    }

    /// What was handed at a door, and by whom.
    pub fn log(&self, door: Door) -> &[(Token, usize)] {
        self.logs.get(&door).map_or(&[], Vec::as_slice)
    }
}

/// Something that a call did to circuits.
#[derive(Clone, Copy, Debug, PartialEq, Eq)]
pub enum Happening {
    Opened {
        circuit: usize,
    },
    Landed {
        circuit: usize,
    },
    Refused {
        circuit: usize,
        cause: Cause,
    },
    /// A token was taken from a port, or given to Output, and handed.
    Handed {
        circuit: usize,
        from: Option<Port>,
        door: Door,
    },
    /// A PAUSE came to a door and was handed to nobody.
    Paused {
        circuit: usize,
    },
    /// A cable was plugged into the link by which a circuit is to leave.
    Joined {
        circuit: usize,
    },
    /// A token went on to a line.
    Carried {
        circuit: usize,
    },
    /// A token came off a line, into the port at its end.
    Arrived {
        circuit: usize,
    },
    /// A credit came off a line, or a HELLO.
    Credited,
    Greeted,
    /// A circuit goes back by the link that it came by.
    TurnedBack {
        circuit: usize,
    },
    /// A hop leaves by the very link that feeds its port: a cable with both ends on one node.
    Circles {
        circuit: usize,
    },
    Dropped {
        circuit: usize,
        cause: Cause,
    },
    /// The last token of a switch message was heard; with the reply, if there is one.
    Heard {
        circuit: usize,
        slot: usize,
        paused: bool,
        reply: Option<usize>,
    },
}

/// What a call touched: all that has to be looked at behind it.
#[derive(Clone, Debug, Default)]
pub struct Touched {
    pub circuits: Vec<usize>,
    pub ports: Vec<Port>,
    pub lines: Vec<Line>,
    pub ends: Vec<End>,
    pub units: Vec<usize>,
    /// The circuit whose whole header a Step read with a switch of the other width.
    pub misread: Option<usize>,
    pub happened: Vec<Happening>,
}

impl Touched {
    /// A door to which something came.
    pub fn door(&mut self, door: Door) {
        match door {
            Door::Channel { slot, channel } if channel < words::CHANNELS => self.ends.push(End {
                slot,
                end: channel as usize,
            }),
            // The sink keeps nothing that could be looked at.
            Door::Channel { .. } => {}
            Door::Unit { slot } => self.units.push(slot),
        }
    }

    pub fn circuit(&mut self, circuit: usize, happening: Happening) {
        self.circuits.push(circuit);
        self.happened.push(happening);
    }
}
