//! `bench expand`: the plain calls that a script for people stands for.

use std::io::{self, Write};

use crate::facts;
use crate::host::{Host, Made};
use crate::names::{counted, port};
use crate::play::{Watch, HEAD};
use crate::reader::{Entry, Said};
use crate::rounds::MOST_STEPS;
use crate::settle::Settled;

pub const HELP: &str = "\
bench expand FILE: makes the calls of FILE and prints them as a plain script, without their answers

FILE is a script for people, or a plain one, or both in one: any plain call may stand in it. Comments
stay; a line of words stands as a comment, //: and the line, before the calls that it stands for.

  fresh BOARDS                  the start, with the memories that so many boards need; so blank BOARDS
  board NAME SLOT [number NUMBER] [width WIDTH]
                                a name for the board in a slot, and its settings; later without SLOT
  cable BOARD.LINK BOARD.LINK   the cable, both ends enabled, HELLO from both
  route BOARD bit BIT -> direction DIRECTION
                                a direction entry; bit FIRST..LAST for several
  link BOARD.LINK [direction DIRECTION] [network NETWORK] [enable] [disable] [hello]
                                a link's settings, in the order written; behind each HELLO, here and
                                of a cable, line steps until both lines of the cable are empty
  send BOARD.CHANNELEND to BOARD.CHANNEL [on network NETWORK]: TOKEN TOKEN ..
                                Aim at the number that the board has then, and an Output a token;
                                to number NUMBER channel CHANNEL for any number; without to, Outputs
                                alone
  message BOARD.CHANNELEND to BOARD [on network NETWORK]: write ADDRESS VALUE
                                a switch message that is to be answered to that channel-end; or
                                read ADDRESS
  receive BOARD.CHANNELEND: TOKEN TOKEN ..
                                Inputs, which must answer so, else the run ends there and the line is
                                named; receive BOARD.CHANNELEND: nothing where nothing is held
  step BOARD.PORT COUNT times   so many Steps of a port
  line BOARD.LINK COUNT times   so many steps of the line that starts at a link
  settle                        Steps of all ports and then of all lines, by slot and port, in rounds
                                until a whole round changes nothing, at most 65536; those that changed
                                something are kept, and what came of it is a comment

BOARD is a board's name or its slot, LINK a letter A..H. A TOKEN is a value 0..255, or END, PAUSE, ACK,
NACK, or control-VALUE. In a plain call of such a script a board may be named for its slot and a link by its
letter, and a full stop may part them: step hub.A, line hub.A, input lane1.7 data.

Exit status: 0 printed; 1 something else was received than a line expects, and the line is named; 2 the
script was not run to its end.
";

/// Writes plain calls as they are made.
pub struct Expanding<W> {
    out: W,
    begun: bool,
}

impl<W: Write> Expanding<W> {
    pub fn to(out: W) -> Expanding<W> {
        Expanding { out, begun: false }
    }

    pub fn flush(&mut self) -> io::Result<()> {
        self.out.flush()
    }
}

impl<W: Write> Watch for Expanding<W> {
    fn entry(&mut self, entry: &Entry) -> io::Result<()> {
        if !self.begun && entry.text != HEAD {
            writeln!(self.out, "{HEAD}")?;
        }
        self.begun = true;
        match entry.said {
            Said::Comment => writeln!(self.out, "{}", entry.text),
            Said::Words(_) => writeln!(self.out, "//: {}", entry.text),
            Said::Plain { .. } => Ok(()),
        }
    }

    fn made(&mut self, _after: &Host, made: &Made) -> io::Result<()> {
        writeln!(self.out, "{}", made.call)
    }

    fn settled(&mut self, after: &Host, settled: Settled) -> io::Result<()> {
        writeln!(self.out, "//: {}", outcome(settled))?;
        for wait in waits(after) {
            writeln!(self.out, "//: {wait}")?;
        }
        Ok(())
    }
}

/// What came of settling, in words.
pub fn outcome(settled: Settled) -> String {
    let steps = counted(settled.changed, "step");
    let rounds = counted(settled.rounds, "round");
    match settled.at_rest {
        true => format!("settled by {steps} in {rounds}"),
        false => format!(
            "not settled after {MOST_STEPS} steps, of which {} changed something",
            settled.changed
        ),
    }
}

/// What still waits on a network, a line a port.
fn waits(host: &Host) -> Vec<String> {
    let bench = host.copy();
    let waits = facts::ports(bench.looks()).filter_map(|(slot, index)| {
        let on = facts::waits(&bench, slot, index)?;
        Some(format!("board {slot} {}: {on}", port(index)))
    });
    waits.collect()
}
