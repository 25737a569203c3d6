//! A script, run or checked.

use std::fmt;
use std::io;

use bench::LinkEnd;

use crate::answer::Answer;
use crate::call::Call;
use crate::host::{Host, Made, Outcome};
use crate::parse::BadLine;
use crate::people::{self, Word};
use crate::reader::{read, Entry, Said, Script};
use crate::settle::{Settled, Settling};

/// What a trace begins with: the Asks of document 02 that it was made with. A comment to every reader.
pub const HEAD: &str = "// asks 1,4,7";

/// Why a script was not run to its end.
#[derive(Debug)]
#[non_exhaustive]
pub enum Fault {
    /// A line that is no call: none was made.
    BadLine(BadLine),
    /// A line that states another outcome than the one found.
    Differs {
        line: usize,
        call: Call,
        stated: Outcome,
        found: Outcome,
    },
    /// An Input of a line for people that must answer otherwise.
    NotReceived {
        line: usize,
        call: Call,
        wanted: Answer,
        found: Answer,
    },
    /// Whoever is told of the calls could not take it.
    Untold(io::Error),
}

impl Fault {
    /// The exit status that the command ends with.
    pub fn exit_status(&self) -> u8 {
        match self {
            Fault::Differs { .. } | Fault::NotReceived { .. } => 1,
            _ => 2,
        }
    }
}

impl fmt::Display for Fault {
    fn fmt(&self, f: &mut fmt::Formatter<'_>) -> fmt::Result {
        match self {
            Fault::BadLine(bad) => write!(f, "{bad}"),
            Fault::Differs {
                line,
                call,
                stated,
                found,
            } => write!(f, "line {line}: {call} gives {found}, stated is {stated}"),
            Fault::NotReceived {
                line,
                call,
                wanted,
                found,
            } => write!(
                f,
                "line {line}: {call} gives {found}, the line expects {wanted}"
            ),
            Fault::Untold(error) => write!(f, "cannot write what came of a call: {error}"),
        }
    }
}

impl std::error::Error for Fault {
    fn source(&self) -> Option<&(dyn std::error::Error + 'static)> {
        match self {
            Fault::BadLine(bad) => Some(bad),
            Fault::Differs { .. } | Fault::NotReceived { .. } => None,
            Fault::Untold(error) => Some(error),
        }
    }
}

/// Whoever is told of a run as it goes.
pub trait Watch {
    /// A line that has words, or a comment, comes next.
    fn entry(&mut self, _entry: &Entry) -> io::Result<()> {
        Ok(())
    }

    /// A call is about to be made. Of a round of `settle`, and where lines are emptied, this is said of
    /// every Step, also of those that then change nothing.
    fn makes(&mut self, _before: &Host, _call: &Call) {}

    /// A call was made.
    fn made(&mut self, after: &Host, made: &Made) -> io::Result<()>;

    /// A line with `settle` has come to its end.
    fn settled(&mut self, _after: &Host, _settled: Settled) -> io::Result<()> {
        Ok(())
    }
}

/// Told of the calls alone.
struct Calls<F>(F);

impl<F: FnMut(&Made) -> io::Result<()>> Watch for Calls<F> {
    fn made(&mut self, _after: &Host, made: &Made) -> io::Result<()> {
        self.0(made)
    }
}

/// Makes the calls of a script, plain or for people, and tells of each as it is made; answers the
/// network that they leave. A bad line is found before any call is made.
pub fn run(text: &str, tell: impl FnMut(&Made) -> io::Result<()>) -> Result<Host, Fault> {
    let script = read(text).map_err(Fault::BadLine)?;
    play(&script, &mut Calls(tell))
}

/// Makes the calls of a script and compares with what it states. Answers how many calls were
/// compared, or the first that differs; a call whose line states nothing is made and not compared.
pub fn check(text: &str, tell: impl FnMut(&Made) -> io::Result<()>) -> Result<usize, Fault> {
    let script = read(text).map_err(Fault::BadLine)?;
    let mut calls = Calls(tell);
    let mut playing = Playing::of(&mut calls, true);
    playing.all(&script)?;
    Ok(playing.compared)
}

/// Makes the calls of a script that has been read, with somebody to watch; answers the network that
/// they leave.
pub fn play(script: &Script, watch: &mut impl Watch) -> Result<Host, Fault> {
    let mut playing = Playing::of(watch, false);
    playing.all(script)?;
    Ok(playing.host)
}

/// A script under way.
struct Playing<'w, W> {
    host: Host,
    watch: &'w mut W,
    /// Whether what plain lines state is compared.
    compares: bool,
    /// How many calls were.
    compared: usize,
}

impl<'w, W: Watch> Playing<'w, W> {
    fn of(watch: &'w mut W, compares: bool) -> Playing<'w, W> {
        Playing {
            host: Host::default(),
            watch,
            compares,
            compared: 0,
        }
    }

    fn all(&mut self, script: &Script) -> Result<(), Fault> {
        for entry in script.entries() {
            self.watch.entry(&entry).map_err(Fault::Untold)?;
            match entry.said {
                Said::Comment => {}
                Said::Plain { call, stated } => {
                    let made = self.make(entry.line, call)?;
                    self.compare(stated, made)?;
                }
                Said::Words(word) => self.expand(entry.line, word)?,
            }
        }
        Ok(())
    }

    fn make(&mut self, line: usize, call: Call) -> Result<Made, Fault> {
        self.watch.makes(&self.host, &call);
        let made = self.host.make(line, call);
        self.watch.made(&self.host, &made).map_err(Fault::Untold)?;
        Ok(made)
    }

    /// Makes the calls that words stand for.
    fn expand(&mut self, line: usize, word: Word) -> Result<(), Fault> {
        let looks = self.host.looks();
        let calls = match word {
            Word::Calls(calls) => calls,
            Word::Board { slot, settings, .. } => people::board(slot, &settings),
            Word::Cable { one, other } => people::cable(one, other),
            Word::Route {
                slot,
                bits,
                direction,
            } => people::route(slot, bits, direction),
            Word::Send { from, to, tokens } => {
                let calls = people::send(looks, from, to, tokens);
                return self.make_all(line, calls);
            }
            Word::Message {
                from,
                to,
                network,
                request,
            } => people::message(looks, from, to, network, request),
            Word::Times { step, count } => {
                return self.make_all(line, std::iter::repeat_n(step, count));
            }
            Word::Receive { end, tokens } => {
                return self.receive(line, people::receive(end, tokens))
            }
            Word::Settle => return self.settle(line),
        };
        self.make_all(line, calls)
    }

    /// Calls of a line for people; behind a HELLO that is not refused the lines of its cable are
    /// emptied.
    fn make_all(
        &mut self,
        line: usize,
        calls: impl IntoIterator<Item = Call>,
    ) -> Result<(), Fault> {
        for call in calls {
            let made = self.make(line, call)?;
            if let (Call::Hello { slot, link }, Answer::Granted(_)) =
                (&made.call, &made.found.answer)
            {
                let (slot, link) = (*slot, *link);
                self.empty_lines(line, LinkEnd { slot, link })?;
            }
        }
        Ok(())
    }

    /// Line steps of both lines of the cable at a link, in turns, until both are empty: what arrives
    /// may put a credit on the other one, and a credit puts nothing.
    fn empty_lines(&mut self, line: usize, end: LinkEnd) -> Result<(), Fault> {
        let ends = people::lines_at(self.host.looks(), end);
        loop {
            let mut changed = false;
            for LinkEnd { slot, link } in ends.iter().copied() {
                changed |= self.make_if_it_changes(line, Call::Line { slot, link })?;
            }
            if !changed {
                return Ok(());
            }
        }
    }

    /// Makes a call that is kept only where it changes something, and says whether it has.
    fn make_if_it_changes(&mut self, line: usize, call: Call) -> Result<bool, Fault> {
        self.watch.makes(&self.host, &call);
        let made = self.host.make_if_it_changes(line, call);
        if let Some(made) = &made {
            self.watch.made(&self.host, made).map_err(Fault::Untold)?;
        }
        Ok(made.is_some())
    }

    /// Inputs that must answer so.
    fn receive(
        &mut self,
        line: usize,
        inputs: impl Iterator<Item = (Call, Answer)>,
    ) -> Result<(), Fault> {
        for (call, wanted) in inputs {
            let Made { call, found, .. } = self.make(line, call)?;
            self.compared += 1;
            if found.answer != wanted {
                return Err(Fault::NotReceived {
                    line,
                    call,
                    wanted,
                    found: found.answer,
                });
            }
        }
        Ok(())
    }

    fn settle(&mut self, line: usize) -> Result<(), Fault> {
        let mut settling = Settling::of(self.host.looks());
        while let Some(call) = settling.next() {
            let changed = self.make_if_it_changes(line, call)?;
            settling.came_of(changed);
        }
        let told = self.watch.settled(&self.host, settling.settled());
        told.map_err(Fault::Untold)
    }

    /// Holds what was found to what a plain line states, if it states anything.
    fn compare(&mut self, stated: Option<Outcome>, made: Made) -> Result<(), Fault> {
        let Some(stated) = stated.filter(|_| self.compares) else {
            return Ok(());
        };
        self.compared += 1;
        match stated == made.found {
            true => Ok(()),
            false => Err(Fault::Differs {
                line: made.line,
                call: made.call,
                stated,
                found: made.found,
            }),
        }
    }
}
