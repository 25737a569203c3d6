//! Rounds of Steps: all ports of all boards, then all lines, by slot and port, over and over.
//!
//! The Steps of ports are made in lists, line steps one by one. A list ends with the port that is
//! watched, wherever in the round it stands: so the network can be looked at before and behind every
//! Step of that port, and all ports of a round are one call or two.

use bench::sizes::{LINKS, PORTS};
use bench::{Bench, LinkEnd, StepRecord, StepResult, Stepped};

/// How many Steps are made, and no more. Those of lines count as those of ports do.
pub const MOST_STEPS: usize = 65_536;

/// A port of a board.
#[derive(Clone, Copy, Debug, PartialEq, Eq)]
pub struct Place {
    pub slot: usize,
    pub port: usize,
}

/// What of a round is watched.
#[derive(Clone, Copy, Debug, PartialEq, Eq)]
pub enum Watched {
    Port(Place),
    /// The line that starts at a link.
    Line(LinkEnd),
}

/// How Steps ended that were made up to what is watched.
pub enum Listed {
    /// With what this Step of the watched port answered.
    Made(Stepped),
    /// With a step of the watched line, and whether that took something off.
    Taken(bool),
    /// A whole round of Steps has changed nothing.
    AtRest,
    /// No more Steps are to be made.
    Out,
}

/// A network on which rounds of Steps are made.
pub struct Rounds {
    bench: Bench,
    /// The ports of a round, and the lines that are stepped behind them.
    ports: Vec<StepRecord>,
    lines: Vec<LinkEnd>,
    /// As many as there are ports.
    results: Vec<StepResult>,
    /// Which port of the round is stepped next or, counted behind all ports, which line.
    next: usize,
    /// How many Steps have been made.
    steps: usize,
    /// Whether a Step of this round has changed something.
    changed: bool,
}

impl Rounds {
    pub fn of(bench: Bench) -> Rounds {
        let slots = 0..bench.looks().nodes();
        let ports = slots
            .clone()
            .flat_map(|slot| (0..PORTS).map(move |port| StepRecord { slot, port }));
        let ports: Vec<StepRecord> = ports.collect();
        let lines = slots.flat_map(|slot| (0..LINKS).map(move |link| LinkEnd { slot, link }));
        Rounds {
            bench,
            lines: lines.collect(),
            results: vec![StepResult::default(); ports.len()],
            ports,
            next: 0,
            steps: 0,
            changed: false,
        }
    }

    pub fn bench(&self) -> &Bench {
        &self.bench
    }

    /// Makes the Steps up to and with the next one of what is watched.
    pub fn up_to(&mut self, watched: Watched) -> Listed {
        let wanted = self.place_of(watched);
        while self.steps < MOST_STEPS {
            let (last, made) = match self.next < self.ports.len() {
                true => self.list(wanted),
                false => self.line(),
            };
            if self.ends_at_rest() {
                return Listed::AtRest;
            }
            if last == wanted {
                return made;
            }
        }
        Listed::Out
    }

    /// Where in the round it stands.
    fn place_of(&self, watched: Watched) -> usize {
        match watched {
            Watched::Port(Place { slot, port }) => slot * PORTS + port,
            Watched::Line(LinkEnd { slot, link }) => self.ports.len() + slot * LINKS + link,
        }
    }

    /// Makes the Steps of ports up to the wanted one, or to the last, as one list: where that ends,
    /// and with what.
    fn list(&mut self, wanted: usize) -> (usize, Listed) {
        let all = self.next..self.ports.len();
        let end = match all.contains(&wanted) {
            true => wanted + 1,
            false => all.end,
        };
        let many = (end - self.next).min(MOST_STEPS - self.steps);
        let list = &self.ports[self.next..self.next + many];
        let results = &mut self.results[..many];
        let made = self.bench.steps_into(list, results);
        made.expect("there is a result for each Step");
        let mut last = Stepped::Idle;
        for result in results {
            last = stepped(*result);
            self.changed |= changes(last);
        }
        (self.count(many), Listed::Made(last))
    }

    /// Makes the next line's step. One of a line with nothing on it is Idle: it is counted, and not
    /// made.
    fn line(&mut self) -> (usize, Listed) {
        let LinkEnd { slot, link } = self.lines[self.next - self.ports.len()];
        let is_taken = self.bench.looks().line(slot, link).held > 0;
        if is_taken {
            // Proved: `never_unsound` in bench/proofs/Lasts.antt; the link is there.
            let taken = self.bench.line(slot, link);
            taken.expect("no line step is refused on a network that calls have made");
            self.changed = true;
        }
        (self.count(1), Listed::Taken(is_taken))
    }

    /// Counts Steps; the place of the last of them.
    fn count(&mut self, many: usize) -> usize {
        let last = self.next + many - 1;
        self.steps += many;
        self.next = (last + 1) % (self.ports.len() + self.lines.len());
        last
    }

    /// Whether a round has just ended that has changed nothing.
    fn ends_at_rest(&mut self) -> bool {
        self.next == 0 && !std::mem::take(&mut self.changed)
    }
}

/// What came of a Step of a port that is there.
fn stepped(result: StepResult) -> Stepped {
    let answer = result.answer().expect("a list has been written here");
    // Proved: `never_unsound` in bench/proofs/Lasts.antt; the port is there, so nothing else refuses.
    answer.expect("no Step is refused on a network that calls have made")
}

/// Whether a Step that answers so has changed something.
pub fn changes(stepped: Stepped) -> bool {
    !matches!(stepped, Stepped::Idle | Stepped::Waiting)
}
