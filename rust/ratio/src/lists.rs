//! Lists of Steps: what a Step of a list costs, beside the baseline's Step with no test of the state,
//! and beside a single call of the library.

use std::hint::black_box;

use bench::{raw, StepRecord};
use compare::calls::Lent;
use model::sizes::{LINKS, MOST_NODES, PORTS};
use model::No;

use crate::baseline::{Network, Stepped};
use crate::states::{going_round, State};
use crate::timing::{by_turns, nanoseconds_of};

/// How often a list goes round the boards. No line is stepped in it: it ends before the credit does.
const ROUNDS: usize = 16;

/// How many Steps the list of so many boards has.
pub fn steps(boards: usize) -> usize {
    ROUNDS * (LINKS + PORTS) * boards
}

/// The networks on which lists are timed, by the number of their boards.
pub const BOARDS: [usize; 3] = [1, 4, MOST_NODES];

/// A list of Steps that every side makes from the same state.
pub struct List {
    pub name: String,
    pub begin: State,
    pub records: Vec<StepRecord>,
}

/// The nanoseconds of a Step of the library's list, and of another side that took turns with it.
pub struct Times {
    pub list: f64,
    pub other: f64,
}

/// What `ratio` prints of lists, in its order.
pub fn lists() -> Vec<List> {
    let lists = BOARDS.map(|boards| List {
        name: format!("list-step/{boards}-half-full"),
        begin: going_round(boards),
        records: records(boards),
    });
    lists.into()
}

/// Two rounds of the ports behind links, then one of the others, over and over, each port on every
/// board in turn. Of 21 Steps 16 are of messages that leave for the lines, one that opens a circuit to
/// eight that move a token; two hand tokens to the sink of their board; one hands to a channel-end,
/// which is soon full, and two have a header that waits for it.
fn records(boards: usize) -> Vec<StepRecord> {
    let ports = (0..LINKS).chain(0..PORTS);
    let round = ports.flat_map(|port| (0..boards).map(move |slot| StepRecord { slot, port }));
    let round: Vec<StepRecord> = round.collect();
    round.iter().copied().cycle().take(steps(boards)).collect()
}

/// The library's list, on words of its own.
pub struct Library<'a> {
    begin: &'a Lent,
    pub lent: Lent,
    pub results: Vec<u64>,
}

impl<'a> Library<'a> {
    pub fn at(state: &'a State, many: usize) -> Library<'a> {
        let begin = &state.lent;
        Library {
            begin,
            lent: begin.clone(),
            results: vec![0; many],
        }
    }

    pub fn restore(&mut self) {
        self.lent.state.clone_from(&self.begin.state);
        self.lent.memory.clone_from(&self.begin.memory);
        self.lent.lines.clone_from(&self.begin.lines);
    }

    pub fn make(&mut self, list: &[StepRecord]) {
        let Lent {
            state,
            memory,
            lines,
        } = &mut self.lent;
        let answer = raw::steps(state, memory, lines, list, &mut self.results);
        assert_eq!(answer, bench::Answer::Done);
    }

    /// The same by single calls, as a host makes them.
    pub fn make_one_by_one(&mut self, list: &[StepRecord]) {
        let Lent {
            state,
            memory,
            lines,
        } = &mut self.lent;
        for record in list {
            black_box(raw::step(state, memory, lines, record.slot, record.port));
        }
    }
}

/// The baseline's list.
pub struct Baseline {
    begin: Box<Network>,
    pub network: Box<Network>,
    pub results: Vec<Result<Stepped, No>>,
}

impl Baseline {
    pub fn at(state: &State, many: usize) -> Baseline {
        let begin = Network::read(&state.lent).unwrap_or_default();
        Baseline {
            network: begin.clone(),
            begin,
            results: vec![Ok(Stepped::Idle); many],
        }
    }

    pub fn restore(&mut self) {
        self.network.clone_from(&self.begin);
    }

    pub fn make(&mut self, list: &[StepRecord]) {
        let made = self.network.steps_untested(list, &mut self.results);
        assert_eq!(made, Ok(()));
    }
}

/// The library's list beside the baseline's.
pub fn beside_baseline(measure: &List, rounds: usize) -> Times {
    let List { begin, records, .. } = measure;
    let mut baseline = Baseline::at(begin, records.len());
    beside(measure, rounds, &mut || {
        baseline.restore();
        nanoseconds_of(records.len(), || baseline.make(black_box(records)))
    })
}

/// The library's list beside its single calls.
pub fn beside_single_calls(measure: &List, rounds: usize) -> Times {
    let List { begin, records, .. } = measure;
    let mut library = Library::at(begin, records.len());
    beside(measure, rounds, &mut || {
        library.restore();
        nanoseconds_of(records.len(), || {
            library.make_one_by_one(black_box(records))
        })
    })
}

fn beside(measure: &List, rounds: usize, other: &mut dyn FnMut() -> f64) -> Times {
    let List { begin, records, .. } = measure;
    let mut library = Library::at(begin, records.len());
    let mut list = || {
        library.restore();
        nanoseconds_of(records.len(), || library.make(black_box(records)))
    };
    let [list, other] = by_turns(rounds, [&mut list, other]);
    Times { list, other }
}
