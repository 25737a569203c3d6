//! What is timed: from which state, and which calls.

use compare::runs;
use model::script;
use model::sizes::{MOST_NODES, TILE_PORTS};
use model::tokens::Kind;
use model::Call;

use crate::states::{empty, half_full, nothing, sent, State};

/// The head of which the hub is updated and the lanes are not.
const HALF_UPDATE: &str = include_str!("../../../examples/traces/half-update.txt");

/// The networks whose cost is compared with the number of their boards.
pub const BOARDS: [usize; 5] = [1, 2, 4, 8, MOST_NODES];

/// Work that every side does from the same state.
pub struct Measure {
    pub name: String,
    pub begin: State,
    pub work: Work,
}

pub enum Work {
    /// `is_sound`, so many times.
    IsSound(usize),
    /// Each of these calls, timed by the call.
    Each(Vec<Call>),
    /// All of these calls, timed as one.
    All(Vec<Call>),
}

/// What `ratio` prints, in its order. The request for lines has two limits: `is_sound` of half full
/// boards, whose lines are empty, is to cost 1.15 of what it did before it at most, and a line step 1.3
/// of the baseline's.
pub fn measures() -> Vec<Measure> {
    let full = half_full(MOST_NODES);
    let on_full = |name: &str, call| Measure {
        name: format!("{name}/16-half-full"),
        begin: full.clone(),
        work: round_the_boards(MOST_NODES, call),
    };
    let mut measures = vec![
        is_sound("is_sound/16-empty".to_owned(), empty(MOST_NODES)),
        is_sound("is_sound/16-half-full".to_owned(), full.clone()),
        on_full("step-to-channel", step_to_channel),
        on_full("output", output),
        on_full("input", input),
        Measure {
            name: "line-step/16-half-full".to_owned(),
            begin: sent(MOST_NODES),
            work: round_the_boards(MOST_NODES, line_step),
        },
        half_update(),
    ];
    measures.extend(BOARDS.map(|boards| Measure {
        name: format!("step-over-cable/{boards}-half-full"),
        begin: half_full(boards),
        work: round_the_boards(boards, step_over_cable),
    }));
    measures
}

/// Sixteen calls, of one board after the other.
fn round_the_boards(boards: usize, call: fn(usize) -> Call) -> Work {
    Work::Each((0..16).map(|turn| call(turn % boards)).collect())
}

fn is_sound(name: String, begin: State) -> Measure {
    let work = Work::IsSound(16);
    Measure { name, begin, work }
}

/// The whole script, from its Fresh on, with its lines emptied behind each call.
fn half_update() -> Measure {
    let lines = match script::parse(HALF_UPDATE) {
        Ok(lines) => lines,
        Err(fault) => unreachable!("the example is a script: {fault:?}"),
    };
    let calls = runs::emptied(lines.into_iter().map(|line| line.call));
    Measure {
        name: "script/half-update".to_owned(),
        begin: nothing(),
        work: Work::All(calls),
    }
}

/// A token of port 8 moves on to the line from link A to the next board.
fn step_over_cable(slot: usize) -> Call {
    Call::Step {
        slot,
        port: TILE_PORTS.start,
    }
}

/// The token on the line from link A arrives at the next board.
fn line_step(slot: usize) -> Call {
    Call::Line { slot, link: 0 }
}

/// A token of port 4 is handed to channel 7.
fn step_to_channel(slot: usize) -> Call {
    Call::Step { slot, port: 4 }
}

/// Channel-end 0 puts one more token into port 8.
fn output(slot: usize) -> Call {
    Call::Output {
        slot,
        channel_end: 0,
        kind: Kind::Data,
        value: 42,
    }
}

/// Channel-end 16 holds tokens of a circuit within the board.
fn input(slot: usize) -> Call {
    Call::Input {
        slot,
        channel_end: 16,
        kind: Kind::Data,
    }
}
