//! The three that are timed, behind one trait.

use bench::raw;
use compare::calls::{self, Lent};
use model::calls::Beginning;
use model::network::Start;
use model::{Answer, Call};

use crate::baseline;
use crate::states::State;

/// A bench that makes calls, from a state to which it can go back.
pub trait Side {
    fn name(&self) -> &'static str;
    fn make(&mut self, call: &Call) -> Answer;
    fn is_sound(&self) -> bool;
    /// Goes back to the state that it began with.
    fn restore(&mut self);
}

/// The proved library, called as a host calls it: over memories that the host owns.
pub struct Library {
    begin: Lent,
    pub lent: Lent,
}

impl Library {
    pub fn at(state: &State) -> Library {
        let begin = state.lent.clone();
        let lent = begin.clone();
        Library { begin, lent }
    }

    /// A host lends memories of the lengths that it asks for, and keeps them.
    fn start(&mut self, beginning: Beginning) -> Answer {
        let nodes = beginning.nodes;
        self.lent.state.resize(nodes * raw::state_words(), 0);
        self.lent.memory.resize(beginning.memory_words, 0);
        let line_words = beginning.line_words.unwrap_or(0);
        self.lent.lines.resize(line_words, 0);
        let Lent {
            state,
            memory,
            lines,
        } = &mut self.lent;
        let answer = match beginning.start {
            Start::Fresh => raw::fresh(state, memory, lines, nodes),
            Start::Blank => raw::blank(state, memory, lines, nodes),
        };
        match answer {
            bench::Answer::Done => Answer::Done,
            refused => unreachable!("no measure has a start that is refused: {refused:?}"),
        }
    }
}

impl Side for Library {
    fn name(&self) -> &'static str {
        "library"
    }

    fn make(&mut self, call: &Call) -> Answer {
        match call.begins() {
            Some(beginning) => self.start(beginning),
            None => calls::make(&mut self.lent, call),
        }
    }

    fn is_sound(&self) -> bool {
        raw::is_sound(&self.lent.state, &self.lent.memory, &self.lent.lines)
    }

    fn restore(&mut self) {
        self.lent.state.clone_from(&self.begin.state);
        self.lent.memory.clone_from(&self.begin.memory);
        self.lent.lines.clone_from(&self.begin.lines);
    }
}

/// The independent model.
pub struct Model {
    begin: Option<model::Network>,
    network: Option<model::Network>,
}

impl Model {
    pub fn at(state: &State) -> Model {
        let begin = state.network.clone();
        let network = begin.clone();
        Model { begin, network }
    }
}

impl Side for Model {
    fn name(&self) -> &'static str {
        "model"
    }

    fn make(&mut self, call: &Call) -> Answer {
        model::apply(&mut self.network, call)
    }

    fn is_sound(&self) -> bool {
        self.network.as_ref().is_some_and(model::sound::is_sound)
    }

    fn restore(&mut self) {
        self.network.clone_from(&self.begin);
    }
}

/// The baseline; before its first start it has no nodes.
pub struct Baseline {
    begin: Box<baseline::Network>,
    pub network: Box<baseline::Network>,
}

impl Baseline {
    pub fn at(state: &State) -> Baseline {
        let begin = baseline::Network::read(&state.lent).unwrap_or_default();
        let network = begin.clone();
        Baseline { begin, network }
    }
}

impl Side for Baseline {
    fn name(&self) -> &'static str {
        "baseline"
    }

    fn make(&mut self, call: &Call) -> Answer {
        self.network.make(call)
    }

    fn is_sound(&self) -> bool {
        self.network.is_sound()
    }

    fn restore(&mut self) {
        self.network.clone_from(&self.begin);
    }
}
