//! The door: every call but the two starts tests the state first.

use compare::layout::{NODE_LINES, NODE_TOKENS};
use model::calls::Beginning;
use model::sizes::MOST_NODES;
use model::tokens::THREE_BYTES;
use model::{Answer, Call, No, StepRecord};

use super::records::{Network, Node};

impl Network {
    /// Makes a call. A refused call changes nothing.
    pub fn make(&mut self, call: &Call) -> Answer {
        if let Some(beginning) = call.begins() {
            let begun = self.start(beginning);
            return begun.unwrap_or_else(Answer::No);
        }
        let made = match *call {
            Call::Steps {
                results,
                ref records,
            } => self.steps(results, records),
            _ if !self.is_sound() => Err(No::Unsound),
            _ => self.make_on_sound(call),
        };
        made.unwrap_or_else(Answer::No)
    }

    fn make_on_sound(&mut self, call: &Call) -> Result<Answer, No> {
        match *call {
            // They ask nothing of the state, and are not made here.
            Call::Fresh { .. }
            | Call::Blank { .. }
            | Call::WithLines { .. }
            | Call::Steps { .. } => Err(No::Unsound),
            Call::Wire { one, other } => self.wire(one, other),
            Call::Set { slot, setting } => self.set(slot, setting),
            Call::Aim {
                slot,
                channel_end,
                destination,
                network,
            } => self.aim(slot, channel_end, destination, network),
            Call::Output {
                slot,
                channel_end,
                kind,
                value,
            } => self.output(slot, channel_end, kind, value),
            Call::Input {
                slot,
                channel_end,
                kind,
            } => self.input(slot, channel_end, kind),
            Call::Step { slot, port } => self.step(slot, port).map(Answer::from),
            Call::Line { slot, link } => self.line_step(slot, link),
        }
    }

    /// A list as its single Steps, each with its own test.
    fn steps(&mut self, results: usize, records: &[StepRecord]) -> Result<Answer, No> {
        if results != records.len() {
            return Err(No::NoSuch);
        }
        let each = records.iter().map(|record| self.make(&(*record).into()));
        Ok(Answer::Results(each.collect()))
    }

    /// A start, which leaves links E to H of every node enabled or none. One that says nothing of lines
    /// lends no words for them.
    fn start(&mut self, beginning: Beginning) -> Result<Answer, No> {
        let Beginning { start, nodes, .. } = beginning;
        if !(1..=MOST_NODES).contains(&nodes) {
            return Err(No::NoSuch);
        }
        let lent = (beginning.memory_words, beginning.line_words.unwrap_or(0));
        if lent != (nodes * NODE_TOKENS, nodes * NODE_LINES) {
            return Err(No::Unsound);
        }
        self.count = nodes;
        for node in &mut self.nodes[..nodes] {
            *node = Node::default();
            node.width = THREE_BYTES;
            for link in &mut node.links[start.enabled()] {
                link.enabled = 1;
            }
        }
        Ok(Answer::Done)
    }

    /// The node of a slot, or NoSuch.
    pub(super) fn node(&mut self, slot: usize) -> Result<&mut Node, No> {
        self.nodes[..self.count].get_mut(slot).ok_or(No::NoSuch)
    }
}
