//! Both sides of one run, call after call on the same words.

use model::calls::Call;
use model::digest::digest;
use model::network::Network;
use model::random::Random;
use model::script::Outcome;
use model::Answer;

use crate::calls::{compare, Apply, Lent};
use crate::reached::{message_ended_by, met_on_line, Plugged, Reached};

/// The model's state and the library's words, which say the same.
pub struct Pair {
    apply: Apply,
    network: Option<Network>,
    lent: Lent,
    plugged: Plugged,
    reached: Reached,
}

impl Pair {
    /// Both sides before the first call. The model may be one that is wrong on purpose.
    pub fn new(apply: Apply) -> Pair {
        Pair::at(apply, None, Random::new(0))
    }

    /// Both sides at a state of the model.
    pub fn at(apply: Apply, network: Option<&Network>, mut random: Random) -> Pair {
        Pair {
            apply,
            network: network.cloned(),
            lent: Lent::of(network, &mut random),
            plugged: Plugged::default(),
            reached: Reached::default(),
        }
    }

    /// Both sides at words that are a state of the model, sound or not.
    pub fn on(apply: Apply, network: Option<Network>, lent: Lent) -> Pair {
        Pair {
            apply,
            network,
            lent,
            plugged: Plugged::default(),
            reached: Reached::default(),
        }
    }

    /// The state that both sides are at.
    pub fn network(&self) -> Option<&Network> {
        self.network.as_ref()
    }

    /// What the calls so far have reached, on both sides.
    pub fn reached(self) -> Reached {
        self.reached
    }

    /// Makes a call on both sides and says how they differ behind it.
    pub fn call(&mut self, call: &Call) -> Result<(), String> {
        let ending = message_ended_by(self.network.as_ref(), call);
        let cable = self.plugged.touched_by(self.network.as_ref(), call);
        let met = met_on_line(self.network.as_ref(), call);
        let before = match call {
            Call::Steps { .. } => self.network.clone(),
            _ => None,
        };
        let answer = compare(self.apply, &mut self.network, &mut self.lent, call)?;
        let after = self.network.as_ref();
        self.reached.call(ending, call, &answer, after);
        self.reached.cable(&mut self.plugged, cable, &answer);
        self.reached.line(met, &answer);
        if let (Call::Steps { records, .. }, Answer::Results(each)) = (call, &answer) {
            let plugged = &mut self.plugged;
            self.reached.records(plugged, before, records, each);
        }
        Ok(())
    }
}

/// A run in whose last call the two sides differ.
#[derive(Clone, Debug, PartialEq, Eq)]
pub struct Differing {
    pub calls: Vec<Call>,
    pub how: String,
}

/// Makes calls from nothing. Gives what they have reached, or the run up to the first call in which
/// the sides differ.
pub fn reached_by(apply: Apply, calls: &[Call]) -> Result<Reached, Differing> {
    let mut pair = Pair::new(apply);
    for (place, call) in calls.iter().enumerate() {
        if let Err(how) = pair.call(call) {
            let calls = calls[..=place].to_vec();
            return Err(Differing { calls, how });
        }
    }
    Ok(pair.reached())
}

/// The run up to the first call in which the sides differ, if they do.
pub fn differing(apply: Apply, calls: &[Call]) -> Option<Differing> {
    reached_by(apply, calls).err()
}

/// What the model says of a run, as a script that states it: `bench check` names the call in which
/// the library differs.
pub fn script(apply: Apply, calls: &[Call]) -> String {
    let mut network = None;
    let mut written = String::new();
    for call in calls {
        let answer = apply(&mut network, call);
        let digest = digest(network.as_ref());
        written += &format!("{call} -> {}\n", Outcome { answer, digest });
    }
    written
}
