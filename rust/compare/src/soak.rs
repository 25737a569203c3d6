//! Random comparison of both sides, a run at a time: in the gate for seconds, as the command `soak`
//! for hours.

use std::fmt;
use std::ops::AddAssign;

use model::calls::Call;
use model::random::Random;

use crate::asking;
use crate::calls::Apply;
use crate::changing;
use crate::choice::{self, any};
use crate::damaged;
use crate::filling;
use crate::pair::{differing, reached_by, Differing, Pair};
use crate::reached::Reached;
use crate::runs;
use crate::watch;

/// From each state of a run so many calls are made in a row, aside from the run.
const ASIDE: usize = 6;

/// What was compared.
#[derive(Clone, Debug, Default, PartialEq, Eq)]
pub struct Figures {
    pub runs: usize,
    /// Calls of runs.
    pub calls: usize,
    /// Calls made aside from a run.
    pub aside: usize,
    /// Memories that were damaged.
    pub damaged: usize,
    /// What all these calls answered, on both sides.
    pub reached: Reached,
    /// What was met in the runs with a watcher beside the library.
    pub watched: watch::Figures,
}

impl AddAssign for Figures {
    fn add_assign(&mut self, more: Figures) {
        self.runs += more.runs;
        self.calls += more.calls;
        self.aside += more.aside;
        self.damaged += more.damaged;
        self.reached += more.reached;
        self.watched += more.watched;
    }
}

impl fmt::Display for Figures {
    fn fmt(&self, f: &mut fmt::Formatter<'_>) -> fmt::Result {
        let compared = self.calls + self.aside + damaged::CALLS * self.damaged;
        write!(f, "{} runs, {compared} calls compared ", self.runs)?;
        write!(f, "({} of runs, {} aside, ", self.calls, self.aside)?;
        write!(f, "the rest on {} damaged memories)", self.damaged)?;
        match self.watched == watch::Figures::default() {
            true => Ok(()),
            false => write!(f, "; {}", self.watched),
        }
    }
}

/// What was found to differ.
#[derive(Clone, Debug, PartialEq, Eq)]
pub enum Found {
    /// A run, which a script can show.
    Run(Differing),
    /// A memory, which no script leads to.
    Memory { behind: usize, how: String },
    /// A run of the library that breaks a sentence which a watcher holds.
    Watched(Differing),
}

/// A random run of that many calls, with calls aside from each of its states and damage to each.
pub fn run(apply: Apply, seed: u64, count: usize) -> Result<Figures, Found> {
    thorough(apply, seed, &runs::calls(seed, count))
}

/// A run with calls aside from each of its states and damage to each.
pub fn thorough(apply: Apply, seed: u64, calls: &[Call]) -> Result<Figures, Found> {
    let mut random = Random::new(seed ^ 0xCA11);
    let mut pair = Pair::at(apply, None, Random::new(seed ^ 0x4EAD));
    let mut figures = Figures {
        runs: 1,
        ..Figures::default()
    };
    for (behind, call) in calls.iter().enumerate() {
        figures += aside(apply, &pair, &calls[..behind], &mut random)?;
        figures += damage(&pair, behind, &mut random)?;
        match pair.call(call) {
            Ok(()) => figures.calls += 1,
            Err(how) => return Err(found(apply, calls[..=behind].to_vec(), how)),
        }
    }
    figures.reached += pair.reached();
    Ok(figures)
}

/// A few calls from the state of a run on.
fn aside(apply: Apply, pair: &Pair, made: &[Call], random: &mut Random) -> Result<Figures, Found> {
    let mut pair = Pair::at(apply, pair.network(), random.clone());
    let mut more = Vec::new();
    for _ in 0..ASIDE {
        let call = any(random, pair.network());
        more.push(call.clone());
        pair.call(&call)
            .map_err(|how| found(apply, [made, &more].concat(), how))?;
    }
    Ok(Figures {
        aside: ASIDE,
        reached: pair.reached(),
        ..Figures::default()
    })
}

/// The state of a run, damaged by words or by things; nothing where there is no network yet.
fn damage(pair: &Pair, behind: usize, random: &mut Random) -> Result<Figures, Found> {
    let Some(network) = pair.network() else {
        return Ok(Figures::default());
    };
    let lent = match random.chance(50) {
        true => damaged::other_words(network, random),
        false => damaged::other_things(network, random),
    };
    let checked = damaged::check(&lent);
    let (_, reached) = checked.map_err(|how| Found::Memory { behind, how })?;
    Ok(Figures {
        damaged: 1,
        reached,
        ..Figures::default()
    })
}

/// A run without a Step that fills ports and channel-ends.
pub fn fill(apply: Apply, seed: u64, count: usize) -> Result<Figures, Found> {
    all(apply, &filling::calls(seed, count))
}

/// A run that asks control units.
pub fn ask(apply: Apply, seed: u64, count: usize) -> Result<Figures, Found> {
    all(apply, &asking::calls(seed, count))
}

/// A run whose cables are plugged into links in use.
pub fn plug(apply: Apply, seed: u64, count: usize) -> Result<Figures, Found> {
    all(apply, &changing::calls_without_cables(seed, count))
}

/// Runs of every kind on the library alone, with a watcher beside it.
pub fn watched(seed: u64, count: usize) -> Result<Figures, Found> {
    let makers: [Maker; 6] = [
        runs::calls,
        choice::calls,
        filling::calls,
        asking::calls,
        changing::calls,
        changing::calls_without_cables,
    ];
    watched_over(&makers, seed, count)
}

/// The same of runs in which lists of Steps are made.
pub fn watched_lists(seed: u64, count: usize) -> Result<Figures, Found> {
    let makers: [Maker; 3] = [
        runs::calls_with_lists,
        asking::calls_with_lists,
        changing::calls_with_lists,
    ];
    watched_over(&makers, seed, count)
}

/// Makes up a run of so many calls from a seed.
type Maker = fn(u64, usize) -> Vec<Call>;

fn watched_over(makers: &[Maker], seed: u64, count: usize) -> Result<Figures, Found> {
    let mut figures = Figures::default();
    for calls in makers {
        let watched = watch::library(&calls(seed, count)).map_err(Found::Watched)?;
        figures.watched += watched;
    }
    Ok(figures)
}

fn all(apply: Apply, calls: &[Call]) -> Result<Figures, Found> {
    let reached = reached_by(apply, calls).map_err(Found::Run)?;
    Ok(Figures {
        runs: 1,
        calls: calls.len(),
        reached,
        ..Figures::default()
    })
}

/// The run that differs, made once more from nothing, as a script would make it.
fn found(apply: Apply, calls: Vec<Call>, how: String) -> Found {
    let again = differing(apply, &calls);
    Found::Run(again.unwrap_or(Differing { calls, how }))
}
