//! Lines in random runs: steps of them at various rates, and HELLOs and disablings at
//! bad moments.

use std::collections::VecDeque;

use super::Runner;
use crate::calls::{Beginning, Call};
use crate::lines::{line_words, Freight};
use crate::network::{memory_words, LinkEnd, Node};
use crate::random::Random;
use crate::registers;
use crate::set::Setting;
use crate::sizes::LINKS;
use crate::speech::write;
use crate::tokens::{Destination, Token};
use crate::topology::{plan, Plan};

/// How often a line is stepped, and for how long that stays so.
#[derive(Clone, Copy, Debug, Default)]
pub(super) struct Tide {
    percent: usize,
    left: usize,
    /// Are the lines emptied before each HELLO of the setting up?
    careful: bool,
}

impl Tide {
    /// Another rate: none at all for a long while, seldom, often, or mostly.
    fn turn(&mut self, random: &mut Random) {
        self.percent = random.pick(&[0, 0, 2, 8, 20, 40, 60, 85]).unwrap_or(0);
        self.left = random.pick(&[10, 40, 120, 400]).unwrap_or(0);
    }
}

impl Runner {
    /// One whose tokens cross by line.
    pub fn by_line(seed: u64) -> Runner {
        let mut runner = Runner {
            tide: Some(Tide::default()),
            ..Runner::new(seed)
        };
        runner.begin_anew();
        runner
    }

    /// Plans a network, and begins to set it up. By line it has a cable between two
    /// links of one board more often.
    pub(super) fn begin_anew(&mut self) {
        self.plan = plan(&mut self.random);
        self.prepared.clear();
        if let Some(tide) = &mut self.tide {
            tide.careful = self.random.chance(70);
            let wanted = if self.random.chance(30) { 8 } else { 0 };
            let mut others = 0..wanted;
            while !has_own_cable(&self.plan) && others.next().is_some() {
                self.plan = plan(&mut self.random);
            }
            self.plan.cabling.iter_mut().for_each(lend_lines);
        }
        self.speeches.clear();
        self.stalled.clear();
        self.prepare();
    }

    /// By line: a call that has to do with lines, or none, as the tide has it.
    pub(super) fn call_of_lines(&mut self) -> Option<Call> {
        let tide = self.tide.as_mut()?;
        if let Some(next) = self.prepared.front() {
            let hello = |setting| matches!(setting, Setting::Hello { .. });
            let greets = matches!(next, Call::Set { setting, .. } if hello(*setting));
            let careful = tide.careful && greets;
            return careful.then(|| self.step_line()).flatten();
        }
        if tide.left == 0 {
            tide.turn(&mut self.random);
        }
        tide.left -= 1;
        let percent = tide.percent;
        if self.random.chance(percent) {
            return self.step_line();
        }
        match self.random.below(250) {
            0 | 1 => Some(self.odd_line()),
            2..=5 => self.meddle(Setting::Hello { link: 0 }),
            6..=8 => self.meddle(Setting::Enable { link: 0, value: 0 }),
            9 => Some(self.odd_start_with_lines()),
            _ => None,
        }
    }

    /// A step of a line that is in use.
    fn step_line(&mut self) -> Option<Call> {
        let lines = self.links(|link| !link.line.is_empty());
        let LinkEnd { slot, link } = self.random.pick(&lines)?;
        Some(Call::Line { slot, link })
    }

    fn odd_line(&mut self) -> Call {
        let slot = self.any_slot();
        let link = self.below_or_beyond(LINKS);
        Call::Line { slot, link }
    }

    /// That setting at either end of a cable that has something on a line, best
    /// something other than tokens.
    fn meddle(&mut self, setting: Setting) -> Option<Call> {
        let rare = self.cables_with(|freight| freight != Freight::Token);
        let any = self.cables_with(|_| true);
        let rare = self.random.pick(&rare).filter(|_| self.random.chance(50));
        let end = rare.or(self.random.pick(&any))?;
        let far = self.network.as_ref()?.link(end).ok()?.far;
        let LinkEnd { slot, link } = if self.random.chance(50) { end } else { far? };
        let setting = match setting {
            Setting::Enable { value, .. } => Setting::Enable { link, value },
            _ => Setting::Hello { link },
        };
        Some(Call::Set { slot, setting })
    }

    /// The ends whose lines have such a thing on them.
    fn cables_with(&self, is_meant: impl Fn(Freight) -> bool) -> Vec<LinkEnd> {
        self.links(|link| link.far.is_some() && link.freight().any(&is_meant))
    }

    /// By line every start lends a second memory, also one that is refused.
    pub(super) fn lend(&self, call: &mut Call) {
        let begins = call.begins();
        let lends_none = begins.is_some_and(|beginning| beginning.line_words.is_none());
        if self.tide.is_some() && lends_none {
            lend_lines(call);
        }
    }

    /// A start that is refused for the length of its second memory, or for its first.
    fn odd_start_with_lines(&mut self) -> Call {
        let mut call = self.odd_start();
        let first_is_right = self.random.chance(50);
        let more = 1 + self.random.below(3);
        if let Some(beginning) = call.begins() {
            let nodes = beginning.nodes;
            let right = line_words(nodes).unwrap_or(0);
            call = Call::from(match memory_words(nodes).filter(|_| first_is_right) {
                Some(memory_words) => Beginning {
                    memory_words,
                    line_words: Some(right.wrapping_sub(more)),
                    ..beginning
                },
                None => Beginning {
                    line_words: Some(right),
                    ..beginning
                },
            });
        }
        call
    }

    /// By line, now and then: a message that says HELLO on a link of the board that it
    /// goes to, or disables it, best one with a cable.
    pub(super) fn matter_of_lines(
        &mut self,
        slot: usize,
        goal: usize,
        channel_end: usize,
    ) -> Option<(Destination, VecDeque<Token>)> {
        self.tide.filter(|_| self.random.chance(12))?;
        let nodes = &self.network.as_ref()?.nodes;
        let (own, node) = (nodes.get(slot)?.number, nodes.get(goal)?);
        let wired: Vec<_> = (0..LINKS).filter(|link| is_wired(node, *link)).collect();
        let link = self.random.pick(&wired)?;
        let data = self.random.pick(&[0x8100_0000, 0x8100_0000, 0])?;
        let tokens = write(own, channel_end, registers::start_address(link)?, data);
        let number = node.number;
        Some((Destination::Control { number }, tokens.into()))
    }
}

fn is_wired(node: &Node, link: usize) -> bool {
    node.links.get(link).is_some_and(|link| link.far.is_some())
}

/// Has the plan a cable between two links of one board?
fn has_own_cable(plan: &Plan) -> bool {
    let mut calls = plan.cabling.iter().chain(&plan.late);
    calls.any(|call| matches!(call, Call::Wire { one, other } if one.slot == other.slot))
}

/// Lends a start its second memory. Counts of nodes that have no such length are refused at any.
pub fn lend_lines(call: &mut Call) {
    if let Some(beginning) = call.begins() {
        *call = Call::from(Beginning {
            line_words: line_words(beginning.nodes).or(Some(usize::MAX)),
            ..beginning
        });
    }
}
