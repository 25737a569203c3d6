//! What becomes of ENDs on both networks, from every board that both have to every number.

use std::collections::BTreeSet;

use bench::{Bench, Hop, Looks};

use crate::facts::runs;
use crate::names::letter;
use crate::question::{Door, Question};
use crate::route::ending;
use crate::walk::{walk, Ending, Walk};

/// What became of an END, in words.
struct Told {
    arrived: bool,
    end: String,
    /// The boards that it came to, each with the link that it took there.
    way: String,
}

struct Pair {
    from: usize,
    number: u32,
    before: Told,
    after: Told,
}

/// How the two differ.
#[derive(Clone, Copy, PartialEq, Eq)]
enum Change {
    Lost,
    Gained,
    EndsOtherwise,
    OtherWay,
}

impl Change {
    const ALL: [Change; 4] = [
        Change::Lost,
        Change::Gained,
        Change::EndsOtherwise,
        Change::OtherWay,
    ];

    fn name(self) -> &'static str {
        match self {
            Change::Lost => "arrived before and do not now",
            Change::Gained => "arrive now and did not before",
            Change::EndsOtherwise => "end otherwise",
            Change::OtherWay => "go another way",
        }
    }
}

impl Pair {
    /// How it differs, if it does, with what is told of that.
    fn change(&self) -> Option<(Change, String)> {
        let (before, after) = (&self.before, &self.after);
        match (before.arrived, after.arrived) {
            (true, false) => Some((Change::Lost, after.end.clone())),
            (false, true) => Some((Change::Gained, format!("before {}", before.end))),
            (false, false) if before.end != after.end => {
                let ends = format!("before {}; now {}", before.end, after.end);
                Some((Change::EndsOtherwise, ends))
            }
            _ if before.way != after.way => {
                let ways = format!("before {}; now {}", before.way, after.way);
                Some((Change::OtherWay, ways))
            }
            _ => None,
        }
    }
}

/// All pairs, by the board that sends and then by number.
pub struct Pairs(Vec<Pair>);

impl Pairs {
    /// Asks both networks for every pair, each on a copy.
    pub fn of(before: &Bench, after: &Bench, door: Door, network: u32) -> Pairs {
        let sides = [before.looks(), after.looks()];
        let numbers: BTreeSet<u32> = sides.into_iter().flat_map(numbers).collect();
        let senders = 0..sides[0].nodes().min(sides[1].nodes());
        let asked = senders.flat_map(|from| numbers.iter().map(move |number| (from, *number)));
        let pairs = asked.map(|(from, number)| {
            let question = Question {
                slot: from,
                number,
                door,
                network,
            };
            Pair {
                from,
                number,
                before: told(before, question),
                after: told(after, question),
            }
        });
        Pairs(pairs.collect())
    }

    /// A group of lines for each way to differ.
    pub fn groups(&self) -> impl Iterator<Item = (String, Vec<String>)> + '_ {
        Change::ALL.into_iter().map(|change| {
            let of_it = |pair: &Pair| match pair.change() {
                Some((found, told)) if found == change => Some((pair.from, pair.number, told)),
                _ => None,
            };
            let differing: Vec<_> = self.0.iter().filter_map(of_it).collect();
            let (count, all) = (differing.len(), self.0.len());
            (
                format!("{}, {count} of {all}", change.name()),
                lines(differing),
            )
        })
    }

    /// How many arrived.
    pub fn counts(&self) -> String {
        let all = self.0.len();
        let before = self.0.iter().filter(|pair| pair.before.arrived).count();
        let now = self.0.iter().filter(|pair| pair.after.arrived).count();
        match before == now {
            true => format!("{now} of {all} arrived, before and now"),
            false => format!("{before} of {all} arrived before, {now} now"),
        }
    }
}

/// The numbers that the boards have.
fn numbers(looks: Looks<'_>) -> impl Iterator<Item = u32> + use<'_> {
    (0..looks.nodes()).map(move |slot| looks.node(slot).number)
}

/// A line for each board and all numbers of which the same is told.
fn lines(differing: Vec<(usize, u32, String)>) -> Vec<String> {
    let mut all: Vec<(usize, Vec<u32>, String)> = Vec::new();
    for (from, number, told) in differing {
        let same = all
            .iter_mut()
            .find(|(by, _, known)| *by == from && *known == told);
        match same {
            Some((_, numbers, _)) => numbers.push(number),
            None => all.push((from, vec![number], told)),
        }
    }
    let line = |(from, numbers, told): (usize, Vec<u32>, String)| {
        let name = if numbers.len() == 1 {
            "number"
        } else {
            "numbers"
        };
        format!("from board {from} to {name} {}: {told}", runs(&numbers))
    };
    all.into_iter().map(line).collect()
}

fn told(bench: &Bench, question: Question) -> Told {
    let walked = walk(bench.clone(), question);
    let (end, arrived) = ending(bench.looks(), &walked.end, question.number);
    Told {
        arrived,
        end,
        way: way(&walked),
    }
}

/// The links taken, each with its board, and the board that got it. One that comes to the same place
/// once more goes round, and only the first time round is told.
fn way(walked: &Walk) -> String {
    let all = &walked.switches;
    let is_met = |at: &usize| all[..*at].iter().any(|one| one.place == all[*at].place);
    let again = (0..all.len()).find(is_met);
    let taken = all[..again.unwrap_or(all.len())]
        .iter()
        .filter_map(|one| match one.hop {
            Hop::Link(link) => Some(format!(
                "board {} link {}",
                one.place.slot,
                letter(link as usize)
            )),
            _ => None,
        });
    let last = match walked.end {
        Ending::Got { slot, .. } => Some(format!("board {slot}")),
        _ => again.map(|_| "and round again".to_owned()),
    };
    taken.chain(last).collect::<Vec<_>>().join(", ")
}
