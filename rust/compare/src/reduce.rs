//! A run in which the two sides differ, made as short as it can be.

use std::collections::BTreeSet;

use model::calls::{Call, StepRecord};
use model::sizes::MOST_NODES;
use model::words::parse_call;

use crate::calls::{beginning, Apply};
use crate::pair::{differing, script, Differing};

/// Runs calls from nothing, and gives the run up to the first call in which something is wrong.
pub type Fails<'a> = &'a dyn Fn(&[Call]) -> Option<Differing>;

/// The run with no call and no record of a list that can be left out, no number that may as well be 0
/// and no node too many, and with nothing behind the call in which the sides differ.
pub fn reduce(apply: Apply, found: Differing) -> Differing {
    reduce_by(&|calls| differing(apply, calls), found)
}

/// The same of a run that is wrong in another way.
pub fn reduce_by(fails: Fails, found: Differing) -> Differing {
    let mut shortest = leave_all_out(fails, found);
    while let Some(plainer) = plainer(fails, &shortest.calls) {
        shortest = leave_all_out(fails, plainer);
    }
    shortest
}

/// Leaves calls out as long as something is still wrong: large parts first, then single calls,
/// until none can be left out.
fn leave_all_out(fails: Fails, found: Differing) -> Differing {
    let mut shortest = found;
    let mut part = shortest.calls.len() / 2;
    while part > 0 {
        match leave_out(fails, &shortest.calls, part) {
            Some(shorter) => shortest = shorter,
            None => part /= 2,
        }
        part = part.min(shortest.calls.len());
    }
    shortest
}

/// The run without one part of so many calls, the first such part from the end that is not needed.
fn leave_out(fails: Fails, calls: &[Call], part: usize) -> Option<Differing> {
    let starts = (0..=calls.len() - part).rev().step_by(part);
    let mut shorter = starts.map(|start| {
        let kept = calls[..start].iter().chain(&calls[start + part..]);
        kept.cloned().collect::<Vec<_>>()
    });
    shorter.find_map(|kept| fails(&kept))
}

/// The run with fewer nodes, with a list of fewer records, or with some number 0 in all calls or in
/// one, if something is still wrong.
fn plainer(fails: Fails, calls: &[Call]) -> Option<Differing> {
    let everywhere = numbers(calls).into_iter().map(|number| {
        let plainer = calls.iter().map(|call| with_nought(call, &number));
        plainer.collect::<Vec<_>>()
    });
    let in_one = (0..calls.len()).flat_map(|place| {
        let mut numbers = numbers(&calls[place..=place]).into_iter();
        let mut plainer = fewer_nodes(&calls[place]);
        plainer.extend(fewer_records(&calls[place]));
        plainer.extend(numbers.by_ref().map(|n| with_nought(&calls[place], &n)));
        plainer.into_iter().map(move |call| {
            let mut tried = calls.to_vec();
            tried[place] = call;
            tried
        })
    });
    let mut tried = everywhere.chain(in_one).filter(|tried| tried != calls);
    tried.find_map(|tried| fails(&tried))
}

/// The numbers other than 0 that calls are written with, each once.
fn numbers(calls: &[Call]) -> BTreeSet<String> {
    let texts: Vec<String> = calls.iter().map(Call::to_string).collect();
    let words = texts.iter().flat_map(|text| text.split(' '));
    let numbers = words.filter(|word| word.parse::<u64>().is_ok_and(|number| number > 0));
    numbers.map(str::to_owned).collect()
}

/// A call with 0 wherever it has that number; a start, and the length of a list's results, are left as
/// they are.
fn with_nought(call: &Call, number: &str) -> Call {
    if let Call::Steps { results, records } = call {
        let nought = |word: usize| if word.to_string() == number { 0 } else { word };
        let records = records.iter().map(|record| StepRecord {
            slot: nought(record.slot),
            port: nought(record.port),
        });
        return Call::Steps {
            results: *results,
            records: records.collect(),
        };
    }
    let text = call.to_string();
    let nought = |word| if word == number { "0" } else { word };
    let words: Vec<&str> = text.split(' ').map(nought).collect();
    match call.start() {
        Some(_) => call.clone(),
        None => parse_call(&words.join(" ")).unwrap_or(call.clone()),
    }
}

/// The same start of fewer nodes, the fewest first.
fn fewer_nodes(call: &Call) -> Vec<Call> {
    let Some(begins) = call.begins() else {
        return Vec::new();
    };
    let fewer = 1..begins.nodes.min(MOST_NODES + 1);
    fewer.map(|nodes| beginning(begins.start, nodes)).collect()
}

/// A list without a part of its records, large parts first. Results of the right length stay so.
fn fewer_records(call: &Call) -> Vec<Call> {
    let Call::Steps { results, records } = call else {
        return Vec::new();
    };
    let halves = std::iter::successors(Some(records.len()), |part| Some(part / 2));
    let parts = halves.take_while(|part| *part > 0);
    let without = parts.flat_map(|part| {
        let starts = (0..=records.len() - part).step_by(part);
        starts.map(move |start| [&records[..start], &records[start + part..]].concat())
    });
    let shorter = without.map(|kept| Call::Steps {
        results: match *results == records.len() {
            true => kept.len(),
            false => *results,
        },
        records: kept,
    });
    shorter.collect()
}

/// The reduced run in the script format: what differs, and the model's side stated.
pub fn report(apply: Apply, from: &str, found: Differing) -> String {
    report_by(&|calls| differing(apply, calls), apply, from, found)
}

/// The same of a run that is wrong in another way.
pub fn report_by(fails: Fails, apply: Apply, from: &str, found: Differing) -> String {
    let calls = found.calls.len();
    let shortest = reduce_by(fails, found);
    let how = &shortest.how;
    let stated = script(apply, &shortest.calls);
    format!(
        "// {from}: {calls} calls, reduced to {}\n// {how}\n{stated}",
        shortest.calls.len()
    )
}
