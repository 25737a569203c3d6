//! A list of Steps on lent words, made by one call, and held against the same Steps made one by one.

use bench::{raw, Answer as Found, Opening, Stepped};
use model::{Answer, No, StepRecord};

use crate::calls::{of_bench, Lent};

/// How a list is made on lent words: [`library`], or another where it is to be wrong on purpose. The
/// numbers are the results buffer that a host lends.
pub type MakeList = fn(&mut Lent, &[StepRecord], &mut [u64]) -> Found;

/// The library's call.
pub fn library(lent: &mut Lent, records: &[StepRecord], results: &mut [u64]) -> Found {
    let list = records.iter().map(|record| bench::StepRecord {
        slot: record.slot,
        port: record.port,
    });
    let list: Vec<_> = list.collect();
    let Lent {
        state,
        memory,
        lines,
    } = lent;
    raw::steps(state, memory, lines, &list, results)
}

fn step(lent: &mut Lent, StepRecord { slot, port }: StepRecord) -> Found {
    let Lent {
        state,
        memory,
        lines,
    } = lent;
    raw::step(state, memory, lines, slot, port)
}

/// The number that the answer of a Step crosses as: its case in the upper half, what the case
/// carries in the lower. Written down here a second time, beside `crates/answers/specs/Answer.antt`.
pub fn crossed(answer: Found) -> u64 {
    let (case, carried): (u64, u32) = match answer {
        Found::No(refusal) => (0, refusal.number()),
        Found::Done => (1, 0),
        Found::Granted(credit) => (2, credit),
        Found::Token(value) => (3, value.into()),
        Found::Step(Stepped::Idle) => (4, 0),
        Found::Step(Stepped::Waiting) => (5, 0),
        Found::Step(Stepped::Moved) => (6, 0),
        Found::Step(Stepped::Opened(Opening::Link(link))) => (7, link as u32),
        Found::Step(Stepped::Opened(Opening::Channel)) => (8, 0),
        Found::Step(Stepped::Opened(Opening::Control)) => (9, 0),
        Found::Step(Stepped::Refused(cause)) => (10, cause as u32),
        Found::Step(Stepped::Dropped(cause)) => (11, cause as u32),
        Found::Step(Stepped::Malformed) => (12, 0),
        Found::Step(Stepped::Unheard) => (13, 0),
        Found::Arrived(credit) => (14, credit),
        other => unreachable!("{other:?} is not written down here"),
    };
    case << 32 | u64::from(carried)
}

/// A results buffer of that length, each word another, and none of them an answer. One far too long
/// is cut down, and is still too long.
fn rubbish(results: usize, records: usize) -> Vec<u64> {
    const MORE: usize = 64;
    let length = results.min(records + MORE);
    (0..length as u64).map(|place| u64::MAX - place).collect()
}

/// What came of a list: its answer, and the results buffer behind it.
struct Made {
    answer: Found,
    results: Vec<u64>,
}

impl Made {
    /// Makes a list with a results buffer of rubbish. A refused one has left the buffer alone.
    fn by(
        list: MakeList,
        lent: &mut Lent,
        results: usize,
        records: &[StepRecord],
    ) -> Result<Made, String> {
        let before = rubbish(results, records.len());
        let mut results = before.clone();
        let answer = list(lent, records, &mut results);
        match answer {
            Found::No(_) if results != before => Err("refused, and a result is written".to_owned()),
            _ => Ok(Made { answer, results }),
        }
    }

    /// The answer in the model's words.
    fn read(&self) -> Result<Answer, String> {
        if self.answer != Found::Done {
            return Ok(of_bench(self.answer));
        }
        let each = self.results.iter().enumerate().map(|(place, number)| {
            let answer = Found::from_crossed(*number).map(of_bench);
            answer.ok_or(format!("result {place} is {number:#x}, which is no answer"))
        });
        each.collect::<Result<_, _>>().map(Answer::Results)
    }
}

/// Makes a list, and gives its answer in the model's words.
pub fn make(
    list: MakeList,
    lent: &mut Lent,
    results: usize,
    records: &[StepRecord],
) -> Result<Answer, String> {
    Made::by(list, lent, results, records)?.read()
}

/// Makes a list, and the same Steps one by one on a copy: every result is the number of the single
/// Step's answer, and every word of all memories is the same behind them. With results of another
/// length it is NoSuch, and no word is changed.
pub fn held_to_single_steps(
    list: MakeList,
    lent: &mut Lent,
    results: usize,
    records: &[StepRecord],
) -> Result<Answer, String> {
    let mut single = lent.clone();
    let made = Made::by(list, lent, results, records)?;
    if results != records.len() {
        return refused(&made, &single, lent);
    }
    if made.answer != Found::Done {
        let answer = of_bench(made.answer);
        return Err(format!("results of its own length, and {answer}"));
    }
    for (place, record) in records.iter().enumerate() {
        let (found, alone) = (made.results[place], crossed(step(&mut single, *record)));
        if found != alone {
            return Err(format!(
                "record {place}, {record}: {found:#x} in the list, {alone:#x} alone"
            ));
        }
    }
    match *lent == single {
        true => made.read(),
        false => Err("the list leaves other words than its Steps one by one".to_owned()),
    }
}

fn refused(made: &Made, before: &Lent, after: &Lent) -> Result<Answer, String> {
    match (made.read()?, before == after) {
        (Answer::No(No::NoSuch), true) => Ok(Answer::No(No::NoSuch)),
        (answer, true) => Err(format!("results of another length, and {answer}")),
        (_, false) => Err("results of another length, and a word has changed".to_owned()),
    }
}
