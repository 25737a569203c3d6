//! How it is timed: the sides take turns, from the same state each time, and the median of many
//! rounds counts, so that what else the machine does falls on all of them and mostly on none.

use std::hint::black_box;
use std::time::{Duration, Instant};

use model::Answer;

use crate::measures::{Measure, Work};
use crate::sides::{Baseline, Library, Model, Side};

/// The nanoseconds of each side.
pub struct Times {
    pub library: f64,
    pub model: f64,
    pub baseline: f64,
}

/// Does a measure's work so many times on each side. Before that all sides do it once and must
/// answer the same.
pub fn time(measure: &Measure, rounds: usize) -> Times {
    let begin = &measure.begin;
    let mut sides: [Box<dyn Side>; 3] = [
        Box::new(Library::at(begin)),
        Box::new(Model::at(begin)),
        Box::new(Baseline::at(begin)),
    ];
    let answers = sides
        .each_mut()
        .map(|side| answers(side.as_mut(), &measure.work));
    assert!(
        answers.iter().all(|side| *side == answers[0]),
        "{}: the sides answer {answers:?}",
        measure.name
    );
    let mut turns = sides.each_mut().map(|side| {
        || {
            side.restore();
            one_round(side.as_mut(), &measure.work)
        }
    });
    let [library, model, baseline] = by_turns(rounds, turns.each_mut().map(|turn| turn as _));
    Times {
        library,
        model,
        baseline,
    }
}

/// So many rounds, in each of which every side has its turn: the median of what each side's turns took.
pub fn by_turns<const N: usize>(
    rounds: usize,
    mut sides: [&mut dyn FnMut() -> f64; N],
) -> [f64; N] {
    let mut spent = [(); N].map(|()| Vec::new());
    for _ in 0..rounds {
        for (turn, spent) in sides.iter_mut().zip(&mut spent) {
            spent.push(turn());
        }
    }
    spent.map(median)
}

/// The time that work of so many parts takes, by the part.
pub fn nanoseconds_of(parts: usize, work: impl FnOnce()) -> f64 {
    let begun = Instant::now();
    work();
    nanoseconds(begun.elapsed(), parts)
}

/// What a side answers to the work; nothing where it is asked whether the state is sound, and it is.
pub fn answers(side: &mut dyn Side, work: &Work) -> Vec<Answer> {
    match work {
        Work::IsSound(_) => {
            assert!(side.is_sound(), "{}: the state is not sound", side.name());
            Vec::new()
        }
        Work::Each(calls) | Work::All(calls) => calls.iter().map(|call| side.make(call)).collect(),
    }
}

fn one_round(side: &mut dyn Side, work: &Work) -> f64 {
    let begun = Instant::now();
    let parts = match work {
        Work::IsSound(times) => {
            for _ in 0..*times {
                black_box(side.is_sound());
            }
            *times
        }
        Work::Each(calls) | Work::All(calls) => {
            for call in calls {
                black_box(side.make(black_box(call)));
            }
            calls.len()
        }
    };
    let spent = begun.elapsed();
    match work {
        Work::All(_) => nanoseconds(spent, 1),
        _ => nanoseconds(spent, parts),
    }
}

fn nanoseconds(spent: Duration, parts: usize) -> f64 {
    spent.as_secs_f64() * 1e9 / parts as f64
}

fn median(mut times: Vec<f64>) -> f64 {
    times.sort_by(f64::total_cmp);
    times[times.len() / 2]
}
