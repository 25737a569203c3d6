//! Lists that are wrong on purpose, each in a way that looks reasonable: libraries, which are held to
//! their own single Steps, and models, which are held to the library. Every one of them is found.

use bench::{raw, Answer as Found, Refusal, Stepped};
use compare::calls::{begun, make, Apply, Lent};
use compare::damaged::other_words;
use compare::lists::{crossed, held_to_single_steps, library, MakeList};
use compare::pair::{differing, Differing, Pair};
use compare::reading::read;
use compare::reduce::reduce;
use compare::runs;
use compare::watch::{watched, Modelled};
use model::network::{Network, Start};
use model::random::Random;
use model::{sound, Answer, Call, No, StepRecord};

const SEEDS: u64 = 20;
const CALLS: usize = 300;

// Libraries.

fn step(lent: &mut Lent, record: &StepRecord) -> Found {
    let Lent {
        state,
        memory,
        lines,
    } = lent;
    raw::step(state, memory, lines, record.slot, record.port)
}

fn is_sound(lent: &Lent) -> bool {
    lent.looks().is_sound()
}

fn stops_at_the_first_refusal(
    lent: &mut Lent,
    records: &[StepRecord],
    results: &mut [u64],
) -> Found {
    if results.len() != records.len() {
        return Found::No(Refusal::NoSuch);
    }
    for (record, result) in records.iter().zip(results) {
        let answer = step(lent, record);
        *result = crossed(answer);
        if matches!(answer, Found::No(_)) {
            break;
        }
    }
    Found::Done
}

fn writes_one_place_off(lent: &mut Lent, records: &[StepRecord], results: &mut [u64]) -> Found {
    let answer = library(lent, records, results);
    if answer == Found::Done {
        let off = usize::from(!results.is_empty());
        results.rotate_right(off);
    }
    answer
}

/// Does what it can, and says NoSuch then.
fn looks_at_the_length_last(lent: &mut Lent, records: &[StepRecord], results: &mut [u64]) -> Found {
    for (record, result) in records.iter().zip(results.iter_mut()) {
        *result = crossed(step(lent, record));
    }
    match results.len() == records.len() {
        true => Found::Done,
        false => Found::No(Refusal::NoSuch),
    }
}

/// Unsound goes before all others, as it does of every other call.
fn is_unsound_first(lent: &mut Lent, records: &[StepRecord], results: &mut [u64]) -> Found {
    match is_sound(lent) || results.len() == records.len() {
        true => library(lent, records, results),
        false => Found::No(Refusal::Unsound),
    }
}

/// Unsound is the list's own.
fn is_refused_whole(lent: &mut Lent, records: &[StepRecord], results: &mut [u64]) -> Found {
    match is_sound(lent) || results.len() != records.len() {
        true => library(lent, records, results),
        false => Found::No(Refusal::Unsound),
    }
}

fn skips_the_last(lent: &mut Lent, records: &[StepRecord], results: &mut [u64]) -> Found {
    if results.len() != records.len() {
        return library(lent, records, results);
    }
    let (Some((_, records)), Some((last, front))) =
        (records.split_last(), results.split_last_mut())
    else {
        return library(lent, records, results);
    };
    *last = crossed(Found::Step(Stepped::Idle));
    library(lent, records, front)
}

fn leaves_refused_unwritten(lent: &mut Lent, records: &[StepRecord], results: &mut [u64]) -> Found {
    let before = results.to_vec();
    let answer = library(lent, records, results);
    for (result, before) in results.iter_mut().zip(before) {
        if *result >> 32 == 0 {
            *result = before;
        }
    }
    answer
}

/// A longer buffer is good enough, and keeps its tail.
fn takes_a_longer_buffer(lent: &mut Lent, records: &[StepRecord], results: &mut [u64]) -> Found {
    let length = records.len().min(results.len());
    library(lent, records, &mut results[..length])
}

/// Sees that the memories are unsound, and tidies up.
fn tidies_up(lent: &mut Lent, records: &[StepRecord], results: &mut [u64]) -> Found {
    let answer = library(lent, records, results);
    if !is_sound(lent) {
        lent.memory.fill(0);
    }
    answer
}

/// What is said of a list on these words.
fn complaint_on(list: MakeList, lent: &Lent, call: &Call) -> Option<String> {
    let Call::Steps { results, records } = call else {
        return None;
    };
    held_to_single_steps(list, &mut lent.clone(), *results, records).err()
}

/// The same in a random run, on its words and on those words damaged.
fn complaint_in_run(list: MakeList, seed: u64) -> Option<String> {
    let mut random = Random::new(seed);
    let (mut lent, mut network) = (Lent::default(), None);
    for call in runs::calls_with_lists(seed, CALLS) {
        let damaged = network.as_ref().map(|it| other_words(it, &mut random));
        let on_these = complaint_on(list, &lent, &call);
        let on_damaged = damaged.and_then(|words| complaint_on(list, &words, &call));
        if let found @ Some(_) = on_these.or(on_damaged) {
            return found;
        }
        make(&mut lent, &call);
        model::apply(&mut network, &call);
    }
    None
}

fn complaint_of_library(list: MakeList) -> Option<String> {
    (0..SEEDS).find_map(|seed| complaint_in_run(list, seed))
}

#[test]
fn wrong_libraries_are_found() {
    let wrong = [
        (stops_at_the_first_refusal as MakeList, " in the list, 0x"),
        (writes_one_place_off, " in the list, 0x"),
        (looks_at_the_length_last, "refused, and a result is written"),
        (is_unsound_first, "results of another length, and no 1"),
        (is_refused_whole, "results of its own length, and no 1"),
        (skips_the_last, "0x400000000 in the list, 0x"),
        (
            leaves_refused_unwritten,
            "0xffffffffffffffff in the list, 0x",
        ),
        (takes_a_longer_buffer, ", which is no answer"),
        (tidies_up, "leaves other words than its Steps one by one"),
    ];
    assert_eq!(complaint_of_library(library), None);
    for (place, (list, expected)) in wrong.into_iter().enumerate() {
        let how = complaint_of_library(list).expect(expected);
        println!("{how}");
        assert!(how.contains(expected), "library {place}: {how}");
    }
}

// Models.

/// The model, and then something else with the answers of a list that it made.
fn with(state: &mut Option<Network>, call: &Call, wrong: impl FnOnce(&mut Vec<Answer>)) -> Answer {
    match model::apply(state, call) {
        Answer::Results(mut each) => {
            wrong(&mut each);
            Answer::Results(each)
        }
        answer => answer,
    }
}

fn model_stops(state: &mut Option<Network>, call: &Call) -> Answer {
    let Call::Steps { results, records } = call else {
        return model::apply(state, call);
    };
    let mut copy = state.clone();
    let whole = model::apply(&mut copy, call);
    let Answer::Results(each) = whole else {
        return whole;
    };
    let refused = |answer: &Answer| matches!(answer, Answer::No(_));
    let done = each.iter().position(refused).map_or(*results, |at| at + 1);
    let first = Call::Steps {
        results: done,
        records: records[..done].to_vec(),
    };
    with(state, &first, |each| each.resize(*results, Answer::Idle))
}

fn model_is_one_place_off(state: &mut Option<Network>, call: &Call) -> Answer {
    with(state, call, |each| {
        let off = usize::from(!each.is_empty());
        each.rotate_right(off);
    })
}

fn model_is_unsound_first(state: &mut Option<Network>, call: &Call) -> Answer {
    let sound = state.as_ref().is_some_and(sound::is_sound);
    match model::apply(state, call) {
        Answer::No(No::NoSuch) if matches!(call, Call::Steps { .. }) && !sound => {
            Answer::No(No::Unsound)
        }
        answer => answer,
    }
}

fn model_skips_the_last(state: &mut Option<Network>, call: &Call) -> Answer {
    let mut shorter = call.clone();
    if let Call::Steps { results, records } = &mut shorter {
        if *results == records.len() && records.pop().is_some() {
            *results -= 1;
            return with(state, &shorter, |each| each.push(Answer::Idle));
        }
    }
    model::apply(state, call)
}

/// The first run that differs.
fn differing_run(apply: Apply) -> Option<Differing> {
    let runs = (0..SEEDS).map(|seed| runs::calls_with_lists(seed, CALLS));
    runs.filter_map(|calls| differing(apply, &calls)).next()
}

#[test]
fn wrong_models_are_found_and_reduced() {
    let wrong = [
        (
            model_stops as Apply,
            1,
            "steps 2 0 0 0 0",
            "the library no 1, the model idle",
        ),
        (model_is_one_place_off, 4, "steps 2 ", ", the model "),
        (
            model_skips_the_last,
            1,
            "steps 1 0 0",
            "the library no 1, the model idle",
        ),
    ];
    for (apply, calls, last, expected) in wrong {
        let found = differing_run(apply).expect(expected);
        let reduced = reduce(apply, found);
        println!("{}", reduced.how);
        assert!(reduced.calls.len() <= calls, "{:?}", reduced.calls);
        assert!(reduced.how.contains(expected), "{}", reduced.how);
        let list = reduced.calls.last().map(Call::to_string);
        assert!(list.is_some_and(|list| list.starts_with(last)), "{last}");
    }
}

/// A watcher, who sees a list as its Steps, complains where the list is not that.
#[test]
fn a_watcher_finds_them_too() {
    for apply in [
        model_stops as Apply,
        model_is_one_place_off,
        model_skips_the_last,
    ] {
        let mut runs = (0..SEEDS).map(|seed| runs::calls_with_lists(seed, CALLS));
        let broken = runs.find_map(|calls| watched(&mut Modelled::new(apply), &calls).err());
        let how = broken.expect("a list that is not its Steps").how;
        assert!(how.contains("its Steps one by one are results "), "{how}");
        assert!(how.contains("; Answers: "), "{how}");
    }
}

/// On an unsound memory alone the order of the two can be seen.
#[test]
fn a_model_that_is_unsound_first_is_found_on_damaged_memories() {
    let call = Call::Steps {
        results: 0,
        records: vec![StepRecord { slot: 0, port: 8 }],
    };
    let network = begun(Start::Fresh, 1);
    let mut found = 0;
    for seed in 0..200 {
        let lent = other_words(&network, &mut Random::new(seed));
        let Ok(read) = read(&lent) else {
            continue;
        };
        let unsound = !sound::is_sound(&read);
        let mut right = Pair::on(model::apply, Some(read.clone()), lent.clone());
        assert_eq!(right.call(&call), Ok(()));
        let mut wrong = Pair::on(model_is_unsound_first, Some(read), lent);
        let how = wrong.call(&call).err();
        assert_eq!(how.is_some(), unsound, "seed {seed}");
        found += usize::from(unsound);
    }
    assert!(found > 20, "{found}");
}
