//! What random runs of fixed seeds reach on both sides: every answer and every refusal of every
//! call, both causes, every end of a switch message, cables plugged into links of every kind, all that
//! comes off lines and all that stands in the way there.

use compare::calls::{hold_unchanged, Lent};
use compare::pair::Differing;
use compare::reached::Reached;
use compare::soak::{thorough, Figures, Found};
use compare::{asking, changing, filling, runs};
use model::answers::{Cause, Opening};
use model::{Answer, Call, No};

const SEEDS: u64 = 7;
const CALLS: usize = 400;
const ASKING: usize = 3000;

/// The runs of a seed, of every kind.
fn runs_of(seed: u64) -> [Vec<Call>; 5] {
    [
        runs::calls(seed, CALLS),
        filling::calls(seed, CALLS),
        asking::calls(seed, ASKING),
        changing::calls(seed, CALLS),
        changing::calls_without_cables(seed, 2 * CALLS),
    ]
}

fn compared() -> Figures {
    let mut figures = Figures::default();
    for seed in 0..SEEDS {
        for calls in runs_of(seed) {
            match thorough(model::apply, seed, &calls) {
                Ok(more) => figures += more,
                Err(Found::Memory { how, .. }) => panic!("seed {seed}: {how}"),
                Err(Found::Run(Differing { how, .. }) | Found::Watched(Differing { how, .. })) => {
                    panic!("seed {seed}: {how}")
                }
            }
        }
    }
    figures
}

#[test]
fn no_answer_is_at_zero() {
    let figures = compared();
    println!("{figures}\n{}", figures.reached);
    assert_eq!(figures.reached.missing(), []);
    assert_eq!(figures.reached.unforeseen(), []);
    for (case, answer, least) in LEAST {
        let times = figures.reached.times(case, answer);
        assert!(times >= least, "{case}, {answer}: {times}");
    }
}

/// Cables plugged into links that are enabled and in use, and what goes over them then, and what is on
/// lines, in number.
const LEAST: [(&str, &str, usize); 15] = [
    ("blank", "done", 25),
    ("blank", "no 1", 25),
    ("blank", "no 2", 25),
    ("cable, its ends", "both enabled", 100),
    ("cable, its ends", "one in use", 100),
    ("cable, its ends", "both in use", 20),
    ("cable, its ends", "both in use, of one node", 5),
    ("over a cable wired in use", "header token", 100),
    ("over a cable wired in use", "token", 100),
    ("over a cable wired in use", "END or PAUSE", 20),
    ("off a line", "token", 1000),
    ("off a line", "credit", 500),
    ("off a line", "HELLO that brings a grant", 100),
    ("in the way on a line", "of a HELLO, a credit", 20),
    ("in the way on a line", "of a disabling, a token", 20),
];

/// A table of nothing names every case, so that one left out is seen.
#[test]
fn nothing_reached_is_all_missing() {
    let missing = Reached::default().missing();
    for case in [
        ("blank", "no 1"),
        ("set enable", "no 4"),
        ("step", "dropped noroute"),
        ("steps", "no 2"),
        ("record of steps", "unheard"),
        ("message answered", "NACK of a write that Set refuses"),
        ("message not answered", "Malformed by END"),
        ("cable, its ends", "both in use, of one node"),
        ("over a cable wired in use", "header token"),
        ("line", "moved 16"),
        ("off a line", "HELLO that brings a grant"),
        ("in the way on a line", "of a disabling, a token"),
    ] {
        assert!(missing.contains(&case), "{case:?}");
    }
    let lines = Reached::default().to_string();
    assert!(lines.contains("step: idle 0, waiting 0, "), "{lines}");
}

/// "A Waiting or Idle step changes nothing either": one word of any memory is enough.
#[test]
fn a_word_changed_by_what_changes_nothing_is_named() {
    let before = Lent {
        state: vec![1, 2, 3],
        memory: vec![4, 5],
        lines: vec![6, 7],
    };
    let mut other_state = before.clone();
    other_state.state[2] = 0;
    let mut other_memory = before.clone();
    other_memory.memory[1] = 0;
    let mut other_lines = before.clone();
    other_lines.lines[0] = 0;
    for answer in [Answer::Idle, Answer::Waiting, Answer::No(No::Trap)] {
        assert_eq!(hold_unchanged(&answer, &before, &before), Ok(()));
        for after in [&other_state, &other_memory, &other_lines] {
            let complaint = format!("{answer}, and a word has changed");
            assert_eq!(hold_unchanged(&answer, &before, after), Err(complaint));
        }
    }
    for answer in [
        Answer::Moved,
        Answer::Opened(Opening::Channel),
        Answer::Dropped(Cause::Split),
    ] {
        assert_eq!(hold_unchanged(&answer, &before, &other_memory), Ok(()));
    }
}
