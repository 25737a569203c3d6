//! A list of steps: "Ask 1. A whole shift's steps at once", sentence by sentence.

mod common;

use common::Bench;
use model::answers::{Answer, Cause, No};
use model::calls::{apply, Call, StepRecord};
use model::network::{Aim, Hop, Network, Sending};
use model::runs::Runner;
use model::sound;
use model::tokens::{Destination, Token, END};

/// A line of two boards, with a token and END under way from 0 to channel 5 of 1.
fn under_way() -> Bench {
    let mut bench = Bench::line(2);
    bench.play(
        "aim 0 0 channel 1 5 0
         output 0 0 data 7
         output 0 0 control 1",
    );
    bench
}

// "does them in order"

#[test]
fn records_are_done_in_order() {
    let mut bench = under_way();
    bench.expect(
        "steps 6 0 8 0 8 0 8 0 8 0 8 0 8",
        "results opened link 1; moved; moved; moved; moved; moved",
    );
    bench.expect(
        "steps 5 1 0 1 0 1 0 1 0 0 8",
        "results opened channel; moved; moved; idle; idle",
    );
    assert_eq!(bench.input_all(1, 5), "07 !01");
}

/// The same records in another order: what is behind the cable is looked at before anything has
/// come over it.
#[test]
fn another_order_is_another_list() {
    let there_first = "results idle; opened link 1; moved; moved; moved";
    let mut bench = under_way();
    bench.expect("steps 5 1 0 0 8 0 8 0 8 0 8", there_first);
    let mut bench = under_way();
    let there_last = "results opened link 1; moved; moved; moved; opened channel";
    bench.expect("steps 5 0 8 0 8 0 8 0 8 1 0", there_last);
}

// "writes one result per record"

#[test]
fn each_result_is_the_steps_whole_answer() {
    let mut bench = under_way();
    bench.play(
        "set 1 width 0 1
         aim 0 1 channel 9 0 0
         output 0 1 control 2
         set 0 direction 3 5",
    );
    bench.expect(
        "steps 9 0 9 0 9 0 8 0 8 0 8 1 0 0 8 1 0 1 0",
        "results refused noroute; dropped noroute; opened link 1; moved; moved; waiting; moved; \
         refused split; dropped split",
    );
}

// "as the same steps made one by one"

/// Lists at the states of random runs, and the same steps on a copy: answers, and all of the state.
#[test]
fn a_list_is_its_steps_one_by_one() {
    let (mut lists, mut records) = (0, 0);
    for seed in 0..40 {
        let mut runner = Runner::with_lists(seed);
        for _ in 0..400 {
            let mut copy = runner.network().cloned();
            let (call, found) = runner.call();
            let Call::Steps { records: list, .. } = call else {
                continue;
            };
            if found.answer == Answer::No(No::NoSuch) {
                assert_eq!(copy.as_ref(), runner.network());
                continue;
            }
            let single = list
                .iter()
                .map(|record| apply(&mut copy, &(*record).into()));
            assert_eq!(found.answer, Answer::Results(single.collect()));
            assert_eq!(copy.as_ref(), runner.network());
            lists += 1;
            records += list.len();
        }
    }
    println!("{lists} lists of {records} records");
    assert!(lists > 1_000 && records > 10_000);
}

// "a refused record stops nothing"

#[test]
fn a_refused_record_stops_nothing() {
    let mut bench = under_way();
    bench.expect(
        "steps 6 2 8 0 8 0 13 0 8 18446744073709551615 0 0 8",
        "results no 2; opened link 1; no 2; moved; no 2; moved",
    );
    bench.expect("steps 2 2 0 0 255", "results no 2; no 2");
}

// "The list may be empty."

#[test]
fn an_empty_list_is_done_on_any_state() {
    let mut bench = Bench::empty();
    bench.expect("steps 0", "results");
    assert!(bench.network.is_none());
    let mut bench = under_way();
    bench.expect("steps 0", "results");
    for mut state in unsound() {
        let before = state.clone();
        let empty = list(0, &[]);
        assert_eq!(apply(&mut state, &empty), Answer::Results(Vec::new()));
        assert_eq!(state, before);
    }
}

// "first, a results buffer of another length than the list is NoSuch, and nothing is done"

#[test]
fn results_of_another_length() {
    let mut bench = under_way();
    let digest = model::digest::digest(bench.network.as_ref());
    for call in [
        "steps 0 0 8",
        "steps 2 0 8",
        "steps 1",
        "steps 1 0 8 0 8",
        "steps 3 0 8 0 8",
        "steps 0 9 9",
        "steps 18446744073709551615 0 8",
    ] {
        bench.expect(call, "no 2");
        assert_eq!(model::digest::digest(bench.network.as_ref()), digest);
    }
    bench.expect("steps 1 0 8", "results opened link 1");
}

/// "first": before Unsound.
#[test]
fn the_length_is_looked_at_before_the_state() {
    let mut bench = Bench::empty();
    bench.expect("steps 0 0 8", "no 2");
    for mut state in unsound() {
        let before = state.clone();
        for results in [0, 2] {
            let call = list(results, &[(0, 8)]);
            assert_eq!(apply(&mut state, &call), Answer::No(No::NoSuch));
        }
        assert_eq!(state, before);
    }
}

// "Unsound is each record's own."

#[test]
fn on_an_unsound_state_each_result_is_unsound() {
    let mut bench = Bench::empty();
    bench.expect("steps 2 0 8 9 99", "results no 1; no 1");
    for mut state in unsound() {
        let before = state.clone();
        let call = list(3, &[(0, 8), (7, 0), (0, 13)]);
        let each = vec![Answer::No(No::Unsound); 3];
        assert_eq!(apply(&mut state, &call), Answer::Results(each));
        assert_eq!(state, before);
    }
}

/// Sound, and leading out of it: the third record drops the END of a circuit that its channel-end
/// takes for open, and every record behind it is Unsound, also of a port that is not there.
#[test]
fn a_record_may_make_those_behind_it_unsound() {
    let mut network = Network::fresh(1, 832);
    let node = &mut network.nodes[0];
    let (number, channel) = (0, 0);
    node.channel_ends[0].aim = Some(Aim {
        destination: Destination::Channel { number, channel },
        network: 0,
    });
    node.channel_ends[0].sending = Some(Sending::ByPort(8));
    node.ports[8].hop = Some(Hop::Dropped(Cause::NoRoute));
    node.ports[8].tokens.push_back(Token::control(END));
    assert!(sound::is_sound(&network));
    let mut state = Some(network);
    let call = list(6, &[(0, 0), (1, 0), (0, 8), (0, 8), (0, 0), (1, 0)]);
    let results = "results idle; no 2; dropped noroute; no 1; no 1; no 1";
    assert_eq!(apply(&mut state, &call).to_string(), results);
}

// What is called, and on what.

fn list(results: usize, places: &[(usize, usize)]) -> Call {
    let records = places.iter();
    let records = records.map(|&(slot, port)| StepRecord { slot, port });
    Call::Steps {
        results,
        records: records.collect(),
    }
}

/// States that fail the list "Sound", and memories of the wrong length.
fn unsound() -> Vec<Option<Network>> {
    let good = under_way().network.expect("a network");
    let mut credit = good.clone();
    credit.nodes[0].links[1].credit = 65;
    let mut headless = good.clone();
    headless.nodes[1].ports[3].tokens.push_back(Token::data(1));
    let mut short = good.clone();
    short.memory_words -= 1;
    let mut long = good;
    long.memory_words += 1;
    [credit, headless, short, long].map(Some).to_vec()
}
