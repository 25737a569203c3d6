//! The two starts, Fresh and blank: what they ask for, what they leave, and what can be done at once
//! with links that a start has enabled.

use bench::{raw, Answer, Bench, Destination, Hop, Kind, LinkEnd, Looks, Opening};
use bench::{Cause, Refusal, Setting, Stepped};

/// A start, on lent memories.
type Start = fn(&mut [u32], &mut [u16], &mut [u16], usize) -> Answer;

/// Each start with the first of the links that it enables; those behind it are enabled too.
const STARTS: [(Start, usize); 2] = [(raw::fresh, E), (raw::blank, 8)];

/// The first link that the boot ROM leaves enabled.
const E: usize = 4;

/// The lengths of the three memories: state, tokens, lines.
type Lengths = [usize; 3];

/// Those of so many nodes.
fn lengths_of(nodes: usize) -> Lengths {
    [raw::state_words(), raw::memory_words(), raw::line_words()].map(|words| nodes * words)
}

/// A start on memories of these lengths, full of rubbish, which it leaves where it refuses.
fn start_on(start: Start, nodes: usize, [words, tokens, things]: Lengths) -> Answer {
    let (mut state, mut memory, mut lines) = (vec![9; words], vec![9; tokens], vec![9; things]);
    let answer = start(&mut state, &mut memory, &mut lines, nodes);
    if answer != Answer::Done {
        assert!(state.iter().all(|word| *word == 9));
        assert!(memory.iter().chain(&lines).all(|word| *word == 9));
    }
    answer
}

/// Lengths of which one is another than these.
fn other_lengths(right: Lengths) -> Vec<Lengths> {
    let one_other = |memory: usize, length: usize| {
        let mut lengths = right;
        lengths[memory] = length;
        lengths
    };
    let of_memory = |memory: usize| {
        let right = right[memory];
        [right - 1, right + 1, 0].map(|length| one_other(memory, length))
    };
    (0..3).flat_map(of_memory).collect()
}

#[test]
fn each_start_asks_for_a_count_and_then_for_all_lengths() {
    for (start, _) in STARTS {
        for nodes in [0, 17, usize::MAX] {
            for lent in [0, 1, 16, 17] {
                let answer = start_on(start, nodes, lengths_of(lent));
                assert_eq!(answer, Answer::No(Refusal::NoSuch));
            }
        }
        for nodes in 1..=16 {
            let right = lengths_of(nodes);
            assert_eq!(start_on(start, nodes, right), Answer::Done);
            for other in other_lengths(right) {
                let answer = start_on(start, nodes, other);
                assert_eq!(answer, Answer::No(Refusal::Unsound));
            }
        }
    }
}

/// Every word is 0 but for the width of each node and the flags of the links that are enabled.
#[test]
fn each_start_leaves_these_words_and_no_others() {
    for (start, enabled) in STARTS {
        for nodes in [1, 2, 16] {
            let mut state = vec![9; nodes * raw::state_words()];
            let mut memory = vec![9; nodes * raw::memory_words()];
            let mut lines = vec![9; nodes * raw::line_words()];
            let answer = start(&mut state, &mut memory, &mut lines, nodes);
            assert_eq!(answer, Answer::Done);
            assert!(memory.iter().chain(&lines).all(|word| *word == 0));
            for (place, word) in state.iter().enumerate() {
                let of_node = place % raw::state_words();
                let flag = (enabled..8).any(|link| of_node == 4 + 10 * link + 3);
                let expected = if of_node == 1 { 3 } else { u32::from(flag) };
                assert_eq!(*word, expected, "word {of_node}");
            }
            let looks = Looks::over(&state, &memory, &lines);
            assert!(looks.is_sound() && looks.is_tight() && looks.is_quiet());
        }
    }
}

fn end(slot: usize, link: usize) -> LinkEnd {
    LinkEnd { slot, link }
}

/// Two boards of numbers 0 and 1, of which the first has begun a message for channel 7 of the second.
fn sent(mut bench: Bench) -> Bench {
    let (number, channel) = (1, 7);
    let calls = [
        bench.set(1, Setting::Number(number)),
        bench.aim(0, 0, Destination::Channel { number, channel }, 0),
        bench.output(0, 0, Kind::Data, 40),
    ];
    assert_eq!(calls, [Ok(()); 3]);
    bench
}

/// Takes all off the line that starts at a link, and says what grants that brought.
fn emptied(bench: &mut Bench, slot: usize, link: usize) -> Vec<u32> {
    let arrival = || bench.line(slot, link).expect("a link that is there");
    std::iter::from_fn(arrival).collect()
}

/// What came of so many Steps of a port.
fn steps(bench: &mut Bench, slot: usize, port: usize, many: usize) -> Vec<Stepped> {
    let step = |_| bench.step(slot, port).expect("a port that is there");
    (0..many).map(step).collect()
}

#[test]
fn a_header_for_another_number_takes_link_e_or_is_refused() {
    let mut blank = sent(Bench::blank(2).expect("two boards"));
    let refused = [
        Stepped::Refused(Cause::NoRoute),
        Stepped::Dropped(Cause::NoRoute),
    ];
    assert_eq!(steps(&mut blank, 0, 8, 2), refused);
    let mut fresh = sent(Bench::fresh(2).expect("two boards"));
    let waits = [Stepped::Opened(Opening::Link(E)), Stepped::Waiting];
    assert_eq!(steps(&mut fresh, 0, 8, 2), waits);
}

/// A circuit that waits at an unwired link goes on by the cable that comes, once HELLO is said on it.
#[test]
fn a_message_sent_too_early_arrives_by_the_cable_that_comes() {
    let mut bench = sent(Bench::fresh(2).expect("two boards"));
    let opened = Stepped::Opened(Opening::Link(E));
    assert_eq!(bench.step(0, 8), Ok(opened));
    assert_eq!(bench.looks().port(0, 8).hop(), Some(Hop::Link(E as u32)));
    assert_eq!(bench.wire(end(0, E), end(1, E)), Ok(()));
    assert!(bench.looks().is_sound() && bench.looks().is_tight());
    let wired = bench.looks().link(0, E);
    assert_eq!(
        (wired.far(), wired.greeted, wired.credit),
        (Some((1, 4)), 0, 0)
    );
    assert_eq!(bench.step(0, 8), Ok(Stepped::Waiting));
    assert_eq!(bench.hello(0, E), Ok(0));
    assert_eq!(bench.step(0, 8), Ok(Stepped::Waiting));
    assert_eq!(emptied(&mut bench, 0, E), [64]);
    assert_eq!(bench.step(0, 8), Ok(Stepped::Waiting));
    assert_eq!(emptied(&mut bench, 1, E), [0]);
    assert_eq!(steps(&mut bench, 0, 8, 4), [Stepped::Moved; 4]);
    assert_eq!(bench.step(1, E), Ok(Stepped::Idle));
    assert_eq!(emptied(&mut bench, 0, E), [0; 4]);
    let arrives = [Stepped::Opened(Opening::Channel), Stepped::Moved];
    assert_eq!(steps(&mut bench, 1, E, 2), arrives);
    assert_eq!(bench.input(1, 7, Kind::Data), Ok(40));
}

/// Wire asks whether an end is wired, and not whether it is enabled; and it greets nobody.
#[test]
fn an_enabled_end_can_be_wired_and_a_wired_one_cannot() {
    for (near, far) in [(0, 0), (0, E), (E, 0), (E, E)] {
        let mut bench = Bench::fresh(2).expect("two boards");
        let before = bench.looks().link(0, near);
        assert_eq!(bench.wire(end(0, near), end(1, far)), Ok(()));
        let after = bench.looks().link(0, near);
        assert_eq!(after.far(), Some((1, far as u32)));
        let kept = (before.enabled, before.greeted, before.credit);
        assert_eq!((after.enabled, after.greeted, after.credit), kept);
        for other in [end(0, 3), end(0, 5), end(1, 7)] {
            assert_eq!(bench.wire(other, end(1, far)), Err(Refusal::Busy));
            assert_eq!(bench.wire(end(0, near), other), Err(Refusal::Busy));
        }
    }
}

#[test]
fn the_network_of_an_enabled_link_is_changed_only_while_it_is_disabled() {
    let mut bench = Bench::fresh(1).expect("a board");
    for link in 0..8 {
        let network = |value| Setting::Network { link, value };
        let enable = |value| Setting::Enable { link, value };
        let busy = if link < E { Ok(()) } else { Err(Refusal::Busy) };
        assert_eq!(bench.set(0, network(1)), busy, "link {link}");
        let calls = [enable(0), network(1), enable(1)].map(|setting| bench.set(0, setting));
        assert_eq!(calls, [Ok(()); 3], "link {link}");
        assert_eq!(bench.set(0, network(2)), Err(Refusal::Busy), "link {link}");
    }
}
