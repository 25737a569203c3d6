//! Both starts, and what comes of it that a cable may be plugged into a link that is
//! enabled or in use (document 02, Ask 7).

mod common;

use common::Bench;
use model::calls::Call;
use model::network::{Hop, Link, LinkEnd, Network, Start};
use model::runs::Runner;
use model::Answer;

// The starts.

/// "links E to H enabled after start", of every node, and nothing else of theirs.
#[test]
fn fresh_enables_e_to_h_of_every_node() {
    for nodes in 1..=16 {
        let bench = Bench::fresh(nodes);
        for slot in 0..nodes {
            for link in 0..8 {
                let expected = Link {
                    enabled: [4, 5, 6, 7].contains(&link),
                    ..Link::default()
                };
                assert_eq!(*bench.link(slot, link), expected, "{slot} {link}");
            }
        }
    }
}

#[test]
fn blank_enables_no_link() {
    for nodes in 1..=16 {
        let bench = Bench::blank(nodes);
        let mut links = bench.state().nodes.iter().flat_map(|node| &node.links);
        assert!(links.all(|link| *link == Link::default()));
    }
}

/// In nothing else do they differ: with E to H disabled Fresh is `blank`, and the
/// other way round.
#[test]
fn the_starts_differ_in_four_enables() {
    let (mut fresh, mut blank) = (Bench::fresh(3), Bench::blank(3));
    let begun = [fresh.network.clone(), blank.network.clone()];
    for slot in 0..3 {
        for link in 4..8 {
            fresh.expect(&format!("set {slot} enable {link} 0"), "done");
            blank.expect(&format!("set {slot} enable {link} 1"), "done");
        }
    }
    assert_eq!([blank.network, fresh.network], begun);
}

/// A run of the Fresh of document 01, with the answers and digests that were written
/// down before there were two starts. Only its name is another.
const OLD_RUN: &str = "
    blank 0 832 -> no 2 # 0000000000000000
    blank 17 14144 -> no 2 # 0000000000000000
    blank 2 1663 -> no 1 # 0000000000000000
    blank 2 1664 -> done # 1b91f45b40b31789
    set 0 hello 4 0 -> no 4 # 1b91f45b40b31789
    set 0 network 4 1 -> done # 9edd98332fea38e8
    set 0 network 4 0 -> done # 1b91f45b40b31789
    set 1 number 0 1 -> done # ba3fb0f9a2b8c57e
    aim 0 0 channel 1 7 0 -> done # 4b2beb81c9489511
    output 0 0 data 5 -> done # 945be19b9b934b99
    output 0 0 control 1 -> done # a423b2a717c5c9d7
    step 0 8 -> refused noroute # 3a1a5ed09cc452a0
    step 0 8 -> dropped noroute # edb6d275582e3e8b
    wire 0 4 1 7 -> done # d9ecdc0feaff423d
    set 0 enable 4 1 -> done # bb0678091eb70480
    set 1 enable 7 1 -> done # 4e2dd1ac857c47fb
    set 0 hello 4 0 -> granted 64 # ba4d7f89a7ef45a0
    set 1 hello 7 0 -> granted 64 # 4d1dfa3ec7ecb6d1
    output 0 0 data 6 -> done # b5afc4a0ad2b7339
    output 0 0 control 1 -> done # 348994d9e2043f0c
    steps 6 0 9 0 9 0 9 0 9 0 9 0 9 -> results opened link 4; moved; moved; moved; moved; moved # dbd8bf703a78bd03
    step 0 8 -> dropped noroute # 3d67415cd2f5911b
    step 1 7 -> opened channel # f5351c30d58bb465
    steps 2 1 7 1 7 -> results moved; moved # f7e9773fbd6a81a8
    input 1 7 data -> token 6 # 0cde92d9338f6421
    set 1 enable 7 0 -> done # 4afb549f72e60c1f
    wire 0 4 1 6 -> no 4 # 4afb549f72e60c1f
    blank 1 832 -> done # a2cea611fc6e792a
    step 0 8 -> idle # a2cea611fc6e792a
";

#[test]
fn blank_is_the_old_fresh() {
    assert_eq!(model::script::check(OLD_RUN), Ok(29));
}

// Circuits in a network that has only been started.

/// A circuit for another number opens to E, where it had no route. Nothing of it
/// leaves until E is wired, enabled at the far end and greeted; then it goes on.
#[test]
fn a_circuit_waits_at_e_for_its_cable() {
    for (width, whole) in [(3, "h3:00 h3:01 h3:07 05 !01"), (1, "h1:27 05 !01")] {
        let mut bench = Bench::fresh(2);
        bench.play(&format!(
            "set 0 width 0 {width}
             set 1 width 0 {width}
             set 1 number 0 1
             aim 0 0 channel 1 7 0
             output 0 0 data 5
             output 0 0 control 1
             step 0 8 -> opened link 4"
        ));
        assert_eq!(bench.link(0, 4).used_by, Some(8));
        for on_the_way in [
            "set 0 hello 4 0 -> granted 0",
            "wire 0 4 1 2 -> done",
            "set 0 hello 4 0 -> granted 0",
            "set 1 enable 2 1 -> done",
            "set 1 hello 2 0 -> granted 64",
        ] {
            bench.expect("step 0 8", "waiting");
            assert_eq!(bench.tokens(0, 8), whole);
            bench.play(on_the_way);
        }
        bench.play(
            "step 0 8 -> waiting
             set 0 hello 4 0 -> granted 64
             step 0 8 -> moved",
        );
        bench.settle();
        assert_eq!(bench.input_all(1, 7), "05 !01");
        assert_eq!(bench.link(0, 4).used_by, None);
    }
}

/// The same calls after `blank`.
#[test]
fn the_same_circuit_has_no_route_after_blank() {
    let mut bench = Bench::blank(2);
    bench.play(
        "set 1 number 0 1
         aim 0 0 channel 1 7 0
         output 0 0 data 5
         output 0 0 control 1
         step 0 8 -> refused noroute",
    );
    bench.repeat(5, "step 0 8", "dropped noroute");
    bench.expect("step 0 8", "idle");
}

/// Only network 0 and direction 0 lead to E: another network has no route, and
/// neither has a bit with another direction.
#[test]
fn only_network_and_direction_zero_lead_there() {
    let mut bench = Bench::fresh(1);
    bench.play(
        "set 0 direction 1 1
         aim 0 0 channel 1 7 1
         output 0 0 data 1
         step 0 8 -> refused noroute
         aim 0 1 channel 2 7 0
         output 0 1 data 1
         step 0 9 -> refused noroute
         aim 0 2 channel 1 7 0
         output 0 2 data 1
         step 0 10 -> opened link 4",
    );
}

/// Four candidates at every node: the lowest free one is taken, the fifth circuit
/// waits, and link A, once enabled, is a candidate before them.
#[test]
fn four_circuits_take_e_to_h_and_the_fifth_waits() {
    let mut bench = Bench::fresh(1);
    bench.play("aim 0 9 control 0 0 0");
    bench.output_tokens(0, 9, "!C1 00 01 09 00 05 !01");
    assert_eq!(bench.drain(0, 8), "idle");
    assert_eq!(bench.held(0, 12), 9);
    for (end, port) in (8..12).enumerate() {
        bench.play(&format!(
            "aim 0 {end} channel 2 7 0
             output 0 {end} data 1
             step 0 {port} -> opened link {}",
            4 + end
        ));
    }
    bench.play(
        "step 0 12 -> waiting
         set 0 enable 0 1
         step 0 12 -> opened link 0",
    );
}

// Cables between links that are enabled.

/// Two enabled ends are joined: nobody is greeted by that, HELLO is said both ways,
/// and traffic goes both ways.
#[test]
fn a_cable_between_two_enabled_ends() {
    let mut bench = Bench::fresh(2);
    bench.play("set 1 number 0 1\nwire 0 4 1 5 -> done");
    for (slot, link) in [(0, 4), (1, 5)] {
        let end = bench.link(slot, link);
        assert!(end.enabled && !end.greeted && end.credit == 0);
    }
    bench.play(
        "set 0 hello 4 0 -> granted 64
         set 1 hello 5 0 -> granted 64
         set 1 linkdirection 5 3
         set 1 direction 0 3
         aim 0 0 channel 1 7 0
         aim 1 0 channel 0 8 0",
    );
    bench.output_tokens(0, 0, "01 02 03 !01");
    bench.output_tokens(1, 0, "04 05 !02");
    bench.settle();
    assert_eq!(bench.input_all(1, 7), "01 02 03 !01");
    assert_eq!(bench.input_all(0, 8), "04 05");
}

/// Changing the network of E to H is Busy until they are disabled; D is disabled.
#[test]
fn the_network_of_e_to_h_is_changed_behind_a_disabling() {
    for link in 4..8 {
        let mut bench = Bench::fresh(1);
        bench.play(&format!(
            "set 0 network {link} 1 -> no 4
             set 0 network {link} 0 -> done
             set 0 network {link} 4 -> no 3
             set 0 enable {link} 0 -> done
             set 0 network {link} 1 -> done
             set 0 enable {link} 1 -> done
             set 0 network {link} 0 -> no 4
             set 0 network 3 1 -> done"
        ));
        assert_eq!(bench.link(0, link).network, 1);
    }
}

/// A circuit that waits at E has it in use: E cannot be disabled, with or without a
/// cable, and so its network stays.
#[test]
fn a_link_in_use_is_not_disabled() {
    let mut bench = Bench::fresh(2);
    bench.play(
        "aim 0 0 channel 1 7 0
         output 0 0 data 1
         step 0 8 -> opened link 4
         set 0 enable 4 0 -> no 4
         set 0 network 4 1 -> no 4
         wire 0 4 1 4 -> done
         set 0 enable 4 0 -> no 4
         set 1 enable 4 0 -> no 4
         set 0 network 4 1 -> no 4",
    );
}

/// A link that is disabled on the way loses its circuits' route, not its cable.
#[test]
fn a_cable_stays_where_an_end_is_disabled() {
    let mut bench = Bench::fresh(2);
    bench.play(
        "wire 0 4 1 4 -> done
         set 0 enable 4 0 -> done
         wire 0 4 1 5 -> no 4
         wire 1 5 1 4 -> no 4",
    );
}

// Cables between links that are in use.

/// Both ends are in use outward when they are joined: both circuits go on, each
/// whole, past each other.
#[test]
fn both_ends_in_use_are_joined() {
    let mut bench = Bench::fresh(2);
    bench.play(
        "set 1 number 0 1
         aim 0 0 channel 1 7 0
         aim 1 0 channel 0 8 0",
    );
    bench.output_tokens(0, 0, "01 02 !01");
    bench.output_tokens(1, 0, "03 04 !01");
    bench.play(
        "step 0 8 -> opened link 4
         step 1 8 -> opened link 4
         wire 0 4 1 4 -> done",
    );
    assert_eq!(bench.link(0, 4).used_by, Some(8));
    assert_eq!(bench.port(1, 8).hop, Some(Hop::Outward(4)));
    bench.play(
        "step 0 8 -> waiting
         step 1 8 -> waiting
         set 0 hello 4 0 -> granted 64
         step 0 8 -> moved
         step 1 8 -> waiting
         set 1 hello 4 0 -> granted 64
         step 1 8 -> moved",
    );
    bench.settle();
    assert_eq!(bench.input_all(1, 7), "01 02 !01");
    assert_eq!(bench.input_all(0, 8), "03 04 !01");
}

/// Two links of one node, each in use, are joined to each other: what leaves by one
/// comes back by the other, each circuit whole.
#[test]
fn two_links_of_one_node_in_use_are_joined() {
    let mut bench = Bench::fresh(1);
    bench.play("aim 0 0 channel 1 7 0\naim 0 1 channel 2 8 0");
    bench.output_tokens(0, 0, "01 02 !01");
    bench.output_tokens(0, 1, "03 04 !01");
    bench.play(
        "step 0 8 -> opened link 4
         step 0 9 -> opened link 5
         wire 0 5 0 4 -> done
         set 0 hello 4 0 -> granted 64
         set 0 hello 5 0 -> granted 64",
    );
    bench.repeat(6, "step 0 8", "moved");
    bench.repeat(6, "step 0 9", "moved");
    assert_eq!(bench.tokens(0, 5), "h3:00 h3:01 h3:07 01 02 !01");
    assert_eq!(bench.tokens(0, 4), "h3:00 h3:02 h3:08 03 04 !01");
    bench.play(
        "set 0 number 0 1
         step 0 5 -> opened channel
         set 0 number 0 2
         step 0 4 -> opened channel",
    );
    bench.settle();
    assert_eq!(bench.input_all(0, 7), "01 02 !01");
    assert_eq!(bench.input_all(0, 8), "03 04 !01");
}

/// A wired end is Busy, whatever else it is; which of the two ends it is does not
/// matter, nor what the other one is.
#[test]
fn a_wired_end_in_use_is_busy() {
    let mut bench = Bench::fresh(3);
    bench.play(
        "aim 0 0 channel 1 7 0
         output 0 0 data 1
         step 0 8 -> opened link 4
         wire 0 4 1 4 -> done",
    );
    let (near, far) = ("0 4", "1 4");
    for wired in [near, far] {
        for other in ["2 0", "2 4", "0 5", "1 3", near, far] {
            let expected = if wired == other { "no 3" } else { "no 4" };
            bench.expect(&format!("wire {wired} {other}"), expected);
            bench.expect(&format!("wire {other} {wired}"), expected);
        }
        bench.expect(&format!("wire {wired} 3 0"), "no 2");
        bench.expect(&format!("wire {wired} 2 8"), "no 2");
    }
    assert_eq!(bench.link(0, 4).used_by, Some(8));
}

/// Joined while its circuit waits, the link has no credit until it says HELLO, though
/// the far end has said one.
#[test]
fn joining_brings_no_credit() {
    let mut bench = Bench::fresh(2);
    bench.play(
        "aim 0 0 channel 1 7 0
         output 0 0 data 1
         step 0 8 -> opened link 4
         set 0 hello 4 0 -> granted 0
         set 1 hello 4 0 -> granted 0
         wire 0 4 1 4 -> done
         step 0 8 -> waiting
         set 1 hello 4 0 -> granted 64
         step 0 8 -> waiting",
    );
    assert!(!bench.link(0, 4).greeted);
    bench.play("set 0 hello 4 0 -> granted 64");
    bench.repeat(4, "step 0 8", "moved");
}

/// "Fresh" in the order's third demand "means either": from both, the same circuit
/// arrives whole over a link that was enabled before its cable was plugged in.
#[test]
fn a_cable_plugged_into_a_link_in_use_after_either_start() {
    for start in ["fresh", "blank"] {
        let mut bench = Bench::begun(start, 2);
        bench.play(
            "set 0 enable 1 1
             set 1 number 0 1
             aim 0 0 channel 1 7 0",
        );
        bench.output_tokens(0, 0, "01 02 !01");
        bench.play(
            "step 0 8 -> opened link 1
             wire 1 0 0 1 -> done
             set 1 enable 0 1
             set 0 hello 1 0 -> granted 64",
        );
        bench.settle();
        assert_eq!(bench.input_all(1, 7), "01 02 !01");
    }
}

// Random runs.

/// How often random runs met what this file is about.
#[derive(Debug, Default)]
struct Met {
    runs_from: [usize; 2],
    later: [usize; 2],
    enabled: usize,
    in_use: usize,
    both_in_use: usize,
    crossed: usize,
}

/// Counts a call by the state before it. Kept are the ends that were in use when they
/// were wired.
fn count(met: &mut Met, kept: &mut Vec<LinkEnd>, before: &Network, call: &Call) {
    match *call {
        Call::Wire { one, other } => {
            let ends = [one, other].map(|end| (end, &before.nodes[end.slot].links[end.link]));
            let used = ends.iter().filter(|(_, link)| link.used_by.is_some());
            let used: Vec<_> = used.map(|(end, _)| *end).collect();
            met.enabled += usize::from(ends.iter().any(|(_, link)| link.enabled));
            met.in_use += usize::from(!used.is_empty());
            met.both_in_use += usize::from(used.len() == 2);
            kept.extend(used);
        }
        Call::Step { slot, port } => {
            if let Some(Hop::Outward(link)) = before.nodes[slot].ports[port].hop {
                met.crossed += usize::from(kept.contains(&LinkEnd { slot, link }));
            }
        }
        _ => {}
    }
}

/// Runs begin in either way, and cables are plugged into links that are enabled and
/// in use often enough for a run to be worth something.
#[test]
fn random_runs_plug_cables_into_links_in_use() {
    let mut met = Met::default();
    for seed in 0..200 {
        let mut runner = Runner::new(seed);
        let mut kept = Vec::new();
        for place in 0..600 {
            let before = runner.network().cloned();
            let (call, found) = runner.call();
            if let (Some(start), Answer::Done) = (call.start(), &found.answer) {
                let begun = if place == 0 {
                    &mut met.runs_from
                } else {
                    &mut met.later
                };
                begun[usize::from(start == Start::Blank)] += 1;
                kept.clear();
            }
            if let (Some(before), Answer::Done | Answer::Moved) = (before, found.answer) {
                count(&mut met, &mut kept, &before, &call);
            }
        }
    }
    println!("{met:?}");
    assert!(met.runs_from.iter().all(|times| *times > 70), "{met:?}");
    assert!(met.later.iter().all(|times| *times > 10), "{met:?}");
    assert!(met.enabled > 200 && met.in_use > 100, "{met:?}");
    assert!(met.both_in_use > 10 && met.crossed > 500, "{met:?}");
}
