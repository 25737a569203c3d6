//! States that the model's runs reach, written as words and seen through the proved looks.

use compare::calls::begun;
use compare::{changing, difference, layout, reading};
use model::digest::digest;
use model::network::{Network, Node, Start};
use model::random::Random;
use model::runs::Runner;

const RUNS: u64 = 60;
const CALLS: usize = 400;

/// "no token, no claim, no open circuit anywhere", and nothing on a line
fn is_quiet(network: &Network) -> bool {
    let quiet = |node: &Node| {
        let mut ends = node.channel_ends.iter();
        node.ports.iter().all(|port| !port.is_taken())
            && node.links.iter().all(|link| link.line.is_empty())
            && ends.all(|end| end.tokens.is_empty() && end.claim.is_none() && end.sending.is_none())
    };
    network.nodes.iter().all(quiet)
}

/// The whole of what one state shows.
fn check(network: &Network, random: &mut Random) {
    let lent = layout::write(network, random);
    let looks = lent.looks();
    let clause = looks.failing_clause();
    assert!(clause.is_none(), "unsound: {}", clause.unwrap());
    assert!(looks.is_sound());
    assert!(looks.is_tight());
    assert_eq!(looks.is_quiet(), is_quiet(network));
    let read = reading::read(&lent).expect("a state of the model");
    assert_eq!(difference::first(&read, network), None);
    assert_eq!(looks.digest(), digest(Some(network)));
}

#[test]
fn states_of_runs_are_sound_and_tight_and_read_back() {
    let mut compared = 0;
    for seed in 0..RUNS {
        println!("seed {seed}");
        let mut runner = Runner::by_line(seed);
        let mut random = Random::new(seed);
        for _ in 0..CALLS {
            runner.call();
            if let Some(network) = runner.network() {
                check(network, &mut random);
                compared += 1;
            }
        }
    }
    println!("{compared} states compared");
}

/// The same of runs in which cables are plugged into links in use: what leaves by a link that has
/// none yet is whole.
#[test]
fn so_are_those_of_runs_whose_cables_come_late() {
    for seed in 0..RUNS / 2 {
        println!("seed {seed}");
        let mut network = None;
        let mut random = Random::new(seed);
        for call in changing::calls_without_cables(seed, CALLS) {
            model::apply(&mut network, &call);
            let network = network.as_ref().expect("a network");
            check(network, &mut random);
        }
    }
}

#[test]
fn started_states_are_quiet() {
    for (start, nodes) in Start::ALL
        .into_iter()
        .flat_map(|it| (1..=16).map(move |n| (it, n)))
    {
        let network = begun(start, nodes);
        let lent = layout::write(&network, &mut Random::new(0));
        assert!(lent.looks().is_quiet());
        check(&network, &mut Random::new(1));
    }
}

#[test]
fn sizes_are_those_of_the_layout() {
    assert_eq!(bench::raw::state_words(), layout::NODE_WORDS);
    assert_eq!(bench::raw::memory_words(), layout::NODE_TOKENS);
    assert_eq!(bench::raw::line_words(), layout::NODE_LINES);
}

#[test]
fn a_difference_is_named() {
    let one = begun(Start::Fresh, 2);
    let mut other = one.clone();
    other.nodes[1].links[3].credit = 8;
    let found = difference::first(&one, &other);
    let expected = "slot 1 link 3 credit: 0 against 8 at slot 1 link 3 credit";
    assert_eq!(found.as_deref(), Some(expected));
}
