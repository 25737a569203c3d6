//! Calls made on both sides: every answer and the whole visible state are the same, and a refused
//! call has changed no word.

use compare::calls::{beginning, begun, compare, Lent};
use compare::pair::Pair;
use compare::reduce::report;
use compare::soak::{ask, fill, plug, run, Figures, Found};
use compare::{filling, layout, reading};
use model::network::{LinkEnd, Network, Start};
use model::random::Random;
use model::tokens::{header, Destination, Token};
use model::words::parse_call;

const RUNS: u64 = 100;
const CALLS: usize = 400;
const FILLING: usize = 1000;
const ASKING: usize = 2000;
const PLUGGING: usize = 800;

/// Adds what one seed compared, or ends the test with the reduced run that differs.
fn add(figures: &mut Figures, seed: u64, compared: Result<Figures, Found>) {
    match compared {
        Ok(more) => *figures += more,
        Err(Found::Memory { behind, how }) => panic!("seed {seed}, behind {behind} calls: {how}"),
        Err(Found::Run(differing) | Found::Watched(differing)) => {
            panic!(
                "{}",
                report(model::apply, &format!("seed {seed}"), differing)
            )
        }
    }
}

#[test]
fn random_runs_with_calls_and_damage_aside() {
    let mut figures = Figures::default();
    for seed in 0..RUNS {
        add(&mut figures, seed, run(model::apply, seed, CALLS));
    }
    println!("{figures}");
}

#[test]
fn runs_that_fill_ports_and_channel_ends() {
    let mut figures = Figures::default();
    for seed in 0..RUNS {
        add(&mut figures, seed, fill(model::apply, seed, FILLING));
    }
    println!("{figures}");
}

#[test]
fn runs_that_ask_control_units() {
    let mut figures = Figures::default();
    for seed in 0..RUNS {
        add(&mut figures, seed, ask(model::apply, seed, ASKING));
    }
    println!("{figures}");
}

#[test]
fn runs_whose_cables_are_plugged_into_links_in_use() {
    let mut figures = Figures::default();
    for seed in 0..RUNS {
        add(&mut figures, seed, plug(model::apply, seed, PLUGGING));
    }
    println!("{figures}\n{}", figures.reached);
    for (case, least) in [("both in use", 40), ("both in use, of one node", 10)] {
        let times = figures.reached.times("cable, its ends", case);
        assert!(times >= least, "{case}: {times}");
    }
}

/// What the states of runs that fill have: how full a port 8..11 and a channel-end were.
#[test]
fn filling_fills() {
    let (mut in_port, mut in_end, mut all_taken) = (0, 0, 0);
    for seed in 0..20 {
        let mut pair = Pair::new(model::apply);
        for call in filling::calls(seed, FILLING) {
            pair.call(&call).unwrap_or_else(|how| panic!("{how}"));
            let nodes = pair.network().map_or(&[][..], |network| &network.nodes);
            for node in nodes {
                let held = node.ports.iter().map(|port| port.tokens.len());
                in_port = in_port.max(held.max().unwrap_or(0));
                let held = node.channel_ends.iter().map(|end| end.tokens.len());
                in_end = in_end.max(held.max().unwrap_or(0));
                let taken = node.ports[8..12].iter().all(|port| port.is_taken());
                all_taken += usize::from(taken);
            }
        }
    }
    assert_eq!((in_port, in_end), (64, 8));
    assert!(all_taken > 0);
}

/// Two nodes joined by their links A, both enabled, and a network at the far end that holds so many
/// tokens.
fn joined(held: usize) -> Network {
    let mut network = begun(Start::Fresh, 2);
    for slot in 0..2 {
        let link = &mut network.nodes[slot].links[0];
        link.far = Some(LinkEnd {
            slot: 1 - slot,
            link: 0,
        });
        link.enabled = true;
    }
    let far = &mut network.nodes[1].ports[0].tokens;
    far.extend(header(Destination::Control { number: 0 }, 3).unwrap_or_default());
    far.resize(far.len().max(held), Token::data(7));
    far.truncate(held);
    network
}

#[test]
fn a_hello_that_arrives_at_every_number_of_tokens_held() {
    for held in 0..=64 {
        let network = joined(held);
        let mut pair = Pair::at(model::apply, Some(&network), Random::new(held as u64));
        for words in ["set 0 hello 0 0", "line 0 0", "line 1 0"] {
            let call = parse_call(words).expect(words);
            assert_eq!(pair.call(&call), Ok(()), "{held} held");
        }
    }
}

/// What a start has written, for so many nodes; every node has the same words.
fn started(start: Start, nodes: usize) -> Vec<u32> {
    let (mut network, mut lent) = (None, Lent::default());
    let call = beginning(start, nodes);
    compare(model::apply, &mut network, &mut lent, &call).unwrap();
    assert_eq!(lent.memory, vec![0; nodes * layout::NODE_TOKENS]);
    assert_eq!(lent.lines, vec![0; nodes * layout::NODE_LINES]);
    assert_eq!(reading::read(&lent).ok(), network);
    let mut each = lent.state.chunks(layout::NODE_WORDS);
    let first = each.next().map(<[u32]>::to_vec).unwrap_or_default();
    assert!(each.all(|node| *node == first));
    first
}

/// All zeros but for the widths and, of Fresh, the enables of links E to H.
#[test]
fn what_the_starts_write() {
    let width = (1, 3);
    let enables = [47, 57, 67, 77].map(|place| (place, 1));
    for nodes in 1..=16 {
        for (start, expected) in [
            (Start::Blank, vec![width]),
            (Start::Fresh, [&[width][..], &enables].concat()),
        ] {
            let words = started(start, nodes).into_iter().enumerate();
            let written: Vec<_> = words.filter(|(_, word)| *word != 0).collect();
            assert_eq!(written, expected, "{start:?}");
        }
    }
}
