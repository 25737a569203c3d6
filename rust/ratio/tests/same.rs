//! The baseline computes what the proved library computes, word for word, so that what is timed is the
//! same work: on random runs, on runs that fill buffers, on damaged memories, for lists of Steps, and
//! for each measure.

use std::collections::BTreeMap;

use bench::StepRecord;
use compare::calls::{beginning, begun, make, Lent};
use compare::damaged::{other_things, other_words};
use compare::layout::{NODE_LINES, NODE_TOKENS, NODE_WORDS};
use compare::{choice, filling};
use model::answers::{Cause, Opening};
use model::calls::Beginning;
use model::lines::credit;
use model::network::{Hop, LinkEnd, Start};
use model::random::Random;
use model::runs::Runner;
use model::set::Setting;
use model::sizes::{PORTS, REPLY_PORT};
use model::tokens::{Token, HELLO};
use model::{Answer, Call, Network, No};
use ratio::baseline::{self, Stepped};
use ratio::lists::{self, lists, steps, List};
use ratio::measures::{measures, Measure};
use ratio::sides::{Baseline, Library};
use ratio::states::{going_round, half_full, sent, State};
use ratio::timing::answers;

const RUNS: u64 = 40;
const CALLS: usize = 300;

/// How often a call was made on both and how often it was not refused.
#[derive(Default)]
struct Made {
    calls: usize,
    done: usize,
}

/// The baseline at these words.
fn baseline_at(lent: &Lent) -> Box<baseline::Network> {
    baseline::Network::read(lent).unwrap_or_default()
}

/// A Step that hands a control unit the END or PAUSE of a switch message, which the baseline does not
/// obey, or a list that has one.
fn ends_message(lent: &Lent, call: &Call) -> bool {
    if let Call::Steps { records, .. } = call {
        let mut copy = lent.clone();
        let mut steps = records.iter().map(|record| Call::from(*record));
        return steps.any(|step| {
            let ends = ends_message(&copy, &step);
            make(&mut copy, &step);
            ends
        });
    }
    let Call::Step { slot, port } = *call else {
        return false;
    };
    let looks = lent.looks();
    let first = looks.port_tokens(slot, port).next();
    let ends = first.is_some_and(|word| word == 0x0101 || word == 0x0102);
    ends && looks.port(slot, port).hop() == Some(bench::Hop::Control)
}

/// Makes a call on copies of the same words, and compares the answers and every word behind it. A Step
/// that ends a switch message is left out.
fn compare(lent: &Lent, call: &Call, from: &str, made: &mut Made) {
    if ends_message(lent, call) {
        return;
    }
    let mut found = lent.clone();
    let mut network = baseline_at(lent);
    assert_eq!(network.write(), *lent);
    let expected = make(&mut found, call);
    let answer = network.make(call);
    assert_eq!(answer, expected, "{from}: {call}");
    if found.state.is_empty() {
        return;
    }
    assert!(
        network.write() == found,
        "{from}: {call} leaves other words"
    );
    made.calls += 1;
    made.done += usize::from(!matches!(answer, Answer::No(_)));
}

#[test]
fn random_runs_and_calls_aside() {
    let mut made = Made::default();
    for seed in 0..RUNS {
        let mut runner = Runner::by_line(seed);
        let mut random = Random::new(seed);
        for place in 0..CALLS {
            let before = Lent::of(runner.network(), &mut random);
            let aside = choice::any(&mut random, runner.network());
            let (call, _) = runner.call();
            let from = format!("seed {seed}, call {place}");
            for call in [call, aside] {
                compare(&before, &call, &from, &mut made);
            }
        }
    }
    assert!(made.done * 2 > made.calls, "most calls are refused");
    println!("{} calls, {} not refused", made.calls, made.done);
}

#[test]
fn runs_that_fill_ports_and_channel_ends() {
    let mut made = Made::default();
    for seed in 0..RUNS {
        let mut lent = Lent::default();
        for call in filling::calls(seed, CALLS) {
            compare(&lent, &call, &format!("seed {seed}"), &mut made);
            make(&mut lent, &call);
        }
    }
    println!("{} calls, {} not refused", made.calls, made.done);
}

/// Either start, of every count and of lengths about the right ones, on nothing and on a network.
#[test]
fn every_start() {
    let mut made = Made::default();
    let begins = [Lent::default(), half_full(2).lent];
    for start in Start::ALL {
        for nodes in 0..=17 {
            for call in starts(start, nodes) {
                for lent in &begins {
                    compare(lent, &call, "a start", &mut made);
                }
            }
        }
    }
    // A start is done where it has 1 to 16 nodes and the right length, and from nothing too.
    assert_eq!(made.done, 2 * 2 * 16);
}

/// A start of so many nodes, with each of its memories of a length about the right one.
fn starts(start: Start, nodes: usize) -> Vec<Call> {
    let about = |whole: usize| [whole.saturating_sub(1), whole, whole + 1];
    let lengths = about(nodes * NODE_TOKENS).into_iter().flat_map(|tokens| {
        let lines = about(nodes * NODE_LINES).map(Some).into_iter();
        lines.chain([None]).map(move |lines| (tokens, lines))
    });
    let each = lengths.map(|(memory_words, line_words)| Beginning {
        start,
        nodes,
        memory_words,
        line_words,
    });
    each.map(Call::from).collect()
}

/// Cables between links A and E of two boards, each disabled or enabled, unwired or wired.
#[test]
fn every_wire() {
    let mut made = Made::default();
    let end = |slot, link| LinkEnd { slot, link };
    let wire = |one, other| Call::Wire { one, other };
    for start in Start::ALL {
        let mut lent = Lent::default();
        make(&mut lent, &beginning(start, 2));
        let mut wired = lent.clone();
        make(&mut wired, &wire(end(0, 0), end(1, 4)));
        for lent in [&lent, &wired] {
            for (near, far) in [(0, 0), (0, 4), (4, 0), (4, 4)] {
                let call = wire(end(0, near), end(1, far));
                compare(lent, &call, "a cable", &mut made);
            }
        }
    }
    // Of the four on wired boards only that between the two other links is done.
    assert_eq!((made.calls, made.done), (2 * 8, 2 * (4 + 1)));
}

/// A board with a cable from link A to link B, so much issued by B and in A's hand, and so many tokens,
/// which are being dropped, in port 1.
fn cabled(issued: usize, held: usize) -> Network {
    let mut network = begun(Start::Fresh, 1);
    let node = &mut network.nodes[0];
    for link in 0..2 {
        let far = LinkEnd {
            slot: 0,
            link: 1 - link,
        };
        node.links[link].far = Some(far);
        node.links[link].enabled = true;
        node.links[link].greeted = true;
    }
    node.links[0].credit = issued;
    node.links[1].issued = issued;
    node.ports[1].hop = Some(Hop::Dropped(Cause::Split));
    node.ports[1].tokens = vec![Token::data(7); held].into();
    network
}

/// What is on A's line in the states in which something arrives, with what else is so then.
fn arriving(issued: usize, held: usize) -> Vec<Network> {
    let (mut token, mut hello, mut both) = (
        cabled(issued, held),
        cabled(issued, held),
        cabled(issued, held),
    );
    let [sent, greeted, doubled] =
        [&mut token, &mut hello, &mut both].map(|network| &mut network.nodes[0].links[0]);
    sent.line.push_back(Token::data(9));
    sent.credit = issued.saturating_sub(1);
    greeted.line.push_back(Token::control(HELLO));
    greeted.credit = 0;
    doubled.line.push_back(credit(8));
    both.nodes[0].links[0].issued = 8;
    vec![token, hello, both]
}

/// At HELLO, where a token is taken, and where a token, a HELLO or a credit arrives: sound or not.
#[test]
fn every_grant() {
    let mut made = Made::default();
    let mut random = Random::new(3);
    let hello = || Call::Set {
        slot: 0,
        setting: Setting::Hello { link: 0 },
    };
    for held in 0..=64 {
        for issued in 0..=64 - held {
            let lent = Lent::of(Some(&cabled(issued, held)), &mut random);
            let from = format!("{issued} issued, {held} held");
            for call in [hello(), Call::Step { slot: 0, port: 1 }] {
                compare(&lent, &call, &from, &mut made);
            }
            assert_eq!(made.done, made.calls, "{from}");
        }
    }
    for held in 0..=64 {
        for issued in 0..=64 - held {
            for network in arriving(issued, held) {
                let lent = Lent::of(Some(&network), &mut random);
                let from = format!("{issued} issued, {held} held");
                for link in 0..2 {
                    compare(&lent, &Call::Line { slot: 0, link }, &from, &mut made);
                }
            }
        }
    }
    assert!(made.done > 10_000, "{} of {}", made.done, made.calls);
}

/// Both sides' verdict on the same words; true for sound.
fn verdict(lent: &Lent, from: &str) -> bool {
    let expected = lent.looks().is_sound();
    assert_eq!(baseline_at(lent).is_sound(), expected, "{from}");
    expected
}

#[test]
fn damaged_memories_have_the_same_verdict() {
    let (mut sound, mut unsound) = (0, 0);
    for seed in 0..RUNS {
        let mut runner = Runner::by_line(seed);
        let mut random = Random::new(seed ^ 0xDA3A);
        for place in 0..CALLS {
            runner.call();
            let Some(network) = runner.network() else {
                continue;
            };
            for damage in [other_words, other_things] {
                let lent = damage(network, &mut random);
                match verdict(&lent, &format!("seed {seed}, call {place}")) {
                    true => sound += 1,
                    false => unsound += 1,
                }
            }
        }
    }
    println!("{sound} sound, {unsound} unsound");
    assert!(sound > 1000 && unsound > 1000);
}

#[test]
fn words_all_alike_and_wrong_lengths_have_the_same_verdict() {
    for word in [0, 1, 2, 3, 5, 12, 64, 255, u32::MAX] {
        for token in [0, 0x101, 0x600, u16::MAX] {
            for (words, tokens, lines) in [
                (NODE_WORDS, NODE_TOKENS, NODE_LINES),
                (NODE_WORDS * 16, NODE_TOKENS * 16, NODE_LINES * 16),
                (NODE_WORDS + 1, NODE_TOKENS, NODE_LINES),
                (NODE_WORDS, 64, NODE_LINES),
                (NODE_WORDS, NODE_TOKENS, 66),
            ] {
                let lent = Lent {
                    state: vec![word; words],
                    memory: vec![token; tokens],
                    lines: vec![token; lines],
                };
                verdict(
                    &lent,
                    &format!("{words} words {word}, {tokens} and {lines} of {token}"),
                );
            }
        }
    }
}

#[test]
fn damaged_half_full_boards_have_the_same_verdict() {
    let mut random = Random::new(7);
    for State { network, .. } in [half_full(3), sent(3)] {
        let network = network.expect("a network");
        for round in 0..2500 {
            for damage in [other_words, other_things] {
                verdict(&damage(&network, &mut random), &format!("round {round}"));
            }
        }
    }
}

/// Every port holds 32 tokens, in a state that lists may begin from: sound and tight.
fn assert_half_full(state: &State) {
    let network = state.network.as_ref().expect("a network");
    for node in &network.nodes {
        let held = node.ports.iter().map(|port| port.tokens.len());
        assert!(held.eq([32; PORTS]));
    }
    assert!(model::sound::is_sound(network));
    let on_lines = network.nodes.iter().flat_map(|node| &node.links);
    assert!(on_lines.clone().all(|link| link.line.is_empty()));
    let looks = state.lent.looks();
    assert!(looks.is_sound() && looks.is_tight());
}

#[test]
fn half_full_is_what_it_says() {
    for boards in [1, 2, 16] {
        assert_half_full(&going_round(boards));
        let state = half_full(boards);
        assert_half_full(&state);
        let network = state.network.expect("a network");
        for node in &network.nodes {
            let circuits = node.ports.iter().filter(|port| port.hop.is_some());
            assert_eq!(circuits.count(), 8);
            assert!(node.ports[REPLY_PORT].hop.is_none());
        }
    }
}

/// No timed call is refused, but for the script's own two `no 11`, and behind all of them library and
/// baseline have the same words.
#[test]
fn the_measures_do_what_they_say() {
    for Measure { name, begin, work } in measures() {
        let mut library = Library::at(&begin);
        let mut baseline = Baseline::at(&begin);
        let found = answers(&mut library, &work);
        assert_eq!(answers(&mut baseline, &work), found, "{name}");
        assert!(baseline.network.write() == library.lent, "{name}");
        let refused = found
            .iter()
            .filter(|answer| matches!(answer, Answer::No(_)));
        let expected = 2 * usize::from(name.starts_with("script"));
        assert_eq!(refused.count(), expected, "{name}");
        if name.starts_with("line-step") {
            assert!(found.iter().all(is_an_arrival), "{name}: {found:?}");
        }
        if name.starts_with("step") {
            assert!(
                found.iter().all(|answer| *answer == Answer::Moved),
                "{name}"
            );
        }
    }
}

fn is_an_arrival(answer: &Answer) -> bool {
    matches!(answer, Answer::Arrived(_))
}

/// A result of the baseline as the library writes it: which case in the upper half, what it carries in
/// the lower.
fn crossed(result: &Result<Stepped, No>) -> u64 {
    let cause = |cause| u64::from(cause == Cause::NoRoute);
    let (case, value) = match *result {
        Err(no) => (0, u64::from(no.number())),
        Ok(Stepped::Idle) => (4, 0),
        Ok(Stepped::Waiting) => (5, 0),
        Ok(Stepped::Moved) => (6, 0),
        Ok(Stepped::Opened(Opening::Link(link))) => (7, link as u64),
        Ok(Stepped::Opened(Opening::Channel)) => (8, 0),
        Ok(Stepped::Opened(Opening::Control)) => (9, 0),
        Ok(Stepped::Refused(why)) => (10, cause(why)),
        Ok(Stepped::Dropped(why)) => (11, cause(why)),
    };
    case << 32 | value
}

/// Makes a list from the same state on the library, by its list and by single calls, and on the
/// baseline: the same results, and the same words behind.
fn compare_lists(state: &State, list: &[StepRecord], from: &str) -> Vec<u64> {
    let mut library = lists::Library::at(state, list.len());
    let mut one_by_one = lists::Library::at(state, list.len());
    let mut baseline = lists::Baseline::at(state, list.len());
    library.make(list);
    one_by_one.make_one_by_one(list);
    baseline.make(list);
    let found: Vec<u64> = baseline.results.iter().map(crossed).collect();
    assert_eq!(found, library.results, "{from}");
    assert!(
        library.lent == one_by_one.lent,
        "{from}: the list leaves other words"
    );
    assert!(
        baseline.network.write() == library.lent,
        "{from}: other words"
    );
    found
}

/// Records at random, most of ports that hold something, some of what is not there. Those that end a
/// switch message, which the baseline does not obey, are left out.
fn random_list(mut lent: Lent, random: &mut Random, many: usize) -> Vec<StepRecord> {
    let mut list = Vec::new();
    for _ in 0..many {
        let record = random_record(&lent, random);
        let call = Call::Step {
            slot: record.slot,
            port: record.port,
        };
        if !ends_message(&lent, &call) {
            make(&mut lent, &call);
            list.push(record);
        }
    }
    list
}

fn random_record(lent: &Lent, random: &mut Random) -> StepRecord {
    let looks = lent.looks();
    let places = (0..looks.nodes()).flat_map(|slot| (0..PORTS).map(move |port| (slot, port)));
    let holding: Vec<_> = places
        .filter(|&(slot, port)| looks.port(slot, port).held > 0)
        .collect();
    let anywhere = (random.below(looks.nodes() + 1), random.below(PORTS + 1));
    let (slot, port) = match random.chance(80) {
        true => random.pick(&holding).unwrap_or(anywhere),
        false => anywhere,
    };
    StepRecord { slot, port }
}

#[test]
fn lists_at_random() {
    let mut cases = BTreeMap::new();
    for seed in 0..RUNS {
        let mut runner = Runner::by_line(seed);
        let mut random = Random::new(seed ^ 0x1157);
        for place in 0..CALLS {
            runner.call();
            let lent = Lent::of(runner.network(), &mut random);
            if place % 10 != 0 || lent.state.is_empty() {
                continue;
            }
            let many = random.below(120);
            let list = random_list(lent.clone(), &mut random, many);
            let network = None;
            let from = format!("seed {seed}, call {place}");
            count(
                &mut cases,
                compare_lists(&State { lent, network }, &list, &from),
            );
        }
    }
    println!("{cases:?}");
    let reached: Vec<u64> = cases.into_keys().collect();
    assert_eq!(reached, [0, 4, 5, 6, 7, 8, 9, 10, 11], "cases of answers");
}

/// How often each case stands in the results.
fn count(cases: &mut BTreeMap<u64, usize>, results: Vec<u64>) {
    for result in results {
        *cases.entry(result >> 32).or_default() += 1;
    }
}

#[test]
fn results_of_another_length() {
    let State { lent, .. } = going_round(1);
    let list = [StepRecord { slot: 0, port: 8 }; 2];
    for room in [0, 1, 3] {
        let before = vec![Err(No::Trap); room];
        let (mut network, mut results) = (baseline_at(&lent), before.clone());
        let answer = network.steps_untested(&list, &mut results);
        assert_eq!((answer, results), (Err(No::NoSuch), before));
        assert!(network == baseline_at(&lent));
    }
}

/// The lists that are timed, with the mix of Steps that is claimed.
#[test]
fn the_lists_do_what_they_say() {
    for List {
        name,
        begin,
        records,
    } in lists()
    {
        let mut cases = BTreeMap::new();
        count(&mut cases, compare_lists(&begin, &records, &name));
        println!("{name}: {cases:?}");
        let boards = begin.network.as_ref().map_or(0, |it| it.nodes.len());
        let all = steps(boards);
        assert_eq!(cases.values().sum::<usize>(), all);
        let share = |case: u64| cases.get(&case).map_or(0, |many| 100 * many / all);
        // Idle; Waiting; Moved; a circuit opened to a link.
        assert_eq!(share(4), 0, "{name}");
        assert!((10..=14).contains(&share(5)), "{name}");
        assert!(share(6) >= 72, "{name}");
        assert!((8..=10).contains(&share(7)), "{name}");
        assert!(cases.keys().all(|case| (4..=8).contains(case)), "{name}");
    }
}
