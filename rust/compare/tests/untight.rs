//! Sound states that are not tight, small ones and such as damage makes of random runs, from which a
//! list of Steps leads out of sound: the results before that are those of its Steps, and every one
//! behind it is Unsound, on both sides. A list that tested whether its state is sound at its beginning
//! alone would go on, and is found.

use bench::{raw, Clause};
use compare::calls::{begun, Lent};
use compare::choice::any_record;
use compare::damaged::other_things;
use compare::lists::{held_to_single_steps, library};
use compare::pair::Pair;
use compare::reading::read;
use model::answers::Cause;
use model::network::{Aim, Hop, LinkEnd, Network, Node, Sending, Start};
use model::random::Random;
use model::runs::Runner;
use model::sizes::REPLY_PORT;
use model::step::step;
use model::tokens::{Destination, Token, END, READC, SINK};
use model::{sound, Answer, Call, No, StepRecord};

/// A board of its own, with this done to it.
fn one_board(change: impl FnOnce(&mut Node)) -> Network {
    let mut network = begun(Start::Fresh, 1);
    change(&mut network.nodes[0]);
    network
}

/// The smallest: channel-end 0 is open by port 8, whose circuit is dropped and holds an END. With
/// that the port is free, and the channel-end still names it. Broken is the tie `sends`.
fn open_behind_its_end() -> Network {
    one_board(|node| {
        let (number, channel) = (0, 0);
        node.channel_ends[0].aim = Some(Aim {
            destination: Destination::Channel { number, channel },
            network: 0,
        });
        node.channel_ends[0].sending = Some(Sending::ByPort(8));
        node.ports[8].hop = Some(Hop::Dropped(Cause::NoRoute));
        node.ports[8].tokens.push_back(Token::control(END));
    })
}

/// Links 0 and 1 of one board are joined. Port 8 is past its header and sends a token by link 0 towards
/// port 1, which no header has come to. Broken is the tie `fed`.
fn data_without_its_header() -> Network {
    one_board(|node| {
        for link in 0..2 {
            node.links[link].far = Some(LinkEnd {
                slot: 0,
                link: 1 - link,
            });
            node.links[link].enabled = true;
        }
        node.links[0].greeted = true;
        node.links[0].credit = 8;
        node.links[1].issued = 8;
        node.links[0].used_by = Some(8);
        node.ports[8].hop = Some(Hop::Outward(0));
        node.ports[8].tokens.push_back(Token::data(7));
    })
}

/// The control unit is asked and is to reply, while port 12 still has a circuit open to the sink.
/// Broken is the tie `replied`.
fn a_reply_inside_a_circuit() -> Network {
    one_board(|node| {
        let heard = [Token::control(READC), Token::data(0), Token::data(0)];
        node.control_unit.serves = Some(8);
        node.control_unit.heard = [&heard[..], &[Token::data(SINK as u8)]].concat();
        node.ports[8].hop = Some(Hop::Control);
        node.ports[8].tokens.push_back(Token::control(END));
        node.ports[REPLY_PORT].hop = Some(Hop::Channel(SINK));
        node.tile_links[0] = Some(REPLY_PORT);
    })
}

/// A state, a list, the results, and the clause that fails behind it.
type Example = (
    fn() -> Network,
    &'static [(usize, usize)],
    &'static str,
    u32,
);

const EXAMPLES: [Example; 4] = [
    (
        open_behind_its_end,
        &[(0, 8), (0, 8)],
        "results dropped noroute; no 1",
        11,
    ),
    (
        open_behind_its_end,
        &[(0, 0), (1, 0), (0, 8), (0, 8), (0, 0), (1, 0)],
        "results idle; no 2; dropped noroute; no 1; no 1; no 1",
        11,
    ),
    (
        data_without_its_header,
        &[(0, 1), (0, 8), (0, 1), (0, 8)],
        "results idle; moved; no 1; no 1",
        7,
    ),
    (
        a_reply_inside_a_circuit,
        &[(0, 12), (0, 8), (0, 12), (0, 13)],
        "results idle; moved; no 1; no 1",
        7,
    ),
];

fn records(places: &[(usize, usize)]) -> Vec<StepRecord> {
    let records = places.iter();
    records
        .map(|&(slot, port)| StepRecord { slot, port })
        .collect()
}

fn list(places: &[(usize, usize)]) -> Call {
    Call::Steps {
        results: places.len(),
        records: records(places),
    }
}

fn lent(network: &Network, seed: u64) -> Lent {
    Lent::of(Some(network), &mut Random::new(seed))
}

fn clause_of(lent: &Lent) -> u32 {
    raw::unsound_clause(&lent.state, &lent.memory, &lent.lines)
}

#[test]
fn they_are_sound_and_not_tight() {
    for (network, ..) in EXAMPLES {
        let network = network();
        assert_eq!(sound::first_failing(&network), None);
        let lent = lent(&network, 0);
        let looks = lent.looks();
        assert!(looks.is_sound() && !looks.is_tight());
    }
}

/// The model, the library's list and the library's single Steps say the very results.
#[test]
fn a_list_is_unsound_from_its_middle_on() {
    for (place, (network, places, results, clause)) in EXAMPLES.into_iter().enumerate() {
        let (network, records) = (network(), records(places));
        let call = list(places);
        let answer = model::apply(&mut Some(network.clone()), &call);
        assert_eq!(answer.to_string(), results);
        let mut pair = Pair::at(model::apply, Some(&network), Random::new(place as u64));
        assert_eq!(pair.call(&call), Ok(()));
        let mut lent = lent(&network, place as u64);
        let found = held_to_single_steps(library, &mut lent, records.len(), &records);
        assert_eq!(found, Ok(answer));
        assert_eq!(clause_of(&lent), clause);
        println!("{results}: {:?}", Clause::from_number(clause));
    }
}

/// The smallest, word by word: what differs from a fresh network of one node, with port 8's ring begun
/// at its first word.
fn smallest_in_words() -> Lent {
    let mut lent = Lent {
        state: vec![0; raw::state_words()],
        memory: vec![0; raw::memory_words()],
        lines: vec![0; raw::line_words()],
    };
    raw::fresh(&mut lent.state, &mut lent.memory, &mut lent.lines, 1);
    // Port 8: one token held; dropped, NoRoute; channel-end 0 sends by it.
    lent.state[149] = 1;
    (lent.state[152], lent.state[153]) = (5, 0);
    (lent.state[154], lent.state[155]) = (2, 0);
    // Channel-end 0: aimed at a channel, and open by port 8.
    lent.state[196] = 1;
    (lent.state[209], lent.state[210]) = (1, 8);
    // END.
    lent.memory[512] = 0x101;
    lent
}

/// And so are the numbers that cross, and the words behind the list.
#[test]
fn the_smallest_word_by_word() {
    let mut lent = smallest_in_words();
    assert_eq!(read(&lent), Ok(open_behind_its_end()));
    let mut results = [7; 2];
    let answer = library(&mut lent, &records(&[(0, 8), (0, 8)]), &mut results);
    assert_eq!(answer, bench::Answer::Done);
    assert_eq!(results, [11 << 32 | 1, 1]);
    let before = smallest_in_words();
    assert!(lent.memory.iter().chain(&lent.lines).all(|word| *word == 0));
    let words = lent.state.iter().zip(&before.state).enumerate();
    let changed = words.filter(|(_, (now, then))| now != then);
    let changed: Vec<_> = changed.map(|(place, (now, _))| (place, *now)).collect();
    // The ring's head, what is held, and no circuit.
    assert_eq!(changed, [(148, 1), (149, 0), (152, 0)]);
}

/// What these states are for: a list that tests whether its state is sound at its beginning alone.
fn tests_sound_once(state: &mut Option<Network>, call: &Call) -> Answer {
    let sound = state.as_ref().is_some_and(sound::is_sound);
    let (Call::Steps { results, records }, Some(network), true) = (call, state.as_mut(), sound)
    else {
        return model::apply(state, call);
    };
    if *results != records.len() {
        return Answer::No(No::NoSuch);
    }
    let each = records.iter().map(|record| {
        let stepped = step(network, record.slot, record.port);
        stepped.unwrap_or_else(Answer::No)
    });
    Answer::Results(each.collect())
}

#[test]
fn a_list_that_tests_sound_once_is_found() {
    let complaints = [
        "record 1, 0 8: the library no 1, the model idle",
        "record 3, 0 8: the library no 1, the model idle",
        "record 2, 0 1: the library no 1, the model idle",
        "record 2, 0 12: the library no 1, the model moved",
    ];
    for ((network, places, ..), complaint) in EXAMPLES.into_iter().zip(complaints) {
        let mut pair = Pair::at(tests_sound_once, Some(&network()), Random::new(0));
        let how = pair.call(&list(places)).expect_err("a difference");
        assert!(how.ends_with(complaint), "{how}");
    }
}

/// How a list went: none of it Unsound, or so from some record on.
#[derive(Clone, Copy)]
enum Went {
    Through,
    Out,
}

/// Makes a list of so many records on both sides, on words that are a state of the model.
fn list_on(lent: &Lent, random: &mut Random) -> Went {
    let network = read(lent).expect("a state of the model");
    let records = (0..30).map(|_| any_record(random, Some(&network)));
    let call = Call::Steps {
        results: 30,
        records: records.collect(),
    };
    let mut pair = Pair::on(model::apply, Some(network), lent.clone());
    pair.call(&call).unwrap_or_else(|how| panic!("{how}"));
    match pair.reached().times("record of steps", "no 1") {
        0 => Went::Through,
        _ => Went::Out,
    }
}

/// Damage to states of random runs that leaves them sound and breaks a tie.
#[test]
fn random_states_that_are_sound_and_not_tight() {
    let mut times = [0; 2];
    for seed in 0..30 {
        let mut runner = Runner::by_line(seed);
        let mut random = Random::new(seed ^ 0x71E5);
        for _ in 0..300 {
            runner.call();
            let damaged = runner.network().map(|it| other_things(it, &mut random));
            let untight = damaged.filter(|lent| {
                let looks = lent.looks();
                looks.is_sound() && !looks.is_tight()
            });
            if let Some(lent) = untight {
                times[list_on(&lent, &mut random) as usize] += 1;
            }
        }
    }
    println!("lists that stayed sound, and that did not: {times:?}");
    assert!(times[0] > 100 && times[1] > 20, "{times:?}");
}

/// An empty list is done behind it, too, and results of another length are NoSuch.
#[test]
fn what_is_no_record_s_own_is_answered_before() {
    for (network, places, ..) in EXAMPLES {
        let mut lent = lent(&network(), 0);
        let records = records(places);
        held_to_single_steps(library, &mut lent, records.len(), &records).expect("a list");
        let none = held_to_single_steps(library, &mut lent, 0, &[]);
        assert_eq!(none, Ok(Answer::Results(Vec::new())));
        let other = held_to_single_steps(library, &mut lent, 0, &records);
        assert_eq!(other, Ok(Answer::No(No::NoSuch)));
    }
}
