//! The tie that Wire needs, now that it takes a link in use: what leaves by a link without a cable has
//! its whole header in front. States that are sound and break that tie alone: a cable is plugged in,
//! its far end enabled and HELLO said, all of which is done, and then tokens that are no header are on
//! the line to a port without a circuit. From there on the state is unsound and every call answers 1, on both
//! sides and word for word.

use bench::{raw, Answer as Found, Refusal, Stepped};
use compare::calls::{begun, Lent};
use compare::layout::{FIRST_LINE, LINE, NODE_WORDS};
use compare::pair::Pair;
use compare::reading::read;
use model::network::{Aim, Hop, Network, Sending, Start};
use model::random::Random;
use model::sound::{self, Clause};
use model::tokens::{header, Destination, Token, END};
use model::words::parse_call;

/// Where the circuit goes: to channel 7 of the other board.
const DOOR: Destination = Destination::Channel {
    number: 1,
    channel: 7,
};

/// Two boards. Port 8 of the first has a circuit out by link E, which has no cable, and holds these.
fn leaving_by_e(tokens: &[Token]) -> Network {
    let mut network = begun(Start::Fresh, 2);
    network.nodes[1].number = 1;
    let node = &mut network.nodes[0];
    node.links[4].used_by = Some(8);
    node.ports[8].hop = Some(Hop::Outward(4));
    node.ports[8].tokens.extend(tokens);
    network
}

/// The same, and channel-end 0 goes on with the circuit.
fn sent_by_an_end(tokens: &[Token]) -> Network {
    let mut network = leaving_by_e(tokens);
    let end = &mut network.nodes[0].channel_ends[0];
    end.aim = Some(Aim::new(DOOR, 0));
    end.sending = Some(Sending::ByPort(8));
    network
}

/// A header, a token and an END, without so many of the first and so many of the last.
fn part(front: usize, back: usize) -> Vec<Token> {
    let mut stream = header(DOOR, 3).expect("a header");
    stream.extend([Token::data(5), Token::control(END)]);
    stream.truncate(stream.len() - back);
    stream.split_off(front)
}

/// Who has the circuit, what is missing at its front and at its back, and calls with their answers, in
/// the last of which the state becomes unsound.
type Example = (
    fn(&[Token]) -> Network,
    usize,
    usize,
    &'static [(&'static str, &'static str)],
);

/// A Step of the port that sends, a step of the line between, and a Step of the port that receives.
const SENDS: &str = "step 0 8";
const ARRIVES: &str = "line 0 4";
const HEARS: &str = "step 1 2";

const EXAMPLES: [Example; 6] = [
    // A token and its END, and an END alone.
    (leaving_by_e, 3, 0, &[(HEARS, "idle"), (SENDS, "moved")]),
    (leaving_by_e, 4, 0, &[(HEARS, "idle"), (SENDS, "moved")]),
    // Nothing: the next token is put out behind it.
    (
        sent_by_an_end,
        3,
        2,
        &[
            (SENDS, "idle"),
            ("output 0 0 data 9", "done"),
            (SENDS, "moved"),
        ],
    ),
    // The last of a header's tokens, the last two: at the far end a header that is short, until
    // something else stands behind it.
    (
        leaving_by_e,
        2,
        0,
        &[
            (SENDS, "moved"),
            (HEARS, "idle"),
            (ARRIVES, "moved 0"),
            (HEARS, "waiting"),
            (SENDS, "moved"),
        ],
    ),
    (
        leaving_by_e,
        1,
        0,
        &[
            (SENDS, "moved"),
            (SENDS, "moved"),
            (ARRIVES, "moved 0"),
            (HEARS, "waiting"),
            (SENDS, "moved"),
        ],
    ),
    (
        sent_by_an_end,
        1,
        1,
        &[(SENDS, "moved"), (SENDS, "moved"), (SENDS, "moved")],
    ),
];

/// The cable, with its far end enabled and its near end greeted, which has its credit.
const PLUGGED: [(&str, &str); 5] = [
    ("wire 0 4 1 2", "done"),
    ("set 1 enable 2 1", "done"),
    ("set 0 hello 4 0", "granted 0"),
    ("line 0 4", "moved 64"),
    ("line 1 2", "moved 0"),
];

fn is_sound_and_tight(network: &Network) -> [bool; 2] {
    let lent = Lent::of(Some(network), &mut Random::new(3));
    let looks = lent.looks();
    assert_eq!(looks.is_sound(), sound::is_sound(network));
    [looks.is_sound(), looks.is_tight()]
}

/// With its whole header in front the very circuit is tight.
#[test]
fn they_are_sound_and_the_tie_alone_is_broken() {
    for (network, front, back, _) in EXAMPLES {
        assert_eq!(
            is_sound_and_tight(&network(&part(front, back))),
            [true, false]
        );
        assert_eq!(is_sound_and_tight(&network(&part(0, back))), [true, true]);
    }
}

/// One-byte headers are one token.
#[test]
fn a_whole_header_has_its_own_width() {
    let mut whole = header(DOOR, 1).expect("a header");
    assert_eq!(is_sound_and_tight(&leaving_by_e(&whole)), [true, true]);
    whole.push(Token::data(5));
    assert_eq!(is_sound_and_tight(&leaving_by_e(&whole)), [true, true]);
    assert_eq!(
        is_sound_and_tight(&leaving_by_e(&whole[1..])),
        [true, false]
    );
}

/// Makes a call on both sides, holds the whole states to each other, and says what both answer.
fn made(pair: &mut Pair, words: &str) -> String {
    let call = parse_call(words).unwrap_or_else(|fault| panic!("{words}: {fault}"));
    let answer = model::apply(&mut pair.network().cloned(), &call);
    assert_eq!(pair.call(&call), Ok(()), "{words}");
    answer.to_string()
}

#[test]
fn a_cable_leads_out_of_sound() {
    for (place, (network, front, back, calls)) in EXAMPLES.into_iter().enumerate() {
        let network = network(&part(front, back));
        let mut pair = Pair::at(model::apply, Some(&network), Random::new(place as u64));
        for (words, expected) in PLUGGED.iter().chain(calls) {
            assert!(pair.network().is_some_and(sound::is_sound), "{words}");
            assert_eq!(made(&mut pair, words), *expected, "{place}: {words}");
        }
        let failing = pair.network().and_then(sound::first_failing);
        let headless = [Clause::StartsWithHeader, Clause::ShortHeader];
        assert!(
            failing.is_some_and(|it| headless.contains(&it)),
            "{failing:?}"
        );
        for words in [
            "step 1 2",
            "step 0 8",
            "line 0 4",
            "set 1 number 0 0",
            "wire 0 0 1 0",
        ] {
            assert_eq!(made(&mut pair, words), "no 1", "{place}: {words}");
        }
    }
}

/// A circuit with its whole header goes the same way and arrives.
#[test]
fn the_twin_stays_sound() {
    let mut pair = Pair::at(
        model::apply,
        Some(&leaving_by_e(&part(0, 0))),
        Random::new(9),
    );
    let crossing = [[(SENDS, "moved"), (ARRIVES, "moved 0")]; 5].concat();
    let landing = [
        (HEARS, "opened channel"),
        (HEARS, "moved"),
        (HEARS, "moved"),
        ("input 1 7 data", "token 5"),
        ("input 1 7 control", "token 1"),
    ];
    for (words, expected) in PLUGGED.iter().chain(&crossing).chain(&landing) {
        assert_eq!(made(&mut pair, words), *expected, "{words}");
    }
}

/// The first example, word by word: what differs from two fresh boards, with port 8's ring begun at
/// its first word.
fn first_in_words() -> Lent {
    let mut lent = Lent {
        state: vec![0; 2 * raw::state_words()],
        memory: vec![0; 2 * raw::memory_words()],
        lines: vec![0; 2 * raw::line_words()],
    };
    raw::fresh(&mut lent.state, &mut lent.memory, &mut lent.lines, 2);
    // Link E: port 8's circuit leaves by it.
    (lent.state[52], lent.state[53]) = (1, 8);
    // Port 8: two tokens held; outward, by link E.
    lent.state[149] = 2;
    (lent.state[152], lent.state[153]) = (1, 4);
    // The number of the other board.
    lent.state[NODE_WORDS] = 1;
    // A token, and END.
    (lent.memory[512], lent.memory[513]) = (5, 0x101);
    lent
}

/// And so are the words behind the Step that leads out, with every answer as it crosses.
#[test]
fn the_first_word_by_word() {
    let mut lent = first_in_words();
    let expected = leaving_by_e(&part(3, 0));
    assert_eq!(read(&lent), Ok(expected));
    plug_and_send(&mut lent);
    let before = first_in_words();
    let (near_line, far_line) = (FIRST_LINE + 4 * LINE, FIRST_LINE + 2 * LINE);
    // Link E wired to link C of the other board, greeted, one credit spent; port 8's ring one on; its
    // line begins one on, behind HELLO, and holds one.
    let near = [
        (44, 1),
        (45, 1),
        (46, 2),
        (50, 1),
        (51, 63),
        (148, 1),
        (149, 1),
        (near_line, 1),
        (near_line + 1, 1),
    ];
    // Link C wired to link E, and enabled; its line begins one on, behind the credit, and 64 are issued.
    let there = [(24, 1), (26, 4), (27, 1), (far_line, 1), (far_line + 2, 64)];
    let there = there.map(|(at, word)| (NODE_WORDS + at, word));
    assert_eq!(
        changed(&before.state, &lent.state),
        [&near[..], &there].concat()
    );
    assert_eq!(changed(&before.memory, &lent.memory), [(512, 0)]);
    assert_eq!(changed(&before.lines, &lent.lines), [(4 * 66 + 1, 5)]);
}

/// The cable is plugged in, HELLO and its credit arrive, and the token leaves for the line.
fn plug_and_send(lent: &mut Lent) {
    let Lent {
        state,
        memory,
        lines,
    } = lent;
    assert_eq!(raw::wire(state, memory, lines, 0, 4, 1, 2), Found::Done);
    assert_eq!(raw::set_enable(state, memory, lines, 1, 2, 1), Found::Done);
    assert_eq!(raw::hello(state, memory, lines, 0, 4), Found::Granted(0));
    let arrived = raw::line_step(state, memory, lines, 0, 4);
    assert_eq!(arrived, Found::Arrived(64));
    let arrived = raw::line_step(state, memory, lines, 1, 2);
    assert_eq!(arrived, Found::Arrived(0));
    let moved = Found::Step(Stepped::Moved);
    assert_eq!(raw::step(state, memory, lines, 0, 8), moved);
    assert_eq!(raw::unsound_clause(state, memory, lines), 7);
    let unsound = Found::No(Refusal::Unsound);
    assert_eq!(raw::step(state, memory, lines, 0, 8), unsound);
}

/// The places of the words that are others now, with what they are.
fn changed<W: Copy + PartialEq>(before: &[W], after: &[W]) -> Vec<(usize, W)> {
    let words = before.iter().zip(after).enumerate();
    let others = words.filter(|(_, (then, now))| then != now);
    others.map(|(place, (_, now))| (place, *now)).collect()
}
