//! The list "Sound" by line: for each thing that Ask 4 adds to it a state that fails it
//! alone, and its twin, which passes.

#[path = "common/cable.rs"]
#[allow(dead_code)]
mod cable;

use cable::{
    cable, count, data, end, greeted, hello, hold, joined, leaves, link, of_three, one_byte, put,
};
use model::answers::Cause;
use model::calls::{apply, Call};
use model::lines::{credit, Crossing};
use model::network::{Hop, Network};
use model::sound::{failing, first_failing, Clause};
use model::tokens::{Token, CREDIT8, HELLO, SINK};

/// Changes a network with a cable, and counts what was issued.
fn counted(change: impl Fn(&mut Network)) -> Network {
    let mut network = cable();
    change(&mut network);
    count(&mut network);
    network
}

/// The state fails that clause alone; every call is Unsound and changes nothing.
#[track_caller]
fn fails(clause: Clause, network: Network) {
    assert_eq!(failing(&network), [clause]);
    assert_eq!(first_failing(&network), Some(clause));
    let mut state = Some(network.clone());
    for call in [
        Call::Line { slot: 0, link: 0 },
        Call::Line { slot: 9, link: 9 },
        Call::Step { slot: 0, port: 0 },
    ] {
        assert_eq!(apply(&mut state, &call).to_string(), "no 1");
    }
    assert_eq!(state, Some(network));
}

#[track_caller]
fn passes(network: Network) {
    assert_eq!(failing(&network), []);
    let answer = apply(&mut Some(network), &Call::Line { slot: 9, link: 9 });
    assert_eq!(answer.to_string(), "no 2");
}

#[test]
fn a_network_with_a_cable_is_sound() {
    passes(cable());
    passes(joined());
}

// Memory and counts.

#[test]
fn the_second_memory_has_its_length() {
    for (line_words, right) in [(527, false), (528, true), (529, false), (0, false)] {
        let mut network = cable();
        network.crossing = Crossing::ByLine { line_words };
        match right {
            true => passes(network),
            false => fails(Clause::Memory, network),
        }
    }
}

/// While a HELLO is coming nothing holds the count to what is on its way, but it stays
/// within the limit of a credit.
#[test]
fn what_was_issued_is_within_its_limit() {
    for issued in [0, 1, 64, 65, 1000] {
        let mut network = cable();
        put(&mut network, 0, [hello()]);
        link(&mut network, 1).issued = issued;
        match issued <= 64 {
            true => passes(network),
            false => fails(Clause::Counts, network),
        }
    }
}

/// 64 tokens, a HELLO and a credit are on the line at the most.
#[test]
fn sixty_six_and_no_more() {
    let full = |data_tokens: usize| {
        counted(move |network| {
            put(network, 0, [one_byte()]);
            let line = &mut link(network, 0).line;
            line.extend(std::iter::repeat_n(data(), data_tokens));
            put(network, 0, [hello(), credit(64)]);
            greeted(network, 1, 0);
        })
    };
    assert_eq!(full(63).nodes[0].links[0].line.len(), 66);
    passes(full(63));
    // One more is beyond the line as well as beyond the room.
    assert!(failing(&full(64)).contains(&Clause::Counts));
}

// Credit, tokens on the line and held.

/// "credit in hand + credit on the line to it + tokens on the line from it + held ≤ 64"
#[test]
fn room_counts_both_lines() {
    let filled = |in_hand, coming, going, held| {
        counted(move |network| {
            greeted(network, 0, in_hand);
            if coming > 0 {
                put(network, 1, [credit(coming)]);
            }
            // The circuit has landed at port 1, so that all are plain tokens.
            network.nodes[0].ports[1].hop = Some(Hop::Dropped(Cause::NoRoute));
            network.nodes[0].ports[1].tokens = vec![data(); held].into();
            link(network, 0).line = vec![data(); going].into();
        })
    };
    let fitting = [
        (64, 0, 0, 0),
        (0, 64, 0, 0),
        (0, 0, 64, 0),
        (0, 0, 0, 64),
        (40, 8, 8, 8),
        (7, 16, 40, 1),
    ];
    for (in_hand, coming, going, held) in fitting {
        assert_eq!(in_hand + coming + going + held, 64);
        passes(filled(in_hand, coming, going, held));
        if held < 64 {
            let one_held = filled(in_hand, coming, going, held + 1);
            fails(Clause::CreditAndHeld, one_held);
        }
        // More than 64 issued would be beyond its limit.
        if held > 0 {
            let one_going = filled(in_hand, coming, going + 1, held);
            fails(Clause::CreditAndHeld, one_going);
            let one_in_hand = filled(in_hand + 1, coming, going, held);
            fails(Clause::CreditAndHeld, one_in_hand);
        }
    }
    fails(Clause::CreditAndHeld, filled(40, 16, 8, 8));
}

// What may be on a line.

#[test]
fn one_credit_on_a_line() {
    let credits = |ends: &'static [usize]| {
        counted(move |network| {
            greeted(network, 0, 0);
            greeted(network, 1, 0);
            for end in ends {
                put(network, *end, [credit(8)]);
            }
        })
    };
    passes(credits(&[0]));
    passes(credits(&[0, 1]));
    fails(Clause::OneCreditOneHello, credits(&[0, 0]));
    fails(Clause::OneCreditOneHello, credits(&[0, 1, 1]));
}

#[test]
fn one_hello_on_a_line() {
    let hellos = |ends: &'static [usize]| {
        counted(move |network| {
            for end in ends {
                put(network, *end, [hello()]);
            }
        })
    };
    passes(hellos(&[1]));
    passes(hellos(&[0, 1]));
    fails(Clause::OneCreditOneHello, hellos(&[1, 1]));
}

// The count of what was issued.

/// "its count to the far end's credit plus the credit on the line to that end and the
/// tokens on the line from it"
#[test]
fn what_was_issued_is_on_its_way() {
    let network = counted(|network| {
        greeted(network, 0, 5);
        put(network, 1, [credit(16)]);
        put(network, 0, [one_byte(), data(), end()]);
    });
    assert_eq!(network.nodes[0].links[1].issued, 24);
    passes(network.clone());
    for issued in [0, 23, 25, 64] {
        let mut other = network.clone();
        link(&mut other, 1).issued = issued;
        fails(Clause::IssuedCount, other.clone());
        // A HELLO that comes to the receiver excuses it, one that goes the other way does not.
        let mut coming = other.clone();
        put(&mut coming, 0, [hello()]);
        passes(coming);
        put(&mut other, 1, [hello()]);
        fails(Clause::IssuedCount, other);
    }
}

/// Each of the three counts.
#[test]
fn each_part_of_the_count() {
    let parts: [fn(&mut Network); 3] = [
        |network| greeted(network, 0, 1),
        |network| put(network, 1, [credit(8)]),
        |network| put(network, 0, [one_byte()]),
    ];
    for part in parts {
        passes(counted(part));
        let mut uncounted = cable();
        part(&mut uncounted);
        fails(Clause::IssuedCount, uncounted);
    }
}

// Where there is no cable.

#[test]
fn nothing_is_on_a_line_without_a_cable() {
    let things = [hello(), credit(8), one_byte(), data(), Token::control(0xE2)];
    for thing in things {
        let mut network = cable();
        put(&mut network, 2, [thing]);
        fails(Clause::UnwiredLine, network);
    }
    for issued in [1, 64] {
        let mut network = cable();
        link(&mut network, 2).issued = issued;
        fails(Clause::UnwiredLine, network);
    }
}

// A port with its line.

/// Port 1 holds these, and those are on the line to it.
fn port_and_line<const N: usize, const M: usize>(port: [Token; N], line: [Token; M]) -> Network {
    counted(move |network| {
        hold(network, 1, port);
        put(network, 0, line);
    })
}

#[test]
fn tokens_on_a_line_are_legal() {
    for (control, legal) in [
        (0xBF, true),
        (0xC0, true),
        (0xC1, true),
        (0xC2, false),
        (0xC3, false),
        (0xDF, false),
        (0xE2, false),
        (0xE5, false),
        (0xE7, false),
        (0xFF, false),
    ] {
        let network = port_and_line([], [one_byte(), Token::control(control)]);
        match legal {
            true => passes(network),
            false => fails(Clause::LegalTokens, network),
        }
    }
}

/// What is a credit or a HELLO on a line is no token of a port.
#[test]
fn credits_and_hellos_enter_no_port() {
    for control in [CREDIT8, 0xE1, 0xE4, HELLO] {
        let network = port_and_line([one_byte(), Token::control(control)], []);
        fails(Clause::LegalTokens, network);
    }
    let marked = Token::control(CREDIT8).in_header(1);
    fails(Clause::LegalHeaders, port_and_line([], [marked]));
}

#[test]
fn headers_on_a_line_are_legal() {
    passes(port_and_line([of_three(0)], [of_three(0), of_three(31)]));
    fails(
        Clause::LegalHeaders,
        port_and_line([of_three(0)], [of_three(0), of_three(32)]),
    );
    fails(
        Clause::LegalHeaders,
        port_and_line([], [of_three(0), of_three(0), of_three(32)]),
    );
    fails(
        Clause::LegalHeaders,
        port_and_line([of_three(0)], [one_byte()]),
    );
    fails(
        Clause::LegalHeaders,
        port_and_line([one_byte()], [one_byte()]),
    );
}

#[test]
fn a_line_to_an_empty_port_starts_with_a_header() {
    passes(port_and_line([], [one_byte(), data()]));
    fails(Clause::StartsWithHeader, port_and_line([], [data()]));
    fails(Clause::StartsWithHeader, port_and_line([], [end()]));
    // Where the circuit is open it is its tokens that come.
    passes(counted(|network| {
        network.nodes[0].ports[1].hop = Some(Hop::Dropped(Cause::Split));
        put(network, 0, [data(), end(), one_byte()]);
    }));
}

/// Credits and HELLO do not part what stands before and behind them.
#[test]
fn credits_and_hello_stand_between_tokens() {
    passes(counted(|network| {
        greeted(network, 1, 0);
        hold(network, 1, [of_three(0)]);
        put(
            network,
            0,
            [of_three(0), credit(8), of_three(7), data(), hello(), data()],
        );
    }));
}

#[test]
fn what_follows_an_end_begins_with_a_header() {
    passes(port_and_line([one_byte(), end()], [one_byte()]));
    fails(
        Clause::HeaderAfterEnd,
        port_and_line([one_byte(), end()], [data()]),
    );
    fails(
        Clause::HeaderAfterEnd,
        port_and_line([one_byte()], [end(), data()]),
    );
}

#[test]
fn a_short_header_has_its_rest_on_the_line() {
    passes(port_and_line([of_three(0)], []));
    passes(port_and_line([of_three(0)], [of_three(0)]));
    passes(port_and_line(
        [of_three(0), of_three(0)],
        [of_three(0), data()],
    ));
    fails(
        Clause::ShortHeader,
        port_and_line([of_three(0), of_three(0)], [data()]),
    );
    fails(
        Clause::ShortHeader,
        port_and_line([of_three(0)], [of_three(0), data()]),
    );
}

/// "header tokens stand elsewhere only at the front of a circuit still sending its
/// header outward or being dropped": that is the port's own front, and none of them is
/// on the line (A4.18).
#[test]
fn no_header_of_an_open_circuit_is_on_the_line() {
    fails(
        Clause::HeaderElsewhere,
        port_and_line([one_byte(), data()], [one_byte()]),
    );
    let opened = |hop: Hop, left: usize, coming: usize| {
        counted(move |network| {
            let rest = [of_three(0), of_three(7)];
            let place = rest.len() - left - coming;
            network.nodes[0].ports[1].hop = Some(hop);
            let rest = &rest[place..];
            network.nodes[0].ports[1].tokens.extend(&rest[..left]);
            link(network, 0).line.extend(&rest[left..]);
            put(network, 0, [data()]);
            match hop {
                Hop::Outward(link) => leaves(network, 1, link),
                Hop::Control => network.nodes[0].control_unit.serves = Some(1),
                Hop::Channel(_) => network.nodes[0].tile_links[0] = Some(1),
                Hop::Dropped(_) => {}
            }
        })
    };
    for hop in [Hop::Outward(1), Hop::Dropped(Cause::Split)] {
        passes(opened(hop, 0, 0));
        passes(opened(hop, 1, 0));
        passes(opened(hop, 2, 0));
        fails(Clause::HeaderElsewhere, opened(hop, 0, 1));
    }
    for hop in [Hop::Control, Hop::Channel(SINK)] {
        passes(opened(hop, 0, 0));
        fails(Clause::HeaderElsewhere, opened(hop, 0, 1));
    }
}

/// How much of the header is left is told by the port alone: of two tokens of which one
/// is on the line, the one in the port must be a last one.
#[test]
fn the_rest_of_a_header_is_in_the_port() {
    let split = |last: u8| {
        counted(move |network| {
            network.nodes[0].ports[1].hop = Some(Hop::Dropped(Cause::Split));
            hold(network, 1, [of_three(last)]);
            put(network, 0, [of_three(7), data()]);
        })
    };
    fails(Clause::HeaderElsewhere, split(7));
    assert_eq!(
        failing(&split(77)),
        [Clause::LegalHeaders, Clause::HeaderElsewhere]
    );
}
