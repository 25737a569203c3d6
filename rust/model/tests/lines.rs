//! Credits that travel (document 02, Ask 4): worked examples, each with its answers.

mod common;

use common::Bench;
use model::network::{Link, LinkEnd};
use model::sound::{failing, Clause};

/// Two boards of numbers 0 and 1, link E of one joined to link E of the other. Bit 0
/// leads to direction 1 at both, and so do the two links.
fn two() -> Bench {
    let mut bench = Bench::lined(2);
    bench.play(
        "set 1 number 0 1
         wire 0 4 1 4
         set 0 linkdirection 4 1
         set 1 linkdirection 4 1
         set 0 direction 0 1
         set 1 direction 0 1",
    );
    bench
}

/// The same, with HELLO and credit arrived both ways.
fn greeted() -> Bench {
    let mut bench = two();
    bench.play(
        "set 0 hello 4 0 -> granted 0
         line 0 4 -> moved 64
         line 1 4 -> moved 0
         set 1 hello 4 0 -> granted 0
         line 1 4 -> moved 64
         line 0 4 -> moved 0",
    );
    bench
}

/// Aims channel-end 0 at channel 255 of the other board and puts out so many tokens,
/// which port 8 then holds behind the header.
fn stream_to_the_sink(bench: &mut Bench, slot: usize, data: usize) {
    bench.play(&format!("aim {slot} 0 channel {} 255 0", 1 - slot));
    bench.output_data(slot, 0, data);
    bench.expect(&format!("step {slot} 8"), "opened link 4");
}

// HELLO and credit.

/// A HELLO goes over, is answered by a credit, and the credit comes back.
#[test]
fn a_hello_and_its_credit() {
    let mut bench = two();
    bench.play("set 0 hello 4 0 -> granted 0");
    assert_eq!(bench.on_line(0, 4), "!E6");
    bench.play("line 1 4 -> idle");
    assert!(!bench.link(0, 4).greeted);
    bench.play("line 0 4 -> moved 64");
    assert_eq!(bench.on_line(0, 4), "");
    assert_eq!(bench.on_line(1, 4), "!E1");
    assert!(bench.link(0, 4).greeted);
    assert_eq!((bench.link(0, 4).credit, bench.link(1, 4).issued), (0, 64));
    bench.play(
        "line 0 4 -> idle
         line 1 4 -> moved 0
         line 1 4 -> idle",
    );
    assert_eq!((bench.link(0, 4).credit, bench.link(1, 4).issued), (64, 64));
    assert!(!bench.link(1, 4).greeted);
    assert_eq!((bench.link(1, 4).credit, bench.link(0, 4).issued), (0, 0));
}

/// "HELLO is Busy while a credit or HELLO is on either line": at both ends.
#[test]
fn hello_is_refused_while_a_hello_or_a_credit_travels() {
    let mut bench = two();
    let refused = "set 0 hello 4 0 -> no 4
                   set 1 hello 4 0 -> no 4";
    bench.play("set 0 hello 4 0 -> granted 0");
    bench.play(refused);
    bench.play("line 0 4 -> moved 64");
    bench.play(refused);
    bench.play("line 1 4 -> moved 0");
    bench.play("set 1 hello 4 0 -> granted 0");
    bench.play(refused);
    bench.play("line 1 4 -> moved 64");
    bench.play(refused);
    bench.play(
        "line 0 4 -> moved 0
         set 0 hello 4 0 -> granted 0",
    );
    assert_eq!(bench.link(0, 4).credit, 0);
    assert!(bench.link(0, 4).greeted);
}

/// Tokens on the lines do not stand in the way of a HELLO; it goes behind them, and
/// "a receiver grants nothing while a HELLO is coming to it". What it had issued is
/// forgotten when the HELLO arrives.
#[test]
fn a_hello_behind_tokens() {
    let mut bench = greeted();
    stream_to_the_sink(&mut bench, 0, 57);
    bench.repeat(60, "step 0 8", "moved");
    bench.repeat(20, "line 0 4", "moved 0");
    bench.play("set 0 hello 4 0 -> granted 0");
    assert_eq!((bench.link(0, 4).credit, bench.link(1, 4).issued), (0, 44));
    bench.play("step 1 4 -> opened channel");
    bench.repeat(17, "step 1 4", "moved");
    assert_eq!(bench.held(1, 4), 0);
    // Forty more arrive: issued falls to 4, and there is room; nothing is granted.
    bench.repeat(40, "line 0 4", "moved 0");
    assert_eq!((bench.held(1, 4), bench.link(1, 4).issued), (40, 4));
    assert_eq!(bench.on_line(0, 4), "!E6");
    bench.repeat(10, "step 1 4", "moved");
    assert_eq!(bench.on_line(1, 4), "");
    bench.play("line 0 4 -> moved 16");
    assert_eq!((bench.held(1, 4), bench.link(1, 4).issued), (30, 16));
    assert_eq!(bench.on_line(1, 4), "!E4");
    bench.play("line 1 4 -> moved 0");
    assert_eq!(bench.link(0, 4).credit, 16);
}

/// "one sent to an absent or disabled end is lost": done, and nothing is put on a
/// line. Enabling the far end later does not bring it back.
#[test]
fn a_hello_that_nobody_hears_is_lost() {
    let mut bench = Bench::lined(2);
    let begun = bench.network.clone();
    bench.play("set 0 hello 4 0 -> granted 0");
    assert_eq!(bench.network, begun);
    bench.play("wire 0 4 1 2");
    let wired = bench.network.clone();
    bench.play("set 0 hello 4 0 -> granted 0");
    assert_eq!(bench.network, wired);
    bench.play(
        "set 0 hello 3 0 -> no 4
         set 1 hello 2 0 -> no 4
         set 1 enable 2 1
         line 0 4 -> idle
         line 1 2 -> idle",
    );
    assert!(!bench.link(0, 4).greeted);
    bench.play(
        "set 0 hello 4 0 -> granted 0
         line 0 4 -> moved 64",
    );
    assert!(bench.link(0, 4).greeted);
}

// Tokens.

/// A token pays when it goes on to the line, and is held when it arrives.
#[test]
fn a_token_on_its_way() {
    let mut bench = greeted();
    stream_to_the_sink(&mut bench, 0, 2);
    bench.repeat(5, "step 0 8", "moved");
    bench.play("step 0 8 -> idle");
    assert_eq!(bench.on_line(0, 4), "h3:00 h3:01 h3:FF 00 01");
    assert_eq!((bench.link(0, 4).credit, bench.link(1, 4).issued), (59, 64));
    bench.play(
        "step 1 4 -> idle
         line 0 4 -> moved 0
         step 1 4 -> waiting
         line 0 4 -> moved 0
         step 1 4 -> waiting",
    );
    assert_eq!(bench.tokens(1, 4), "h3:00 h3:01");
    assert_eq!(bench.on_line(0, 4), "h3:FF 00 01");
    assert_eq!((bench.link(0, 4).credit, bench.link(1, 4).issued), (59, 62));
    bench.play(
        "line 0 4 -> moved 0
         step 1 4 -> opened channel
         step 1 4 -> idle
         line 0 4 -> moved 0
         step 1 4 -> moved",
    );
    assert_eq!(bench.on_line(0, 4), "01");
}

/// The link is free when END has moved on to the line, and the next circuit's header
/// follows on the same line. They arrive behind END in order.
#[test]
fn tokens_arrive_behind_end() {
    let mut bench = greeted();
    bench.play(
        "aim 0 0 channel 1 7 0
         output 0 0 data 5
         output 0 0 control 1
         aim 0 1 channel 1 8 0
         output 0 1 data 6
         step 0 8 -> opened link 4
         step 0 9 -> waiting",
    );
    bench.repeat(5, "step 0 8", "moved");
    assert_eq!(bench.link(0, 4).used_by, None);
    bench.play("step 0 9 -> opened link 4");
    bench.repeat(4, "step 0 9", "moved");
    assert_eq!(
        bench.on_line(0, 4),
        "h3:00 h3:01 h3:07 05 !01 h3:00 h3:01 h3:08 06"
    );
    bench.repeat(7, "line 0 4", "moved 0");
    assert_eq!(bench.tokens(1, 4), "h3:00 h3:01 h3:07 05 !01 h3:00 h3:01");
    bench.play(
        "step 1 4 -> opened channel
         step 1 4 -> moved
         step 1 4 -> moved
         step 1 4 -> waiting
         line 0 4 -> moved 0
         step 1 4 -> opened channel
         step 1 4 -> idle
         line 0 4 -> moved 0
         step 1 4 -> moved",
    );
    assert_eq!(bench.input_all(1, 7), "05 !01");
    assert_eq!(bench.input_all(1, 8), "06");
}

/// "room = 64 − held − issued, below 8 as before", at each arrival and taking: with
/// nothing taken none; then by the count, and what travels counts.
#[test]
fn grants_by_the_count() {
    let mut bench = greeted();
    stream_to_the_sink(&mut bench, 0, 61);
    bench.repeat(64, "step 0 8", "moved");
    bench.play("step 0 8 -> idle");
    bench.repeat(56, "line 0 4", "moved 0");
    assert_eq!(bench.link(1, 4).issued, 8);
    bench.play("step 1 4 -> opened channel");
    bench.repeat(13, "step 1 4", "moved");
    assert_eq!(bench.on_line(1, 4), "");
    // Issued falls to 7 with 41 held: there is room for 16.
    bench.play("line 0 4 -> moved 16");
    assert_eq!(bench.on_line(1, 4), "!E4");
    assert_eq!((bench.held(1, 4), bench.link(1, 4).issued), (41, 23));
    // No second one while this travels.
    bench.repeat(30, "step 1 4", "moved");
    assert_eq!(bench.on_line(1, 4), "!E4");
    bench.repeat(7, "line 0 4", "moved 0");
    assert_eq!((bench.held(1, 4), bench.link(1, 4).issued), (18, 16));
    bench.play("line 1 4 -> moved 0");
    assert_eq!(bench.link(0, 4).credit, 16);
}

/// A line holds 66: 64 tokens, a HELLO behind them, and a credit behind that.
#[test]
fn sixty_six_on_one_line() {
    let mut bench = greeted();
    stream_to_the_sink(&mut bench, 1, 54);
    bench.repeat(57, "step 1 8", "moved");
    bench.repeat(57, "line 1 4", "moved 0");
    assert_eq!((bench.held(0, 4), bench.link(0, 4).issued), (57, 7));
    stream_to_the_sink(&mut bench, 0, 61);
    bench.repeat(64, "step 0 8", "moved");
    bench.play("set 0 hello 4 0 -> granted 0");
    assert_eq!(bench.link(0, 4).line.len(), 65);
    bench.play("step 0 4 -> opened channel");
    bench.repeat(5, "step 0 4", "moved");
    let line = bench.on_line(0, 4);
    assert_eq!(bench.link(0, 4).line.len(), 66);
    assert!(line.starts_with("h3:00 h3:01 h3:FF 00 01"), "{line}");
    assert!(line.ends_with("3B 3C !E6 !E0"), "{line}");
    // No second credit however much is taken.
    bench.repeat(49, "step 0 4", "moved");
    assert_eq!(bench.link(0, 4).line.len(), 66);
    bench.repeat(64, "line 0 4", "moved 0");
    assert_eq!((bench.held(1, 4), bench.link(1, 4).issued), (64, 0));
    bench.play(
        "line 0 4 -> moved 0
         line 0 4 -> moved 0
         line 0 4 -> idle",
    );
    assert_eq!(bench.link(1, 4).credit, 15);
}

// Disabling.

/// "disabling is Busy while anything is" on either line, at both ends; a disabling
/// sets credits and counts to 0 and un-greets both.
#[test]
fn disabling_is_refused_while_anything_is_on_a_line() {
    let mut bench = two();
    let refused = "set 0 enable 4 0 -> no 4
                   set 1 enable 4 0 -> no 4";
    bench.play("set 0 hello 4 0 -> granted 0");
    bench.play(refused);
    bench.play("line 0 4 -> moved 64");
    bench.play(refused);
    bench.play(
        "line 1 4 -> moved 0
         aim 0 0 channel 1 255 0
         output 0 0 control 1
         step 0 8 -> opened link 4",
    );
    bench.repeat(4, "step 0 8", "moved");
    assert_eq!(bench.held(0, 8) + bench.held(1, 4), 0);
    bench.play(refused);
    bench.repeat(4, "line 0 4", "moved 0");
    bench.play(refused);
    bench.play("step 1 4 -> opened channel");
    bench.play("step 1 4 -> moved");
    assert_eq!((bench.link(0, 4).credit, bench.link(1, 4).issued), (60, 60));
    bench.play("set 1 enable 4 0 -> done");
    for slot in 0..2 {
        let Link {
            greeted,
            credit,
            issued,
            ..
        } = *bench.link(slot, 4);
        assert_eq!((greeted, credit, issued), (false, 0, 0));
    }
    bench.play(
        "set 1 enable 4 0 -> done
         line 0 4 -> idle
         line 1 4 -> idle",
    );
}

// Messages.

/// Board 0 sends board 1 a write that says HELLO on a link of board 1, with so much
/// before and behind it that a grant falls due just when its END is taken. Gives what
/// port 12 then holds.
fn hello_by_message(
    bench: &mut Bench,
    address: &str,
    crosses: impl Fn(&mut Bench, usize, usize),
) -> String {
    bench.play(
        "aim 0 0 channel 1 255 0
         aim 0 1 control 1 0 0
         aim 0 2 channel 1 255 0",
    );
    bench.output_tokens(0, 0, "01 02 03 04 05 06 !01");
    bench.output_tokens(0, 1, &format!("!C0 00 00 09 00 {address} 81 00 00 00 !01"));
    bench.output_data(0, 2, 46);
    for (port, tokens) in [(8, 10), (9, 14), (10, 33)] {
        bench.expect(&format!("step 0 {port}"), "opened link 4");
        bench.repeat(tokens, &format!("step 0 {port}"), "moved");
        if port == 9 {
            // Twenty-three are taken while much is issued.
            crosses(bench, 24, 0);
            bench.play("step 1 4 -> opened channel");
            bench.repeat(7, "step 1 4", "moved");
            bench.play("step 1 4 -> opened control");
            bench.repeat(10, "step 1 4", "moved");
        }
    }
    crosses(bench, 33, 16);
    bench.repeat(16, "step 0 10", "moved");
    crosses(bench, 16, 0);
    assert_eq!((bench.held(1, 4), bench.link(0, 4).credit), (50, 7));
    bench.play("step 1 4 -> moved");
    bench.tokens(1, 12)
}

/// "The hop closes first, with any grant that the taking of its last token brings,
/// then the write": the grant is a credit on a line of the cable that the message came
/// by, and a HELLO on that cable's end is Busy. The message is in its own way (A4.13).
#[test]
fn a_message_that_says_hello_and_refuses_itself() {
    let crosses = |bench: &mut Bench, tokens: usize, grant: usize| {
        bench.repeat(tokens - 1, "line 0 4", "moved 0");
        bench.expect("line 0 4", &format!("moved {grant}"));
        bench.empty_lines();
    };
    let mut bench = greeted();
    let reply = hello_by_message(&mut bench, "86", crosses);
    assert_eq!(reply, "h3:00 h3:00 h3:09 !04 !01");
    assert_eq!(bench.on_line(1, 4), "!E0");
    assert_eq!(bench.link(1, 4).credit, 64);
    // On another link nothing is in its way.
    let mut bench = greeted();
    let reply = hello_by_message(&mut bench, "87", crosses);
    assert_eq!(reply, "h3:00 h3:00 h3:09 !03 !01");
    assert_eq!(bench.on_line(1, 4), "!E0");
    // Where tokens cross at once it is obeyed.
    let mut bench = Bench::fresh(2);
    bench.play(
        "set 1 number 0 1
         set 0 linkdirection 4 1
         set 1 linkdirection 4 1
         set 0 direction 0 1
         set 1 direction 0 1",
    );
    bench.cable(0, 4, 1, 4);
    let reply = hello_by_message(&mut bench, "86", |_, _, _| {});
    assert_eq!(reply, "h3:00 h3:00 h3:09 !03 !01");
    assert_eq!(bench.link(0, 4).credit, 15);
}

/// A message meets Set's guards: HELLO with a HELLO on the line and disabling with
/// anything on it are NACKed, and nothing is changed.
#[test]
fn messages_meet_the_guards() {
    for (data, hello, reply) in [
        ("81 00 00 00", true, "!04"),
        ("81 00 00 00", false, "!03"),
        ("00 00 00 00", true, "!04"),
        ("00 00 00 00", false, "!03"),
    ] {
        let mut bench = two();
        bench.play("aim 0 0 control 0 0 0");
        bench.output_tokens(0, 0, &format!("!C0 00 00 09 00 86 {data} !01"));
        if hello {
            bench.play("set 1 hello 4 0 -> granted 0");
        }
        bench.play("step 0 8 -> opened control");
        bench.repeat(11, "step 0 8", "moved");
        assert_eq!(
            bench.tokens(0, 12),
            format!("h3:00 h3:00 h3:09 {reply} !01")
        );
        let said = data.starts_with("81") && !hello;
        assert_eq!(bench.on_line(0, 4), if said { "!E6" } else { "" });
        assert_eq!(bench.link(0, 4).enabled, hello || said);
    }
}

// A cable between two links of one board.

/// Links E and F of one board are joined, and a circuit leaves by the link that it came
/// by: "taken and considered first, so the credit stands before the token".
#[test]
fn a_cable_between_two_links_of_one_board() {
    let mut bench = Bench::lined(1);
    bench.play(
        "wire 0 4 0 5
         set 0 hello 4 0 -> granted 0
         line 0 4 -> moved 64
         line 0 5 -> moved 0
         set 0 hello 5 0 -> granted 0
         line 0 5 -> moved 64
         line 0 4 -> moved 0
         aim 0 0 channel 1 7 0",
    );
    bench.output_data(0, 0, 61);
    bench.play("step 0 8 -> opened link 4");
    bench.repeat(57, "step 0 8", "moved");
    bench.repeat(57, "line 0 4", "moved 0");
    assert_eq!((bench.held(0, 5), bench.link(0, 5).issued), (57, 7));
    bench.play("step 0 5 -> opened link 5");
    bench.repeat(8, "step 0 5", "moved");
    assert_eq!(bench.on_line(0, 5), "h3:00 h3:01 h3:07 00 01 02 03 !E0 04");
    bench.repeat(8, "line 0 5", "moved 0");
    assert_eq!((bench.link(0, 4).credit, bench.held(0, 4)), (15, 7));
    bench.play("line 0 5 -> moved 0");
    assert_eq!(bench.tokens(0, 4), "h3:00 h3:01 h3:07 00 01 02 03 04");
}

// Refusals and lengths.

/// "NoSuch for slot or link", and Idle where there is no cable or nothing on it.
#[test]
fn line_steps_that_move_nothing() {
    let mut bench = two();
    bench.play(
        "line 2 0 -> no 2
         line 0 8 -> no 2
         line 2 8 -> no 2
         line 0 0 -> idle
         line 0 4 -> idle
         line 0 5 -> idle
         set 0 enable 4 0 -> done
         line 0 4 -> idle",
    );
    let mut none = Bench::empty();
    none.expect("line 0 0", "no 1");
    let mut at_once = Bench::fresh(1);
    at_once.play(
        "line 0 0 -> idle
         line 0 8 -> no 2",
    );
}

/// "exact length or Unsound", of either memory, after the number of nodes.
#[test]
fn either_memory_has_its_length() {
    for start in ["fresh", "blank"] {
        let mut bench = Bench::empty();
        for (words, answer) in [
            ("0 0 lines 0", "no 2"),
            ("17 14144 lines 8976", "no 2"),
            ("2 1664 lines 1055", "no 1"),
            ("2 1664 lines 1057", "no 1"),
            ("2 1664 lines 0", "no 1"),
            ("2 1663 lines 1056", "no 1"),
            ("2 1056 lines 1664", "no 1"),
            ("2 1664 lines 1056", "done"),
            ("2 1664 lines 1055", "no 1"),
            ("16 13312 lines 8448", "done"),
        ] {
            bench.expect(&format!("{start} {words}"), answer);
        }
        assert_eq!(bench.state().nodes.len(), 16);
    }
}

/// A second memory of the wrong length later on: every call is Unsound, as with the
/// first.
#[test]
fn a_wrong_length_is_unsound_in_every_call() {
    let mut bench = greeted();
    let network = bench.state_mut();
    network.crossing = model::lines::Crossing::ByLine { line_words: 1055 };
    assert_eq!(failing(network), [Clause::Memory]);
    for call in ["line 0 4", "line 9 9", "step 0 0", "set 0 number 0 1"] {
        let call = model::words::parse_call(call).expect("a call");
        let answer = model::apply(&mut bench.network, &call);
        assert_eq!(answer.to_string(), "no 1");
    }
}

// Lists, words and the digest.

/// A list has no line steps: its records leave the lines alone.
#[test]
fn a_list_steps_no_line() {
    let mut bench = greeted();
    stream_to_the_sink(&mut bench, 0, 1);
    bench.play("steps 6 0 8 0 8 0 8 0 8 0 8 1 4 -> results moved; moved; moved; moved; idle; idle");
    assert_eq!(bench.on_line(0, 4), "h3:00 h3:01 h3:FF 00");
}

/// The digest's bytes: those of before, and behind them for each link what was issued
/// and what is on its line.
#[test]
fn the_bytes_of_the_lines() {
    let mut bench = greeted();
    stream_to_the_sink(&mut bench, 0, 1);
    bench.repeat(4, "step 0 8", "moved");
    bench.play("set 0 hello 4 0 -> granted 0");
    bench.play("line 0 4 -> moved 0");
    let network = bench.state();
    let bytes = model::digest::bytes(network);
    let base = model::digest::base_bytes(network);
    let (before, lines) = bytes.split_at(base.len());
    assert_eq!(before, base);
    let mut expected = [0; 8].to_vec();
    expected.extend([64, 4, 6, 1, 6, 255, 0, 0, 1, 0xE6]);
    expected.extend([0; 6]);
    expected.extend([0; 8]);
    expected.extend([63, 0]);
    expected.extend([0; 6]);
    assert_eq!(lines, expected);
    let at_once = Bench::fresh(2);
    assert_eq!(
        model::digest::bytes(at_once.state()),
        model::digest::base_bytes(at_once.state())
    );
}

#[test]
fn credits_in_bytes() {
    for (size, value) in [(8, 0xE0), (16, 0xE4), (64, 0xE1)] {
        let mut bench = two();
        let end = LinkEnd { slot: 1, link: 4 };
        let line = &mut bench.state_mut().nodes[end.slot].links[end.link].line;
        line.push_back(model::lines::credit(size));
        let bytes = model::digest::bytes(bench.state());
        let place = bytes.len() - 6 - 4;
        assert_eq!(bytes[place..place + 4], [0, 1, 1, value]);
    }
}

/// The new words are read and printed, and what no call can answer is not read.
#[test]
fn the_new_words() {
    use model::words::{parse_answer, parse_call};
    for words in [
        "fresh 2 1664 lines 1056",
        "blank 1 0 lines 18446744073709551615",
        "line 3 18446744073709551615",
    ] {
        let call = parse_call(words).expect("a call");
        assert_eq!(call.to_string(), words);
    }
    for words in ["moved", "moved 0", "moved 8", "moved 16", "moved 64"] {
        assert_eq!(parse_answer(words).expect("an answer").to_string(), words);
    }
    for words in ["moved 1", "moved 8 8", "results moved 8", "arrived 8"] {
        assert!(parse_answer(words).is_err(), "{words}");
    }
    for words in [
        "line",
        "line 0",
        "line 0 0 0",
        "fresh 1 832 lines",
        "fresh 1 832 528",
        "fresh 1 832 lines 1 2",
    ] {
        assert!(parse_call(words).is_err(), "{words}");
    }
}

/// A trace of a network with lines begins with the Asks that it is made with.
#[test]
fn a_trace_names_its_asks() {
    let written = model::script::run("fresh 1 832 lines 528\nline 0 4\n").expect("a run");
    let lines: Vec<_> = written.lines().collect();
    assert_eq!(lines[0], "// asks 1,4,7");
    assert!(lines[1].starts_with("fresh 1 832 lines 528 -> done # "));
    assert!(lines[2].starts_with("line 0 4 -> idle # "));
    assert_eq!(model::script::check(&written), Ok(2));
    assert_eq!(model::script::run(&written), Ok(written));
    let before = model::script::run("fresh 1 832\n").expect("a run");
    assert!(before.starts_with("fresh 1 832 -> done # "));
}
