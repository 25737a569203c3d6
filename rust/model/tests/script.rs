//! The script and trace format: what is printed is read back, a run agrees with
//! itself, and a line that cannot be read is named.

use model::answers::{Answer, Cause, No, Opening};
use model::calls::{Call, StepRecord};
use model::network::LinkEnd;
use model::runs;
use model::script::{check, parse, parse_line, run, Fault, Outcome};
use model::set::Setting;
use model::tokens::{Destination, Kind};
use model::words::{parse_answer, parse_call};

#[track_caller]
fn reads(text: &str, call: Call) {
    assert_eq!(parse_call(text).as_ref(), Ok(&call));
    assert_eq!(call.to_string(), text);
}

fn set(slot: usize, setting: Setting) -> Call {
    Call::Set { slot, setting }
}

#[test]
fn starts_in_words() {
    reads(
        "fresh 2 1664",
        Call::Fresh {
            nodes: 2,
            memory_words: 1664,
        },
    );
    reads(
        "blank 2 1664",
        Call::Blank {
            nodes: 2,
            memory_words: 1664,
        },
    );
}

#[test]
fn cables_and_settings_in_words() {
    reads(
        "wire 0 1 2 3",
        Call::Wire {
            one: LinkEnd { slot: 0, link: 1 },
            other: LinkEnd { slot: 2, link: 3 },
        },
    );
    reads(
        "set 1 number 0 65535",
        set(1, Setting::Number { value: 65535 }),
    );
    reads("set 1 width 0 3", set(1, Setting::Width { value: 3 }));
    reads(
        "set 1 direction 15 9",
        set(1, Setting::Direction { bit: 15, value: 9 }),
    );
    reads(
        "set 1 linkdirection 7 9",
        set(1, Setting::LinkDirection { link: 7, value: 9 }),
    );
    reads(
        "set 1 network 7 3",
        set(1, Setting::Network { link: 7, value: 3 }),
    );
    reads(
        "set 1 enable 7 1",
        set(1, Setting::Enable { link: 7, value: 1 }),
    );
    reads("set 1 hello 7 0", set(1, Setting::Hello { link: 7 }));
}

#[test]
fn aims_in_words() {
    let aim = |destination| Call::Aim {
        slot: 3,
        channel_end: 31,
        destination,
        network: 3,
    };
    let (number, channel) = (258, 255);
    let to_channel = Destination::Channel { number, channel };
    reads("aim 3 31 channel 258 255 3", aim(to_channel));
    reads(
        "aim 3 31 control 258 0 3",
        aim(Destination::Control { number }),
    );
}

#[test]
fn outputs_inputs_and_steps_in_words() {
    let (slot, channel_end) = (3, 31);
    for (word, kind) in [("data", Kind::Data), ("control", Kind::Control)] {
        let value = 255;
        let output = Call::Output {
            slot,
            channel_end,
            kind,
            value,
        };
        reads(&format!("output 3 31 {word} 255"), output);
        let input = Call::Input {
            slot,
            channel_end,
            kind,
        };
        reads(&format!("input 3 31 {word}"), input);
    }
    reads("step 3 12", Call::Step { slot, port: 12 });
}

#[test]
fn answers_in_words() {
    let answers = [
        ("done", Answer::Done),
        ("granted 0", Answer::Granted(0)),
        ("granted 64", Answer::Granted(64)),
        ("token 255", Answer::Token(255)),
        ("idle", Answer::Idle),
        ("waiting", Answer::Waiting),
        ("moved", Answer::Moved),
        ("opened link 7", Answer::Opened(Opening::Link(7))),
        ("opened channel", Answer::Opened(Opening::Channel)),
        ("opened control", Answer::Opened(Opening::Control)),
        ("refused split", Answer::Refused(Cause::Split)),
        ("refused noroute", Answer::Refused(Cause::NoRoute)),
        ("dropped split", Answer::Dropped(Cause::Split)),
        ("dropped noroute", Answer::Dropped(Cause::NoRoute)),
        ("malformed", Answer::Malformed),
        ("unheard", Answer::Unheard),
    ];
    for (text, answer) in answers {
        assert_eq!(parse_answer(text).as_ref(), Ok(&answer));
        assert_eq!(answer.to_string(), text);
    }
    for no in No::ALL {
        let text = format!("no {}", no.number());
        assert_eq!(parse_answer(&text), Ok(Answer::No(no)));
        assert_eq!(Answer::No(no).to_string(), text);
    }
}

#[test]
fn lists_in_words() {
    let list = |results, places: &[(usize, usize)]| Call::Steps {
        results,
        records: places
            .iter()
            .map(|&(slot, port)| StepRecord { slot, port })
            .collect(),
    };
    reads("steps 0", list(0, &[]));
    reads("steps 5", list(5, &[]));
    reads("steps 1 3 12", list(1, &[(3, 12)]));
    reads("steps 0 3 12 0 8", list(0, &[(3, 12), (0, 8)]));
    reads("steps 18446744073709551615", list(usize::MAX, &[]));
}

/// "`results moved; no 4; opened link 3`. No records: `results`"
#[test]
fn results_in_words() {
    let answers = [
        ("results", vec![]),
        ("results idle", vec![Answer::Idle]),
        (
            "results moved; no 4; opened link 3",
            vec![
                Answer::Moved,
                Answer::No(No::Busy),
                Answer::Opened(Opening::Link(3)),
            ],
        ),
        (
            "results dropped split; malformed",
            vec![Answer::Dropped(Cause::Split), Answer::Malformed],
        ),
    ];
    for (text, results) in answers {
        let answer = Answer::Results(results);
        assert_eq!(parse_answer(text).as_ref(), Ok(&answer));
        assert_eq!(answer.to_string(), text);
    }
    let spaced = parse_answer("  results\tmoved ;no  0x4;  opened link 3 ");
    assert_eq!(spaced, parse_answer("results moved; no 4; opened link 3"));
}

#[test]
fn hexadecimal_and_spaces() {
    let call = parse_call("set 0 number 0 0x0125");
    assert_eq!(call, parse_call("  set\t0 number 0 293 "));
    assert_eq!(call, parse_call("set 0x0 number 0x0 0x125"));
    assert_eq!(parse_call("step 0xA 0xc"), parse_call("step 10 12"));
}

/// "Empty lines and lines that begin with `//` are passed over."
#[test]
fn comments_and_empty_lines() {
    let text = "// a board\n\nfresh 1 832\r\n   \n  // stepped\nstep 0 0\n";
    let lines = parse(text).expect("a script");
    let numbers: Vec<_> = lines.iter().map(|line| line.number).collect();
    assert_eq!(numbers, [3, 6]);
}

#[test]
fn a_line_with_its_outcome() {
    let line = "step 0 0 -> opened link 3 # 00000000000000ff";
    let stated = Outcome {
        answer: Answer::Opened(Opening::Link(3)),
        digest: 255,
    };
    assert_eq!(
        parse_line(line),
        Ok((Call::Step { slot: 0, port: 0 }, Some(stated.clone())))
    );
    assert_eq!(format!("step 0 0 -> {stated}"), line);
}

/// What a random run prints is read back as the same calls and outcomes.
#[test]
fn printed_runs_are_read_back() {
    for seed in 0..40 {
        let mut listing = runs::Runner::with_lists(seed);
        let listed = (0..400).map(|_| listing.call());
        for (call, found) in runs::run(seed, 400).into_iter().chain(listed) {
            let line = format!("{call} -> {found}");
            assert_eq!(parse_line(&line), Ok((call, Some(found))));
        }
    }
}

/// A run printed and checked agrees; the bare calls run again give the same text.
#[test]
fn printed_runs_agree() {
    for seed in 100..120 {
        let lines = runs::run(seed, 400);
        let full: String = lines
            .iter()
            .map(|(c, found)| format!("{c} -> {found}\n"))
            .collect();
        let bare: String = lines.iter().map(|(c, _)| format!("{c}\n")).collect();
        assert_eq!(check(&full), Ok(400));
        assert_eq!(check(&bare), Ok(0));
        assert_eq!(run(&bare), Ok(full.clone()));
        assert_eq!(run(&full), Ok(full));
    }
}

/// The first line that differs is named, by its answer or its digest.
#[test]
fn differing_lines_are_named() {
    let good = run("fresh 1 832\nstep 0 0\nset 0 number 0 5\nstep 0 0\n").expect("a run");
    let wrong_answer = good.replacen("step 0 0 -> idle", "step 0 0 -> moved", 1);
    let fault = check(&format!("// a comment\n\n{wrong_answer}")).expect_err("a fault");
    assert!(matches!(fault, Fault::Differs { line: 4, .. }), "{fault}");
    assert!(
        fault
            .to_string()
            .starts_with("line 4: step 0 0 gives idle # "),
        "{fault}"
    );
    let last = good.trim_end().len() - 1;
    let digit = if good.as_bytes()[last] == b'0' {
        "1"
    } else {
        "0"
    };
    let wrong_digest = format!("{}{digit}\n", &good[..last]);
    let fault = check(&wrong_digest).expect_err("a fault");
    assert!(matches!(fault, Fault::Differs { line: 4, .. }), "{fault}");
}

/// Before a start that succeeds the digest is 0.
#[test]
fn no_network_yet() {
    let text = run("step 0 0\nfresh 0 0\nfresh 1 0\nblank 17 0\nblank 1 0\n").expect("a run");
    let expected = "step 0 0 -> no 1 # 0000000000000000\n\
                    fresh 0 0 -> no 2 # 0000000000000000\n\
                    fresh 1 0 -> no 1 # 0000000000000000\n\
                    blank 17 0 -> no 2 # 0000000000000000\n\
                    blank 1 0 -> no 1 # 0000000000000000\n";
    assert_eq!(text, expected);
}

/// Lines that are no call, and what was expected.
#[rustfmt::skip]
const UNREADABLE_CALLS: [(&str, &str); 32] = [
    ("jump 0 0", "expected fresh, blank, wire, set, aim, output, input, step, line or steps, found jump"),
    ("blank", "expected a number of nodes, found nothing"),
    ("blank 1", "expected a number of memory words, found nothing"),
    ("blank 1 832 0", "expected no more words, found 0"),
    ("steps", "expected a number of results, found nothing"),
    ("steps -1", "expected a number of results, found -1"),
    ("steps 18446744073709551616", "expected a number of results, found 18446744073709551616"),
    ("steps 1 0", "expected a port, found nothing"),
    ("steps 2 0 8 1", "expected a port, found nothing"),
    ("steps 2 0 8; 1 8", "expected a port, found 8;"),
    ("steps 1 0 8 # 0", "expected a slot, found #"),
    ("step 0", "expected a port, found nothing"),
    ("step 0 0 0", "expected no more words, found 0"),
    ("step 0 x", "expected a port, found x"),
    ("step -1 0", "expected a slot, found -1"),
    ("step +1 0", "expected a slot, found +1"),
    ("step 0x 0", "expected a slot, found 0x"),
    ("step 0xg 0", "expected a slot, found 0xg"),
    ("step 0x+1 0", "expected a slot, found 0x+1"),
    ("step 99999999999999999999 0", "expected a slot, found 99999999999999999999"),
    ("output 0 0 data 256", "expected a token value 0..255, found 256"),
    ("output 0 0 date 25", "expected data or control, found date"),
    ("input 0 0", "expected data or control, found nothing"),
    ("set 0 colour 0 0", "expected number, width, direction, linkdirection, network, enable or hello, found colour"),
    ("set 0 number 1 0", "expected 0 as the index, found 1"),
    ("set 0 hello 1 1", "expected 0 as the value, found 1"),
    ("set 0 number 0 4294967296", "expected a value up to 4294967295, found 4294967296"),
    ("set 0 direction 4294967296 0", "expected a bit, found 4294967296"),
    ("aim 0 0 channel 0 4294967296 0", "expected a channel, found 4294967296"),
    ("aim 0 0 tile 0 0 0", "expected channel or control, found tile"),
    ("aim 0 0 control 0 1 0", "expected 0 as the channel of a control unit, found 1"),
    ("step 0 0 # 0000000000000000", "expected no more words, found #"),
];

/// Lines whose outcome cannot be read.
#[rustfmt::skip]
const UNREADABLE_OUTCOMES: [(&str, &str); 20] = [
    ("steps 1 0 0 -> results", "expected ANSWER # DIGEST behind ->"),
    ("steps 1 0 0 -> result idle # 0000000000000000", "expected an answer, found result"),
    ("steps 1 0 0 -> resultsidle # 0000000000000000", "expected an answer, found resultsidle"),
    ("steps 1 0 0 -> results; idle # 0000000000000000", "expected an answer, found results;"),
    ("steps 1 0 0 -> results idle; # 0000000000000000", "expected an answer, found nothing"),
    ("steps 1 0 0 -> results idle idle # 0000000000000000", "expected no more words, found idle"),
    ("steps 1 0 0 -> results done # 0000000000000000", "expected an answer of a step, found done"),
    ("steps 1 0 0 -> results token 1 # 0000000000000000", "expected an answer of a step, found token 1"),
    ("steps 1 0 0 -> results results # 0000000000000000", "expected an answer, found results"),
    ("steps 1 0 0 -> results no 13 # 0000000000000000", "expected a refusal 1..12, found 13"),
    ("step 0 0 ->", "expected ANSWER # DIGEST behind ->"),
    ("step 0 0 -> idle", "expected ANSWER # DIGEST behind ->"),
    ("step 0 0 -> idle #", "expected a digest of 16 hexadecimal digits, found "),
    ("step 0 0 -> idle # 12", "expected a digest of 16 hexadecimal digits, found 12"),
    ("step 0 0 -> idle # +00000000000000f", "expected a digest of 16 hexadecimal digits, found +00000000000000f"),
    ("step 0 0 -> idling # 0000000000000000", "expected an answer, found idling"),
    ("step 0 0 -> no 13 # 0000000000000000", "expected a refusal 1..12, found 13"),
    ("step 0 0 -> granted 4 # 0000000000000000", "expected a grant of 0, 8, 16 or 64, found 4"),
    ("step 0 0 -> opened link 8 # 0000000000000000", "expected a link 0..7, found 8"),
    ("step 0 0 -> refused full # 0000000000000000", "expected split or noroute, found full"),
];

/// A line that cannot be read stops everything, with its number and what was
/// expected.
#[test]
fn unreadable_lines_are_named() {
    for (line, expected) in UNREADABLE_CALLS.into_iter().chain(UNREADABLE_OUTCOMES) {
        let text = format!("fresh 1 832\n\n// next\n{line}\n");
        let fault = Fault::Unreadable {
            line: 4,
            expected: expected.to_string(),
        };
        assert_eq!(parse(&text), Err(fault.clone()), "{line}");
        assert_eq!(run(&text), Err(fault.clone()));
        assert_eq!(fault.to_string(), format!("line 4: {expected}"));
    }
}
