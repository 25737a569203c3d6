//! Scripts as text: what is read is written the same, and a line that is no call is not read.

use bench::{Destination, Kind, LinkEnd, Refusal, Setting, StepRecord};
use script::{parse, Answer, Call, Line, Outcome};

#[track_caller]
fn reads(text: &str, call: Call) {
    assert_eq!(call.to_string(), text);
    let stated = None;
    let line = Line {
        number: 1,
        call,
        stated,
    };
    assert_eq!(parse(text), Ok(vec![line]));
}

#[test]
fn settings_in_words() {
    let settings = [
        ("number 0 65536", Setting::Number(65_536)),
        ("width 0 2", Setting::Width(2)),
        ("direction 16 9", Setting::Direction { bit: 16, value: 9 }),
        (
            "linkdirection 8 9",
            Setting::LinkDirection { link: 8, value: 9 },
        ),
        ("network 7 3", Setting::Network { link: 7, value: 3 }),
        ("enable 7 1", Setting::Enable { link: 7, value: 1 }),
    ];
    for (text, setting) in settings {
        reads(&format!("set 4 {text}"), Call::Set { slot: 4, setting });
    }
    reads("set 4 hello 7 0", Call::Hello { slot: 4, link: 7 });
}

#[test]
fn starts_wire_and_step_in_words() {
    let (nodes, memory_words, line_words) = (2, 1664, 1056);
    let fresh = Call::Fresh {
        nodes,
        memory_words,
        line_words,
    };
    reads("fresh 2 1664 lines 1056", fresh);
    let blank = Call::Blank {
        nodes,
        memory_words,
        line_words,
    };
    reads("blank 2 1664 lines 1056", blank);
    let wire = Call::Wire {
        one: LinkEnd { slot: 0, link: 1 },
        other: LinkEnd { slot: 2, link: 3 },
    };
    reads("wire 0 1 2 3", wire);
    reads("step 3 12", Call::Step { slot: 3, port: 12 });
    reads("line 3 8", Call::Line { slot: 3, link: 8 });
}

#[test]
fn lists_of_steps_in_words() {
    let steps = |results, places: &[(usize, usize)]| {
        let records = places.iter();
        let list = records.map(|&(slot, port)| StepRecord { slot, port });
        let list = list.collect();
        Call::Steps { results, list }
    };
    reads("steps 0", steps(0, &[]));
    reads("steps 3", steps(3, &[]));
    reads("steps 1 3 12", steps(1, &[(3, 12)]));
    reads("steps 0 0 8 16 13", steps(0, &[(0, 8), (16, 13)]));
    let most = usize::MAX;
    reads(
        &format!("steps {most} {most} {most}"),
        steps(most, &[(most, most)]),
    );
}

#[test]
fn aims_in_words() {
    let aim = |destination| Call::Aim {
        slot: 3,
        channel_end: 31,
        destination,
        network: 2,
    };
    let (number, channel) = (293, 255);
    let to_channel = Destination::Channel { number, channel };
    reads("aim 3 31 channel 293 255 2", aim(to_channel));
    let to_control = Destination::Control { number };
    reads("aim 3 31 control 293 0 2", aim(to_control));
}

#[test]
fn outputs_and_inputs_in_words() {
    let (slot, channel_end, value) = (3, 31, 255);
    for (word, kind) in [("data", Kind::Data), ("control", Kind::Control)] {
        let output = Call::Output {
            slot,
            channel_end,
            kind,
            value,
        };
        reads(&format!("output 3 31 {word} 255"), output);
        let input = Call::Input {
            slot,
            channel_end,
            kind,
        };
        reads(&format!("input 3 31 {word}"), input);
    }
}

#[test]
fn every_answer_in_words() {
    let answers = [
        "no 1",
        "no 12",
        "done",
        "granted 0",
        "granted 8",
        "granted 16",
        "granted 64",
        "token 255",
        "idle",
        "waiting",
        "moved",
        "moved 0",
        "moved 8",
        "moved 16",
        "moved 64",
        "opened link 7",
        "opened channel",
        "opened control",
        "refused split",
        "refused noroute",
        "dropped split",
        "dropped noroute",
        "malformed",
        "unheard",
        "results",
        "results idle",
        "results moved; no 4; opened link 3",
    ];
    for answer in answers {
        let line = format!("step 0 0 -> {answer} # 00000000000000ff");
        let lines = parse(&line).expect(&line);
        let stated = lines[0].stated.as_ref().expect("an outcome");
        assert_eq!(format!("{} -> {stated}", lines[0].call), line);
    }
}

/// Every answer that the library can give has its words, and they are read back.
#[test]
fn every_answer_of_the_library_has_words() {
    let mut met = 0;
    for (case, value) in (0..64).flat_map(|case| (0..16).map(move |value| (case, value))) {
        let Some(answer) = bench::Answer::from_crossed(case << 32 | value) else {
            continue;
        };
        met += 1;
        let line = format!("step 0 0 -> {} # 00000000000000ff", Answer::from(answer));
        let is_grant = matches!(
            answer,
            bench::Answer::Granted(_) | bench::Answer::Arrived(_)
        );
        let is_far = line.contains("opened link") && value > 7;
        assert_eq!(
            parse(&line).is_err(),
            is_far || (is_grant && ![0, 8].contains(&value)),
            "{line}"
        );
    }
    assert_eq!(met, 12 + 16 + 16 + 16 + 16 + 2 + 2 + 8);
}

#[test]
fn lines_that_differ_in_spaces_and_digits_alone() {
    let plain = parse("set 0 number 0 293 -> no 3 # 00000000000000ff");
    let other = parse("  set\t0 number 0x0 0x125->no 0x3#  00000000000000FF \r\n");
    assert_eq!(plain, other);
    let answer = Answer::No(Refusal::Value);
    let stated = Some(Outcome {
        answer,
        digest: 255,
    });
    assert_eq!(plain.map(|lines| lines[0].stated.clone()), Ok(stated));
    let plain = parse("steps 2 0 8 1 0 -> results moved; no 2 # 00000000000000ff");
    let other = parse("steps\t0x2  0 8 1 0->results  moved ;no 0x2# 00000000000000ff");
    assert!(plain.is_ok());
    assert_eq!(plain, other);
}

#[test]
fn lines_are_counted_through() {
    let text = "// a board\n\nfresh 1 832 lines 528\n   \n  // set\nset 0 width 0 1\n";
    let lines = parse(text).expect("a script");
    let numbers: Vec<_> = lines.iter().map(|line| line.number).collect();
    assert_eq!(numbers, [3, 6]);
}

/// Lines that are no call, and what was expected.
#[rustfmt::skip]
const BAD_LINES: [(&str, &str); 53] = [
    ("jump 0 0", "expected fresh, blank, wire, set, aim, output, input, step, line or steps, found jump"),
    ("-> done # 0000000000000000", "expected fresh, blank, wire, set, aim, output, input, step, line or steps, found nothing"),
    ("step 0", "expected a port, found nothing (step SLOT PORT)"),
    ("step 0 0 0", "expected no more words, found 0 (step SLOT PORT)"),
    ("step 0 x", "expected a port, found x (step SLOT PORT)"),
    ("step -1 0", "expected a slot, found -1 (step SLOT PORT)"),
    ("step +1 0", "expected a slot, found +1 (step SLOT PORT)"),
    ("step 0x 0", "expected a slot, found 0x (step SLOT PORT)"),
    ("step 0xg 0", "expected a slot, found 0xg (step SLOT PORT)"),
    ("step 0X1 0", "expected a slot, found 0X1 (step SLOT PORT)"),
    ("step 18446744073709551616 0", "expected a slot, found 18446744073709551616 (step SLOT PORT)"),
    ("fresh 1", "expected a number of memory words, found nothing (fresh NODES MEMORY_WORDS lines LINE_WORDS)"),
    ("blank 1", "expected a number of memory words, found nothing (blank NODES MEMORY_WORDS lines LINE_WORDS)"),
    ("fresh 1 0x340", "expected lines, found nothing (fresh NODES MEMORY_WORDS lines LINE_WORDS)"),
    ("fresh 1 0x340 line 528", "expected lines, found line, nearest is lines (fresh NODES MEMORY_WORDS lines LINE_WORDS)"),
    ("fresh 1 0x340 lines", "expected a number of words for lines, found nothing (fresh NODES MEMORY_WORDS lines LINE_WORDS)"),
    ("line 0", "expected a link, found nothing (line SLOT LINK)"),
    ("line 0 0 0", "expected no more words, found 0 (line SLOT LINK)"),
    ("line 0 0 -> moved 4 # 0000000000000000", "expected a grant of 0, 8, 16 or 64, found 4"),
    ("blank 1 832 lines 528 0", "expected no more words, found 0 (blank NODES MEMORY_WORDS lines LINE_WORDS)"),
    ("set 0 colour 0 0", "expected number, width, direction, linkdirection, network, enable or hello, found colour (set SLOT SETTING INDEX VALUE)"),
    ("set 0 number 1 0", "expected 0 as the index, found 1 (set SLOT SETTING INDEX VALUE)"),
    ("set 0 hello 1 1", "expected 0 as the value, found 1 (set SLOT SETTING INDEX VALUE)"),
    ("set 0 number 0 4294967296", "expected a value of 32 bits, found 4294967296 (set SLOT SETTING INDEX VALUE)"),
    ("set 0 direction 4294967296 0", "expected a bit of 32 bits, found 4294967296 (set SLOT SETTING INDEX VALUE)"),
    ("aim 0 0 tile 0 0 0", "expected channel or control, found tile (aim SLOT"),
    ("aim 0 0 control 0 1 0", "expected 0 as the channel of a control unit, found 1 (aim SLOT"),
    ("aim 0 0 channel 0 4294967296 0", "expected a channel of 32 bits, found 4294967296 (aim SLOT"),
    ("output 0 0 data 256", "expected a token value 0..255, found 256 (output SLOT"),
    ("output 0 0 date 25", "expected data or control, found date, nearest is data (output SLOT"),
    ("step 0 0 # 0000000000000000", "expected no more words, found # (step SLOT PORT)"),
    ("step 0 0 -> idle", "expected ANSWER # DIGEST behind ->, found idle"),
    ("step 0 0 -> idle # 12", "expected a digest of 16 hexadecimal digits, found 12"),
    ("step 0 0 -> idle # +00000000000000f", "expected a digest of 16 hexadecimal digits, found +00000000000000f"),
    ("step 0 0 -> idling # 0000000000000000", "expected an answer, found idling"),
    ("step 0 0 -> no 13 # 0000000000000000", "expected a refusal 1..12, found 13"),
    ("step 0 0 -> granted 4 # 0000000000000000", "expected a grant of 0, 8, 16 or 64, found 4"),
    ("step 0 0 -> opened link 8 # 0000000000000000", "expected a link 0..7, found 8"),
    ("steps", "expected a number of results, found nothing (steps RESULTS SLOT PORT SLOT PORT ..)"),
    ("steps -1 0 8", "expected a number of results, found -1 (steps RESULTS SLOT PORT SLOT PORT ..)"),
    ("steps 1 0", "expected a port, found nothing (steps RESULTS SLOT PORT SLOT PORT ..)"),
    ("steps 2 0 8 1", "expected a port, found nothing (steps RESULTS SLOT PORT SLOT PORT ..)"),
    ("steps 1 0 x", "expected a port, found x (steps RESULTS SLOT PORT SLOT PORT ..)"),
    ("steps 1 0; 8", "expected a slot, found 0; (steps RESULTS SLOT PORT SLOT PORT ..)"),
    ("steps 1 0 8 -> results moved; # 0000000000000000", "expected an answer, found nothing"),
    ("steps 1 0 8 -> results ; moved # 0000000000000000", "expected an answer, found nothing"),
    ("steps 1 0 8 -> results moved moved # 0000000000000000", "expected a grant of 0, 8, 16 or 64, found moved"),
    ("steps 1 0 8 -> results results # 0000000000000000", "expected an answer, found results"),
    ("steps 1 0 8 -> results moved 8 # 0000000000000000", "expected an answer of a Step, found moved 8"),
    ("steps 1 0 8 -> results done # 0000000000000000", "expected an answer of a Step, found done"),
    ("steps 1 0 8 -> results token 7 # 0000000000000000", "expected an answer of a Step, found token 7"),
    ("steps 1 0 8 -> results; moved # 0000000000000000", "expected an answer, found results;"),
    ("steps 1 0 8 -> moved; moved # 0000000000000000", "expected an answer, found moved;"),
];

#[test]
fn bad_lines_are_named() {
    for (line, expected) in BAD_LINES {
        let text = format!("fresh 1 832 lines 528\n\n// next\n{line}\nnor is this\n");
        let bad = parse(&text).expect_err(line);
        let (number, complaint) = (bad.line, bad.expected.to_string());
        assert_eq!(number, 4);
        assert!(complaint.starts_with(expected), "{complaint}");
    }
}
