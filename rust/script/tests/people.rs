//! Scripts for people: what each line stands for, and what is said of one that is wrong.

mod common;

use std::sync::atomic::{AtomicUsize, Ordering};

use common::{bench, file, text};
use script::expand::Expanding;
use script::page::Recording;
use script::tell::{Colours, Telling};

/// A file of its own for each script: tests run side by side.
fn script_file(script: &str) -> String {
    static COUNT: AtomicUsize = AtomicUsize::new(0);
    let count = COUNT.fetch_add(1, Ordering::Relaxed);
    file(&format!("people-{count}.txt"), script)
}

/// Two boards with names, and a cable that no message takes of itself.
const HEAD: &str = "fresh 2\nboard hub 0\nboard lane1 1 number 9\n";

/// The calls that these lines stand for, behind the head's.
fn calls(lines: &str) -> Vec<String> {
    let path = script_file(&format!("{HEAD}{lines}"));
    let output = bench(&["expand", &path]);
    assert_eq!(text(&output.stderr), "", "{lines}");
    let expanded = text(&output.stdout);
    let plain = expanded.lines().filter(|line| !line.starts_with("//"));
    let plain: Vec<String> = plain.map(str::to_owned).collect();
    assert_eq!(plain[..2], ["fresh 2 1664 lines 1056", "set 1 number 0 9"]);
    plain[2..].to_vec()
}

#[track_caller]
fn stands_for(line: &str, expected: &[&str]) {
    assert_eq!(calls(line), expected, "{line}");
}

#[test]
fn boards_cables_and_routes() {
    stands_for("board hub width 1", &["set 0 width 0 1"]);
    stands_for(
        "board hub width 1 number 0x10",
        &["set 0 width 0 1", "set 0 number 0 16"],
    );
    stands_for("board 1 number 3", &["set 1 number 0 3"]);
    stands_for("board spare 7", &[]);
    stands_for(
        "cable hub.A lane1.D",
        &[
            "wire 0 0 1 3",
            "set 0 enable 0 1",
            "set 1 enable 3 1",
            "set 0 hello 0 0",
            "line 0 0",
            "line 1 3",
            "set 1 hello 3 0",
            "line 1 3",
            "line 0 0",
        ],
    );
    stands_for(
        "route hub bit 2..3 -> direction 5",
        &["set 0 direction 2 5", "set 0 direction 3 5"],
    );
    stands_for("route 1 bit 99 -> direction 5", &["set 1 direction 99 5"]);
    stands_for(
        "link hub.H disable network 2 direction 1 enable hello",
        &[
            "set 0 enable 7 0",
            "set 0 network 7 2",
            "set 0 linkdirection 7 1",
            "set 0 enable 7 1",
            "set 0 hello 7 0",
        ],
    );
}

#[test]
fn starts() {
    for (line, call) in [
        ("fresh 3", "fresh 3 2496 lines 1584"),
        ("blank 16", "blank 16 13312 lines 8448"),
        ("fresh 3 7 lines 5", "fresh 3 7 lines 5"),
        (
            "fresh 18446744073709551615",
            "fresh 18446744073709551615 18446744073709551615 lines 18446744073709551615",
        ),
    ] {
        stands_for(line, &[call]);
    }
}

#[test]
fn what_is_sent() {
    stands_for(
        "send hub.0 to lane1.7: 12 0x07 END",
        &[
            "aim 0 0 channel 9 7 0",
            "output 0 0 data 12",
            "output 0 0 data 7",
            "output 0 0 control 1",
        ],
    );
    stands_for(
        "send lane1.31 to number 5 channel 255 on network 2: PAUSE",
        &["aim 1 31 channel 5 255 2", "output 1 31 control 2"],
    );
    stands_for(
        "send hub.4: control-77 NACK",
        &["output 0 4 control 77", "output 0 4 control 4"],
    );
}

/// The number is the one that the board has when the line's turn comes.
#[test]
fn a_board_that_was_given_another_number() {
    let lines = "board lane1 number 5\nsend hub.0 to lane1.7: END\nboard lane1 number 6\n\
                 send hub.0 to lane1.7: END";
    let aims = calls(lines);
    let aims: Vec<&String> = aims.iter().filter(|call| call.starts_with("aim")).collect();
    assert_eq!(aims, ["aim 0 0 channel 5 7 0", "aim 0 0 channel 6 7 0"]);
}

/// The reply goes to the channel-end that asks, on the board's own number.
#[test]
fn messages() {
    let data = |values: &[u8]| {
        values
            .iter()
            .map(|value| format!("output 1 3 data {value}"))
            .collect::<Vec<_>>()
    };
    let made = calls("message lane1.3 to hub: write 0x0105 0x01020304");
    assert_eq!(
        made[..2],
        ["aim 1 3 control 0 0 0", "output 1 3 control 192"]
    );
    assert_eq!(made[2..11], data(&[0, 9, 3, 1, 5, 1, 2, 3, 4]));
    assert_eq!(made[11..], ["output 1 3 control 1"]);
    let made = calls("message lane1.3 to number 600 on network 1: read 4");
    assert_eq!(
        made[..2],
        ["aim 1 3 control 600 0 1", "output 1 3 control 193"]
    );
    assert_eq!(made[2..7], data(&[0, 9, 3, 0, 4]));
    assert_eq!(made[7..], ["output 1 3 control 1"]);
}

/// A plain call may name a board for its slot and a link by its letter.
#[test]
fn plain_calls_with_names() {
    for (line, call) in [
        ("step hub.A", "step 0 0"),
        ("step lane1.8", "step 1 8"),
        ("steps 2 hub.12 lane1.H", "steps 2 0 12 1 7"),
        ("wire hub.E lane1 C", "wire 0 4 1 2"),
        ("set lane1 enable B 1", "set 1 enable 1 1"),
        ("set hub hello 5 0", "set 0 hello 5 0"),
        ("line hub.E", "line 0 4"),
        ("line lane1 9", "line 1 9"),
        ("input lane1.7 data", "input 1 7 data"),
        ("aim hub.2 channel 9 7 0", "aim 0 2 channel 9 7 0"),
    ] {
        stands_for(line, &[call]);
    }
    stands_for("step hub.A 3 times", &["step 0 0", "step 0 0", "step 0 0"]);
    stands_for("step hub.A 0 times", &[]);
    stands_for("line hub.A 2 times", &["line 0 0", "line 0 0"]);
}

/// Behind a HELLO that words stand for the lines of its cable are emptied, of tokens too; behind a
/// plain one they are not.
#[test]
fn a_hello_is_followed_to_its_end() {
    let cabled = "wire hub.E lane1.E\n";
    let wire = "wire 0 4 1 4";
    for (line, hello) in [
        (
            "link hub.E hello",
            vec!["set 0 hello 4 0", "line 0 4", "line 1 4"],
        ),
        ("set hub hello E 0", vec!["set 0 hello 4 0"]),
        // The second is refused, as the first is on its way.
        (
            "set hub hello E 0\nlink lane1.E hello",
            vec!["set 0 hello 4 0", "set 1 hello 4 0"],
        ),
    ] {
        let expected = [vec![wire], hello].concat();
        assert_eq!(calls(&format!("{cabled}{line}")), expected, "{line}");
    }
    let greeted = calls("cable hub.E lane1.E");
    let sent =
        "cable hub.E lane1.E\nsend hub.0 to lane1.7: 5\nstep hub.8 2 times\nlink hub.E hello";
    let again = calls(sent);
    let more = [
        "aim 0 0 channel 9 7 0",
        "output 0 0 data 5",
        "step 0 8",
        "step 0 8",
        "set 0 hello 4 0",
        // the header's first token, then HELLO, and the credit
        "line 0 4",
        "line 0 4",
        "line 1 4",
    ];
    assert_eq!(again[greeted.len()..], more);
}

/// A comment may stand behind a line.
#[test]
fn a_comment_behind_a_line() {
    stands_for("step hub.A // by link A\n", &["step 0 0"]);
    stands_for("board hub width 1// now\n", &["set 0 width 0 1"]);
    let path = script_file("fresh 1 // one\nstep 0 0 0 // none\n");
    let complaint = text(&bench(&["run", &path]).stderr);
    let expected = "line 2, column 10: expected no more words, found 0 (step SLOT PORT)";
    assert!(complaint.contains(expected), "{complaint}");
}

/// Of a plain script names are no part: `parse` has none.
#[test]
fn a_plain_script_has_no_names() {
    for line in [
        "step hub 8",
        "settle",
        "fresh 2",
        "step 0.8",
        "set 0 enable A 1",
    ] {
        assert!(script::parse(line).is_err(), "{line}");
    }
}

/// The hub's three links lead to the lane; two ENDs cross one another.
const CROSSING: &str = "blank 2\nboard hub 0\nboard lane 1 number 1\ncable hub.A lane.A\n\
                        send hub.0 to lane.7: END\nsend lane.0 to hub.7: 5\n";

#[test]
fn settle_makes_the_steps_that_change_something() {
    let path = script_file(&format!("{CROSSING}settle\nsettle\n"));
    let expanded = text(&bench(&["expand", &path]).stdout);
    let (_, settled) = expanded.split_once("//: settle\n").expect("a line");
    // Round by round: both open; each token of a header is put on its line, and arrives behind all
    // ports; the third completes it, for the next round.
    let expected = "step 0 8\nstep 1 8\n\
                    step 0 8\nstep 1 8\nline 0 0\nline 1 0\n\
                    step 0 8\nstep 1 8\nline 0 0\nline 1 0\n\
                    step 0 8\nstep 1 8\nline 0 0\nline 1 0\n\
                    step 0 0\nstep 0 8\nstep 1 0\nstep 1 8\nline 0 0\nline 1 0\n\
                    step 0 0\nstep 1 0\n\
                    //: settled by 22 steps in 7 rounds\n\
                    //: settle\n\
                    //: settled by 0 steps in 1 round\n";
    assert_eq!(settled, expected);
}

/// All ports and all lines, over and over, by hand: the same network, whichever Steps were left out.
#[test]
fn settle_is_all_ports_and_all_lines_in_rounds() {
    let ports = (0..2).flat_map(|slot| (0..13).map(move |port| format!("step {slot} {port}\n")));
    let lines = (0..2).flat_map(|slot| (0..8).map(move |link| format!("line {slot} {link}\n")));
    let round: String = ports.chain(lines).collect();
    let last_digest = |script: &str| {
        let path = script_file(script);
        let printed = text(&bench(&["run", &path]).stdout);
        let digest = printed
            .rsplit_once("# ")
            .map(|(_, digest)| digest.to_owned());
        digest.expect("a digest")
    };
    let by_hand = last_digest(&format!("{CROSSING}{}", round.repeat(7)));
    assert_eq!(last_digest(&format!("{CROSSING}settle\n")), by_hand);
}

#[test]
fn what_settle_says_where_it_does_not_come_to_rest() {
    let waits = "fresh 1\nsend 0.0 to number 1 channel 0: END\nsettle\n";
    let expanded = text(&bench(&["expand", &script_file(waits)]).stdout);
    let end =
        "//: board 0 port 8 (from the tile): waits for credit on link E, which has no cable\n";
    assert!(expanded.ends_with(end), "{expanded}");
    let ring = "blank 2\nboard one 0 number 1\nboard two 1 number 2\n\
                cable one.A two.A\ncable one.B two.B\n\
                route one bit 0..15 -> direction 1\nlink one.A direction 1\n\
                route two bit 0..15 -> direction 1\nlink two.B direction 1\n\
                send one.0 to number 9 channel 0: END\nsettle\n";
    let expanded = text(&bench(&["expand", &script_file(ring)]).stdout);
    let last = expanded.lines().last().expect("a line");
    assert!(
        last.starts_with("//: not settled after 65536 steps, of which "),
        "{last}"
    );
    let nothing = text(&bench(&["expand", &script_file("settle\n")]).stdout);
    assert!(
        nothing.ends_with("//: settled by 0 steps in 0 rounds\n"),
        "{nothing}"
    );
}

#[test]
fn what_is_received_is_held() {
    let sent = "fresh 1\nsend 0.0 to 0.7: 12 7 END\n";
    let right = script_file(&format!(
        "{sent}receive 0.7: 12 7 END\nreceive 0.7: nothing\n"
    ));
    let checked = bench(&["check", &right]);
    assert_eq!(text(&checked.stdout), "4 calls agree\n");
    for (line, said) in [
        (
            "receive 0.7: 12 8",
            "input 0 7 data gives token 7, the line expects token 8",
        ),
        (
            "receive 0.7: END",
            "input 0 7 control gives no 12, the line expects token 1",
        ),
        (
            "receive 0.7: nothing",
            "input 0 7 data gives token 12, the line expects no 11",
        ),
        (
            "receive 0.3: 4",
            "input 0 3 data gives no 11, the line expects token 4",
        ),
    ] {
        let path = script_file(&format!("{sent}\n{line}\nboard 0 number 1\n"));
        for verb in ["run", "check", "expand", "tell", "show", "draw", "matrix"] {
            let output = bench(&[verb, &path]);
            assert_eq!(output.status.code(), Some(1), "{verb} {line}");
            assert_eq!(text(&output.stderr), format!("{path}: line 4: {said}\n"));
        }
        let printed = text(&bench(&["run", &path]).stdout);
        assert!(
            printed.contains("output 0 0 control 1 -> done"),
            "{printed}"
        );
        assert!(!printed.contains("number"), "nothing is made behind it");
    }
}

/// A line, its column and what was expected, and what more is said of it.
#[rustfmt::skip]
const WRONG_WORDS: [(&str, &str, &str); 34] = [
    ("setle", "1: ", "or settle, found setle, nearest is settle\n"),
    ("  recieve hub.7: 1", "3: ", "found recieve, nearest is receive\n"),
    ("cable hub.A hob.A", "13: expected a board's name or slot", "found hob, nearest is hub (cable BOARD.LINK BOARD.LINK)\n"),
    ("cable hub.A lane1.Q", "19: expected a link, a letter A..H or a number", "found Q (cable BOARD.LINK BOARD.LINK)\n"),
    ("cable hub.A", "12: expected a board's name or slot", "found nothing (cable"),
    ("cable hub..A lane1.A", "11: expected a link", "found nothing (cable"),
    ("route hub bit 3..16 -> direction 1", "15: expected a bit, or bits FIRST..LAST of 0..15", "found 3..16 (route"),
    ("route hub bit 3..2 -> direction 1", "15: expected a bit", "found 3..2 (route"),
    ("route hub bit 3 direction 1", "17: expected ->", "found direction (route"),
    ("link hub.A directoin 1", "12: expected direction, network, enable, disable or hello", "nearest is direction (link"),
    ("link hub.A", "11: expected direction, network, enable, disable or hello", "found nothing (link"),
    ("send hub.0 to lane1.7 12 END", "29: expected a colon and what is meant", "found nothing (send"),
    ("send hub.0 to lane1.7", "22: expected a colon and what is meant", "found nothing (send"),
    ("send hub.0 to lane1.7:", "23: expected a token: a value 0..255, END,", "found nothing (send"),
    ("send hub.0 to lane1.7: 12 end", "27: expected a token", "found end, nearest is END (send"),
    ("send hub.0 to lane1.7: 256", "24: expected a token", "found 256 (send"),
    ("send hub.0 to lane1.7: control-256", "24: expected a token", "found control-256"),
    ("send hub.0 two lane1.7: 1", "12: expected to", "found two, nearest is to (send"),
    ("message hub.0 to lane1: wriet 4 1", "25: expected write or read", "found wriet, nearest is write (message"),
    ("message hub.0 to lane1: write 65536 1", "31: expected a register's address of 16 bits", "found 65536"),
    ("receive hub.7: nothing more", "24: expected no more words", "found more (receive"),
    ("receive hub.7: 1 nothing", "18: expected a token", "found nothing (receive"),
    ("settle now", "8: expected no more words", "found now (settle)\n"),
    ("board 3hub 2", "7: expected a name for a board", "found 3hub (board"),
    ("board number 2", "7: expected a name for a board", "found number (board"),
    ("board hub 2", "11: expected number or width", "found 2 (board"),
    ("board new", "10: expected the slot of the board", "found nothing (board"),
    ("step hub.A 65537 times", "12: expected a count, at most 65536", "found 65537 (step"),
    ("step lane.8", "6: expected a board's name or slot", "found lane, nearest is lane1 (step SLOT PORT)\n"),
    ("fresh", "6: expected a number of nodes", "found nothing (fresh NODES MEMORY_WORDS lines LINE_WORDS)\n"),
    ("line hub.A 65537 times", "12: expected a count, at most 65536", "found 65537 (line"),
    ("line hub.Q", "10: expected a link, a letter A..H or a number", "found Q (line SLOT LINK)\n"),
    ("fresh many", "7: expected a number of boards", "found many (fresh BOARDS)\n"),
    ("step hub.A -> wating # 0123456789abcdef", "15: expected an answer", "found wating, nearest is waiting\n"),
];

/// A wrong word: its line and column, what was expected, what stands there, and the nearest word.
#[test]
fn a_wrong_word_is_answered() {
    for (line, begins, ends) in WRONG_WORDS {
        let path = script_file(&format!("{HEAD}\n{line}\n"));
        let output = bench(&["run", &path]);
        let complaint = text(&output.stderr);
        assert_eq!(output.status.code(), Some(2), "{line}: {complaint}");
        assert!(output.stdout.is_empty(), "{line}");
        let begins = format!("{path}: line 5, column {begins}");
        assert!(complaint.starts_with(&begins), "{complaint}");
        assert!(complaint.contains(ends), "{complaint}");
    }
}

/// The script that docs/USING.md explains the words with has all of them, and does what is said there.
#[test]
fn the_script_of_the_page_runs() {
    let path = concat!(env!("CARGO_MANIFEST_DIR"), "/../../docs/USING.md");
    let page = std::fs::read_to_string(path).expect("docs/USING.md");
    let (_, part) = page.split_once("\n    // a comment, ").expect("a script");
    let lines = part
        .lines()
        .skip(1)
        .map_while(|line| line.strip_prefix("    "));
    let script: String = lines.map(|line| format!("{line}\n")).collect();
    for (word, _) in script::people::FORMS {
        let begins = script.lines().any(|line| line.starts_with(word));
        assert!(begins || word == "blank", "{word}");
    }
    let output = bench(&["check", &script_file(&script)]);
    assert_eq!(
        text(&output.stdout),
        "3 calls agree\n",
        "{}",
        text(&output.stderr)
    );
}

/// A column counts letters, not bytes.
#[test]
fn a_column_counts_letters() {
    let path = script_file("fresh 1\nboard größe 0\nboard größe breite 1\n");
    let complaint = text(&bench(&["run", &path]).stderr);
    assert!(
        complaint.contains(": line 3, column 13: expected number or width, found breite"),
        "{complaint}"
    );
}

/// Words that are as long as a file, and as many as fit in it, are read or complained of in time.
#[test]
fn long_lines() {
    let tokens = "1 ".repeat(200_000);
    let path = script_file(&format!("fresh 1\nsend 0.0 to 0.255: {tokens}END\n"));
    assert!(bench(&["check", &path]).status.success());
    // What a line stands for is made when its turn comes, and here none has one.
    let steps = "step 0.8 65536 times\n".repeat(50_000);
    let path = script_file(&format!("fresh 1\n{steps}jump\n"));
    let output = bench(&["check", &path]);
    assert!(text(&output.stderr).contains("line 50002, column 1: expected fresh"));
    let word = "x".repeat(1 << 20);
    let path = script_file(&format!("fresh 1\nboard {word} 0\ncable {word}y.A 0.A\n"));
    let output = bench(&["check", &path]);
    assert_eq!(output.status.code(), Some(2));
    assert!(output.stderr.len() < 1000);
}

/// Words to make lines of, right and wrong.
#[rustfmt::skip]
const PIECES: [&str; 60] = [
    "fresh", "blank", "board", "cable", "route", "link", "send", "message", "receive", "settle", "step",
    "steps", "times", "hub", "lane", "hub.A", "lane.A", "hub.0", "lane.7", "hub.12", "lane.255", "0.8", "1.A",
    "to", "number", "channel", "on", "network", "direction", "bit", "width", "enable", "disable", "hello",
    "write", "read", "nothing", "->", "0..3", "0", "1", "2", "3", "4", "16", "0x05", "256", "70000",
    "18446744073709551615", ":", "END", "PAUSE", "control-1", "READC", ".", "//", "..", "\u{e9}", "#", "",
];

/// A line of a few of them; mostly one that is nearly right.
fn random_line(random: &mut impl FnMut(usize) -> usize) -> String {
    let right = [
        "cable hub.A lane.A",
        "send hub.0 to lane.7: 1 2 END",
        "settle",
        "step hub.8 3 times",
        "line hub.A 2 times",
        "line lane.A",
        "route lane bit 0..3 -> direction 1",
        "link lane.A direction 1 hello",
        "receive lane.7: nothing",
        "message lane.1 to hub: write 4 1",
        "steps 2 hub.8 lane.A",
        "board lane number 1 width 1",
        "send lane.2 to number 9 channel 1: END",
        "set hub enable A 0",
        "blank 2",
    ];
    let mut words: Vec<&str> = right[random(right.len())].split(' ').collect();
    for _ in 0..random(3) {
        let (place, piece) = (random(words.len()), PIECES[random(PIECES.len())]);
        match random(3) {
            0 => words[place] = piece,
            1 => words.insert(place, piece),
            _ => drop(words.remove(place)),
        }
        words.extend(words.is_empty().then_some("settle"));
    }
    words.join(" ")
}

/// Whatever the lines are, each is read or complained of, and the run is told, taken down and expanded.
#[test]
fn no_line_makes_it_panic() {
    let mut seed = 0x9E37_79B9_7F4A_7C15_u64;
    let mut random = |below: usize| {
        seed ^= seed << 13;
        seed ^= seed >> 7;
        seed ^= seed << 17;
        (seed % below as u64) as usize
    };
    let (mut read, mut unread) = (0, 0);
    for _ in 0..400 {
        let mut text = "fresh 2\nboard hub 0\nboard lane 1 number 1\n".to_owned();
        for _ in 0..12 {
            let line = random_line(&mut random);
            match script::read(&format!("{text}{line}\n")) {
                Ok(_) => {
                    read += 1;
                    text += &format!("{line}\n");
                }
                Err(bad) => {
                    unread += 1;
                    assert_eq!(bad.line, text.lines().count() + 1, "{line}");
                    assert!(bad.expected.column() <= line.chars().count() + 1, "{line}");
                }
            }
        }
        watched(&text);
    }
    assert!(
        read > 1500 && unread > 500,
        "{read} lines read, {unread} not"
    );
}

/// Plays a script to all who watch.
fn watched(text: &str) {
    let script = script::read(text).expect("a script");
    let mut telling = Telling::to(Vec::new(), &script.boards, Colours::On);
    let told = script::play(&script, &mut telling);
    telling.finish().expect("room");
    let mut recording = Recording::of(&script.boards);
    let played = script::play(&script, &mut recording);
    let left = played.as_ref().ok().map(script::Host::copy);
    assert_eq!(told.is_ok(), played.is_ok(), "{text}");
    script::page::page("a script", &script.boards, recording, left.as_ref());
    let mut expanding = Expanding::to(Vec::new());
    assert_eq!(script::play(&script, &mut expanding).is_ok(), told.is_ok());
}
