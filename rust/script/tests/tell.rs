//! What `tell` says of each answer, how it folds, and its colours.

mod common;

use std::sync::atomic::{AtomicUsize, Ordering};

use bench::Refusal;
use common::{bench, file, text};
use script::tell::{Colours, Telling};

/// A file of its own for each script: tests run side by side.
fn script_file(script: &str) -> String {
    static COUNT: AtomicUsize = AtomicUsize::new(0);
    let count = COUNT.fetch_add(1, Ordering::Relaxed);
    file(&format!("tell-{count}.txt"), script)
}

fn told(script: &str) -> String {
    let output = bench(&["tell", &script_file(script)]);
    assert!(output.status.success(), "{}", text(&output.stderr));
    text(&output.stdout)
}

/// Two boards of which each sends everything to the other.
const TWO: &str = "blank 2\nboard hub 0\nboard lane 1 number 1\ncable hub.A lane.A\n";

/// What is told behind the lines of those two boards, without the number of calls.
fn told_of_two(lines: &str) -> String {
    let before = told(TWO);
    let (before, _) = before.split_once("\n\n").expect("a closing line");
    let all = told(&format!("{TWO}{lines}"));
    let rest = all.strip_prefix(before).expect("the same beginning");
    let (rest, _) = rest.rsplit_once("\n\n").expect("a closing line");
    rest.trim_start_matches('\n').to_owned()
}

#[track_caller]
fn tells(lines: &str, expected: &[&str]) {
    let expected: Vec<String> = expected.iter().map(|line| format!("  {line}")).collect();
    assert_eq!(told_of_two(lines), expected.join("\n"), "{lines}");
}

#[test]
fn comments_are_headings() {
    let script =
        "// asks 1,7\n// one\n// and two\nblank 1\n\n// three\nboard 0 number 4\n//: four\n";
    let expected = "one\nand two\n\n  start: 1 board, every link disabled\n\nthree\n\n  \
                    board 0: number 4\n\nfour\n\n2 calls made, 0 refused\n";
    assert_eq!(told(script), expected);
}

/// Nothing of a script moves the cursor.
#[test]
fn what_is_not_seen_is_written_out() {
    let said = told("// \u{1b}[2J\u{7}bell\nblank 1\n");
    assert!(said.starts_with("\\u{1b}[2J\\u{7}bell\n"), "{said}");
}

#[test]
fn what_is_done_at_one_place_shares_a_line() {
    tells(
        "route hub bit 0..2 -> direction 1\nroute hub bit 4 -> direction 1\n\
         route hub bit 5 -> direction 2\nboard hub number 8 width 1",
        &[
            "hub: bits 0..2 4 lead to direction 1; bit 5 leads to direction 2; number 8; one-byte \
             headers",
        ],
    );
    tells(
        "link hub.B enable direction 3 network 1\nlink hub.C disable",
        &[
            "hub, link B: enabled; direction 3",
            "hub, link B: Set refused, no 4, Busy: the link is enabled; disable it first",
            "hub, link C: disabled",
        ],
    );
}

#[test]
fn a_circuit_is_a_line() {
    tells(
        "send hub.0 to lane.7: 1 2 END\nsend hub.0 to lane.7: 3 END\nsettle",
        &[
            "hub, channel-end 0: aimed at number 1 channel 7, network 0; puts out 1 2 END",
            "hub, channel-end 0: aimed at number 1 channel 7, network 0; puts out 3 END",
            "hub, port 8 (from the tile): circuit opened, out by link A to lane, link A; 6 tokens \
             moved: header 00.01.07 1 2 END",
            "hub, line from link A: 9 tokens arrived at lane, link A: header 00.01.07 1 2 END header \
             00.01.07",
            "lane, port 0 (in by link A): circuit opened, to channel-end 7; 3 tokens handed to \
             channel-end 7: 1 2 END",
            "hub, port 9 (from the tile): circuit opened, out by link A to lane, link A; 4 tokens \
             moved: header 00.01.07 3",
            "lane, port 0 (in by link A): circuit opened, to channel-end 7; 2 tokens handed to \
             channel-end 7: 3 END",
            "hub, line from link A: 2 tokens arrived at lane, link A: 3 END",
            "hub, port 9 (from the tile): 1 token moved: END",
            "settled by 31 steps in 14 rounds",
        ],
    );
}

/// A list of Steps is told as its Steps are, refused ones too; so are single Steps in a row.
#[test]
fn steps_one_by_one_and_as_a_list() {
    let sent = "send hub.0 to lane.7: END\n";
    let moved = "hub, port 8 (from the tile): circuit opened, out by link A to lane, link A; 2 \
                 tokens moved: header 00.01";
    let arrived = "hub, line from link A: 2 tokens arrived at lane, link A: header 00.01";
    let waits = "lane, port 0 (in by link A): waits for the rest of its header";
    let aimed = "hub, channel-end 0: aimed at number 1 channel 7, network 0; puts out END";
    let lines = "line hub.A\nline hub.A\n";
    let single = format!("{sent}step hub.8\nstep hub.8\nstep hub.8\n{lines}step lane.A");
    tells(&single, &[aimed, moved, arrived, waits]);
    let listed = format!("{sent}steps 3 hub.8 hub.8 hub.8\n{lines}steps 2 lane.A lane.13");
    let refused = "lane, port 13: Step refused, no 2";
    tells(&listed, &[aimed, moved, arrived, waits, refused]);
}

/// What a HELLO does on its way: it is said, it arrives and is granted, the credit arrives.
#[test]
fn what_lines_bring() {
    let arrives = "hub, line from link A: HELLO arrives at lane, link A; lane, link A grants 64";
    let credit = "lane, line from link A: credit for 64 tokens arrives at hub, link A";
    tells(
        "link hub.A hello",
        &["hub, link A: says HELLO", arrives, credit],
    );
    tells(
        "set hub hello A 0\nset lane hello A 0\nline hub.A 2 times\nline lane.A",
        &[
            "hub, link A: says HELLO",
            "lane, link A: HELLO refused, no 4, Busy: the link is disabled, or a credit or a HELLO \
             is on a line of its cable; enable it, or settle, first",
            &format!("{arrives}; nothing is on it"),
            credit,
        ],
    );
    tells(
        "link lane.B enable hello\nline lane.B\nline hub.9",
        &[
            "lane, link B: enabled; says HELLO, which nobody hears",
            "lane, line from link B: nothing is on it",
            "hub, line from link 9: line step refused, no 2, NoSuch: no such board, or no such link; \
             boards count from 0, links are A..H",
        ],
    );
}

/// What is said once more of the same place is said once.
#[test]
fn the_same_again() {
    tells(
        "step hub.A 3 times\nstep hub.B",
        &[
            "hub, port 0 (in by link A): holds nothing",
            "hub, port 1 (in by link B): holds nothing",
        ],
    );
}

#[test]
fn ends_of_messages_and_waits() {
    let malformed = "aim hub.0 control 0 0 0\nsend hub.0: READC END\nsettle";
    let said = told_of_two(malformed);
    assert!(said.contains("; the message ends malformed: "), "{said}");
    let unheard = "message hub.0 to hub: write 4 1\nstep hub.8 12 times\n";
    let said = told_of_two(unheard);
    assert!(said.contains("11 tokens heard by the control unit: WRITEC 0 0 0 0 4 0 0 0 1 END"));
    let said = told("fresh 1\nsend 0.0 to number 1 channel 0: 7\nstep 0.8 2 times\nstep 0 0\n");
    assert!(said.contains("which has no cable; waits for credit on link E, which has no cable\n"));
    assert!(
        said.contains("  board 0, port 0 (in by link A): holds nothing\n"),
        "{said}"
    );
}

/// What goes round for ever is told at its beginning.
#[test]
fn a_settle_of_many_lines() {
    let said = told_of_two("send hub.0 to number 9 channel 0: END\nsettle\nboard hub number 3");
    assert!(said.lines().count() < 70, "{said}");
    let mut last = said.lines().rev();
    assert_eq!(last.next(), Some("  hub: number 3"));
    let settled = last.next().expect("a line");
    assert!(
        settled.starts_with("  not settled after 65536 steps"),
        "{settled}"
    );
    let beyond = last.next().expect("a line");
    assert!(beyond.starts_with("  .. and ") && beyond.ends_with(" more such lines"));
}

/// Every refusal of every call is told with its number, its name and what to do about it.
#[test]
fn every_refusal_has_advice() {
    let folder = concat!(env!("CARGO_MANIFEST_DIR"), "/scripts");
    let path = format!("{folder}/every-refusal-of-every-call.txt");
    let script = std::fs::read_to_string(&path).expect("a script");
    let stated = script
        .lines()
        .filter(|line| line.contains(" -> no "))
        .count();
    let said = text(&bench(&["tell", &path]).stdout);
    let told: Vec<&str> = said
        .lines()
        .filter(|line| line.contains(" refused, no "))
        .collect();
    assert!(stated > 30 && told.len() == stated, "{stated}, {said}");
    for refusal in Refusal::ALL {
        let named = format!(" refused, {refusal}: ");
        let all: Vec<&&str> = told.iter().filter(|line| line.contains(&named)).collect();
        assert!(!all.is_empty(), "{refusal}");
        for line in all {
            let (_, advice) = line.split_once(&named).expect("advice");
            assert!(
                advice.len() > 15 && !advice.contains("document 01"),
                "{line}"
            );
        }
    }
    assert!(
        said.ends_with(&format!(" made, {stated} refused\n")),
        "{said}"
    );
}

/// What a line expects is no refusal to worry about.
#[test]
fn nothing_is_received() {
    let said = told("fresh 1\nreceive 0.7: nothing\n");
    let expected = "  board 0, channel-end 7: holds nothing, as the line expects\n\n\
                    2 calls made, 0 refused, 1 more as expected\n";
    assert!(said.ends_with(expected), "{said}");
    // Where something else is received the run is told up to there, and the line is named.
    let path = script_file("fresh 1\nboard 0 number 5\nreceive 0.7: 4\nboard 0 number 6\n");
    let output = bench(&["tell", &path]);
    assert_eq!(output.status.code(), Some(1));
    assert!(text(&output.stdout).contains("Input refused, no 11, Empty: "));
    assert!(!text(&output.stdout).contains("number 6"));
    let named = format!("{path}: line 3: input 0 7 data gives no 11, the line expects token 4\n");
    assert_eq!(text(&output.stderr), named);
}

fn painted(script: &str, colours: Colours) -> String {
    let script = script::read(script).expect("a script");
    let mut out = Vec::new();
    let mut telling = Telling::to(&mut out, &script.boards, colours);
    script::play(&script, &mut telling).expect("a run");
    telling.finish().expect("room");
    text(&out)
}

/// Headings are bold, what is refused or dropped red, what waits yellow; into a pipe nothing is.
#[test]
fn colours() {
    let script = "// a heading\nfresh 1\nsend 0.0 to number 1 channel 0: END\nsettle\n\
                  blank 1\nsend 0.0 to number 1 channel 0: END\nsettle\ninput 0 0 data\n";
    let on = painted(script, Colours::On);
    assert!(on.starts_with("\x1b[1ma heading\x1b[0m\n"), "{on}");
    assert!(
        on.contains("\n  \x1b[33mboard 0, port 8 (from the tile): waits"),
        "{on}"
    );
    assert!(on.contains("\n  \x1b[31mboard 0, port 8 (from the tile): refused as NoRoute"));
    assert!(
        on.contains("\n  \x1b[31mboard 0, channel-end 0: Input refused, no 11"),
        "{on}"
    );
    let off = painted(script, Colours::Off);
    let plain = ["\x1b[1m", "\x1b[31m", "\x1b[33m", "\x1b[0m"];
    let stripped = plain.iter().fold(on, |text, code| text.replace(code, ""));
    assert_eq!(stripped, off);
    assert_eq!(told(script), off);
}
