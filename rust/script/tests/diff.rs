//! What `diff` says of each thing that can differ, and of what cannot be compared.

mod common;

use std::sync::atomic::{AtomicUsize, Ordering};

use common::{bench, file, text};

/// Three boards in a row, numbers 0, 1 and 2, by links A and B; both ends of each cable greeted. Board 0
/// sends all out by A, board 2 all by B, board 1 number 2 by A and number 0 by B.
const ROW: &str = "blank 3 2496 lines 1584\nset 1 number 0 1\nset 2 number 0 2\n\
                   wire 0 0 1 1\nwire 1 0 2 1\n\
                   set 0 enable 0 1\nset 1 enable 0 1\nset 1 enable 1 1\nset 2 enable 1 1\n\
                   set 0 hello 0 0\nline 0 0\nline 1 1\nset 1 hello 0 0\nline 1 0\nline 2 1\n\
                   set 1 hello 1 0\nline 1 1\nline 0 0\nset 2 hello 1 0\nline 2 1\nline 1 0\n\
                   set 1 linkdirection 1 2\nset 1 direction 0 2\n";

/// A file of its own for each script: tests run side by side.
fn script_file(script: &str) -> String {
    static COUNT: AtomicUsize = AtomicUsize::new(0);
    let count = COUNT.fetch_add(1, Ordering::Relaxed);
    file(&format!("diff-{count}.txt"), script)
}

/// What is said of two scripts without the two lines that name them, and the exit status.
fn said(before: &str, after: &str, more: &[&str]) -> (String, i32) {
    let (before, after) = (script_file(before), script_file(after));
    let output = bench(&[&["diff", &before, &after], more].concat());
    assert_eq!(text(&output.stderr), "");
    let said = text(&output.stdout);
    let (heads, rest) = said.split_once("\n\n").expect("two heads");
    assert!(heads.starts_with(&format!("before: {before}, ")), "{heads}");
    assert!(heads.contains(&format!("\nafter:  {after}, ")), "{heads}");
    (rest.to_owned(), output.status.code().expect("a status"))
}

/// What is said where these calls more are made.
fn changed(calls: &str) -> String {
    let (said, status) = said(ROW, &(ROW.to_owned() + calls), &[]);
    assert_eq!(status, 1, "{said}");
    said
}

/// The lines of a group, which is there.
fn group<'a>(said: &'a str, name: &str) -> Vec<&'a str> {
    let mut lines = said.lines();
    assert!(lines.any(|line| line.starts_with(name)), "{said}");
    lines.map_while(|line| line.strip_prefix("  ")).collect()
}

#[test]
fn the_same_network() {
    let same = "the same network: settings, cables and ways\n9 of 9 arrived, before and now\n";
    assert_eq!(said(ROW, ROW, &[]), (same.to_owned(), 0));
    // Another order of calls, and a setting that is set to what it is.
    let other = ROW.replace("set 1 number 0 1\nset 2 number 0 2\n", "");
    let other = other + "set 2 number 0 2\nset 1 number 0 1\nset 0 width 0 3\n";
    assert_eq!(said(ROW, &other, &[]), (same.to_owned(), 0));
}

/// Tokens, credit and aims are no settings. They are not compared, and that they differ is said.
#[test]
fn what_is_under_way() {
    let own = "aim 0 3 channel 0 7 0\noutput 0 3 data 5\n";
    let over = "aim 0 3 channel 1 7 0\noutput 0 3 control 1\nsteps 5 0 8 0 8 0 8 0 8 0 8\n\
                line 0 0\nline 0 0\nline 0 0\nline 0 0\nsteps 2 1 1 1 1\ninput 1 7 control\n";
    // A credit that has not arrived, for a link that has its greeting once more.
    let on_line = "set 1 hello 0 0\nline 1 0\n";
    for (sent, where_it_differs) in [
        (own, "board 0"),
        (over, "board 0"),
        (on_line, "boards 1..2"),
    ] {
        let (said, status) = said(ROW, &(ROW.to_owned() + sent), &[]);
        assert_eq!(status, 0, "{said}");
        assert!(
            said.starts_with("the same network: settings, cables and ways\n"),
            "{said}"
        );
        let other =
            format!("not compared: what is under way, which differs on {where_it_differs}\n");
        assert!(said.ends_with(&other), "{said}");
    }
}

/// What is under way may keep an END waiting, which is a way that differs.
#[test]
fn what_is_waited_for() {
    let said = changed("aim 0 3 channel 1 7 0\noutput 0 3 data 5\nsteps 2 0 8 0 8\n");
    let lost =
        "from board 0 to numbers 1..2: Waiting at board 0 port 9 (from the tile), for link A, in \
                use by port 8 (from the tile)";
    assert_eq!(
        group(&said, "arrived before and do not now, 2 of 9:"),
        [lost]
    );
}

#[test]
fn each_setting() {
    let cases = [
        ("set 1 number 0 9\n", "board 1: number 1, now number 9"),
        (
            "set 2 width 0 1\n",
            "board 2: three-byte headers, now one-byte headers",
        ),
        (
            "set 1 direction 0 5\n",
            "board 1: bit 0 leads to direction 2 (link B), now to direction 5 (no enabled link)",
        ),
        (
            "set 1 direction 3 2\nset 1 direction 4 2\nset 1 direction 6 2\n",
            "board 1: bits 3..4 6 lead to direction 0 (link A), now to direction 2 (link B)",
        ),
        (
            "set 2 enable 3 1\n",
            "board 2 link D: disabled, now enabled",
        ),
        (
            "set 0 linkdirection 3 4\n",
            "board 0 link D: direction 0, now direction 4",
        ),
        (
            "set 0 network 7 3\n",
            "board 0 link H: network 0, now network 3",
        ),
    ];
    for (calls, expected) in cases {
        assert_eq!(group(&changed(calls), "settings that differ:"), [expected]);
    }
}

/// A link that is disabled and enabled again has lost its greeting, and so has the far end.
#[test]
fn a_hello_that_was_not_said() {
    let calls = "set 0 enable 0 0\nset 0 enable 0 1\nset 1 hello 1 0\nline 1 1\nline 0 0\n";
    let said = changed(calls);
    let settings = ["board 0 link A: greeted, now not greeted"];
    assert_eq!(group(&said, "settings that differ:"), settings);
    let lost =
        "from board 0 to numbers 1..2: Waiting at board 0 port 8 (from the tile), for credit \
                on link A, which has not said HELLO to an enabled link";
    assert_eq!(
        group(&said, "arrived before and do not now, 2 of 9:"),
        [lost]
    );
    assert!(said.ends_with("\n9 of 9 arrived before, 7 now\n"), "{said}");
}

/// What differs alike on several boards and links is one line.
#[test]
fn what_is_alike_is_told_once() {
    let links = |slot: usize| {
        let calls = [4, 5, 7].map(|link| format!("set {slot} enable {link} 1\n"));
        calls.concat()
    };
    let calls = format!(
        "{}{}set 0 width 0 1\nset 1 width 0 1\nset 2 width 0 1\n",
        links(0),
        links(2)
    );
    let expected = [
        "boards 0..2: three-byte headers, now one-byte headers",
        "boards 0 2 links E F H: disabled, now enabled",
    ];
    assert_eq!(group(&changed(&calls), "settings that differ:"), expected);
}

/// The second cable at other links of the same boards.
#[test]
fn cables_and_ways() {
    let other = ROW.replace("wire 1 0 2 1", "wire 1 2 2 3");
    let calls = "set 1 enable 2 1\nset 2 enable 3 1\nset 1 hello 2 0\nline 1 2\nline 2 3\n\
                 set 2 hello 3 0\nline 2 3\nline 1 2\n\
                 set 1 enable 0 0\nset 2 enable 1 0\n";
    let (said, status) = said(ROW, &(other + calls), &[]);
    assert_eq!(status, 1);
    let cables = [
        "board 1 link A to board 2 link B: gone",
        "board 1 link C to board 2 link D: new",
    ];
    assert_eq!(group(&said, "cables that differ:"), cables);
    let ways = [
        "from board 0 to number 2: before board 0 link A, board 1 link A, board 2; \
         now board 0 link A, board 1 link C, board 2",
        "from board 1 to number 2: before board 1 link A, board 2; now board 1 link C, board 2",
        "from board 2 to number 0: before board 2 link B, board 1 link B, board 0; \
         now board 2 link D, board 1 link B, board 0",
        "from board 2 to number 1: before board 2 link B, board 1; now board 2 link D, board 1",
    ];
    assert_eq!(group(&said, "go another way, 4 of 9:"), ways);
    assert!(
        said.ends_with("\n9 of 9 arrived, before and now\n"),
        "{said}"
    );
}

/// A board's new number is sent to as well as its old one, on both networks.
#[test]
fn a_number_that_moves() {
    let said = changed("set 2 number 0 4\n");
    let lost = group(&said, "arrived before and do not now, 3 of 12:");
    assert!(lost[0].starts_with("from board 0 to number 2: "), "{said}");
    let gained = group(&said, "arrive now and did not before, 3 of 12:");
    assert!(
        gained[0].starts_with("from board 0 to number 4: before "),
        "{said}"
    );
}

/// Neither arrived, each for a reason of its own.
#[test]
fn another_reason() {
    let before = ROW.to_owned() + "set 0 enable 0 0\n";
    let after = ROW.to_owned() + "set 1 width 0 1\n";
    let (said, _) = said(&before, &after, &[]);
    let ends = "from board 0 to numbers 1..2: before NoRoute at board 0, no enabled link of that \
                network leads there; now Split at board 1, a header of three bytes, read at one byte";
    assert!(group(&said, "end otherwise").contains(&ends), "{said}");
}

#[test]
fn more_boards_and_fewer() {
    let five = ROW.replace("blank 3 2496 lines 1584", "blank 5 4160 lines 2640");
    for (before, after, what) in [(ROW, five.as_str(), "new"), (&five, ROW, "gone")] {
        let (said, status) = said(before, after, &[]);
        assert_eq!(status, 1);
        let expected = [format!("boards 3..4: {what}")];
        assert_eq!(group(&said, "settings that differ:"), expected);
        assert!(
            said.ends_with("\n9 of 9 arrived, before and now\n"),
            "{said}"
        );
    }
}

/// To another channel, and on another network, other ways are found.
#[test]
fn another_channel_and_network() {
    let enable = "set 0 enable 0 1\n";
    let other = ROW.replace(enable, &format!("set 0 network 0 1\n{enable}"));
    let (on_0, _) = said(ROW, &other, &["7"]);
    let why = "NoRoute at board 0, no enabled link of that network leads there";
    let lost = [format!("from board 0 to numbers 1..2: {why}")];
    assert_eq!(group(&on_0, "arrived before and do not now, 2 of 9:"), lost);
    let (on_1, _) = said(ROW, &other, &["7", "1"]);
    let gained = [format!("from board 0 to numbers 1..2: before {why}")];
    assert_eq!(
        group(&on_1, "arrive now and did not before, 2 of 9:"),
        gained
    );
    let (control, status) = said(ROW, ROW, &["control"]);
    assert_eq!(status, 0, "{control}");
}

/// Two boards with two cables, on which a number that neither has goes round, out by one link of each
/// and in by the other; and a third board, of that number, without a cable.
fn round(out: usize, back: usize) -> String {
    let mut script = "blank 3 2496 lines 1584\nset 1 number 0 1\nset 2 number 0 8\n".to_owned();
    for link in [0, 1] {
        script +=
            &format!("wire 0 {link} 1 {link}\nset 0 enable {link} 1\nset 1 enable {link} 1\n");
        script += &format!("set 0 hello {link} 0\nline 0 {link}\nline 1 {link}\n");
        script += &format!("set 1 hello {link} 0\nline 1 {link}\nline 0 {link}\n");
    }
    script + &format!("set 0 linkdirection {back} 1\nset 1 linkdirection {out} 1\n")
}

/// Only the first time round is told.
#[test]
fn a_way_round() {
    let (said, status) = said(&round(0, 1), &round(1, 0), &[]);
    assert_eq!(status, 1);
    let way = "from board 0 to number 8: before board 0 link A, board 1 link B, board 0 link A, and round \
               again; now board 0 link B, board 1 link A, board 0 link B, and round again";
    assert!(group(&said, "go another way").contains(&way), "{said}");
}

#[test]
fn what_cannot_be_compared() {
    let (good, none) = (script_file(ROW), script_file("blank 17 0 lines 0\n"));
    let bad = script_file("jump\n");
    let cases = [
        (&none, "no network: no fresh or blank of it succeeds"),
        (&bad, "line 1, column 1: expected fresh, "),
        (&"no-such-file".to_owned(), "No such file"),
    ];
    for (other, expected) in cases {
        for words in [["diff", &good, other], ["diff", other, &good]] {
            let output = bench(&words);
            assert_eq!(output.status.code(), Some(2), "{words:?}");
            assert_eq!(text(&output.stdout), "");
            let complaint = text(&output.stderr);
            assert!(
                complaint.starts_with(&format!("{other}: {expected}")),
                "{complaint}"
            );
        }
    }
}
