//! What `show`, `route` and `matrix` say of states that no example has: every wait, every ending.

mod common;

use std::sync::atomic::{AtomicUsize, Ordering};

use common::{bench, file, text};

/// Two boards, numbers 0 and 1, a cable between links A, greeted at both ends.
const TWO_BOARDS: &str =
    "blank 2 1664 lines 1056\nset 1 number 0 1\nwire 0 0 1 0\nset 0 enable 0 1\n\
                          set 1 enable 0 1\nset 0 hello 0 0\nline 0 0\nline 1 0\n\
                          set 1 hello 0 0\nline 1 0\nline 0 0\n";

/// One board of number 0.
const ONE_BOARD: &str = "blank 1 832 lines 528\n";

/// The same as the boot ROM leaves it.
const BOOTED_BOARD: &str = "fresh 1 832 lines 528\n";

fn times(count: usize, line: &str) -> String {
    format!("{line}\n").repeat(count)
}

fn on_two(calls: &str) -> String {
    TWO_BOARDS.to_owned() + calls
}

fn on_one(calls: &str) -> String {
    ONE_BOARD.to_owned() + calls
}

/// A file of its own for each script: tests run side by side.
fn script_file(script: &str) -> String {
    static COUNT: AtomicUsize = AtomicUsize::new(0);
    let count = COUNT.fetch_add(1, Ordering::Relaxed);
    file(&format!("answers-{count}.txt"), script)
}

/// What a verb prints of a script.
fn said(verb: &str, script: &str, more: &[&str]) -> String {
    let path = script_file(script);
    let output = bench(&[&[verb, path.as_str()], more].concat());
    assert_eq!(text(&output.stderr), "");
    text(&output.stdout)
}

/// The one wait that `show` finds.
fn wait(script: &str) -> String {
    let shown = said("show", script, &[]);
    let mut waits = shown.lines().filter(|line| line.contains(": waits "));
    let wait = waits.next().unwrap_or_else(|| panic!("no wait:\n{shown}"));
    assert_eq!(waits.next(), None);
    wait.to_owned()
}

fn assert_wait(script: &str, expected: &str) {
    assert_eq!(wait(script), expected);
}

#[test]
fn a_short_header_waits_for_its_rest() {
    let script = "aim 0 0 channel 1 7 0\noutput 0 0 data 5\nstep 0 8\nstep 0 8\nline 0 0\n";
    assert_wait(
        &on_two(script),
        "board 1 port 0 (in by link A): waits for the rest of its header",
    );
}

/// All candidates are named, by the proved bench's own routing, and who has them.
#[test]
fn a_header_waits_for_its_links() {
    let script = "set 0 enable 2 1\nset 0 enable 5 1\nset 0 enable 6 1\nset 0 linkdirection 6 1\n\
                  aim 0 0 channel 1 0 0\naim 0 1 channel 1 0 0\naim 0 2 channel 1 0 0\n\
                  output 0 0 data 1\noutput 0 1 data 1\noutput 0 2 data 1\nstep 0 8\nstep 0 9\n";
    let shown = said("show", &on_one(script), &[]);
    let wait =
        "board 0 port 10 (from the tile): waits for link C (no cable), in use by port 8 (from the \
                tile) or link F (no cable), in use by port 9 (from the tile)\n";
    assert!(shown.contains(wait), "{shown}");
}

#[test]
fn a_circuit_waits_for_credit() {
    let sent = "aim 0 0 channel 1 7 0\noutput 0 0 data 5\nstep 0 8\n";
    let place = "board 0 port 8 (from the tile): waits for credit on link A,";
    let cases = [
        ("", "which has no cable"),
        ("wire 0 0 1 0\n", "the other end of its cable is disabled"),
        (
            "wire 0 0 1 0\nset 1 enable 0 1\n",
            "which has not said HELLO to an enabled link",
        ),
    ];
    let boards = "blank 2 1664 lines 1056\n";
    for (cable, lack) in cases {
        let script = format!("{boards}{cable}set 0 enable 0 1\nset 1 number 0 1\n{sent}");
        assert_wait(&script, &format!("{place} {lack}"));
    }
}

/// What has been sent for it and has not arrived is named: its HELLO, and the credit.
#[test]
fn a_circuit_waits_for_what_is_on_a_line() {
    let boards = "blank 2 1664 lines 1056\nset 1 number 0 1\nwire 0 0 1 0\n\
                  set 0 enable 0 1\nset 1 enable 0 1\n";
    let sent = "aim 0 0 channel 1 7 0\noutput 0 0 data 5\nstep 0 8\nset 0 hello 0 0\n";
    let place = "board 0 port 8 (from the tile): waits for credit on link A,";
    let script = format!("{boards}{sent}");
    assert_wait(&script, &format!("{place} its HELLO is on the line"));
    let arrived = script.clone() + "line 0 0\n";
    assert_wait(&arrived, &format!("{place} which is on the line to it"));
    let shown = said("show", &script, &[]);
    assert!(shown.contains("board 0 link A: issued 0, 1 on its line: HELLO\n"));
    let shown = said("show", &arrived, &[]);
    assert!(shown.contains("board 0 link A: issued 0, nothing on its line\n"));
    assert!(shown.contains("board 1 link A: issued 64, 1 on its line: CREDIT64\n"));
}

/// Four messages for number 1, each from a port of its own, and what its first Step has done.
fn four_messages() -> String {
    let message = |end: usize| {
        let sent = format!("aim 0 {end} channel 1 0 0\noutput 0 {end} data 1\n");
        sent + &format!("step 0 {}\n", 8 + end)
    };
    (0..4).map(message).collect()
}

/// The links that Fresh leaves enabled are taken one by one, and each keeps its circuit waiting.
#[test]
fn circuits_of_a_fresh_board_wait_for_a_cable() {
    let shown = said("show", &(BOOTED_BOARD.to_owned() + &four_messages()), &[]);
    for (port, link) in (8..).zip(["E", "F", "G", "H"]) {
        let place = format!("board 0 port {port} (from the tile)");
        let wait = format!("{place}: waits for credit on link {link}, which has no cable\n");
        assert!(shown.contains(&wait), "{shown}");
    }
}

/// A header that finds all four taken waits for one of them; that they have no cable is said. It is
/// the reply to a message that names channel 3 of number 1 for it, and no more.
#[test]
fn a_header_of_a_fresh_board_waits_for_links_with_no_cable() {
    let message = "aim 0 0 control 0 0 0\noutput 0 0 control 0xC1\noutput 0 0 data 0\n\
                   output 0 0 data 1\noutput 0 0 data 3\noutput 0 0 control 1\n";
    let asked = message.to_owned() + &times(6, "step 0 8");
    let script = BOOTED_BOARD.to_owned() + &asked + &four_messages();
    let shown = said("show", &script, &[]);
    let wait = "board 0 port 12 (replies): waits for link E (no cable), in use by port 8 (from the \
                tile) or link F (no cable), in use by port 9 (from the tile) or link G (no cable), \
                in use by port 10 (from the tile) or link H (no cable), in use by port 11 (from the \
                tile)\n";
    assert!(shown.contains(wait), "{shown}");
}

/// The far port is full: nobody steps it on.
#[test]
fn a_circuit_waits_for_room_at_the_far_end() {
    let fill = times(61, "output 0 0 data 5\nstep 0 8");
    let script = format!("aim 0 0 channel 1 7 0\noutput 0 0 data 5\nstep 0 8\n{fill}");
    let rest = times(3, "step 0 8") + "output 0 0 data 5\n";
    let script = on_two(&(script + &rest));
    let wait = "waits for credit on link A, board 1 port 0 (in by link A) holds";
    for (arrived, held) in [
        (64, "64 tokens"),
        (63, "63 tokens, with 1 token on the line to it"),
        (0, "0 tokens, with 64 tokens on the line to it"),
    ] {
        let shown = said("show", &(script.clone() + &times(arrived, "line 0 0")), &[]);
        assert!(shown.contains(&format!("{wait} {held}\n")), "{shown}");
    }
}

#[test]
fn a_circuit_waits_for_room_in_a_channel_end() {
    let sent = times(9, "output 0 0 data 5");
    let steps = times(13, "step 0 8") + &times(12, "line 0 0") + &times(9, "step 1 0");
    assert_wait(
        &on_two(&format!("aim 0 0 channel 1 7 0\n{sent}{steps}")),
        "board 1 port 0 (in by link A): waits for channel-end 7, which holds 8 tokens",
    );
}

#[test]
fn a_header_waits_for_a_claimed_channel() {
    let own = "aim 1 3 channel 1 7 0\noutput 1 3 data 1\n";
    let sent = "aim 0 0 channel 1 7 0\noutput 0 0 data 5\n";
    assert_wait(
        &on_two(&format!(
            "{own}{sent}{}{}",
            times(5, "step 0 8"),
            times(4, "line 0 0")
        )),
        "board 1 port 0 (in by link A): waits for channel-end 7, which channel-end 3 has claimed",
    );
}

/// Headers for another number, which the board then takes as its own: four circuits use all tile
/// links, and the fifth, a reply-free message by link A, waits.
#[test]
fn a_header_waits_for_a_tile_link() {
    let mut script = on_two("set 1 number 0 9\n");
    for end in 0..4 {
        script += &format!("aim 1 {end} channel 1 {end} 0\noutput 1 {end} data 5\n");
    }
    script += "set 1 number 0 1\n";
    for port in 8..12 {
        script += &times(2, &format!("step 1 {port}"));
    }
    script += "aim 0 0 channel 1 7 0\noutput 0 0 data 5\n";
    script += &times(5, "step 0 8");
    script += &times(4, "line 0 0");
    assert_wait(
        &script,
        "board 1 port 0 (in by link A): waits for a tile link, all four are in use",
    );
}

#[test]
fn a_header_waits_for_the_control_unit() {
    let message = |end: usize, port: usize| {
        let sent = format!("aim 1 {end} control 1 0 0\noutput 1 {end} control 0xC1\n");
        sent + &times(2, &format!("step 1 {port}"))
    };
    let script = on_two(&(message(0, 8) + &message(1, 9)));
    assert_wait(
        &script,
        "board 1 port 9 (from the tile): waits for the control unit, which is at another message",
    );
    let shown = said("show", &script, &[]);
    let hears = "board 1 control unit: hears port 8 (from the tile), 1 token so far\n";
    assert!(shown.contains(hears), "{shown}");
}

/// The last line that `route` prints.
fn ending(script: &str, question: &str) -> String {
    let words: Vec<&str> = question.split(' ').collect();
    let said = said("route", script, &words);
    let last = said.lines().last().expect("a last line");
    last.to_owned()
}

/// After Fresh an END for another number takes a link and waits, after blank it has none.
#[test]
fn an_end_on_a_board_that_nobody_has_set() {
    let waits =
        "ends: Waiting at board 0 port 8 (from the tile), for credit on link E, which has no \
                 cable";
    let no_way = "ends: NoRoute at board 0, no enabled link of that network leads there";
    for (start, expected) in [(BOOTED_BOARD, waits), (ONE_BOARD, no_way)] {
        assert_eq!(ending(start, "0 1 7"), expected);
    }
    assert_eq!(ending(BOOTED_BOARD, "0 1 7 1"), no_way, "on network 1");
}

/// Four links that the boot ROM leaves enabled are one line, and the bits that lead to them another.
#[test]
fn a_board_that_nobody_has_set_is_shown_in_few_lines() {
    let board = "board 0: number 0, three-byte headers\n";
    assert_eq!(said("show", ONE_BOARD, &[]), board);
    let fresh = "board 0: bits 0..15 lead to direction 0, links E F G H\n\
                 board 0 links E F G H: enabled, direction 0, network 0, no cable\n";
    assert_eq!(said("show", BOOTED_BOARD, &[]), board.to_owned() + fresh);
}

/// Links share a line where all that is said of them is the same, and they have no cable.
#[test]
fn links_that_are_alike_share_a_line() {
    let calls = "set 0 linkdirection 5 2\nset 0 enable 7 0\nset 0 linkdirection 1 3\n\
                 set 0 linkdirection 2 3\nset 0 enable 3 1\nwire 0 4 0 0\nset 0 enable 0 1\n";
    let shown = said("show", &(BOOTED_BOARD.to_owned() + calls), &[]);
    let lines = shown.lines().filter(|line| line.contains(" link"));
    let expected = [
        "board 0: bits 0..15 lead to direction 0, links A D E G",
        "board 0 link A: cable to board 0 link E",
        "board 0 link A: enabled, direction 0, network 0",
        "board 0 link A: not greeted, so no credit",
        "board 0 link A: issued 0, nothing on its line",
        "board 0 links B C: disabled, direction 3, network 0",
        "board 0 links D G: enabled, direction 0, network 0, no cable",
        "board 0 link E: cable to board 0 link A",
        "board 0 link E: enabled, direction 0, network 0",
        "board 0 link E: not greeted, so no credit",
        "board 0 link E: issued 0, nothing on its line",
        "board 0 link F: enabled, direction 2, network 0, no cable",
    ];
    assert!(lines.eq(expected), "{shown}");
}

/// A picture has links with no cable where somebody has set them or a circuit is open by them.
#[test]
fn a_picture_leaves_out_links_with_no_cable() {
    let rows = |calls: &str| {
        let drawn = said("draw", &(BOOTED_BOARD.to_owned() + calls), &[]);
        let rows: Vec<String> = drawn.split('>').map(str::to_owned).collect();
        let links = rows.into_iter().filter(|row| row.starts_with("link "));
        links.collect::<Vec<_>>()
    };
    assert!(rows("").is_empty());
    let set = "link F: enabled, direction 2, network 0, no cable</td";
    assert_eq!(rows("set 0 linkdirection 5 2\n"), [set]);
    let sent = "aim 0 0 channel 1 7 0\noutput 0 0 data 5\n";
    assert!(rows(sent).is_empty());
    let used = "link E: enabled, direction 0, network 0, no cable</td";
    assert_eq!(rows(&format!("{sent}step 0 8\n")), [used]);
}

/// The number of every refusal that an END can meet.
#[test]
fn what_is_not_sent_is_refused_by_number() {
    let taken: String = (0..4)
        .map(|end| format!("aim 0 {end} channel 1 0 0\noutput 0 {end} data 1\n"))
        .collect();
    let open: String = (0..32)
        .map(|end| {
            format!(
                "aim 0 {end} channel 0 {} 0\noutput 0 {end} data 1\n",
                31 - end
            )
        })
        .collect();
    let cases = [
        ("", "2 0 0", "Aim is refused, no 2, NoSuch"),
        ("", "0 65536 0", "Aim is refused, no 3, Value"),
        (&open, "0 1 0", "Aim is refused, no 6, Open"),
        (
            "set 0 width 0 1\n",
            "0 1 255",
            "Output is refused, no 9, Narrow",
        ),
        (&taken, "0 1 0", "Output is refused, no 10, Full"),
    ];
    for (calls, question, expected) in cases {
        assert_eq!(
            ending(&on_two(calls), question),
            format!("ends: {expected}")
        );
    }
}

/// Three bits are compared at one byte: number 9 is taken by a board of number 1.
#[test]
fn elsewhere_is_a_board_of_another_number() {
    let script = on_two("set 0 width 0 1\nset 1 width 0 1\n");
    let got = "ends: Elsewhere, at board 1 of number 1, channel-end 7";
    assert_eq!(ending(&script, "0 9 7"), got);
    let own = "ends: Elsewhere, at board 1 of number 1, channel-end 6";
    assert_eq!(ending(&script, "1 9 6"), own);
}

/// Two boards of one number: the number is reached, and the csv tells that the first board got it.
#[test]
fn the_first_of_two_boards_of_a_number_gets_it() {
    let script = on_two("set 0 number 0 6\nset 1 number 0 6\n");
    assert_eq!(
        ending(&script, "0 6 7"),
        "ends: arrived at board 0, channel-end 7"
    );
    let table = said("matrix", &script, &["7"]);
    assert!(
        table.contains("from board 0, number 6  arrived  arrived\n"),
        "{table}"
    );
    let csv = said("matrix", &script, &["--csv"]);
    assert!(csv.contains("\n0,6,1,6,arrived,0\n"), "{csv}");
}

/// Tokens of another stream before it, which are moved on first, are not taken for its own.
#[test]
fn a_stream_before_it_is_not_taken_for_it() {
    let sent = "aim 0 0 channel 1 3 0\noutput 0 0 data 1\noutput 0 0 control 1\n";
    let script = on_two(&(sent.to_owned() + &times(6, "step 0 8")));
    assert_eq!(
        ending(&script, "0 1 7"),
        "ends: arrived at board 1, channel-end 7"
    );
    let beyond = "ends: NoRoute at board 1, no enabled link of that network leads there";
    let away = on_two("set 1 linkdirection 0 5\n") + sent + &times(6, "step 0 8");
    assert_eq!(ending(&away, "0 3 7"), beyond);
}

/// A cable between two links of one board: what leaves by B comes in by A of the same board.
#[test]
fn a_cable_of_one_board_leads_back_to_it() {
    let script = on_one(
        "wire 0 0 0 1\nset 0 enable 0 1\nset 0 enable 1 1\nset 0 hello 0 0\nline 0 0\nline 0 1\n\
         set 0 hello 1 0\nline 0 1\nline 0 0\nset 0 linkdirection 0 4\n",
    );
    assert_eq!(ending(&script, "0 1 0"), "ends: Steps, after 65536 of them");
}

#[test]
fn the_sink_and_the_control_unit_arrive() {
    let script = on_two("");
    assert_eq!(
        ending(&script, "0 1 255"),
        "ends: arrived at board 1, the sink"
    );
    assert_eq!(
        ending(&script, "0 1 control"),
        "ends: arrived at board 1, the control unit"
    );
    assert_eq!(
        ending(&script, "1 1 control"),
        "ends: arrived at board 1, the control unit"
    );
}

/// A script that makes no network has nothing to show.
#[test]
fn no_network_is_no_answer() {
    let path = script_file("fresh 17 0 lines 0\nblank 17 0 lines 0\n");
    for words in [&["show", &path][..], &["draw", &path], &["matrix", &path]] {
        let output = bench(words);
        assert_eq!(output.status.code(), Some(2));
        assert_eq!(text(&output.stdout), "");
        let expected = format!("{path}: no network: no fresh or blank of it succeeds\n");
        assert_eq!(text(&output.stderr), expected);
    }
}

#[test]
fn what_is_no_question_is_named() {
    let path = script_file(ONE_BOARD);
    let cases = [
        (
            &["route", &path, "0", "1"][..],
            "expected a channel of 32 bits, or control, found nothing",
        ),
        (&["route", &path, "x", "1", "2"], "expected a slot, found x"),
        (
            &["route", &path, "0", "1", "2", "3", "4"],
            "expected no more words, found 4",
        ),
        (
            &["matrix", &path, "0", "x"],
            "expected a network of 32 bits, found x",
        ),
        (&["matrix", "--csv"], "usage: bench tell FILE"),
        (&["draw", &path, "x"], "usage: bench tell FILE"),
        (&["diff", &path], "usage: bench tell FILE"),
        (
            &["diff", &path, &path, "x"],
            "expected a channel of 32 bits, or control, found x",
        ),
        (
            &["diff", &path, &path, "0", "0", "0"],
            "expected no more words, found 0",
        ),
        (&["help", "dance"], "usage: bench tell FILE"),
    ];
    for (words, expected) in cases {
        let output = bench(words);
        assert_eq!(output.status.code(), Some(2), "{words:?}");
        let complaint = text(&output.stderr);
        assert!(complaint.starts_with(expected), "{complaint}");
    }
}

/// Every verb has its help, which names its form and its exit statuses.
#[test]
fn each_verb_has_help() {
    let verbs = [
        "run", "check", "show", "route", "matrix", "draw", "diff", "probe", "capture",
    ];
    for verb in verbs {
        let help = bench(&[verb, "--help"]);
        assert!(help.status.success());
        let said = text(&help.stdout);
        assert!(said.starts_with(&format!("bench {verb} ")), "{said}");
        assert!(said.contains("Exit status: 0 "), "{said}");
        assert_eq!(bench(&["help", verb]).stdout, help.stdout);
    }
}
