//! `bench probe` and `bench capture`: what they print, what they refuse, and what they say of words
//! and files that are not what they should be.
//!
//! What they print of the files in `examples/probe` stands in `examples/probe/expected.txt`. To write
//! it anew, with the VCD beside it, and see what changed:
//!
//! ```text
//! REFRESH=1 cargo test --manifest-path rust/Cargo.toml --release --offline -p script --test probe
//! git diff examples/probe
//! ```

mod common;

use std::io::Write;
use std::path::{Path, PathBuf};
use std::process::{Command, Output, Stdio};
use std::sync::atomic::{AtomicUsize, Ordering};

use common::{bench, file, text, unread};

const WIRES: [&str; 5] = ["wire0", "wire1", "wire2", "wire3", "wire4"];

fn folder() -> PathBuf {
    Path::new(env!("CARGO_MANIFEST_DIR")).join("../../examples")
}

/// Runs the command in the folder of the examples, with this on its standard input.
fn run(words: &[&str], incoming: &[u8]) -> Output {
    let mut command = Command::new(env!("CARGO_BIN_EXE_bench"));
    command.args(words).current_dir(folder());
    let pipes = command.stdin(Stdio::piped()).stdout(Stdio::piped());
    let mut child = pipes.stderr(Stdio::piped()).spawn().expect("the command");
    let mut pipe = child.stdin.take().expect("its input");
    // One that does not read what comes in may be gone before it has come.
    let _ = pipe.write_all(incoming);
    drop(pipe);
    child.wait_with_output().expect("its end")
}

/// What is typed in the folder of the examples, and what comes in before.
#[rustfmt::skip]
const TYPED: [(&str, &str); 26] = [
    ("probe --help", ""),
    ("capture --help", ""),
    ("probe port half-update.txt 0 1 serial", ""),
    ("probe port half-update.txt 0 1 fast", ""),
    ("probe port half-update.txt 0 2 fast", ""),
    ("probe port half-update.txt 4 1 fast", ""),
    ("probe port half-update.txt 0 13 fast", ""),
    ("probe line half-update.txt 0 1 fast", ""),
    ("probe line half-update.txt 0 8 fast", ""),
    ("probe write serial", "data 42 control 1"),
    ("probe write fast", "control 0x09 control 1"),
    ("probe write fast", "data 7 control 252"),
    ("probe read serial", "0010101001 0000000110"),
    ("probe read fast", "0214 4401 4332"),
    ("probe read fast", "0214 0014"),
    ("probe read fast", "0214 44"),
    ("probe check probe/papers-serial.txt", ""),
    ("probe check probe/papers-fast.txt", ""),
    ("probe tokens probe/reply.vcd fast wire0 wire1 wire2 wire3 wire4", ""),
    ("probe tokens probe/reply.csv fast wire0 wire1 wire2 wire3 wire4", ""),
    ("probe tokens probe/reply.csv fast wire4 wire1 wire2 wire3 wire0", ""),
    ("probe tokens probe/together.csv serial D0 D1", ""),
    ("capture update-message.txt 1 0 fast", ""),
    ("capture update-message.txt 1 0 serial", ""),
    ("capture update-message.txt 1 1 fast", ""),
    ("capture update-message.txt 2 0 fast", ""),
];

/// A command as it is typed, what it prints, on either way out, and its exit status.
fn said((typed, incoming): (&str, &str)) -> String {
    let words: Vec<&str> = typed.split(' ').collect();
    let output = run(&words, incoming.as_bytes());
    let before = match incoming {
        "" => String::new(),
        _ => format!("echo '{incoming}' | "),
    };
    let status = output.status.code().expect("a status");
    let (printed, complaint) = (text(&output.stdout), text(&output.stderr));
    format!("$ {before}bench {typed}\n{printed}{complaint}exit status {status}\n")
}

/// Holds what was found to a file, or, where REFRESH is set, writes the file.
fn hold(name: &str, found: &str) {
    let path = folder().join("probe").join(name);
    if std::env::var_os("REFRESH").is_some() {
        std::fs::write(&path, found).expect("a file to write");
    }
    let expected = std::fs::read_to_string(&path).unwrap_or_default();
    for (line, (one, other)) in (1..).zip(found.lines().zip(expected.lines())) {
        assert_eq!(one, other, "examples/probe/{name}, line {line}");
    }
    assert_eq!(found, expected, "examples/probe/{name}");
}

#[test]
fn what_is_typed_prints_what_is_expected() {
    let found = TYPED.map(said).join("\n");
    hold("expected.txt", &found);
}

#[test]
fn a_capture_as_vcd() {
    let output = run(
        &["capture", "update-message.txt", "1", "0", "fast", "--vcd"],
        b"",
    );
    assert_eq!(output.status.code(), Some(0), "{}", text(&output.stderr));
    hold("reply.vcd", &text(&output.stdout));
}

/// A file of its own for each text: tests run side by side.
fn file_of(content: &str) -> String {
    static COUNT: AtomicUsize = AtomicUsize::new(0);
    let count = COUNT.fetch_add(1, Ordering::Relaxed);
    file(&format!("probe-{count}.txt"), content)
}

/// Exit status, what is printed and what is complained of, each without the name of the file.
fn answer(words: &[&str], name: &str) -> (i32, String, String) {
    let output = bench(words);
    let without = |bytes: &[u8]| text(bytes).replace(&format!("{name}: "), "");
    let status = output.status.code().expect("a status");
    (status, without(&output.stdout), without(&output.stderr))
}

/// What is read from a recording in serial, by wires a and b.
fn recorded(content: &str) -> (i32, String, String) {
    let path = file_of(content);
    answer(&["probe", "tokens", &path, "serial", "a", "b"], &path)
}

/// Data 0 and its times as CSV: wire 0 ten times.
const DATA_0: &str = "a,b\n0,0\n1,0\n0,0\n1,0\n0,0\n1,0\n0,0\n1,0\n0,0\n1,0\n0,0\n";

fn read_as(tokens: &str) -> (i32, String, String) {
    (0, format!("{tokens}\n"), String::new())
}

#[test]
fn recordings_as_csv() {
    assert_eq!(recorded(DATA_0), read_as("data 0"));
    // Levels are no matter: the same of wires that start high.
    let high = DATA_0.replace(",0\n", ",1\n");
    assert_eq!(recorded(&high), read_as("data 0"));
    // Ends of lines of either kind, blanks, quotes, comments, other columns and lines without a change.
    let dressed = DATA_0.replace('\n', " , 7\r\n").replace("1,0", "1,0 ,");
    let dressed = dressed.replace("1,0 , , 7", "1,0,7\r\n1 , 0 , 8");
    let dressed = dressed.replace("a,b , 7", "; by hand\r\n\r\n# too\r\nMETA\r\n\"a\", b ,c");
    assert_eq!(recorded(&dressed), read_as("data 0"));
    let marked = format!("\u{feff}{DATA_0}");
    assert_eq!(recorded(&marked), read_as("data 0"));
    // Nothing changes, or nothing is there.
    for still in ["a,b\n", "a,b\n1,1\n1,1\n"] {
        assert_eq!(recorded(still), (0, String::new(), String::new()));
    }
}

/// The same transitions as VCD: what is declared, then time and level of wire a.
fn vcd(head: &str, start: &str) -> String {
    let mut text = format!("{head}$enddefinitions $end\n{start}");
    for count in 1..=10 {
        text += &format!("#{} {}!\n", count * 3, count % 2);
    }
    text
}

const TWO_WIRES: &str = "$timescale 10 us $end $var wire 1 ! a $end $var wire 1 \" b $end ";

#[test]
fn recordings_as_vcd() {
    let starts = [
        "",
        "#0\n0! 0\"\n",
        "#0 $dumpvars 0! 0\" $end\n",
        "$dumpvars\nb0 !\nb0000 \"\n$end\n",
        "$comment #7 1! $end #0 0! r1.5 # stext $ 1\"\n",
    ];
    for start in starts {
        let said = recorded(&vcd(TWO_WIRES, start));
        assert_eq!(said, read_as("data 0"), "{start}");
    }
    // Of an unknown level the first that is known is where the wire starts: nine transitions.
    let unknown = recorded(&vcd(TWO_WIRES, "#0 x! z\"\n"));
    assert_eq!(unknown, (1, String::new(), "cut, time 300 us\n".to_owned()));
    // Other variables, scopes, bits of a word, and a line of another program's before it all.
    let head = "META samplerate: 1\n$date today $end $version v $end\n\
                $scope module top $end $scope module in $end $var wire 1 ! a $end $upscope $end\n\
                $var reg 8 ' a $end $var wire 1 \" w [3] $end $var string 1 s b $end $upscope $end\n";
    let path = file_of(&vcd(head, ""));
    for (one, other) in [("a", "w[3]"), ("in.a", "top.w[3]"), ("top.in.a", "w[3]")] {
        let said = answer(&["probe", "tokens", &path, "serial", one, other], &path);
        // A string of one bit is declared as b: it is no wire here, and a is not the word a.
        assert_eq!(said, read_as("data 0"), "{one} {other}");
    }
}

/// What a recording is refused for, with its time: exit status 1.
#[test]
fn recordings_that_are_refused() {
    let csv = DATA_0.replacen("1,0", "1,1", 1);
    let timed = csv.replace("a,b", "a,b,TIME").replace("1,1", "1,1,0.5");
    // The tenth transition on the wrong wire.
    let odd = format!("{}1,1\n", &DATA_0[..DATA_0.len() - 4]);
    let vcd_of = |changes: &str| vcd(TWO_WIRES, &format!("#0 0! 0\"\n#1 {changes}\n"));
    let cases = [
        (csv, "line 3: a and b change at one instant"),
        (timed, "line 3, time 0.5: a and b change at one instant"),
        (
            vcd_of("1! 1\""),
            "time 10 us: a and b change at one instant",
        ),
        (
            vcd_of("1!\n#1 1\""),
            "time 10 us: a and b change at one instant",
        ),
        (vcd_of("x!"), "time 10 us: a is neither high nor low"),
        (vcd_of("b101 \""), "time 10 us: b is neither high nor low"),
        (vcd_of("1\""), "bad 0, time 10 us"),
        (vcd_of("1! 0!").replace("#30 0!\n", ""), "cut, time 270 us"),
        (odd, "bad 0, line 3"),
        (DATA_0.replacen("1,0\n0,0\n", "", 1), "cut, line 10"),
    ];
    for (content, expected) in cases {
        let refused = (1, String::new(), format!("{expected}\n"));
        assert_eq!(recorded(&content), refused, "{content}");
    }
}

/// A wire that goes there and back at one instant has not changed: an instant is what it ends with.
#[test]
fn there_and_back_at_one_instant() {
    let blip = vcd(TWO_WIRES, "#0 0! 0\"\n#1 1! 0!\n#2 1\" 0\"\n");
    assert_eq!(recorded(&blip), read_as("data 0"));
}

/// Files that are no recording: exit status 2, with the line.
#[test]
fn what_is_no_recording() {
    let declared = format!("{TWO_WIRES}$enddefinitions $end\n");
    let cases = [
        (
            String::new(),
            "line 1: expected the names of columns, found nothing",
        ),
        (
            "some text\n".to_owned(),
            "line 1: expected the names of columns, found nothing",
        ),
        ("a,c\n0,0\n".to_owned(), "no wire b"),
        ("a,b,a\n0,0,0\n".to_owned(), "2 wires are called a"),
        (
            "a,b\n0\n".to_owned(),
            "line 2: expected a level 0 or 1, found nothing",
        ),
        (
            "a,b\n0,0\n\n0,high\n".to_owned(),
            "line 4: expected a level 0 or 1, found high",
        ),
        (declared.replace("\" b", "\" c"), "no wire b"),
        (declared.replace("\" b", "\" a"), "2 wires are called a"),
        (declared.replace("1 \" b", "5 \" b"), "no wire b"),
        (
            "$enddefinitions\n".to_owned(),
            "line 1: expected $end, found nothing",
        ),
        (
            "$var wire $end $enddefinitions $end\n".to_owned(),
            "line 1: expected $var TYPE SIZE CODE NAME $end, found wire",
        ),
        (
            "$date\n$end\nfoo $enddefinitions $end".to_owned(),
            "line 3: expected a keyword, up to $enddefinitions, found foo",
        ),
        (
            declared.clone() + "#5\n#4\n",
            "line 3: expected a time of 5 or later behind #, found 4",
        ),
        (
            declared.clone() + "#-1\n",
            "line 2: expected a time of 0 or later behind #, found -1",
        ),
        (
            declared.clone() + "#99999999999999999999\n",
            "line 2: expected a time of 0 or later behind #, found 99999999999999999999",
        ),
        (
            declared.clone() + "#5\nhello\n",
            "line 3: expected a time or a value, found hello",
        ),
        (
            declared.clone() + "$scope\n",
            "line 2: expected a time or a value, found $scope",
        ),
        (
            declared.clone() + "#5 b101",
            "line 2: expected the code of a variable, found nothing",
        ),
        (
            declared.clone() + "#5 \u{e9}!",
            "line 2: expected a time or a value, found \u{e9}!",
        ),
    ];
    for (content, expected) in cases {
        let unread = (2, String::new(), format!("{expected}\n"));
        assert_eq!(recorded(&content), unread, "{content}");
    }
}

/// Which wires are named: two for serial, five for fast, each once.
#[test]
fn which_wires() {
    let path = file_of(DATA_0);
    let cases = [
        (&["serial"][..], "expected 2 wires for serial, found 0"),
        (&["serial", "a"], "expected 2 wires for serial, found 1"),
        (&["fast", "a", "b"], "expected 5 wires for fast, found 2"),
        (
            &["serial", "a", "a"],
            "expected each wire under a name of its own, found a",
        ),
    ];
    for (words, expected) in cases {
        let words = [&["probe", "tokens", &path], words].concat();
        let unread = (2, String::new(), format!("{expected}\n"));
        assert_eq!(answer(&words, &path), unread);
    }
}

/// Lines of a file for `probe check` that differ (exit status 1) or are none (2).
#[test]
fn checks_that_fail() {
    let cases = [
        (
            "fast\nread 0214 = control 8\n",
            1,
            "line 2: read 0214 gives control 9, stated is control 8",
        ),
        (
            "fast\nread 0214 = bad 0\n",
            1,
            "line 2: read 0214 gives control 9, stated is bad 0",
        ),
        (
            "fast\n\n// no\nread 0014 = data 1\n",
            1,
            "line 4: read 0014 gives bad 0, stated is data 1",
        ),
        (
            "fast\nread 02 = bad 0\n",
            1,
            "line 2: read 02 gives cut, stated is bad 0",
        ),
        (
            "fast\nread 02 = nosuch\n",
            1,
            "line 2: read 02 gives cut, stated is nosuch",
        ),
        (
            "fast\nread = nosuch\n",
            1,
            "line 2: read  gives nothing, stated is nosuch",
        ),
        (
            "fast\nread 4004 =\nread 4004 = data 0\n",
            1,
            "line 3: read 4004 gives nothing, stated is data 0",
        ),
        (
            "serial\nwrite data 0 = 0000000001\n",
            1,
            "line 2: write data 0 gives 0000000000, stated is 0000000001",
        ),
        (
            "fast\nwrite control 255 = 4333\n",
            1,
            "line 2: write control 255 gives bad 0, stated is 4333",
        ),
        ("", 2, "line 1: expected serial or fast, found nothing"),
        (
            "// only\n",
            2,
            "line 1: expected serial or fast, found nothing",
        ),
        (
            "\nquick\n",
            2,
            "line 2: expected serial or fast, found quick",
        ),
        (
            "fast serial\n",
            2,
            "line 1: expected no more words, found serial",
        ),
        (
            "fast\nread 0214\n",
            2,
            "line 2: expected = and what comes of it, found nothing",
        ),
        (
            "fast\nread 0x14 = cut\n",
            2,
            "line 2: expected a digit, the number of a wire, found x",
        ),
        (
            "fast\nsend 0214 = cut\n",
            2,
            "line 2: expected write or read, found send",
        ),
        (
            "fast\nread 0214 = 9\n",
            2,
            "line 2: expected data or control, found 9",
        ),
        (
            "fast\nread 0214 = bad\n",
            2,
            "line 2: expected a place, found nothing",
        ),
        (
            "fast\nread 0214 = cut 4\n",
            2,
            "line 2: expected no more words, found 4",
        ),
        (
            "fast\nwrite data 256 = 0\n",
            2,
            "line 2: expected a token value 0..255, found 256",
        ),
        (
            "fast\nwrite data = 0\n",
            2,
            "line 2: expected a token value 0..255, found nothing",
        ),
        // A bad line is found before any is asked.
        (
            "fast\nread 0214 = cut\nwrite\n",
            2,
            "line 3: expected = and what comes of it, found nothing",
        ),
    ];
    for (content, status, expected) in cases {
        let path = file_of(content);
        let found = answer(&["probe", "check", &path], &path);
        assert_eq!(
            found,
            (status, String::new(), format!("{expected}\n")),
            "{content}"
        );
    }
}

/// What comes in and is no tokens, or no digits, or no text.
#[test]
fn what_comes_in() {
    let cases: [(&[&str], &[u8], &str); 5] = [
        (
            &["probe", "write", "fast"],
            b"data 1 END",
            "expected data or control, found END",
        ),
        (
            &["probe", "write", "fast"],
            b"data -1",
            "expected a token value 0..255, found -1",
        ),
        (
            &["probe", "read", "fast"],
            b"0\x1b4",
            "expected a digit, the number of a wire, found \\u{1b}",
        ),
        (
            &["probe", "read", "serial"],
            b"01\n\xFF",
            "line 2: no text in UTF-8",
        ),
        (
            &["probe", "write", "serial"],
            b"\xFF",
            "line 1: no text in UTF-8",
        ),
    ];
    for (words, incoming, expected) in cases {
        let output = run(words, incoming);
        assert_eq!(output.status.code(), Some(2), "{words:?}");
        assert_eq!(text(&output.stdout), "");
        assert_eq!(
            text(&output.stderr),
            format!("standard input: {expected}\n")
        );
    }
    for form in ["serial", "fast"] {
        for verb in ["write", "read"] {
            let output = run(&["probe", verb, form], b" \n");
            assert!(output.status.success());
            assert_eq!(text(&output.stdout), "", "nothing in, nothing out");
        }
    }
}

/// More than a script may have, from standard input.
#[test]
fn too_much_comes_in() {
    let incoming = vec![b'0'; script::source::MOST_BYTES as usize + 1];
    let output = run(&["probe", "read", "serial"], &incoming);
    assert_eq!(output.status.code(), Some(2));
    let complaint = "standard input: more than 64 MiB, too long\n";
    assert_eq!(text(&output.stderr), complaint);
}

/// Words that ask for nothing: exit status 2, with what was expected or how it is written.
#[test]
fn what_is_not_asked() {
    let script = file_of("blank 1 832 lines 528\n");
    let none = file_of("blank 17 0 lines 0\n");
    let bad = file_of("jump\n");
    let port = |slot, port, form| ["probe", "port", &script, slot, port, form];
    let cases: [(&[&str], &str); 19] = [
        (&["probe"], "usage: bench "),
        (&["probe", "dance"], "usage: bench "),
        (&["probe", "write"], "usage: bench "),
        (&["probe", "write", "fast", "fast"], "usage: bench "),
        (&["probe", "check"], "usage: bench "),
        (&["capture"], "usage: bench "),
        (
            &["probe", "write", "quick"],
            "expected serial or fast, found quick",
        ),
        (
            &["probe", "port", &script],
            "expected a slot, found nothing",
        ),
        (&port("x", "0", "fast"), "expected a slot, found x"),
        (&port("0", "-1", "fast"), "expected a port, found -1"),
        (
            &port("0", "0", "quick"),
            "expected serial or fast, found quick",
        ),
        (
            &port("0 0", "0", "fast"),
            "expected serial or fast, found 0",
        ),
        (
            &["probe", "line", &script, "0"],
            "expected a link, found nothing",
        ),
        (
            &["capture", &script, "0", "0"],
            "expected serial or fast, found nothing",
        ),
        (
            &["capture", &script, "0", "0", "fast", "--csv"],
            "expected no more words, found --csv",
        ),
        (
            &["probe", "port", &none, "0", "0", "fast"],
            "no network: no fresh or blank of it succeeds",
        ),
        (
            &["capture", &none, "0", "0", "fast"],
            "no network: no fresh or blank of it succeeds",
        ),
        (
            &["capture", &bad, "0", "0", "fast"],
            "line 1, column 1: expected fresh, blank,",
        ),
        (&["probe", "check", "no-such-file"], "No such file"),
    ];
    for (words, expected) in cases {
        let output = bench(words);
        assert_eq!(output.status.code(), Some(2), "{words:?}");
        assert_eq!(text(&output.stdout), "", "{words:?}");
        let complaint = text(&output.stderr);
        assert!(complaint.contains(expected), "{words:?}: {complaint}");
    }
    let highest = "18446744073709551615";
    for words in [port(highest, highest, "fast"), port("0", highest, "fast")] {
        assert_eq!(bench(&words).status.code(), Some(2));
    }
}

/// Two boards and a cable, three tokens under way; the rest of the run is added.
fn run_of(calls: &str) -> String {
    let start = "blank 2 1664 lines 1056\nset 1 number 0 1\nwire 0 0 1 0\nset 0 enable 0 1\n\
                 set 1 enable 0 1\nset 0 hello 0 0\nline 0 0\nline 1 0\n\
                 set 1 hello 0 0\nline 1 0\nline 0 0\n";
    file_of(&format!("{start}{calls}"))
}

const SENDS: &str = "aim 0 0 channel 1 7 0\noutput 0 0 data 42\noutput 0 0 control 1\n";

/// What every run of it sends first over link A of board 0: its HELLO, and the credit for that of the
/// other end.
const GREETING: &str = "control 230 control 225";

/// What a run sends behind that.
fn captured(calls: &str) -> String {
    let all = all_captured(calls);
    let behind = all.strip_prefix(GREETING).unwrap_or(&all);
    behind.trim_start().to_owned()
}

/// All that a run sends over link A of board 0, as tokens.
fn all_captured(calls: &str) -> String {
    let path = run_of(calls);
    let digits = bench(&["capture", &path, "0", "0", "fast"]);
    assert!(digits.status.success(), "{}", text(&digits.stderr));
    let tokens = run(&["probe", "read", "fast"], &digits.stdout);
    text(&tokens.stdout)
}

/// Tokens that have left, and no others: not those that wait, not those of the other direction, and of
/// a list those that its Steps move.
#[test]
fn what_a_run_sends() {
    let header = "data 0 data 1 data 7";
    let one_by_one = |count: usize| format!("{SENDS}{}", "step 0 8\n".repeat(count));
    assert_eq!(all_captured(""), format!("{GREETING}\n"));
    assert_eq!(captured(SENDS), "");
    assert_eq!(
        captured(&one_by_one(1)),
        "",
        "a circuit opened, nothing sent"
    );
    assert_eq!(captured(&one_by_one(4)), format!("{header}\n"));
    let all = format!("{header} data 42 control 1\n");
    assert_eq!(captured(&one_by_one(9)), all);
    // Once, whether or not it has arrived.
    let arrived = one_by_one(4) + "line 0 0\nline 0 0\n" + &"step 0 8\n".repeat(5);
    assert_eq!(captured(&arrived), all);
    assert_eq!(captured(&(arrived + &"line 0 0\n".repeat(9))), all);
    let list = |results: usize| format!("{SENDS}steps {results}{}\n", " 0 8".repeat(6));
    assert_eq!(captured(&list(6)), all);
    assert_eq!(captured(&list(5)), "", "a list that is refused");
    assert_eq!(
        captured(&(list(6) + SENDS + &list(6))),
        format!("{} {all}", all.trim())
    );
    // A start that is refused is none, and one that is done begins the run anew.
    assert_eq!(captured(&(one_by_one(9) + "fresh 17 0 lines 0\n")), all);
    assert_eq!(captured(&(one_by_one(9) + "blank 1 832 lines 528\n")), "");
}

/// An unsound memory is explained as in every verb, and nothing is sent on it.
#[test]
fn an_unsound_memory() {
    let path = file_of("blank 1 831 lines 528\nblank 1 832 lines 528\nstep 0 8\n");
    let (status, printed, complaint) = answer(&["capture", &path, "0", "0", "fast"], &path);
    assert_eq!((status, printed.as_str()), (0, ""));
    assert!(complaint.starts_with("line 1: unsound memory, clause 1: "));
}

/// A VCD that is captured is read back as what the digits are, whole or empty, in both forms.
#[test]
fn a_vcd_is_read_back() {
    let runs = [String::new(), SENDS.to_owned() + &"step 0 8\n".repeat(6)];
    for (calls, form) in runs
        .iter()
        .flat_map(|calls| [(calls, "serial"), (calls, "fast")])
    {
        let path = run_of(calls);
        let vcd = bench(&["capture", &path, "0", "0", form, "--vcd"]);
        let vcd = file_of(&text(&vcd.stdout));
        let wires = if form == "fast" {
            &WIRES[..]
        } else {
            &WIRES[..2]
        };
        let back = bench(&[&["probe", "tokens", &vcd, form], wires].concat());
        assert!(back.status.success(), "{}", text(&back.stderr));
        let digits = bench(&["capture", "--vcd", &path, "0", "0", form]);
        assert_eq!(
            text(&digits.stdout),
            std::fs::read_to_string(&vcd).expect("it")
        );
        let expected = all_captured(calls);
        assert_eq!(text(&back.stdout), expected, "{form}");
    }
}

/// A reader that goes away is no fault.
#[test]
fn nobody_reads() {
    let path = run_of(&(SENDS.to_owned() + &"step 0 8\n".repeat(6)));
    for words in [
        &["capture", &path, "0", "0", "fast"][..],
        &["capture", &path, "0", "0", "serial", "--vcd"],
        &["probe", "--help"],
    ] {
        let mut command = Command::new(env!("CARGO_BIN_EXE_bench"));
        let ended = command.args(words).stdout(unread()).output();
        let ended = ended.expect("an output");
        assert_eq!(ended.status.code(), Some(0), "{words:?}");
        assert_eq!(text(&ended.stderr), "", "{words:?}");
    }
}
