//! The command `bench`: what it prints, and its exit status.

mod common;

use std::collections::BTreeSet;
use std::path::PathBuf;

use common::{bench, file, scripts_in, text};

/// The scripts that stand beside the command, each with what it states.
fn scripts() -> Vec<PathBuf> {
    let paths = scripts_in("scripts");
    assert!(paths.len() >= 4);
    paths
}

/// The lines that have a call.
fn calls(text: &str) -> Vec<&str> {
    let lines = text.lines().map(str::trim);
    lines
        .filter(|line| !line.is_empty() && !line.starts_with("//"))
        .collect()
}

#[test]
fn the_scripts_beside_it_agree() {
    for path in scripts() {
        let stated = std::fs::read_to_string(&path).expect("a script");
        assert_eq!(stated.lines().next(), Some(script::HEAD), "{path:?}");
        let output = bench(&["check", path.to_str().expect("a path")]);
        let printed = text(&output.stdout) + &text(&output.stderr);
        assert_eq!(output.status.code(), Some(0), "{printed}");
        let agree = format!("{} calls agree\n", calls(&stated).len());
        assert_eq!(text(&output.stdout), agree);
    }
}

#[rustfmt::skip]
const ANSWERS: [&str; 19] = [
    "done", "granted 0", "moved 0", "moved 8", "moved 16", "moved 64", "token 77", "idle", "waiting",
    "moved", "opened link 0", "opened channel", "opened control", "refused split",
    "refused noroute", "dropped split", "dropped noroute", "malformed", "unheard",
];

/// Every number for no is met in them, every answer of a Step, and a success of each other call.
#[test]
fn the_scripts_beside_it_have_every_answer() {
    let all = scripts().into_iter().map(std::fs::read_to_string);
    let all: String = all.map(|text| text.expect("a script")).collect();
    for number in 1..=12 {
        assert!(all.contains(&format!("-> no {number} #")), "no {number}");
    }
    for answer in ANSWERS {
        assert!(all.contains(&format!("-> {answer} #")), "{answer}");
    }
}

/// The numbers for no that document 01 has for each call.
#[rustfmt::skip]
const REFUSALS: [(&str, &[u32]); 16] = [
    ("fresh", &[1, 2]),
    ("blank", &[1, 2]),
    ("wire", &[1, 2, 3, 4]),
    ("set number", &[1, 2, 3]),
    ("set width", &[1, 2, 3]),
    ("set direction", &[1, 2, 3]),
    ("set linkdirection", &[1, 2, 3]),
    ("set network", &[1, 2, 3, 4]),
    ("set enable", &[1, 2, 3, 4]),
    ("set hello", &[1, 2, 4]),
    ("aim", &[1, 2, 3, 6]),
    ("output", &[1, 2, 5, 7, 8, 9, 10]),
    ("input", &[1, 2, 11, 12]),
    ("step", &[1, 2]),
    ("line", &[1, 2]),
    // Unsound is each record's own.
    ("steps", &[2]),
];

/// A stated refusal: which call, a Set by its setting, and the number.
fn refusal(line: &str) -> Option<(String, u32)> {
    let (call, answer) = line.split_once(" -> no ")?;
    let number = answer.split(' ').next()?.parse().ok()?;
    let name = match call.split(' ').collect::<Vec<_>>()[..] {
        ["set", _, setting, ..] => format!("set {setting}"),
        [first, ..] => first.to_owned(),
        [] => return None,
    };
    Some((name, number))
}

/// Every refusal of every call is stated in them, and no call is given a number that is not its own.
#[test]
fn the_scripts_beside_it_state_every_refusal_of_every_call() {
    let mut stated = BTreeSet::new();
    for path in scripts() {
        let script = std::fs::read_to_string(&path).expect("a script");
        stated.extend(calls(&script).into_iter().filter_map(refusal));
    }
    let numbers = |(call, numbers): (&str, &'static [u32])| {
        let call = call.to_owned();
        numbers.iter().map(move |number| (call.clone(), *number))
    };
    let expected: BTreeSet<_> = REFUSALS.into_iter().flat_map(numbers).collect();
    assert_eq!(stated, expected);
}

/// "Credit 7: 16, making 23": what `show` says of the link before and behind the 57th token.
#[test]
fn credit_seven_makes_twenty_three() {
    let path = PathBuf::from(env!("CARGO_MANIFEST_DIR")).join("scripts/credit-seven.txt");
    let script = std::fs::read_to_string(path).expect("a script");
    for (before, credit) in [("// the 57th: ", 8), ("// taken: ", 23)] {
        let (part, _) = script.split_once(before).expect("a part of the script");
        let part = file(&format!("credit-{credit}.txt"), part);
        let shown = text(&bench(&["show", &part]).stdout);
        let fact = format!("board 0 link A: credit {credit}\n");
        assert!(shown.contains(&fact), "{shown}");
    }
}

/// What `run` prints is a script that `check` agrees with, and that runs to the same text.
#[test]
fn what_is_printed_is_a_script() {
    for path in scripts() {
        let first = bench(&["run", path.to_str().expect("a path")]);
        assert!(first.status.success());
        let name = path.file_name().and_then(|name| name.to_str());
        let printed = file(name.expect("a name"), &text(&first.stdout));
        assert!(bench(&["check", &printed]).status.success());
        assert_eq!(bench(&["run", &printed]).stdout, first.stdout);
    }
}

#[test]
fn a_line_that_differs_is_named() {
    let good =
        "fresh 1 832 lines 528\n\n// a comment\nset 0 width 0 1 -> done # b0ab0d38d8ff1d36\n";
    let path = file("digest.txt", good);
    let output = bench(&["check", &path]);
    assert_eq!(output.status.code(), Some(1));
    let complaint = text(&output.stderr);
    let expected = format!("{path}: line 4: set 0 width 0 1 gives done # ");
    assert!(complaint.starts_with(&expected), "{complaint}");
    assert!(
        complaint.ends_with(", stated is done # b0ab0d38d8ff1d36\n"),
        "{complaint}"
    );
    let path = file("answer.txt", &good.replace("done", "waiting"));
    assert_eq!(bench(&["check", &path]).status.code(), Some(1));
}

/// A bad line stops the command before any call is made.
#[test]
fn a_bad_line_is_named() {
    let cases = [
        (
            "output 0 0 data 256",
            "column 17: expected a token value 0..255, found 256 (output SLOT",
        ),
        (
            "jump 1",
            "column 1: expected fresh, blank, wire, set, aim, output, input, step, line, steps, board, cable, \
             route, link, send, message, receive or settle, found jump\n",
        ),
        (
            "wire 0 0 1",
            "column 11: expected a link, a letter A..H or a number, found nothing (wire SLOT LINK SLOT LINK)",
        ),
        (
            "steps 2 0 8 1",
            "column 14: expected a port, a letter A..H or a number, found nothing (steps RESULTS SLOT PORT SLOT PORT ..)",
        ),
        (
            "input 0 0 text",
            "column 11: expected data or control, found text (input SLOT",
        ),
        (
            "fresh 1 832 lines 528 -> done",
            "column 26: expected ANSWER # DIGEST behind ->, found done",
        ),
    ];
    for (line, expected) in cases {
        let path = file("bad.txt", &format!("fresh 1 832 lines 528\n\n{line}\n"));
        for verb in ["run", "check"] {
            let output = bench(&[verb, &path]);
            assert_eq!(output.status.code(), Some(2), "{line}");
            let complaint = text(&output.stderr);
            let expected = format!("{path}: line 3, {expected}");
            assert!(complaint.starts_with(&expected), "{complaint}");
            assert!(output.stdout.is_empty());
        }
    }
}

/// A start of either kind makes the network anew, and one that is refused leaves it.
#[test]
fn a_later_start_replaces_the_network() {
    let printed = |script: &str| {
        let path = file("starts.txt", script);
        let output = bench(&["run", &path]);
        assert!(output.status.success(), "{}", text(&output.stderr));
        let lines = text(&output.stdout);
        let ends = lines.lines().filter_map(|line| line.split_once(" -> "));
        ends.map(|(_, end)| end.to_owned()).collect::<Vec<_>>()
    };
    let starts = ["fresh 2 1664 lines 1056\n", "blank 2 1664 lines 1056\n"];
    let alone = starts.map(|start| printed(start).remove(0));
    assert_ne!(alone[0], alone[1], "links E..H are enabled or are not");
    for first in starts {
        for (later, expected) in starts.iter().zip(&alone) {
            let before = format!(
                "{first}set 1 number 0 5\nfresh 3 1664 lines 1584\nblank 17 1664 lines 0\n"
            );
            let made = printed(&(before + later));
            assert_eq!(made[4], *expected, "{first}{later}");
            let (_, kept) = made[1].split_once(' ').expect("a digest");
            assert_eq!(made[2], format!("no 1 {kept}"));
            assert_eq!(made[3], format!("no 2 {kept}"));
        }
    }
}

/// A board's message to its own control unit; nobody is named for the reply.
const MESSAGE: &str = "fresh 1 832 lines 528\n\
                       aim 0 0 control 0 0 0\n\
                       output 0 0 control 0xC1\n\
                       output 0 0 control 1\n\
                       step 0 8\n\
                       step 0 8\n\
                       step 0 8\n";

#[test]
fn the_end_of_a_message_is_answered() {
    let path = file("message.txt", MESSAGE);
    let output = bench(&["run", &path]);
    assert!(output.status.success(), "{}", text(&output.stderr));
    let printed = text(&output.stdout);
    let last = printed.lines().last().unwrap_or_default();
    assert!(last.starts_with("step 0 8 -> malformed # "), "{printed}");
}

#[test]
fn an_unsound_memory_is_explained() {
    let path = file("unsound.txt", "fresh 1 831 lines 528\nset 0 width 0 1\n");
    let output = bench(&["run", &path]);
    assert!(output.status.success());
    let expected = "// asks 1,4,7\n\
                    fresh 1 831 lines 528 -> no 1 # 0000000000000000\n\
                    set 0 width 0 1 -> no 1 # 0000000000000000\n";
    assert_eq!(text(&output.stdout), expected);
    let clause = "unsound memory, clause 1: the memories have the lengths of 1 to 16 nodes";
    let expected = format!("{path}: line 1: {clause}\n{path}: line 2: {clause}\n");
    assert_eq!(text(&output.stderr), expected);
}

/// A list says it for each of its Steps, and is explained as one line; with no Steps, or results of
/// another length, nothing is said.
#[test]
fn an_unsound_memory_is_explained_for_a_list() {
    let path = file(
        "unsound-list.txt",
        "steps 0\nsteps 1 0 8 0 8\nsteps 2 0 8 0 8\n",
    );
    let output = bench(&["run", &path]);
    assert!(output.status.success());
    let expected = "// asks 1,4,7\n\
                    steps 0 -> results # 0000000000000000\n\
                    steps 1 0 8 0 8 -> no 2 # 0000000000000000\n\
                    steps 2 0 8 0 8 -> results no 1; no 1 # 0000000000000000\n";
    assert_eq!(text(&output.stdout), expected);
    let clause = "unsound memory, clause 1: the memories have the lengths of 1 to 16 nodes";
    assert_eq!(text(&output.stderr), format!("{path}: line 3: {clause}\n"));
}

/// A stated result that differs, or one too few, is a line that differs.
#[test]
fn a_list_that_differs_is_named() {
    let line = "steps 2 0 8 0 13";
    let path = file("list.txt", &format!("fresh 1 832 lines 528\n{line}\n"));
    let printed = text(&bench(&["run", &path]).stdout);
    assert!(printed.contains(&format!("{line} -> results idle; no 2 # ")));
    let path = file("list-states.txt", &printed);
    assert_eq!(bench(&["check", &path]).status.code(), Some(0));
    for other in ["idle; no 1", "no 2; idle", "idle", "idle; no 2; idle"] {
        let stated = printed.replace("idle; no 2", other);
        let path = file("list-differs.txt", &stated);
        let output = bench(&["check", &path]);
        assert_eq!(output.status.code(), Some(1), "{other}");
        let complaint = text(&output.stderr);
        let gives = format!("{path}: line 3: {line} gives results idle; no 2 # ");
        assert!(complaint.starts_with(&gives), "{complaint}");
    }
}

#[test]
fn other_words() {
    for words in [&[][..], &["dance"], &["run"], &["run", "a", "b"]] {
        let output = bench(words);
        assert_eq!(output.status.code(), Some(2), "{words:?}");
        assert!(text(&output.stderr).starts_with("usage: bench tell FILE"));
    }
    let missing = bench(&["run", "no-such-file"]);
    assert_eq!(missing.status.code(), Some(2));
    assert!(text(&missing.stderr).starts_with("no-such-file: "));
    let help = bench(&["--help"]);
    assert!(help.status.success());
    assert!(text(&help.stdout).contains("  fresh NODES MEMORY_WORDS lines LINE_WORDS\n"));
    assert!(text(&help.stdout).contains("  blank NODES MEMORY_WORDS lines LINE_WORDS\n"));
    assert!(text(&help.stdout).contains("  wire SLOT LINK SLOT LINK\n"));
    assert!(text(&help.stdout).contains("  line SLOT LINK\n"));
    assert!(text(&help.stdout).contains("  steps RESULTS SLOT PORT SLOT PORT ..\n"));
}
