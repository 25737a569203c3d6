//! The examples at the repository's top: what they state, and what each verb says of them.
//!
//! What a verb should print stands in `examples/expected`. To write it anew and see what changed:
//!
//! ```text
//! REFRESH=1 cargo test --manifest-path rust/Cargo.toml --release --offline -p script --test examples
//! git diff examples/expected
//! ```

mod common;

use std::collections::BTreeSet;
use std::path::{Path, PathBuf};
use std::process::{Command, Output};

use common::{bench, scripts_in, text};

/// What `route` is asked of the examples: SLOT NUMBER CHANNEL [NETWORK].
#[rustfmt::skip]
const ROUTES: [(&str, &[&str]); 9] = [
    ("boot", &["0 1 7", "1 0 7", "0 2 7", "2 1 7", "0 1 7 1"]),
    ("deadlock", &["0 1 1", "1 0 control"]),
    ("half-update", &["1 0 7", "0 1 3", "1 4 7", "2 2 7", "3 0 control", "0 4 control"]),
    ("head-after", &["1 0 7", "1 4 7", "1 9 7", "0 4 255"]),
    ("head-before", &["1 0 7", "0 1 3", "1 4 7", "1 9 7", "0 4 255", "0 4 control", "0 4 7 1"]),
    ("mesh", &["6 14 1", "2 8 1"]),
    ("pipeline", &["0 3 5", "3 0 5", "1 4 5", "4 0 5", "0 3 32"]),
    ("ring", &["0 4 7", "0 8 7"]),
    ("update-message", &["0 1 3", "1 0 3", "0 1 control"]),
];

/// What each of these is compared with.
const DIFFS: [(&str, &[&str]); 3] = [
    ("half-update", &["head-after"]),
    ("head-before", &["half-update", "head-after", "head-before"]),
    ("pipeline", &["ring"]),
];

/// Of these the data of the page are held.
const PAGES: [&str; 2] = ["half-update", "update-message"];

fn folder() -> PathBuf {
    Path::new(env!("CARGO_MANIFEST_DIR")).join("../../examples")
}

/// The names of the examples.
fn examples() -> Vec<String> {
    let paths = scripts_in("../../examples");
    let names = paths.iter().filter_map(|path| path.file_stem()?.to_str());
    names.map(str::to_owned).collect()
}

fn path_of(example: &str) -> String {
    let path = folder().join(format!("{example}.txt"));
    path.to_str().expect("a path").to_owned()
}

#[test]
fn the_examples_agree_and_say_what_they_show() {
    for example in examples() {
        let output = bench(&["check", &path_of(&example)]);
        assert!(output.status.success(), "{}", text(&output.stderr));
        let script = std::fs::read_to_string(path_of(&example)).expect("a script");
        assert!(script.starts_with("// "), "{example}");
        assert!(
            says_why(&script),
            "{example} says which start it needs, and why"
        );
    }
}

/// The plain traces, which the model and the archive are held to as well: what `run` prints of the
/// examples, and what `check` agrees with.
#[test]
fn the_traces_are_those_of_the_examples() {
    for example in examples() {
        hold_in(
            "traces",
            &format!("{example}.txt"),
            &said(&example, "run", &[]).0,
        );
        let trace = folder().join(format!("traces/{example}.txt"));
        let output = bench(&["check", trace.to_str().expect("a path")]);
        let calls = std::fs::read_to_string(&trace).expect("a trace");
        let calls = calls.lines().count() - 1;
        assert_eq!(text(&output.stdout), format!("{calls} calls agree\n"));
    }
    assert_eq!(scripts_in("../../examples/traces").len(), examples().len());
}

/// What `expand` prints is a plain script: it runs to the same trace, and is what it expands to but
/// for the lines of words that it has as comments.
#[test]
fn what_is_expanded_is_the_same_run() {
    for example in examples() {
        let (expanded, status) = said(&example, "expand", &[]);
        assert_eq!(status, 0);
        script::parse(&expanded).expect("plain calls");
        let path = common::file(&format!("expanded-{example}.txt"), &expanded);
        let trace = text(&bench(&["run", &path]).stdout);
        assert_eq!(trace, said(&example, "run", &[]).0, "{example}");
        assert_eq!(text(&bench(&["expand", &path]).stdout), expanded);
    }
}

/// Whether the comments before the first call name its start: `// fresh: ..` or `// blank: ..`.
fn says_why(script: &str) -> bool {
    let start = script.lines().find(|line| !line.starts_with("//"));
    let word = start
        .and_then(|line| line.split(' ').next())
        .expect("a call");
    let reason = format!("// {word}: ");
    let comments = script.lines().take_while(|line| line.starts_with("//"));
    comments.into_iter().any(|line| line.starts_with(&reason))
}

/// What a verb prints, and its exit status.
fn said(example: &str, verb: &str, more: &[&str]) -> (String, i32) {
    let path = path_of(example);
    let words = [&[verb, &path], more].concat();
    let output = bench(&words);
    assert_eq!(text(&output.stderr), "", "{words:?}");
    (
        text(&output.stdout),
        output.status.code().expect("a status"),
    )
}

/// Each question as it is typed, its answer and its exit status.
fn routes(example: &str) -> String {
    let asked = ROUTES.iter().find(|(name, _)| *name == example);
    let (_, questions) = asked.unwrap_or_else(|| panic!("no routes of {example}"));
    let answers = questions.iter().map(|question| {
        let words: Vec<&str> = question.split(' ').collect();
        let (said, status) = said(example, "route", &words);
        format!("$ bench route {example}.txt {question}\n{said}exit status {status}\n")
    });
    answers.collect::<Vec<_>>().join("\n")
}

/// A verb as it is typed in the folder of the examples.
fn typed_there(verb: &str, examples: &[&str]) -> (Vec<String>, Output) {
    let files = examples.iter().map(|name| format!("{name}.txt"));
    let files: Vec<String> = files.collect();
    let mut command = Command::new(env!("CARGO_BIN_EXE_bench"));
    let output = command.arg(verb).args(&files).current_dir(folder());
    let output = output.output().expect("an output");
    assert_eq!(text(&output.stderr), "", "{files:?}");
    (files, output)
}

/// The data of an example's page: all that is not the same on every page, but the matrix.
fn page_data(example: &str) -> String {
    let page = text(&typed_there("page", &[example]).1.stdout);
    let (_, data) = page.split_once(" id=\"data\">\n").expect("data");
    let (data, _) = data.split_once("</script>").expect("their end");
    data.to_owned()
}

/// Each comparison as it is typed in the folder of the examples, what is said and the exit status.
fn diffs(example: &str, others: &[&str]) -> String {
    let said = others.iter().map(|other| {
        let (files, output) = typed_there("diff", &[example, *other]);
        let (said, status) = (text(&output.stdout), output.status.code());
        let asked = files.join(" ");
        let status = status.expect("a status");
        format!("$ bench diff {asked}\n{said}exit status {status}\n")
    });
    said.collect::<Vec<_>>().join("\n")
}

/// What is expected of an example, by the name that its file ends with.
fn found(example: &str) -> [(&'static str, String); 7] {
    [
        ("told", said(example, "tell", &[]).0),
        ("expanded", said(example, "expand", &[]).0),
        ("show", said(example, "show", &[]).0),
        ("routes", routes(example)),
        ("matrix", said(example, "matrix", &[]).0),
        ("csv", said(example, "matrix", &["--csv"]).0),
        ("dot", said(example, "draw", &[]).0),
    ]
}

/// Holds what was found to a file, or, where REFRESH is set, writes the file.
fn hold(name: &str, found: &str) {
    hold_in("expected", name, found);
}

fn hold_in(part: &str, name: &str, found: &str) {
    let path = folder().join(part).join(name);
    if std::env::var_os("REFRESH").is_some() {
        std::fs::write(&path, found).expect("a file to write");
    }
    let expected = std::fs::read_to_string(&path).unwrap_or_default();
    for (line, (one, other)) in (1..).zip(found.lines().zip(expected.lines())) {
        assert_eq!(one, other, "examples/{part}/{name}, line {line}");
    }
    assert_eq!(found, expected, "examples/{part}/{name}");
}

#[test]
fn each_verb_prints_what_is_expected() {
    let mut names = BTreeSet::new();
    for example in examples() {
        for (verb, text) in found(&example) {
            let name = format!("{example}.{verb}");
            hold(&name, &text);
            names.insert(name);
        }
    }
    for (example, others) in DIFFS {
        let name = format!("{example}.diffs");
        hold(&name, &diffs(example, others));
        names.insert(name);
    }
    for example in PAGES {
        let name = format!("{example}.page");
        hold(&name, &page_data(example));
        names.insert(name);
    }
    let entries = std::fs::read_dir(folder().join("expected")).expect("the folder expected");
    let files = entries.map(|entry| entry.expect("a file").file_name());
    let files: BTreeSet<_> = files.filter_map(|name| name.into_string().ok()).collect();
    assert_eq!(files, names, "files of examples/expected");
}

/// The question that a half-done update raises, as an exit status.
#[test]
fn matrix_says_whether_all_arrive() {
    for (example, status) in [("head-before", 0), ("half-update", 1), ("head-after", 0)] {
        assert_eq!(said(example, "matrix", &[]).1, status, "{example}");
        assert_eq!(said(example, "matrix", &["--csv"]).1, status, "{example}");
    }
}
