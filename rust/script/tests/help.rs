//! What the command says of itself: the help, and what is made of it, completion and the manual page.

mod common;

use std::io::Write;
use std::process::{Command, Stdio};

use common::{bench, left_out, text};
use script::help::{completion, help, manual, usage, VERBS};

#[test]
fn every_verb_has_its_help() {
    let (all, usage) = (help(), usage());
    for verb in VERBS {
        let typed = verb.usage();
        assert!(all.contains(&format!("\n  {typed}")), "{typed}");
        assert!(all.contains(verb.about), "{typed}");
        assert!(usage.contains(&typed), "{typed}");
        assert!(
            verb.help.starts_with(&format!("{typed}: ")),
            "{}",
            verb.help
        );
        assert!(verb.help.contains("\n\nExit status: 0 "), "{typed}");
        for words in [
            [verb.name, "--help"],
            [verb.name, "-h"],
            ["help", verb.name],
        ] {
            let output = bench(&words);
            assert!(output.status.success(), "{words:?}");
            assert_eq!(text(&output.stdout), verb.help, "{words:?}");
        }
    }
    for words in [&["--help"][..], &["-h"], &["help"]] {
        assert_eq!(text(&bench(words).stdout), all);
    }
}

/// README has a row for each verb of a script, as it is typed.
#[test]
fn the_front_page_has_every_verb() {
    let path = concat!(env!("CARGO_MANIFEST_DIR"), "/../../README.md");
    let readme = std::fs::read_to_string(path).expect("README.md");
    let of_scripts = VERBS.iter().filter(|verb| !verb.arguments.is_empty());
    for verb in of_scripts.filter(|verb| verb.name != "help") {
        // A bar parts the cells of a row, so it is escaped there.
        let typed = verb.usage().replace('|', "\\|");
        assert!(readme.contains(&format!("\n| `./{typed}")), "{typed}");
    }
}

#[test]
fn a_verb_that_is_not_there() {
    let nearest = "\nno verb tel, nearest is tell\n";
    for words in [&["tel", "a"][..], &["tel", "--help"], &["help", "tel"]] {
        let output = bench(words);
        assert_eq!(output.status.code(), Some(2), "{words:?}");
        let said = text(&output.stderr);
        assert!(
            said.starts_with("usage: bench tell FILE\n") && said.ends_with(nearest),
            "{said}"
        );
    }
    for words in [&["quantum"][..], &["run"], &["completion", "x"], &[]] {
        let said = text(&bench(words).stderr);
        assert_eq!(said, format!("{}\n", usage()), "{words:?}");
    }
}

/// Lines of roff as text: escapes taken back, requests left out.
fn as_text(roff: &str) -> String {
    let lines = roff.lines().filter(|line| !line.starts_with('.'));
    let plain = |line: &str| {
        let line = line.strip_prefix("\\&").unwrap_or(line);
        line.replace("\\-", "-").replace("\\e", "\\")
    };
    lines.map(|line| plain(line) + "\n").collect()
}

/// A text without its empty lines.
fn dense(text: &str) -> String {
    let lines = text.lines().filter(|line| !line.trim().is_empty());
    lines.map(|line| format!("{line}\n")).collect()
}

/// The manual page has the help word for word, and that of each verb.
#[test]
fn the_manual_is_the_help() {
    let page = manual();
    assert_eq!(text(&bench(&["manual"]).stdout), page);
    let (head, body) = page.split_once(".SH DESCRIPTION\n").expect("a description");
    let title = help()
        .lines()
        .next()
        .map(|line| line.replacen(": ", " - ", 1));
    let shown = as_text(head);
    assert_eq!(shown.lines().next(), title.as_deref());
    for verb in VERBS {
        let typed = format!("\\fBbench {}\\fR {}", verb.name, verb.arguments);
        assert!(
            shown.contains(&format!("\n{}\n", typed.trim_end())),
            "{typed}"
        );
    }
    let (_, help) = help()
        .split_once('\n')
        .map(|(a, b)| (a.to_owned(), b.to_owned()))
        .expect("lines");
    let verbs: String = VERBS.iter().map(|verb| verb.help).collect();
    assert_eq!(as_text(body), dense(&(help + &verbs)));
    let names = body.lines().filter_map(|line| line.strip_prefix(".SS "));
    assert_eq!(names.collect::<Vec<_>>(), VERBS.map(|verb| verb.name));
    // No line of the help is taken for a request.
    let requests = [".TH", ".SH", ".SS", ".PP", ".nf", ".fi", ".br"];
    for line in page.lines().filter(|line| line.starts_with(['.', '\''])) {
        let request = line.split(' ').next().unwrap_or_default();
        assert!(requests.contains(&request), "{line}");
    }
}

/// The program that sets manual pages has nothing to say of it.
#[test]
fn the_manual_is_set_without_a_warning() {
    let mut groff = Command::new("groff");
    groff.args(["-man", "-ww", "-Tascii"]).stdin(Stdio::piped());
    groff.stdout(Stdio::piped()).stderr(Stdio::piped());
    let Ok(mut setting) = groff.spawn() else {
        return left_out("manual-groff (no groff on this machine)");
    };
    let mut pipe = setting.stdin.take().expect("a pipe");
    pipe.write_all(manual().as_bytes()).expect("a reader");
    drop(pipe);
    let output = setting.wait_with_output().expect("an end");
    assert!(output.status.success());
    assert_eq!(text(&output.stderr), "");
    assert!(text(&output.stdout).contains("tells the run in words"));
}

/// What bash completes the last of these words to.
fn completed(words: &[&str]) -> Vec<String> {
    let script = "eval \"$1\"; shift; cd \"$1\"; shift; COMP_WORDS=(bench \"$@\"); COMP_CWORD=$#; \
                  _bench; for word in \"${COMPREPLY[@]}\"; do echo \"$word\"; done";
    let examples = concat!(env!("CARGO_MANIFEST_DIR"), "/../../examples");
    let mut bash = Command::new("bash");
    bash.args(["-u", "-c", script, "bash", &completion(), examples]);
    let output = bash.args(words).output().expect("bash");
    assert_eq!(text(&output.stderr), "", "{words:?}");
    text(&output.stdout).lines().map(str::to_owned).collect()
}

#[test]
fn completion_is_of_the_verbs() {
    assert_eq!(text(&bench(&["completion"]).stdout), completion());
    let mut names: Vec<&str> = VERBS.iter().map(|verb| verb.name).collect();
    assert_eq!(completed(&["help", ""]), names);
    names.push("--help");
    assert_eq!(completed(&[""]), names);
    assert_eq!(completed(&["e"]), ["expand"]);
    assert_eq!(completed(&["x"]), [""; 0]);
    for verb in VERBS {
        let first = verb
            .arguments
            .split_whitespace()
            .find(|word| !word.starts_with("[--"));
        let takes_file = first.is_some_and(|word| ["FILE", "BEFORE"].contains(&word));
        let files = completed(&[verb.name, "half"]);
        assert_eq!(files == ["half-update.txt"], takes_file, "{}", verb.name);
        let options = completed(&[verb.name, "--"]);
        let own = verb.arguments.contains("--csv");
        assert_eq!(options.contains(&"--csv".to_owned()), own, "{}", verb.name);
        assert!(options.contains(&"--help".to_owned()), "{}", verb.name);
    }
}

#[test]
fn completion_goes_by_the_place() {
    assert_eq!(
        completed(&["diff", "ring.txt", "half"]),
        ["half-update.txt"]
    );
    assert_eq!(
        completed(&["diff", "ring.txt", "mesh.txt", ""]),
        ["control"]
    );
    assert_eq!(completed(&["matrix", "--csv", "half"]), ["half-update.txt"]);
    assert_eq!(completed(&["matrix", "ring.txt", "c"]), ["control"]);
    assert_eq!(
        completed(&["matrix", "--csv", "ring.txt", "c"]),
        ["control"]
    );
    assert_eq!(completed(&["route", "ring.txt", ""]), [""; 0]);
    assert_eq!(
        completed(&["route", "ring.txt", "0", "1", "c"]),
        ["control"]
    );
    assert_eq!(completed(&["run", "ring.txt", "half"]), [""; 0]);
    assert_eq!(completed(&["probe", "t"]), ["tokens"]);
    assert_eq!(
        completed(&["capture", "ring.txt", "0", "0", ""]),
        ["serial", "fast"]
    );
}
