//! The command `model`: its output and its exit status.

use std::io::Read;
use std::path::PathBuf;
use std::process::{Command, Output, Stdio};

fn model(words: &[&str]) -> Output {
    let program = env!("CARGO_BIN_EXE_model");
    Command::new(program)
        .args(words)
        .output()
        .expect("an output")
}

fn file(name: &str, text: &str) -> PathBuf {
    let path = PathBuf::from(env!("CARGO_TARGET_TMPDIR")).join(name);
    std::fs::write(&path, text).expect("a file");
    path
}

fn text(bytes: &[u8]) -> String {
    String::from_utf8_lossy(bytes).into_owned()
}

#[test]
fn random_run_and_check() {
    let random = model(&["random", "11", "200"]);
    assert!(random.status.success());
    let printed = text(&random.stdout);
    assert_eq!(printed.lines().count(), 200);
    assert!(printed.starts_with("fresh ") || printed.starts_with("blank "));
    let path = file("random.txt", &printed);
    let path = path.to_str().expect("a path");
    let checked = model(&["check", path]);
    assert!(checked.status.success());
    assert_eq!(text(&checked.stdout), "200 calls agree\n");
    let run = model(&["run", path]);
    assert!(run.status.success());
    assert_eq!(text(&run.stdout), printed);
}

/// A run whose tokens cross by line says with which Asks it was made.
#[test]
fn random_run_by_line_and_check() {
    let random = model(&["lines", "11", "200"]);
    assert!(random.status.success());
    let printed = text(&random.stdout);
    assert_eq!(printed.lines().count(), 201);
    assert!(printed.starts_with("// asks 1,4,7\n"));
    let path = file("lines.txt", &printed);
    let path = path.to_str().expect("a path");
    let checked = model(&["check", path]);
    assert_eq!(text(&checked.stdout), "200 calls agree\n");
    let run = model(&["run", path]);
    assert_eq!(text(&run.stdout), printed);
}

/// The highest number of 64 bits, and one more.
const HIGHEST: &str = "18446744073709551615";
const TOO_LARGE: &str = "18446744073709551616";

#[test]
fn faults_end_with_status_one() {
    let differs = file(
        "differs.txt",
        "fresh 1 832\nstep 0 0 -> moved # 0000000000000000\n",
    );
    let unreadable = file("unreadable.txt", "fresh 1 832\nstep 0\n");
    let cases = [
        (
            &["check", differs.to_str().expect("a path")][..],
            "line 2: step 0 0 gives idle",
        ),
        (
            &["run", unreadable.to_str().expect("a path")],
            "line 2: expected a port",
        ),
        (
            &["check", unreadable.to_str().expect("a path")],
            "line 2: expected a port",
        ),
        (&["run", "no-such-file"], "no-such-file: "),
        (&["random", "x", "1"], "usage: model run FILE"),
        (&["random", TOO_LARGE, "1"], "usage: model run FILE"),
        (&["random", "1", TOO_LARGE], "usage: model run FILE"),
        (&["dance"], "usage: model run FILE"),
        (&[], "usage: model run FILE"),
    ];
    for (words, expected) in cases {
        let output = model(words);
        assert_eq!(output.status.code(), Some(1), "{words:?}");
        let complaint = text(&output.stderr);
        assert!(complaint.contains(expected), "{complaint}");
        assert!(output.stdout.is_empty());
    }
}

/// Of a run without an end so much is made as is read.
#[test]
fn a_reader_that_goes_away() {
    let mut command = Command::new(env!("CARGO_BIN_EXE_model"));
    command.args(["random", HIGHEST, HIGHEST]);
    let pipes = command.stdout(Stdio::piped()).stderr(Stdio::piped());
    let mut child = pipes.spawn().expect("the command");
    let mut first = [0; 6];
    let mut printed = child.stdout.take().expect("its output");
    printed.read_exact(&mut first).expect("six bytes");
    drop(printed);
    let ended = child.wait_with_output().expect("its end");
    assert_eq!(
        (ended.status.code(), text(&ended.stderr)),
        (Some(0), String::new())
    );
}

#[cfg(unix)]
#[test]
fn words_that_are_no_text() {
    use std::os::unix::ffi::OsStrExt;
    let word = std::ffi::OsStr::from_bytes(b"r\xFFn");
    let mut command = Command::new(env!("CARGO_BIN_EXE_model"));
    let ended = command.arg(word).output().expect("an output");
    assert_eq!(ended.status.code(), Some(1));
    assert!(text(&ended.stderr).starts_with("usage: model run FILE"));
}
