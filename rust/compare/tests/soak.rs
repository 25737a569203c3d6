//! The command `soak`: its words and its exit status.

use std::process::{Command, Output, Stdio};

fn soak(words: &[&str]) -> Output {
    let program = env!("CARGO_BIN_EXE_soak");
    let mut command = Command::new(program);
    let output = command.args(words).output();
    output.expect("an output")
}

#[test]
fn a_short_soak() {
    // A script of what differs, if something does, is no part of the source.
    let into = env!("CARGO_TARGET_TMPDIR");
    let output = soak(&["--seed", "3", "--minutes", "0", "--into", into]);
    let text = String::from_utf8_lossy(&output.stdout);
    assert!(output.status.success(), "{text}");
    assert!(text.starts_with("from seed 3\nup to seed 3, "), "{text}");
    assert!(text.contains(" calls watched, "), "{text}");
    assert!(text.contains(" lists of Steps, "), "{text}");
    assert!(text.contains("\nsteps: results "), "{text}");
    assert!(text.contains("\nblank: done "), "{text}");
    assert!(text.contains("\nline: idle "), "{text}");
    assert!(text.contains("\noff a line: "), "{text}");
    assert!(text.contains(" tokens off lines, "), "{text}");
    assert!(text.contains("\ncable, its ends: "), "{text}");
    assert!(text.ends_with("no difference\n"), "{text}");
}

/// One more than a number of 64 bits, and minutes whose seconds are more than that.
const TOO_LARGE: &str = "18446744073709551616";
const TOO_LONG: &str = "307445734561825861";

#[test]
fn words_that_are_not_understood() {
    let cases = [
        (&["--seed"][..], "a seed of 64 bits, found nothing"),
        (&["--seed", "x"], "a seed of 64 bits, found x"),
        (&["--seed", TOO_LARGE], "a seed of 64 bits, found 184"),
        (
            &["--minutes", "-1"],
            "minutes whose seconds have 64 bits, found -1",
        ),
        (
            &["--minutes", TOO_LONG],
            "minutes whose seconds have 64 bits, found 307",
        ),
        (&["--into"], "a folder, found nothing"),
        (
            &["--hours", "1"],
            "--seed, --minutes or --into, found --hours",
        ),
        (&["7"], "--seed, --minutes or --into, found 7"),
    ];
    for (words, expected) in cases {
        let output = soak(words);
        assert_eq!(output.status.code(), Some(2), "{words:?}");
        let complaint = String::from_utf8_lossy(&output.stderr);
        assert!(
            complaint.starts_with(&format!("expected {expected}")),
            "{complaint}"
        );
    }
    assert_eq!(soak(&["--help"]).status.code(), Some(0));
}

/// Behind the highest seed there is no other, however many minutes are left.
#[test]
fn the_highest_seed() {
    let (seed, minutes) = ("18446744073709551615", "307445734561825860");
    let into = env!("CARGO_TARGET_TMPDIR");
    let output = soak(&["--seed", seed, "--minutes", minutes, "--into", into]);
    let text = String::from_utf8_lossy(&output.stdout);
    assert!(output.status.success(), "{output:?}");
    assert!(text.starts_with(&format!("from seed {seed}\nup to seed {seed}, ")));
    assert!(text.ends_with("no difference\n"), "{text}");
}

#[cfg(unix)]
#[test]
fn words_that_are_no_text() {
    use std::os::unix::ffi::OsStrExt;
    let word = std::ffi::OsStr::from_bytes(b"--se\xFFd");
    let mut command = Command::new(env!("CARGO_BIN_EXE_soak"));
    let ended = command.arg(word).output().expect("an output");
    assert_eq!(ended.status.code(), Some(2), "{ended:?}");
    let mut command = Command::new(env!("CARGO_BIN_EXE_soak"));
    let ended = command.arg("--seed").arg(word).output().expect("an output");
    assert_eq!(ended.status.code(), Some(2), "{ended:?}");
}

/// The writing end of a pipe that nobody reads any more.
fn unread() -> Stdio {
    let mut gone = Command::new("true");
    let mut gone = gone.stdin(Stdio::piped()).spawn().expect("true");
    let pipe = gone.stdin.take().expect("a pipe");
    gone.wait().expect("its end");
    pipe.into()
}

/// Nobody reads: it ends with its first line, long before its minutes, and says nothing.
#[test]
fn nobody_reads() {
    let mut command = Command::new(env!("CARGO_BIN_EXE_soak"));
    let ended = command
        .args(["--seed", "5", "--minutes", "600"])
        .stdout(unread())
        .output();
    let ended = ended.expect("an output");
    assert!(ended.status.success(), "{ended:?}");
    assert!(ended.stderr.is_empty(), "{ended:?}");
}
