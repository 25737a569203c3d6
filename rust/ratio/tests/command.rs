//! What the command prints.

use std::process::{Command, Stdio};

/// The lines that the command prints, asked for the measures whose names have this in them.
fn printed(wanted: &str) -> Vec<String> {
    let mut command = Command::new(env!("CARGO_BIN_EXE_ratio"));
    let ended = command.arg(wanted).output().expect("the command");
    assert!(ended.status.success(), "{ended:?}");
    let text = String::from_utf8(ended.stdout).expect("text");
    text.lines().map(str::to_owned).collect()
}

/// A line for each other side: `NAME ratio R.RR`, and the nanoseconds that it is of.
fn assert_lines(measure: &str, others: [&str; 2]) {
    let lines = printed(measure);
    assert_eq!(lines.len(), 2);
    for (line, other) in lines.iter().zip(others) {
        let words: Vec<&str> = line.split_whitespace().collect();
        let name = format!("{measure}/{other}");
        let [found, "ratio", ratio, "library", library, "ns,", side, times, "ns"] = words[..]
        else {
            panic!("{line}");
        };
        assert_eq!((found, side), (name.as_str(), other));
        let [ratio, library, times] =
            [ratio, library, times].map(|word| word.parse::<f64>().expect("a number"));
        let quotient = library / times;
        // All three are printed to three digits.
        let nearly = f64::max(0.02, quotient / 100.0);
        assert!((quotient - ratio).abs() < nearly, "{line}");
    }
}

#[test]
fn a_call() {
    assert_lines("step-over-cable/1-half-full", ["baseline", "model"]);
}

#[test]
fn a_line_step() {
    assert_lines("line-step/16-half-full", ["baseline", "model"]);
}

#[test]
fn a_step_of_a_list() {
    let others = ["untested-baseline", "single-library"];
    assert_lines("list-step/1-half-full", others);
}

#[test]
fn a_name_that_no_measure_has() {
    assert!(printed("no such measure").is_empty());
}

#[cfg(unix)]
#[test]
fn a_name_that_is_no_text() {
    use std::os::unix::ffi::OsStrExt;
    let mut command = Command::new(env!("CARGO_BIN_EXE_ratio"));
    let word = std::ffi::OsStr::from_bytes(b"st\xFFp");
    let ended = command.arg(word).output().expect("the command");
    assert!(ended.status.success(), "{ended:?}");
    assert!(ended.stdout.is_empty());
}

#[test]
fn words_that_are_not_understood() {
    let mut command = Command::new(env!("CARGO_BIN_EXE_ratio"));
    let ended = command.args(["step", "wire"]).output();
    assert_eq!(ended.expect("the command").status.code(), Some(2));
    assert!(printed("--help")[0].starts_with("ratio: times "));
}

/// The writing end of a pipe that nobody reads any more.
fn unread() -> Stdio {
    let mut gone = Command::new("true");
    let mut gone = gone.stdin(Stdio::piped()).spawn().expect("true");
    let pipe = gone.stdin.take().expect("a pipe");
    gone.wait().expect("its end");
    pipe.into()
}

/// Nobody reads: it ends with its first line, and says nothing.
#[test]
fn nobody_reads() {
    let mut command = Command::new(env!("CARGO_BIN_EXE_ratio"));
    let ended = command
        .arg("step-over-cable/1-half-full")
        .stdout(unread())
        .output();
    let ended = ended.expect("an output");
    assert!(ended.status.success(), "{ended:?}");
    assert!(ended.stderr.is_empty(), "{ended:?}");
}
