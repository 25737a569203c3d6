//! What the tests of the command share.

// Each file of tests uses some of these and not others.
#![allow(dead_code)]

pub mod json;

use std::io::Write;
use std::path::{Path, PathBuf};
use std::process::{Command, Output, Stdio};

/// Runs the command with these words.
pub fn bench(words: &[&str]) -> Output {
    let program = env!("CARGO_BIN_EXE_bench");
    let mut command = Command::new(program);
    command.args(words).output().expect("an output")
}

pub fn text(bytes: &[u8]) -> String {
    String::from_utf8_lossy(bytes).into_owned()
}

/// A file with this text.
pub fn file(name: &str, text: &str) -> String {
    let path = PathBuf::from(env!("CARGO_TARGET_TMPDIR")).join(name);
    std::fs::write(&path, text).expect("a file");
    path.to_str().expect("a path").to_owned()
}

/// The scripts in a folder of the repository, by name.
pub fn scripts_in(folder: &str) -> Vec<PathBuf> {
    let folder = Path::new(env!("CARGO_MANIFEST_DIR")).join(folder);
    let entries = std::fs::read_dir(folder).expect("a folder of scripts");
    let paths = entries.map(|entry| entry.expect("a file").path());
    let is_script = |path: &PathBuf| path.extension().is_some_and(|end| end == "txt");
    let mut scripts: Vec<_> = paths.filter(is_script).collect();
    scripts.sort();
    scripts
}

/// The writing end of a pipe that nobody reads any more.
pub fn unread() -> Stdio {
    let mut gone = Command::new("true");
    let mut gone = gone.stdin(Stdio::piped()).spawn().expect("true");
    let pipe = gone.stdin.take().expect("a pipe");
    gone.wait().expect("its end");
    pipe.into()
}

/// Says it past the test's own output, which the harness keeps to itself: the gate shows it.
pub fn left_out(what: &str) {
    let line = format!("\nleft out: {what}\n");
    std::io::stderr()
        .write_all(line.as_bytes())
        .expect("a line");
}
