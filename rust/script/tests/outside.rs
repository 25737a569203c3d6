//! What comes from outside, whatever it is: words, files and readers. The command answers each with
//! an exit status, never with a panic.

mod common;

use std::fs::{self, File};
use std::io::Read;
use std::path::{Path, PathBuf};
use std::process::{Command, Output, Stdio};

use common::{bench, file, text, unread};
use script::source::MOST_BYTES;

/// The verbs that read one file and nothing else.
#[rustfmt::skip]
const VERBS: [&str; 8] = ["run", "check", "expand", "tell", "show", "matrix", "draw", "page"];

fn command() -> Command {
    Command::new(env!("CARGO_BIN_EXE_bench"))
}

fn room(name: impl AsRef<Path>) -> PathBuf {
    Path::new(env!("CARGO_TARGET_TMPDIR")).join(name)
}

/// Exit status 2, nothing on standard output, and a single line beside it.
fn assert_unread(output: &Output, expected: &str) {
    let complaint = text(&output.stderr);
    assert_eq!(output.status.code(), Some(2), "{complaint}");
    assert!(output.stdout.is_empty());
    assert!(complaint.contains(expected), "{complaint}");
    assert_eq!(complaint.lines().count(), 1, "{complaint}");
}

#[cfg(unix)]
mod no_text {
    use std::ffi::OsStr;
    use std::os::unix::ffi::OsStrExt;

    use super::*;

    /// A word that is no verb, no question, and a file that is not there.
    #[test]
    fn as_a_word() {
        let word = OsStr::from_bytes(b"ru\xFFn\n");
        let path = file("no-text-word.txt", "blank 1 832 lines 528\n");
        let words = |words: &[&OsStr]| command().args(words).output().expect("an output");
        let text = OsStr::new;
        for given in [&[word][..], &[word, word], &[text("help"), word]] {
            let output = words(given);
            assert_eq!(output.status.code(), Some(2));
            assert!(output.stderr.starts_with(b"usage: bench tell FILE"));
        }
        let route = [text("route"), text(&path), text("0"), word, text("7")];
        for given in [&route[..], &[text("matrix"), text(&path), word]] {
            let output = words(given);
            assert_eq!(output.status.code(), Some(2));
            assert!(output.stderr.starts_with(b"expected a "));
        }
        for verb in VERBS {
            let output = words(&[text(verb), word]);
            assert_unread(&output, "ru\u{FFFD}n\\n: No such file");
        }
    }

    /// A file may be called so all the same.
    #[test]
    fn as_a_file_name() {
        let path = room(OsStr::from_bytes(b"no-text-\xFF.txt"));
        fs::write(&path, "blank 1 832 lines 528\n").expect("a file");
        for verb in VERBS {
            let output = command().arg(verb).arg(&path).output();
            let output = output.expect("an output");
            assert!(output.status.success(), "{output:?}");
        }
    }
}

#[test]
fn a_file_that_is_no_text() {
    let path = room("no-text.txt");
    fs::write(&path, b"blank 1 832 lines 528\n\nstep \xFF 8\n").expect("a file");
    for verb in VERBS {
        let output = bench(&[verb, path.to_str().expect("a path")]);
        assert_unread(&output, "no-text.txt: line 3: no text in UTF-8");
    }
}

/// A file that states a length beyond the limit is not read at all: this one has no bytes on the disk.
#[test]
fn a_file_that_is_too_long() {
    let path = room("too-long.txt");
    let sparse = File::create(&path).expect("a file");
    sparse.set_len(1 << 40).expect("a length");
    for verb in VERBS {
        let output = bench(&[verb, path.to_str().expect("a path")]);
        assert_unread(&output, "too-long.txt: more than 64 MiB, too long");
    }
    fs::remove_file(path).expect("a file to remove");
}

/// A script of just as many bytes is read, and one byte more is not.
#[test]
fn a_file_of_the_limit() {
    let path = room("limit.txt");
    let script = "blank 1 832 lines 528\n//";
    let mut lengthened = script.as_bytes().to_vec();
    lengthened.resize(MOST_BYTES as usize, b'-');
    fs::write(&path, &lengthened).expect("a file");
    let name = path.to_str().expect("a path");
    let output = bench(&["check", name]);
    assert!(output.status.success(), "{}", text(&output.stderr));
    lengthened.push(b'-');
    fs::write(&path, &lengthened).expect("a file");
    assert_unread(&bench(&["check", name]), "more than 64 MiB, too long");
    fs::remove_file(path).expect("a file to remove");
}

/// One that has no length and no end is read up to the limit.
#[cfg(target_os = "linux")]
#[test]
fn a_file_without_an_end() {
    let output = bench(&["run", "/dev/zero"]);
    assert_unread(&output, "/dev/zero: more than 64 MiB, too long");
}

#[test]
fn a_folder() {
    let output = bench(&["run", env!("CARGO_TARGET_TMPDIR")]);
    assert_unread(&output, "irectory");
}

/// Of a file that is something else no more is shown than tells what it is.
#[test]
fn a_file_that_is_no_script() {
    let path = file("no-script.txt", &"\u{1b}[2Jx".repeat(10_000));
    let output = bench(&["run", &path]);
    assert_unread(
        &output,
        "no-script.txt: line 1, column 1: expected fresh, blank,",
    );
    assert!(output.stderr.len() < 1000);
    assert!(!output.stderr.contains(&0x1b), "the cursor is not moved");
}

/// Numbers beyond 64 bits, or beyond what an argument can have, are no numbers.
#[test]
fn numbers_that_are_too_large() {
    let (highest, beyond) = ("18446744073709551615", "18446744073709551616");
    let path = file("large.txt", "blank 1 832 lines 528\n");
    for words in [
        &["route", &path, beyond, "0", "0"][..],
        &["route", &path, "0", "4294967296", "0"],
        &["route", &path, "0", "0", "0", beyond],
        &["route", &path, "0 0", "0", "0"],
        &["matrix", &path, beyond],
        &["matrix", &path, "0", "4294967296"],
    ] {
        let output = bench(words);
        assert_eq!(output.status.code(), Some(2), "{words:?}");
        assert!(text(&output.stderr).starts_with("expected "), "{words:?}");
    }
    let output = bench(&["route", &path, highest, "4294967295", "4294967295"]);
    assert_eq!(output.status.code(), Some(1), "{output:?}");
    assert!(text(&output.stdout).ends_with("ends: Aim is refused, no 2, NoSuch\n"));
    let calls =
        format!("fresh {highest} {highest} lines {highest}\nsteps {highest} {highest} {highest}\n");
    let path = file("large-calls.txt", &calls);
    let output = bench(&["run", &path]);
    assert!(output.status.success(), "{output:?}");
}

/// A script whose answers are more than a pipe holds.
fn long_script(name: &str) -> String {
    let calls = "step 0 8\n".repeat(20_000);
    file(name, &format!("blank 1 832 lines 528\n{calls}"))
}

/// The first bytes that it prints are read, and no more.
#[test]
fn a_reader_that_goes_away() {
    let path = long_script("read.txt");
    let mut command = command();
    command.args(["run", &path]);
    let pipes = command.stdout(Stdio::piped()).stderr(Stdio::piped());
    let mut child = pipes.spawn().expect("the command");
    let mut first = [0; 14];
    let mut printed = child.stdout.take().expect("its output");
    printed.read_exact(&mut first).expect("its first line");
    drop(printed);
    let ended = child.wait_with_output().expect("its end");
    assert_eq!(&first, b"// asks 1,4,7\n");
    assert_eq!(
        (ended.status.code(), text(&ended.stderr)),
        (Some(0), String::new())
    );
}

/// A verb that asks has its own exit status, whoever reads.
#[test]
fn nobody_reads() {
    let path = file("unread.txt", "blank 2 1664 lines 1056\nset 1 number 0 1\n");
    let cases = [
        (&["show", &path][..], 0),
        (&["draw", &path], 0),
        (&["check", &path], 0),
        (&["expand", &path], 0),
        (&["tell", &path], 0),
        (&["page", &path], 0),
        (&["matrix", &path], 1),
        (&["route", &path, "0", "1", "7"], 1),
        (&["--help"], 0),
    ];
    for (words, status) in cases {
        let ended = command().args(words).stdout(unread()).output();
        let ended = ended.expect("an output");
        assert_eq!(ended.status.code(), Some(status), "{words:?}");
        assert_eq!(text(&ended.stderr), "", "{words:?}");
    }
}

/// Where nothing can be written, standard error says it, and where that cannot be written either
/// the exit status does.
#[cfg(target_os = "linux")]
#[test]
fn nothing_can_be_written() {
    let path = long_script("unwritten.txt");
    let full = || {
        File::options()
            .write(true)
            .open("/dev/full")
            .expect("a full device")
    };
    for verb in ["run", "expand", "tell", "show"] {
        let output = command().args([verb, &path]).stdout(full()).output();
        assert_unread(&output.expect("an output"), "cannot write: ");
        let mut command = command();
        let silent = command.args([verb, &path]).stdout(full()).stderr(full());
        assert_eq!(silent.status().expect("an end").code(), Some(2), "{verb}");
    }
    let unsound = file("unsound-unread.txt", "blank 1 1 lines 528\n");
    let ended = command()
        .args(["run", &unsound])
        .stdout(Stdio::null())
        .stderr(full())
        .status();
    assert!(ended.expect("an end").success());
}
