//! Writes a plain script of before there were lines as one of today, with what comes of each call now.
//!
//!     cargo run --manifest-path rust/Cargo.toml --release --offline -p script --example by_line -- OLD > NEW
//!
//! Each start gets the memory for lines. Behind each call stand steps of all lines until they are empty:
//! so tokens, credits and HELLO cross as they did when they crossed at once. Where a call then answers
//! otherwise than the script states, standard error says so, but for HELLO, whose grant is told by the
//! line step that brings it.
//!
//! With --kept before OLD no line step is added: a script of today gets its answers and digests.

use std::io::{self, BufWriter, Write};
use std::path::Path;
use std::process::ExitCode;

use bench::raw;
use bench::sizes::LINKS;
use script::{parse, source, Answer, Call, Host, Line, HEAD};

/// What a script's first line may begin with: the Asks that it was made with.
const ASKS: &str = "// asks ";

/// Whether steps of lines are added.
#[derive(Clone, Copy, PartialEq, Eq)]
enum Lines {
    Emptied,
    Kept,
}

fn main() -> ExitCode {
    let words: Vec<_> = std::env::args_os().skip(1).collect();
    let (lines, path) = match &words[..] {
        [path] => (Lines::Emptied, path),
        [kept, path] if kept == "--kept" => (Lines::Kept, path),
        _ => {
            eprintln!("usage: by_line [--kept] FILE");
            return ExitCode::from(2);
        }
    };
    match written(Path::new(&path), lines) {
        Ok(()) => ExitCode::SUCCESS,
        Err(complaint) => {
            eprintln!("{}: {complaint}", source::name(Path::new(&path)));
            ExitCode::from(2)
        }
    }
}

fn written(path: &Path, lines: Lines) -> Result<(), Box<dyn std::error::Error>> {
    let text = source::read(path)?;
    let mut out = BufWriter::new(io::stdout().lock());
    let mut host = Host::default();
    writeln!(out, "{HEAD}")?;
    for (number, line) in (1..).zip(text.lines()) {
        if line.starts_with(ASKS) {
            continue;
        }
        let mut calls = parse(&with_lines(line))?;
        match calls.pop() {
            Some(stated) => made(&mut out, &mut host, number, stated)?,
            None => writeln!(out, "{line}")?,
        }
        while lines == Lines::Emptied && emptied(&mut out, &mut host, number)? {}
    }
    Ok(out.flush()?)
}

/// A start as it is written today; any other line as it is.
fn with_lines(line: &str) -> String {
    let words: Vec<&str> = line.split_whitespace().collect();
    match words[..] {
        [start @ ("fresh" | "blank"), nodes, memory, ref rest @ ..] if !rest.contains(&"lines") => {
            let boards = nodes.parse::<usize>().unwrap_or(0);
            let lines = boards.saturating_mul(raw::line_words());
            let rest = rest.join(" ");
            format!("{start} {nodes} {memory} lines {lines} {rest}")
        }
        _ => line.to_owned(),
    }
}

/// Makes a call, and says where it answers otherwise than it did.
fn made(out: &mut impl Write, host: &mut Host, number: usize, line: Line) -> io::Result<()> {
    let made = host.make(number, line.call);
    writeln!(out, "{made}")?;
    let stated = line.stated.map(|stated| stated.answer);
    let is_other = |stated: &Answer| *stated != made.found.answer;
    if let Some(stated) = stated.filter(is_other) {
        if !matches!(stated, Answer::Granted(_)) {
            eprintln!("line {number}: {made}, before {stated}");
        }
    }
    Ok(())
}

/// A round of all lines: whether one of them had something on it.
fn emptied(out: &mut impl Write, host: &mut Host, number: usize) -> io::Result<bool> {
    let mut changed = false;
    for slot in 0..host.looks().nodes() {
        for link in 0..LINKS {
            if let Some(made) = host.make_if_it_changes(number, Call::Line { slot, link }) {
                writeln!(out, "{made}")?;
                changed = true;
            }
        }
    }
    Ok(changed)
}
