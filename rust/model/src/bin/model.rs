//! The command `model`: runs, checks and makes up scripts.

use std::io::{self, ErrorKind, Write};
use std::process::ExitCode;

use model::runs::Runner;
use model::script;

const USAGE: &str =
    "usage: model run FILE | model check FILE | model random SEED COUNT | model lines SEED COUNT";

fn main() -> ExitCode {
    // What is no text has marks in it then, and is no word that is known.
    let words = std::env::args_os().skip(1);
    let words: Vec<String> = words.map(|word| word.to_string_lossy().into()).collect();
    let words: Vec<&str> = words.iter().map(String::as_str).collect();
    let result = match words[..] {
        ["run", file] => run(file).and_then(|text| print(&text)),
        ["check", file] => check(file).and_then(|text| print(&text)),
        ["random", seed, count] => random("", Runner::new, seed, count),
        ["lines", seed, count] => random(BY_LINE, Runner::by_line, seed, count),
        _ => Err(USAGE.to_string()),
    };
    match result {
        Ok(()) => ExitCode::SUCCESS,
        Err(fault) => {
            let _ = writeln!(io::stderr(), "{fault}");
            ExitCode::FAILURE
        }
    }
}

/// Whoever reads what is printed may go before its end: that is no fault.
fn unless_gone(written: io::Result<()>) -> Result<(), String> {
    match written {
        Err(error) if error.kind() != ErrorKind::BrokenPipe => Err(error.to_string()),
        _ => Ok(()),
    }
}

fn print(text: &str) -> Result<(), String> {
    unless_gone(io::stdout().write_all(text.as_bytes()))
}

fn read(file: &str) -> Result<String, String> {
    std::fs::read_to_string(file).map_err(|error| format!("{file}: {error}"))
}

fn run(file: &str) -> Result<String, String> {
    script::run(&read(file)?).map_err(|fault| format!("{file}: {fault}"))
}

fn check(file: &str) -> Result<String, String> {
    let compared = script::check(&read(file)?).map_err(|fault| format!("{file}: {fault}"))?;
    Ok(format!("{compared} calls agree\n"))
}

/// What a run begins with that is made up by line.
const BY_LINE: &str = "// asks 1,4,7\n";

fn random(head: &str, run: fn(u64) -> Runner, seed: &str, count: &str) -> Result<(), String> {
    let seed = seed.parse().map_err(|_| USAGE.to_string())?;
    let count: usize = count.parse().map_err(|_| USAGE.to_string())?;
    let mut runner = run(seed);
    let mut out = io::BufWriter::new(io::stdout().lock());
    let mut lines = (0..count).map(|_| runner.call());
    let begun = out.write_all(head.as_bytes());
    let written =
        begun.and_then(|()| lines.try_for_each(|(call, found)| writeln!(out, "{call} -> {found}")));
    unless_gone(written.and_then(|()| out.flush()))
}
