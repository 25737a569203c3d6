//! The proved library against plain Rust, in one run: a line for each measure and each other side.
//! With an argument, the measures alone whose names have it in them.

use std::ffi::OsString;
use std::io::{self, ErrorKind, Write};
use std::process::ExitCode;

use ratio::lists::{beside_baseline, beside_single_calls, lists, Times};
use ratio::measures::measures;
use ratio::timing::{self, time};

const ABOUT: &str = "\
ratio: times the proved library beside plain Rust, a line for each measure and each other side

  ratio [PART]    the measures with PART in their names; all of them, some seconds, if not given

Exit status: 0 printed; 2 words that are not understood, or nothing can be printed.
";

/// Enough that the median does not move by what else the machine does.
const ROUNDS: usize = 201;

/// Ten thousand single calls take a tenth of a second: few rounds are enough.
const SINGLE_ROUNDS: usize = 11;

fn main() -> ExitCode {
    let words: Vec<OsString> = std::env::args_os().skip(1).collect();
    match obey(&words) {
        Ok(status) => ExitCode::from(status),
        // Whoever reads what is printed may go before its end.
        Err(error) if error.kind() == ErrorKind::BrokenPipe => ExitCode::SUCCESS,
        Err(error) => {
            let _ = writeln!(io::stderr(), "cannot write: {error}");
            ExitCode::from(2)
        }
    }
}

/// The exit status, or why nothing more can be printed.
fn obey(words: &[OsString]) -> io::Result<u8> {
    // What is no text has marks in it then, and is in no measure's name.
    let words: Vec<_> = words.iter().map(|word| word.to_string_lossy()).collect();
    let wanted = match &words[..] {
        [] => "",
        [word] if word == "--help" || word == "-h" => {
            io::stdout().write_all(ABOUT.as_bytes())?;
            return Ok(0);
        }
        [wanted] => wanted,
        _ => {
            let _ = io::stderr().write_all(ABOUT.as_bytes());
            return Ok(2);
        }
    };
    calls(wanted)?;
    steps_of_lists(wanted)?;
    Ok(0)
}

fn calls(wanted: &str) -> io::Result<()> {
    let measures = measures().into_iter();
    for measure in measures.filter(|measure| measure.name.contains(wanted)) {
        let timing::Times {
            library,
            model,
            baseline,
        } = time(&measure, ROUNDS);
        line(&measure.name, library, "baseline", baseline)?;
        line(&measure.name, library, "model", model)?;
    }
    Ok(())
}

fn steps_of_lists(wanted: &str) -> io::Result<()> {
    let lists = lists().into_iter();
    for measure in lists.filter(|measure| measure.name.contains(wanted)) {
        let Times { list, other } = beside_baseline(&measure, ROUNDS);
        line(&measure.name, list, "untested-baseline", other)?;
        let Times { list, other } = beside_single_calls(&measure, SINGLE_ROUNDS);
        line(&measure.name, list, "single-library", other)?;
    }
    Ok(())
}

/// The library's time, of a list a Step of it, divided by the other's.
fn line(name: &str, library: f64, other_name: &str, other: f64) -> io::Result<()> {
    let name = format!("{name}/{other_name}");
    let ratio = library / other;
    let ratio = match ratio < 0.1 {
        true => format!("{ratio:.4}"),
        false => format!("{ratio:.2}"),
    };
    let (library, other) = (nanoseconds(library), nanoseconds(other));
    let times = format!("library {library} ns, {other_name} {other} ns");
    writeln!(io::stdout(), "{name:<42} ratio {ratio}   {times}")
}

/// To three digits at least.
fn nanoseconds(time: f64) -> String {
    match time < 100.0 {
        true => format!("{time:.1}"),
        false => format!("{time:.0}"),
    }
}
