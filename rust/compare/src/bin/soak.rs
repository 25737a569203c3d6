//! The command `soak`: random comparison of the proved bench with the model, for hours.

use std::ffi::{OsStr, OsString};
use std::io::{self, ErrorKind, Write};
use std::path::PathBuf;
use std::process::ExitCode;
use std::time::{Duration, Instant, SystemTime, UNIX_EPOCH};

use compare::reduce::{report, report_by};
use compare::soak::{thorough, watched, watched_lists, Figures, Found};
use compare::watch::library;
use compare::{asking, changing, filling, runs};
use model::Call;

const ABOUT: &str = "\
soak: compares the proved bench with the model on random runs and damaged memories, and watches
      what becomes of its streams

  soak [--seed N] [--minutes N] [--into FOLDER]

Seeds are taken one after the other, from N or from the clock, until a difference or a stream gone
wrong is found or the minutes (60 if not given) have passed, or nobody reads what it prints any more.
A run that differs is made as short as it can be and written as a script, FOLDER/soak-SEED.txt (the
folder at hand if none is given), with the model's answers stated. The same seed gives the same run.
At the end it says how often each call gave each answer, and each switch message each of its ends, on
both sides.

Exit status: 0 no difference, 1 a difference, 2 words that are not understood, or nothing can be
printed.
";

/// Calls of each random run, most of them behind the setting up of its network, of each run that
/// fills buffers, of each that asks control units, of each in which settings change, with cables from
/// the start or without, of each with lists of Steps, and of each other that is watched.
const CALLS: usize = 1500;
const FILLING: usize = 1500;
const ASKING: usize = 3000;
const CHANGING: usize = 1500;
const LISTED: usize = 500;
const WATCHED: usize = 3000;

/// How often it says how far it is.
const EVERY: Duration = Duration::from_secs(10);

struct Asked {
    seed: u64,
    time: Duration,
    into: PathBuf,
}

/// The exit status of a difference, and that of words that are not understood.
const DIFFERENCE: u8 = 1;
const NOTHING_DONE: u8 = 2;

fn main() -> ExitCode {
    let words: Vec<OsString> = std::env::args_os().skip(1).collect();
    let ended = match (&words[..], asked(&words)) {
        ([word], _) if word == "--help" || word == "-h" => {
            write!(io::stdout(), "{ABOUT}").map(|()| 0)
        }
        (_, Ok(asked)) => soak(&asked),
        (_, Err(expected)) => {
            complain(&format!("{expected}\n{ABOUT}"));
            Ok(NOTHING_DONE)
        }
    };
    match ended {
        Ok(status) => ExitCode::from(status),
        // Whoever reads what is printed may go before its end.
        Err(error) if error.kind() == ErrorKind::BrokenPipe => ExitCode::SUCCESS,
        Err(error) => {
            complain(&format!("cannot write: {error}"));
            ExitCode::from(NOTHING_DONE)
        }
    }
}

/// Beside the output. Where nobody can be told, the exit status says it.
fn complain(text: &str) {
    let _ = writeln!(io::stderr(), "{}", text.trim_end());
}

/// What the words ask for, or what was expected instead.
fn asked(words: &[OsString]) -> Result<Asked, String> {
    let mut asked = Asked {
        seed: clock(),
        time: Duration::from_secs(3600),
        into: PathBuf::new(),
    };
    for pair in words.chunks(2) {
        let name = pair[0].to_string_lossy();
        let value = pair.get(1).map(OsString::as_os_str);
        match &name[..] {
            "--seed" => asked.seed = number(value, "a seed of 64 bits")?,
            "--minutes" => asked.time = minutes(value)?,
            "--into" => asked.into = value.ok_or_else(|| expected("a folder", value))?.into(),
            _ => return Err(expected("--seed, --minutes or --into", Some(&pair[0]))),
        }
    }
    Ok(asked)
}

fn expected(what: &str, found: Option<&OsStr>) -> String {
    let found = found.map_or("nothing".into(), OsStr::to_string_lossy);
    format!("expected {what}, found {found}")
}

fn number(word: Option<&OsStr>, what: &str) -> Result<u64, String> {
    let number = word.and_then(|word| word.to_str()?.parse().ok());
    number.ok_or_else(|| expected(what, word))
}

/// The time of so many minutes, which must be one.
fn minutes(word: Option<&OsStr>) -> Result<Duration, String> {
    let what = "minutes whose seconds have 64 bits";
    let seconds = number(word, what)?.checked_mul(60);
    let time = seconds.map(Duration::from_secs);
    time.ok_or_else(|| expected(what, word))
}

/// A seed that is not the last one's.
fn clock() -> u64 {
    let now = SystemTime::now().duration_since(UNIX_EPOCH);
    now.map_or(0, |since| since.as_secs())
}

/// Answers the exit status, or why nothing more can be printed.
fn soak(asked: &Asked) -> io::Result<u8> {
    let mut out = io::stdout();
    writeln!(out, "from seed {}", asked.seed)?;
    let (begun, mut said) = (Instant::now(), Instant::now());
    let mut figures = Figures::default();
    for seed in asked.seed..=u64::MAX {
        match compare_with(seed) {
            Ok(more) => figures += more,
            Err(found) => return Ok(tell(asked, seed, found)),
        }
        let over = begun.elapsed() >= asked.time || seed == u64::MAX;
        if over || said.elapsed() >= EVERY {
            said = Instant::now();
            let seconds = begun.elapsed().as_secs();
            writeln!(out, "up to seed {seed}, {seconds} s: {figures}")?;
        }
        if over {
            break;
        }
    }
    let reached = &figures.reached;
    write!(out, "reached on both sides, by call and answer\n{reached}")?;
    writeln!(out, "no difference")?;
    Ok(0)
}

fn compare_with(seed: u64) -> Result<Figures, Found> {
    let mut figures = watched(seed, WATCHED)?;
    figures += watched_lists(seed, LISTED)?;
    for calls in [
        runs::calls(seed, CALLS),
        filling::calls(seed, FILLING),
        asking::calls(seed, ASKING),
        changing::calls(seed, CHANGING),
        changing::calls_without_cables(seed, CHANGING),
        runs::calls_with_lists(seed, LISTED),
        asking::calls_with_lists(seed, LISTED),
        changing::calls_with_lists(seed, LISTED),
    ] {
        figures += thorough(model::apply, seed, &calls)?;
    }
    Ok(figures)
}

/// Says what differs, and leaves a script of it where one can show it: also where nobody reads what
/// is printed any more. Answers the exit status.
fn tell(asked: &Asked, seed: u64, found: Found) -> u8 {
    let told = match found {
        Found::Memory { behind, how } => {
            format!("seed {seed}, a damaged memory behind {behind} calls: {how}\n")
        }
        Found::Run(differing) => {
            let how = format!("seed {seed}: {}\n", differing.how);
            how + &left(asked, seed, report(model::apply, &from(seed), differing))
        }
        Found::Watched(broken) => {
            let how = format!("seed {seed}: {}\n", broken.how);
            let fails = |calls: &[Call]| library(calls).err();
            how + &left(
                asked,
                seed,
                report_by(&fails, model::apply, &from(seed), broken),
            )
        }
    };
    let _ = write!(io::stdout(), "{told}");
    DIFFERENCE
}

fn from(seed: u64) -> String {
    format!("seed {seed}")
}

/// Leaves a script behind, and says where.
fn left(asked: &Asked, seed: u64, text: String) -> String {
    let path = asked.into.join(format!("soak-{seed}.txt"));
    match std::fs::write(&path, &text) {
        Ok(()) => format!("{text}written to {}\n", path.display()),
        Err(error) => format!("{text}not written to {}: {error}\n", path.display()),
    }
}
