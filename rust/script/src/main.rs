//! The command `bench`: runs and checks scripts of calls on the proved bench, and says what the
//! network is like that they leave.

mod probing;

use std::ffi::OsString;
use std::io::{self, ErrorKind, IsTerminal, Write};
use std::path::{Path, PathBuf};
use std::process::ExitCode;

use bench::Bench;
use script::expand::Expanding;
use script::help::{self, Verb};
use script::matrix::Matrix;
use script::page::Recording;
use script::question::{read_door, Door, Question};
use script::tell::{Colours, Telling};
use script::{diff, draw, page, route, show, source};
use script::{Expected, Fault, Host, Made, Script};

/// Why a verb did not come to its end, with the exit status that this has.
struct Complaint {
    status: u8,
    text: String,
}

/// Whether what was asked is so: exit status 0 or 1.
type Ended = Result<bool, Complaint>;

/// A word of the command line. As text it has marks for what is no text, so that it is no verb, no
/// option and no number then; a file may have such a name all the same.
struct Word {
    text: String,
    path: PathBuf,
}

impl From<OsString> for Word {
    fn from(given: OsString) -> Word {
        Word {
            text: given.to_string_lossy().into_owned(),
            path: given.into(),
        }
    }
}

fn main() -> ExitCode {
    let words: Vec<Word> = std::env::args_os().skip(1).map(Word::from).collect();
    match obey(&words) {
        Ok(true) => ExitCode::SUCCESS,
        Ok(false) => ExitCode::from(1),
        Err(Complaint { status, text }) => {
            complain(&text);
            ExitCode::from(status)
        }
    }
}

/// Beside the output. Where nobody can be told, the exit status says it.
fn complain(text: &str) {
    let _ = writeln!(io::stderr(), "{text}");
}

fn obey(words: &[Word]) -> Ended {
    let texts: Vec<&str> = words.iter().map(|word| word.text.as_str()).collect();
    let file = |at: usize| words[at].path.as_path();
    match texts[..] {
        ["--help" | "-h" | "help"] => print(&help::help()),
        [verb, "--help" | "-h"] | ["help", verb] => match Verb::named(verb) {
            Some(verb) => print(verb.help),
            None => Err(complaint(help::usage_for(verb))),
        },
        ["completion"] => print(&help::completion()),
        ["manual"] => print(&help::manual()),
        ["tell", _] => tell(file(1)),
        ["run", _] => run(file(1)),
        ["check", _] => check(file(1)),
        ["expand", _] => expand(file(1)),
        ["show", _] => print(&show::show(&network(file(1))?)),
        ["route", _, ref question @ ..] => follow(file(1), question),
        ["matrix", ..] => ask_all(&words[1..]),
        ["draw", _] => print(&draw::draw(&network(file(1))?)),
        ["page", _] => page(file(1)),
        ["diff", _, _, ref door @ ..] => compare(file(1), file(2), door),
        ["probe", ..] => probing::probe(&words[1..]),
        ["capture", ..] => probing::capture(&words[1..]),
        [verb, ..] => Err(complaint(help::usage_for(verb))),
        [] => Err(complaint(help::usage())),
    }
}

fn complaint(text: String) -> Complaint {
    Complaint { status: 2, text }
}

fn print(text: &str) -> Ended {
    let mut out = io::stdout();
    let written = out.write_all(text.as_bytes()).and_then(|()| out.flush());
    unless_gone(written).map_err(unwritten)?;
    Ok(true)
}

/// Whoever reads what is printed may go before its end, as head does: that is no fault.
fn unless_gone(written: io::Result<()>) -> io::Result<()> {
    match written {
        Err(error) if error.kind() == ErrorKind::BrokenPipe => Ok(()),
        other => other,
    }
}

fn unwritten(error: io::Error) -> Complaint {
    complaint(format!("cannot write: {error}"))
}

fn read(file: &Path) -> Result<String, Complaint> {
    source::read(file).map_err(|unread| complaint(format!("{}: {unread}", source::name(file))))
}

fn faulty(file: &Path, fault: Fault) -> Complaint {
    Complaint {
        status: fault.exit_status(),
        text: format!("{}: {fault}", source::name(file)),
    }
}

/// An unsound memory is not only refused: which clause it fails goes beside the output.
fn say_what_fails(file: &Path, made: &Made) {
    if let Some(clause) = made.failing {
        let (name, line) = (source::name(file), made.line);
        complain(&format!("{name}: line {line}: unsound memory, {clause}"));
    }
}

fn run(file: &Path) -> Ended {
    let text = read(file)?;
    let mut out = io::BufWriter::new(io::stdout().lock());
    let mut head = Some(script::HEAD);
    let ran = script::run(&text, |made| {
        say_what_fails(file, made);
        // Behind the first call: of a script with a bad line nothing is printed.
        if let Some(head) = head.take() {
            writeln!(out, "{head}")?;
        }
        writeln!(out, "{made}")
    });
    match ran {
        Err(Fault::Untold(error)) => unless_gone(Err(error)).map_err(unwritten)?,
        Err(fault) => return Err(faulty(file, fault)),
        Ok(_) => unless_gone(out.flush()).map_err(unwritten)?,
    }
    Ok(true)
}

fn check(file: &Path) -> Ended {
    let text = read(file)?;
    let checked = script::check(&text, |made| {
        say_what_fails(file, made);
        Ok(())
    });
    let compared = checked.map_err(|fault| faulty(file, fault))?;
    print(&format!("{compared} calls agree\n"))
}

/// What a verb that prints as it goes comes to: what stands before a line that differs is printed too.
fn played(file: &Path, played: Result<Host, Fault>, written: io::Result<()>) -> Ended {
    match played {
        Err(Fault::Untold(error)) => unless_gone(Err(error)).map_err(unwritten)?,
        Err(fault) => return Err(faulty(file, fault)),
        Ok(_) => unless_gone(written).map_err(unwritten)?,
    }
    Ok(true)
}

fn understood<'a>(file: &Path, text: &'a str) -> Result<Script<'a>, Complaint> {
    script::read(text).map_err(|bad| faulty(file, Fault::BadLine(bad)))
}

fn expand(file: &Path) -> Ended {
    let text = read(file)?;
    let script = understood(file, &text)?;
    let mut expanding = Expanding::to(io::BufWriter::new(io::stdout().lock()));
    let came_of_it = script::play(&script, &mut expanding);
    played(file, came_of_it, expanding.flush())
}

/// Colours are for a terminal, and for people who have not said NO_COLOR.
fn colours() -> Colours {
    let is_set = |name| std::env::var_os(name).is_some_and(|value| !value.is_empty());
    match io::stdout().is_terminal() && !is_set("NO_COLOR") {
        true => Colours::On,
        false => Colours::Off,
    }
}

fn tell(file: &Path) -> Ended {
    let text = read(file)?;
    let script = understood(file, &text)?;
    let out = io::BufWriter::new(io::stdout().lock());
    let mut telling = Telling::to(out, &script.boards, colours());
    let came_of_it = script::play(&script, &mut telling);
    played(file, came_of_it, telling.finish())
}

/// The page is printed also where the run ended before its end: that is what one wants to see.
fn page(file: &Path) -> Ended {
    let text = read(file)?;
    let script = understood(file, &text)?;
    let mut recording = Recording::of(&script.boards);
    let came_of_it = script::play(&script, &mut recording);
    let left = came_of_it.as_ref().ok().map(Host::copy);
    let left = left.filter(|bench| bench.looks().nodes() > 0);
    let name = source::name(file);
    let printed = print(&page::page(&name, &script.boards, recording, left.as_ref()));
    match came_of_it {
        Err(fault) => Err(faulty(file, fault)),
        Ok(_) => printed,
    }
}

/// A copy of the network that a script leaves.
fn network(file: &Path) -> Result<Bench, Complaint> {
    let text = read(file)?;
    let ran = script::run(&text, |made| {
        say_what_fails(file, made);
        Ok(())
    });
    let bench = ran.map_err(|fault| faulty(file, fault))?.copy();
    match bench.looks().nodes() {
        0 => Err(complaint(format!(
            "{}: no network: no fresh or blank of it succeeds",
            source::name(file)
        ))),
        _ => Ok(bench),
    }
}

/// What was asked is not a question.
fn unasked(expected: Expected) -> Complaint {
    complaint(format!("{expected}\n{}", help::usage()))
}

fn follow(file: &Path, question: &[&str]) -> Ended {
    let question = Question::read(question).map_err(unasked)?;
    let (text, arrived) = route::route(network(file)?, question);
    print(&text)?;
    Ok(arrived)
}

/// `[CHANNEL [NETWORK]]`: channel 0 of network 0 if nothing is said.
fn door_or_first(words: &[&str]) -> Result<(Door, u32), Complaint> {
    match words {
        [] => Ok((Door::Channel(0), 0)),
        _ => read_door(words).map_err(unasked),
    }
}

/// `BEFORE AFTER [CHANNEL [NETWORK]]`
fn compare(before: &Path, after: &Path, door: &[&str]) -> Ended {
    let (door, network_number) = door_or_first(door)?;
    let names = [before, after].map(source::name);
    let [before, after] = [network(before)?, network(after)?];
    let side = |name, bench| diff::Side { name, bench };
    let (before, after) = (side(&names[0], &before), side(&names[1], &after));
    let (text, same) = diff::diff(&before, &after, door, network_number);
    print(&text)?;
    Ok(same)
}

/// `[--csv] FILE [CHANNEL [NETWORK]]`
fn ask_all(words: &[Word]) -> Ended {
    let (options, words): (Vec<&Word>, Vec<&Word>) =
        words.iter().partition(|word| word.text == "--csv");
    let Some((file, door)) = words.split_first() else {
        return Err(complaint(help::usage()));
    };
    let door: Vec<&str> = door.iter().map(|word| word.text.as_str()).collect();
    let (door, network_number) = door_or_first(&door)?;
    let bench = network(&file.path)?;
    let matrix = Matrix::of(&bench, door, network_number);
    print(&match options.is_empty() {
        true => matrix.table(),
        false => matrix.csv(),
    })?;
    Ok(matrix.all_arrived())
}
