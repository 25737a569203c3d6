//! The words of `bench probe` and `bench capture`.

use std::io;
use std::path::Path;

use bench::probe::Refused;
use bench::sizes::LINKS;
use bench::{LinkEnd, Looks};
use script::probe::recording::{Instant, Recording};
use script::probe::{self, check, text, Asked};
use script::{capture as captured, help, source, Expected};

use crate::{
    complaint, faulty, network, print, read, say_what_fails, unasked, Complaint, Ended, Word,
};

/// What a place of a network holds, or why it cannot be said.
type Held = fn(Looks, Asked) -> Result<Vec<u16>, String>;

pub fn probe(words: &[Word]) -> Ended {
    let texts: Vec<&str> = words.iter().map(|word| word.text.as_str()).collect();
    let file = |at: usize| words[at].path.as_path();
    match texts[..] {
        ["port", _, ref asked @ ..] => held(file(1), asked, "a port", probe::port),
        ["line", _, ref asked @ ..] => held(file(1), asked, "a link", probe::line),
        ["write", form] => write(form),
        ["read", form] => read_back(form),
        ["tokens", _, form, ref wires @ ..] => recorded(file(1), form, wires),
        ["check", _] => check_lines(file(1)),
        _ => Err(complaint(help::usage_for("probe"))),
    }
}

/// Exit status 1: what was asked is answered by a refusal.
fn refused(text: String) -> Complaint {
    Complaint { status: 1, text }
}

/// `FILE SLOT PORT serial|fast`
fn held(file: &Path, asked: &[&str], what: &str, held: Held) -> Ended {
    let asked = Asked::read(asked, what).map_err(unasked)?;
    let bench = network(file)?;
    let tokens = held(bench.looks(), asked);
    let tokens = tokens.map_err(|why| complaint(format!("{}: {why}", source::name(file))))?;
    let written = probe::written(asked.form, &tokens);
    print(&written.map_err(|no| refused(format!("{}: {no}", source::name(file))))?)
}

/// What comes in, read by a reader of words.
fn incoming<T>(of: impl FnOnce(&str) -> Result<T, Expected>) -> Result<T, Complaint> {
    let unread = |why: String| complaint(format!("standard input: {why}"));
    let text = source::read_from(io::stdin().lock());
    let text = text.map_err(|error| unread(error.to_string()))?;
    of(&text).map_err(|expected| unread(expected.to_string()))
}

/// `serial|fast`
fn write(form: &str) -> Ended {
    let form = probe::read_form(form).map_err(unasked)?;
    let tokens = incoming(text::read_tokens)?;
    let written = probe::written(form, &tokens);
    print(&written.map_err(|no| refused(no.to_string()))?)
}

/// `serial|fast`
fn read_back(form: &str) -> Ended {
    let form = probe::read_form(form).map_err(unasked)?;
    let transitions = incoming(text::read_digits)?;
    let tokens = probe::read(form, &transitions);
    print(&tokens.map_err(|no| refused(no.to_string()))?)
}

/// `CAPTURE serial|fast WIRE WIRE ..`
fn recorded(file: &Path, form: &str, wires: &[&str]) -> Ended {
    let form = probe::read_form(form).map_err(unasked)?;
    let (name, text) = (source::name(file), read(file)?);
    let recording = probe::recorded(&text, form, wires);
    let recording = recording.map_err(|unclear| match unclear.is_said() {
        true => refused(format!("{name}: {unclear}")),
        false => complaint(format!("{name}: {unclear}")),
    })?;
    let tokens = probe::read(form, &recording.transitions);
    print(&tokens.map_err(|no| refused(format!("{name}: {no}{}", when(&recording, no))))?)
}

/// When the sequence began that has no meaning, or was cut.
fn when(recording: &Recording, no: Refused) -> String {
    let time: Option<&Instant> = match no {
        Refused::Bad { place } => recording.times.get(place),
        _ => recording.times.last(),
    };
    time.map_or(String::new(), |time| format!(", {time}"))
}

fn check_lines(file: &Path) -> Ended {
    let checked = check::check(&read(file)?);
    let agree = checked.map_err(|fault| Complaint {
        status: fault.exit_status(),
        text: format!("{}: {fault}", source::name(file)),
    })?;
    print(&format!("{agree} lines agree\n"))
}

/// `FILE SLOT LINK serial|fast [--vcd]`
pub fn capture(words: &[Word]) -> Ended {
    let (options, words): (Vec<&Word>, Vec<&Word>) =
        words.iter().partition(|word| word.text == "--vcd");
    let Some((file, asked)) = words.split_first() else {
        return Err(complaint(help::usage_for("capture")));
    };
    let (file, name) = (&file.path, source::name(&file.path));
    let asked: Vec<&str> = asked.iter().map(|word| word.text.as_str()).collect();
    let asked = Asked::read(&asked, "a link").map_err(unasked)?;
    let (slot, link) = (asked.slot, asked.index);
    let end = LinkEnd { slot, link };
    let sent = captured::sent(&read(file)?, end, |made| {
        say_what_fails(file, made);
        Ok(())
    });
    let (sent, host) = sent.map_err(|fault| faulty(file, fault))?;
    let there = probe::is_there(host.looks(), asked, "link", LINKS);
    there.map_err(|why| complaint(format!("{name}: {why}")))?;
    let printed = captured::printed(asked.form, end, &sent, !options.is_empty());
    print(&printed.map_err(|no| refused(format!("{name}: {no}")))?)
}
