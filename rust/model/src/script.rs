//! The script and trace format: one call a line, or a call with what came of it.

use crate::answers::Answer;
use crate::calls::{apply, Call};
use crate::digest::digest;
use crate::network::Network;
use crate::words::{parse_call, parse_outcome};

/// What came of a call: its answer, and the digest of the state behind it.
#[derive(Clone, Debug, PartialEq, Eq)]
pub struct Outcome {
    pub answer: Answer,
    pub digest: u64,
}

/// A line of a script: a call, with what the line states of it.
#[derive(Clone, Debug, PartialEq, Eq)]
pub struct Line {
    pub number: usize,
    pub call: Call,
    pub stated: Option<Outcome>,
}

/// Why a script could not be run, or did not agree.
#[derive(Clone, Debug, PartialEq, Eq)]
pub enum Fault {
    /// A line that is no call.
    Unreadable { line: usize, expected: String },
    /// A line that states another outcome than the one found.
    Differs {
        line: usize,
        call: Call,
        stated: Outcome,
        found: Outcome,
    },
}

impl std::error::Error for Fault {}

/// Makes one call and gives what came of it.
pub fn outcome(network: &mut Option<Network>, call: &Call) -> Outcome {
    let answer = apply(network, call);
    let digest = digest(network.as_ref());
    Outcome { answer, digest }
}

/// Makes the calls of a script and writes each with its answer and digest.
pub fn run(text: &str) -> Result<String, Fault> {
    let mut network = None;
    let lines = parse(text)?;
    let mut written = first_line(lines.iter().map(|line| &line.call)).to_string();
    for line in lines {
        let found = outcome(&mut network, &line.call);
        written += &format!("{} -> {found}\n", line.call);
    }
    Ok(written)
}

/// "A trace made with Asks begins with the line `// asks 1,3,7`, a comment to every
/// reader." Traces of networks whose tokens cross at once were written without it
/// before, and are so still.
pub fn first_line<'a>(mut calls: impl Iterator<Item = &'a Call>) -> &'static str {
    let by_line = calls.any(|call| matches!(call, Call::WithLines { .. }));
    match by_line {
        true => "// asks 1,4,7\n",
        false => "",
    }
}

/// Makes the calls of a script and compares with what it states. Answers how many
/// calls were compared, or the first that differs.
pub fn check(text: &str) -> Result<usize, Fault> {
    let mut network = None;
    let mut compared = 0;
    for Line {
        number,
        call,
        stated,
    } in parse(text)?
    {
        let found = outcome(&mut network, &call);
        let Some(stated) = stated else { continue };
        if stated != found {
            return Err(Fault::Differs {
                line: number,
                call,
                stated,
                found,
            });
        }
        compared += 1;
    }
    Ok(compared)
}

/// The lines of a script that hold a call. "Empty lines and lines that begin with
/// `//` are passed over."
pub fn parse(text: &str) -> Result<Vec<Line>, Fault> {
    let mut lines = Vec::new();
    for (number, text) in (1..).zip(text.lines().map(str::trim)) {
        if text.is_empty() || text.starts_with("//") {
            continue;
        }
        let (call, stated) = parse_line(text).map_err(|expected| Fault::Unreadable {
            line: number,
            expected,
        })?;
        lines.push(Line {
            number,
            call,
            stated,
        });
    }
    Ok(lines)
}

/// Reads `CALL` or `CALL -> ANSWER # DIGEST`; an error says what was expected.
pub fn parse_line(text: &str) -> Result<(Call, Option<Outcome>), String> {
    let (call, stated) = match text.split_once("->") {
        Some((call, stated)) => (call, Some(parse_outcome(stated)?)),
        None => (text, None),
    };
    Ok((parse_call(call)?, stated))
}
