//! `bench page`: a run as one page for a browser, to be gone through call by call.
//!
//! The page has what the looks showed behind each call, as what differs from the call before; its
//! own script (`page/page.js`) draws that and has no rule of the bench.

mod json;
mod recording;
mod snapshot;
mod ways;

use bench::Bench;

use crate::boards::Boards;
use crate::matrix::Matrix;
use crate::question::Door;
pub use recording::{Recording, MOST_CALLS};

pub const HELP: &str = "\
bench page FILE: makes the calls of FILE and prints the run as a page for a browser

  bench page FILE > run.html

The page is one file that needs no other and no network. It shows the boards with their settings,
links, ports, channel-ends and tokens, at each link what is on the line that starts there, the cables
with what a line step brings over, the circuits as coloured ways, boards and cables of different widths
in colours of their own, and what has changed lit up. A slider and keys go through the run call by call:

  left, right          a call back, a call on
  page up, page down   a line of the script back, a line on
  home, end            before the first call, behind the last
  r                    on to the next call that was refused, refused or dropped a circuit, or waits
  space                goes on by itself, and stops

Beside it stands what each call answered, below it what waits and for what, and the matrix of the network
that the script leaves: an END from every board to every board's number, channel 0, network 0. #N behind
the page's name opens it behind call N.

Of a run of more than 5000 calls the first 5000 are shown, and how many more there were.

Exit status: 0 printed; 1 something else was received than a line expects: the line is named, and the
page has the run up to there; 2 the script was not run to its end.
";

/// A matrix of so many boards has room in half of the page's width.
const MOST_IN_HALF: usize = 6;

const TEMPLATE: &str = include_str!("page/page.html");
const STYLE: &str = include_str!("page/page.css");
const CODE: &str = include_str!("page/page.js");

/// The page of a run, and of the network that it left, if there is one.
pub fn page(name: &str, boards: &Boards, run: Recording, left: Option<&Bench>) -> String {
    let matrix = left.map(|bench| matrix(bench, boards));
    let is_large = left.is_some_and(|bench| bench.looks().nodes() > MOST_IN_HALF);
    let parts = [
        ("SIZE", if is_large { "large" } else { "" }.to_owned()),
        ("STYLE", STYLE.to_owned()),
        ("CODE", CODE.to_owned()),
        ("TITLE", json::escaped(name)),
        ("MATRIX", matrix.unwrap_or_default()),
        ("DATA", run.into_json(name)),
    ];
    filled(TEMPLATE, &parts)
}

/// The template with its marks, `{{NAME}}`, replaced; what replaces one is not looked at again.
fn filled(template: &str, parts: &[(&str, String)]) -> String {
    let mut text = String::new();
    let mut rest = template;
    while let Some((before, behind)) = rest.split_once("{{") {
        text += before;
        let (name, after) = behind.split_once("}}").unwrap_or((behind, ""));
        let part = parts.iter().find(|(known, _)| *known == name);
        text += part.map_or("", |(_, part)| part);
        rest = after;
    }
    text + rest
}

/// The matrix as a table.
fn matrix(bench: &Bench, boards: &Boards) -> String {
    let matrix = Matrix::of(bench, Door::Channel(0), 0);
    let slots = 0..bench.looks().nodes();
    let named = |slot: usize| {
        let number = bench.looks().node(slot).number;
        let name = json::escaped(&boards.called(slot));
        format!("<th scope=\"SCOPE\">{name}<small>number {number}</small></th>")
    };
    let heads: String = slots.clone().map(named).collect();
    let heads = heads.replace("SCOPE", "col");
    let rows = slots.map(|from| {
        let cells: String = matrix.outcomes(from).map(cell).collect();
        let head = named(from).replace("SCOPE", "row");
        format!("<tr>{head}{cells}</tr>\n")
    });
    let rows: String = rows.collect();
    let caption = json::escaped(&matrix.summary());
    format!(
        "<table><caption>{caption}</caption>\n<thead><tr><th scope=\"col\">from, to</th>{heads}</tr></thead>\n\
         <tbody>\n{rows}</tbody></table>"
    )
}

fn cell(outcome: &str) -> String {
    let class = match outcome {
        "arrived" => "good",
        "Waiting" | "Steps" => "waits",
        _ => "bad",
    };
    format!("<td class=\"{class}\">{}</td>", json::escaped(outcome))
}
