//! What the command says of itself: its verbs, which the usage, the help, the completion and the
//! manual page are made of.

mod completion;
mod manual;

use crate::nearest::nearest;
use crate::words::printable;
use crate::{call, capture, diff, draw, expand, matrix, page, people, probe, route, show, tell};
pub use completion::completion;
pub use manual::manual;

/// A verb of the command.
#[derive(Clone, Copy, Debug)]
pub struct Verb {
    pub name: &'static str,
    /// What stands behind it: words in capitals are given by the user, those in brackets may be left
    /// out.
    pub arguments: &'static str,
    /// What it does, in a line.
    pub about: &'static str,
    /// All of it.
    pub help: &'static str,
}

/// The verbs, as they are listed.
pub const VERBS: [Verb; 15] = [
    Verb {
        name: "tell",
        arguments: "FILE",
        about: "makes the calls and tells the run in words",
        help: tell::HELP,
    },
    Verb {
        name: "run",
        arguments: "FILE",
        about: "makes the calls and prints each with its answer and digest",
        help: RUN,
    },
    Verb {
        name: "check",
        arguments: "FILE",
        about:
            "makes the calls and compares with what FILE states, up to the first line that differs",
        help: CHECK,
    },
    Verb {
        name: "expand",
        arguments: "FILE",
        about: "makes the calls and prints them plainly, words for people as what they stand for",
        help: expand::HELP,
    },
    Verb {
        name: "show",
        arguments: "FILE",
        about: "makes the calls and prints the state that they leave, in words",
        help: show::HELP,
    },
    Verb {
        name: "route",
        arguments: "FILE SLOT NUMBER CHANNEL [NETWORK]",
        about: "sends an END from a board and prints each switch on its way",
        help: route::HELP,
    },
    Verb {
        name: "matrix",
        arguments: "[--csv] FILE [CHANNEL [NETWORK]]",
        about: "sends an END from every board to every board's number",
        help: matrix::HELP,
    },
    Verb {
        name: "draw",
        arguments: "FILE",
        about: "prints the network as Graphviz DOT",
        help: draw::HELP,
    },
    Verb {
        name: "page",
        arguments: "FILE",
        about: "prints the run as a page for a browser, to be gone through call by call",
        help: page::HELP,
    },
    Verb {
        name: "diff",
        arguments: "BEFORE AFTER [CHANNEL [NETWORK]]",
        about: "prints what differs between the networks that two scripts leave",
        help: diff::HELP,
    },
    Verb {
        name: "probe",
        arguments: "port|line|write|read|tokens|check ..",
        about: "tokens as transitions of a link's wires, and back, for the logic probe",
        help: probe::HELP,
    },
    Verb {
        name: "capture",
        arguments: "FILE SLOT LINK serial|fast [--vcd]",
        about: "prints the transitions of all tokens that the run sends over a link",
        help: capture::HELP,
    },
    Verb {
        name: "help",
        arguments: "[VERB]",
        about: "prints this, as --help does; of a verb all there is to say, as VERB --help",
        help: HELP,
    },
    Verb {
        name: "completion",
        arguments: "",
        about: "prints what completes these words in bash",
        help: completion::HELP,
    },
    Verb {
        name: "manual",
        arguments: "",
        about: "prints all of the help as a manual page",
        help: manual::HELP,
    },
];

const RUN: &str = "\
bench run FILE: makes the calls of FILE and prints each with its answer and the digest of the state

What is printed is a plain script. Where a memory is unsound, standard error says what fails.

Exit status: 0 all calls made, or as many as were read before the reader went away; 1 something else
was received than a line for people expects, and the line is named; 2 the script was not run to its end.
";

const CHECK: &str = "\
bench check FILE: makes the calls of FILE and compares with the answers and digests that it states

A call whose line states nothing is made and not compared; what a line for people is to receive is. How
many agree is printed.

Exit status: 0 all that is stated agrees; 1 a line differs, and is named; 2 the script was not run to
its end.
";

const HELP: &str = "\
bench help [VERB]: prints what the command can do, or all that there is to say of a verb

bench VERB --help and bench VERB -h print the same.

Exit status: 0 printed; 2 there is no such verb.
";

const TITLE: &str = "bench: makes the calls of a script on the proved bench";

const SCRIPTS: &str = "
Every FILE is a script: words for people, plain calls, or both. Empty lines and what stands behind // are
passed over. Numbers are decimal, or hexadecimal with 0x. It is text in UTF-8 of at most 64 MiB.

Words for people, of which bench expand --help says what each stands for:

";

const PLAIN: &str = "
Plain calls, one a line, CALL, or with what came of it, CALL -> ANSWER # DIGEST:

";

const ARGUMENTS: &str = "
fresh makes boards as the boot ROM leaves them, links E..H enabled and A..D disabled; blank makes
them with every link disabled. A script begins with either, and a later one makes the network anew.
MEMORY_WORDS is 832 for each board, LINE_WORDS 528.

SETTING INDEX VALUE is number 0 VALUE, width 0 VALUE, direction BIT VALUE, linkdirection LINK VALUE,
network LINK VALUE, enable LINK VALUE or hello LINK 0.

step puts a token that leaves a board on the line that starts at the link; a HELLO and credits go on
lines too. line takes one off the far end of the line that starts at a link: idle where nothing is on
it, else moved and the grant that the arrival brought, 0, 8, 16 or 64.

steps makes a list of Steps at once, as if they were made one by one. RESULTS is how many results
there is room for. The answer is no 2 where that is not how many Steps there are; else it is results
and what each Step answered, parted by ;.

Exit status: 0 all calls made, and all that is stated agrees; 1 a line differs, or something else was
received than it expects; 2 a line that is no call, or a file that cannot be read. Where nobody reads
what is printed to its end, as behind head, a verb ends without a complaint.
";

const ANSWERS: &str = "
route and matrix end with 0 where all arrived and with 1 where something did not; diff with 0 where the
networks are the same and with 1 where something differs.
";

impl Verb {
    /// How it is typed.
    pub fn usage(&self) -> String {
        format!("bench {} {}", self.name, self.arguments)
            .trim_end()
            .to_owned()
    }

    /// The verb of that name.
    pub fn named(name: &str) -> Option<&'static Verb> {
        VERBS.iter().find(|verb| verb.name == name)
    }
}

/// How each verb is typed, a line a verb.
pub fn usage() -> String {
    let lines: Vec<String> = VERBS.iter().map(Verb::usage).collect();
    format!("usage: {}", lines.join("\n       "))
}

/// The usage and, where a verb was meant that is not there, which one is nearest.
pub fn usage_for(given: &str) -> String {
    let is_known = Verb::named(given).is_some();
    match nearest(given, VERBS.iter().map(|verb| verb.name)) {
        Some(meant) if !is_known => {
            let given = printable(given);
            format!("{}\nno verb {given}, nearest is {meant}", usage())
        }
        _ => usage(),
    }
}

/// Where what a verb does begins, behind how it is typed.
const COLUMN: usize = 22;

/// What the command can do: its verbs, and what a script may have.
pub fn help() -> String {
    let verbs: String = VERBS.iter().map(listed).collect();
    let words = forms(&people::FORMS);
    let calls = forms(&call::FORMS);
    format!("{TITLE}\n\n{verbs}{SCRIPTS}{words}{PLAIN}{calls}{ARGUMENTS}{ANSWERS}")
}

/// A verb and what it does, on a second line where the first has no room.
fn listed(verb: &Verb) -> String {
    let (usage, about) = (format!("  {}", verb.usage()), verb.about);
    match usage.len() < COLUMN {
        true => format!("{usage:COLUMN$}{about}\n"),
        false => format!("{usage}\n{:COLUMN$}{about}\n", ""),
    }
}

/// How lines are written, one below the other.
fn forms(forms: &[(&str, &str)]) -> String {
    let forms = forms.iter().flat_map(|(_, forms)| forms.split(", or "));
    forms.map(|form| format!("  {form}\n")).collect()
}
