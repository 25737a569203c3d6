//! `bench capture`: what a run sends over a link, as a probe on its wires would see it.

mod vcd;

use std::io;

use bench::probe::{self, Form, Refused};
use bench::LinkEnd;

use crate::answer::Answer;
use crate::call::Call;
use crate::host::{Host, Made};
use crate::play::{run, Fault};
use crate::probe::{text, words_of};

pub const HELP: &str = "\
bench capture FILE SLOT LINK serial|fast [--vcd]: makes the calls of FILE and prints the transitions of
all that the run sent over a link: tokens, credits and HELLO

What is printed is what a probe sees on the wires of the board in SLOT that leave by LINK, 0 to 7 for A
to H: a digit a transition, the number of the wire that changes. `bench probe --help` says more of the
two forms, and `bench probe read` reads the digits back. A start makes the network anew, so the run
begins with the last start that is done.

With --vcd it is a VCD, which GTKWave opens: the wires as signals wire0, wire1 and so on, and what they
transmit as the text signal token: header-25, data-42, control-9, END, CREDIT64, HELLO, and return for
a sequence that only takes wires back to low. The bench has no time. A transition every 5 ns is what the
papers have as the fastest, 200 million a second.

What is sent is what was put on the line that starts at the link, in that order, whether or not it has
arrived. A HELLO to an end that is absent or disabled is lost, and not in it.

Exit status: 0 printed; 1 a token has no form; 2 the script was not run to its end, or nothing was asked.
";

/// The words of all that a script's run sends over a link from this end, oldest first; and the network
/// that it leaves.
pub fn sent(
    script: &str,
    end: LinkEnd,
    mut tell: impl FnMut(&Made) -> io::Result<()>,
) -> Result<(Vec<u16>, Host), Fault> {
    let mut calls = Vec::new();
    let host = run(script, |made| {
        tell(made)?;
        calls.push(made.call.clone());
        Ok(())
    })?;
    Ok((seen(calls, end), host))
}

/// What calls send, which are made once more: it is seen in the state behind each of them.
fn seen(calls: Vec<Call>, end: LinkEnd) -> Vec<u16> {
    let mut seen = Seen {
        host: Host::default(),
        end,
        sent: Vec::new(),
    };
    for call in calls {
        seen.make(call);
    }
    words_of(seen.sent.into_iter())
}

/// A network whose calls are seen by someone who stands at one end of a cable.
struct Seen {
    host: Host,
    end: LinkEnd,
    sent: Vec<u32>,
}

impl Seen {
    /// What stands behind all that was on the line before and has not been taken off is new: things
    /// are put on a line at its end, and only a step of that line takes one off.
    fn make(&mut self, call: Call) {
        let LinkEnd { slot, link } = self.end;
        let before = self.host.looks().line(slot, link).held as usize;
        let made = self.host.make(0, call);
        let is_done = made.found.answer == Answer::Done;
        if is_done && matches!(made.call, Call::Fresh { .. } | Call::Blank { .. }) {
            return self.sent.clear();
        }
        let own = Call::Line { slot, link };
        let is_taken = made.call == own && matches!(made.found.answer, Answer::Arrived(_));
        let stays = before - usize::from(is_taken);
        let looks = self.host.looks();
        self.sent.extend(looks.line_tokens(slot, link).skip(stays));
    }
}

/// Tokens as digits, or as a VCD.
pub fn printed(form: Form, end: LinkEnd, sent: &[u16], as_vcd: bool) -> Result<String, Refused> {
    let transitions = probe::write(form, sent)?;
    match as_vcd {
        true => vcd::written(form, end, sent, &transitions),
        false if transitions.is_empty() => Ok(String::new()),
        false => Ok(text::digits(&transitions) + "\n"),
    }
}
