//! Printing calls, answers and faults as the script and trace format writes them.

use std::fmt;

use crate::answers::{Answer, Cause, Opening};
use crate::calls::{Beginning, Call, StepRecord};
use crate::network::{LinkEnd, Start};
use crate::script::{Fault, Outcome};
use crate::set::Setting;
use crate::tokens::{Destination, Kind};

impl fmt::Display for Kind {
    fn fmt(&self, f: &mut fmt::Formatter) -> fmt::Result {
        f.write_str(match self {
            Kind::Data => "data",
            Kind::Control => "control",
        })
    }
}

impl fmt::Display for Destination {
    fn fmt(&self, f: &mut fmt::Formatter) -> fmt::Result {
        match self {
            Destination::Channel { number, channel } => write!(f, "channel {number} {channel}"),
            Destination::Control { number } => write!(f, "control {number} 0"),
        }
    }
}

impl fmt::Display for Setting {
    fn fmt(&self, f: &mut fmt::Formatter) -> fmt::Result {
        match self {
            Setting::Number { value } => write!(f, "number 0 {value}"),
            Setting::Width { value } => write!(f, "width 0 {value}"),
            Setting::Direction { bit, value } => write!(f, "direction {bit} {value}"),
            Setting::LinkDirection { link, value } => write!(f, "linkdirection {link} {value}"),
            Setting::Network { link, value } => write!(f, "network {link} {value}"),
            Setting::Enable { link, value } => write!(f, "enable {link} {value}"),
            Setting::Hello { link } => write!(f, "hello {link} 0"),
        }
    }
}

impl fmt::Display for LinkEnd {
    fn fmt(&self, f: &mut fmt::Formatter) -> fmt::Result {
        write!(f, "{} {}", self.slot, self.link)
    }
}

impl fmt::Display for StepRecord {
    fn fmt(&self, f: &mut fmt::Formatter) -> fmt::Result {
        write!(f, "{} {}", self.slot, self.port)
    }
}

impl fmt::Display for Beginning {
    fn fmt(&self, f: &mut fmt::Formatter) -> fmt::Result {
        let word = match self.start {
            Start::Fresh => "fresh",
            Start::Blank => "blank",
        };
        write!(f, "{word} {} {}", self.nodes, self.memory_words)?;
        self.line_words
            .map_or(Ok(()), |words| write!(f, " lines {words}"))
    }
}

impl fmt::Display for Call {
    fn fmt(&self, f: &mut fmt::Formatter) -> fmt::Result {
        match self {
            Call::Fresh { .. } | Call::Blank { .. } | Call::WithLines { .. } => {
                self.begins().map_or(Ok(()), |beginning| beginning.fmt(f))
            }
            Call::Wire { one, other } => write!(f, "wire {one} {other}"),
            Call::Set { slot, setting } => write!(f, "set {slot} {setting}"),
            Call::Aim {
                slot,
                channel_end,
                destination,
                network,
            } => write!(f, "aim {slot} {channel_end} {destination} {network}"),
            Call::Output {
                slot,
                channel_end,
                kind,
                value,
            } => write!(f, "output {slot} {channel_end} {kind} {value}"),
            Call::Input {
                slot,
                channel_end,
                kind,
            } => write!(f, "input {slot} {channel_end} {kind}"),
            Call::Step { slot, port } => write!(f, "step {slot} {port}"),
            Call::Line { slot, link } => write!(f, "line {slot} {link}"),
            Call::Steps { results, records } => {
                write!(f, "steps {results}")?;
                records.iter().try_for_each(|record| write!(f, " {record}"))
            }
        }
    }
}

impl fmt::Display for Cause {
    fn fmt(&self, f: &mut fmt::Formatter) -> fmt::Result {
        f.write_str(match self {
            Cause::Split => "split",
            Cause::NoRoute => "noroute",
        })
    }
}

impl fmt::Display for Answer {
    fn fmt(&self, f: &mut fmt::Formatter) -> fmt::Result {
        match self {
            Answer::No(no) => write!(f, "no {}", no.number()),
            Answer::Done => f.write_str("done"),
            Answer::Granted(credit) => write!(f, "granted {credit}"),
            Answer::Token(value) => write!(f, "token {value}"),
            Answer::Idle => f.write_str("idle"),
            Answer::Waiting => f.write_str("waiting"),
            Answer::Moved => f.write_str("moved"),
            Answer::Opened(Opening::Link(link)) => write!(f, "opened link {link}"),
            Answer::Opened(Opening::Channel) => f.write_str("opened channel"),
            Answer::Opened(Opening::Control) => f.write_str("opened control"),
            Answer::Refused(cause) => write!(f, "refused {cause}"),
            Answer::Dropped(cause) => write!(f, "dropped {cause}"),
            Answer::Malformed => f.write_str("malformed"),
            Answer::Unheard => f.write_str("unheard"),
            Answer::Arrived(grant) => write!(f, "moved {grant}"),
            Answer::Results(answers) => write_results(answers, f),
        }
    }
}

/// "`results` and each record's answer, as `step` gives it, parted by `; `"
fn write_results(answers: &[Answer], f: &mut fmt::Formatter) -> fmt::Result {
    f.write_str("results")?;
    for (place, answer) in answers.iter().enumerate() {
        let parting = if place == 0 { " " } else { "; " };
        write!(f, "{parting}{answer}")?;
    }
    Ok(())
}

impl fmt::Display for Outcome {
    fn fmt(&self, f: &mut fmt::Formatter) -> fmt::Result {
        write!(f, "{} # {:016x}", self.answer, self.digest)
    }
}

impl fmt::Display for Fault {
    fn fmt(&self, f: &mut fmt::Formatter) -> fmt::Result {
        match self {
            Fault::Unreadable { line, expected } => write!(f, "line {line}: {expected}"),
            Fault::Differs {
                line,
                call,
                stated,
                found,
            } => write!(f, "line {line}: {call} gives {found}, stated is {stated}"),
        }
    }
}
