//! What to do about a call that was refused.

use bench::{Refusal, Setting};

use crate::call::Call;

/// The paper's name of a call.
pub fn name(call: &Call) -> &'static str {
    match call {
        Call::Fresh { .. } => "Fresh",
        Call::Blank { .. } => "blank",
        Call::Wire { .. } => "Wire",
        Call::Set { .. } => "Set",
        Call::Hello { .. } => "HELLO",
        Call::Aim { .. } => "Aim",
        Call::Output { .. } => "Output",
        Call::Input { .. } => "Input",
        Call::Step { .. } => "Step",
        Call::Line { .. } => "line step",
        Call::Steps { .. } => "list",
    }
}

/// Why it was refused, and what helps.
pub fn advice(call: &Call, refusal: Refusal) -> &'static str {
    match refusal {
        Refusal::Unsound => unsound(call),
        Refusal::NoSuch => no_such(call),
        Refusal::Value => value(call),
        Refusal::Busy => busy(call),
        Refusal::Unaimed => "the channel-end has no destination; aim it first, or send .. to ..",
        Refusal::Open => "its circuit is open; put out END or PAUSE first",
        Refusal::Hardware => "control tokens 224..255 are the links' own; no program puts them out",
        Refusal::Privileged => {
            "control tokens 192..223 are for switch messages; aim at a control unit, and then only \
             WRITEC and READC"
        }
        Refusal::Narrow => {
            "a header of one byte cannot name channel 255 or a control unit; send from a board at \
             three bytes, or set this one to width 3"
        }
        Refusal::Full => {
            "there is no room for it now; settle, and have the receiver take what it holds"
        }
        Refusal::Empty => {
            "nothing is held there; settle, and ask bench route where what was sent would go"
        }
        Refusal::Trap => "the oldest token is of the other kind; take that first",
        _ => "document 01 has this number's meaning",
    }
}

fn unsound(call: &Call) -> &'static str {
    match call {
        Call::Fresh { .. } | Call::Blank { .. } => {
            "a memory has another length than so many boards need; leave the lengths out, and the \
             right ones are lent"
        }
        _ => "there is no network; begin with fresh or blank",
    }
}

fn no_such(call: &Call) -> &'static str {
    match call {
        Call::Fresh { .. } | Call::Blank { .. } => "a network has 1 to 16 boards",
        Call::Wire { .. } | Call::Hello { .. } | Call::Set { .. } | Call::Line { .. } => {
            "no such board, or no such link; boards count from 0, links are A..H"
        }
        Call::Aim { .. } | Call::Output { .. } | Call::Input { .. } => {
            "no such board, or no such channel-end; boards count from 0, channel-ends are 0..31"
        }
        Call::Step { .. } => "no such board, or no such port; boards count from 0, ports are 0..12",
        Call::Steps { .. } => "room is needed for as many results as the list has Steps",
    }
}

fn value(call: &Call) -> &'static str {
    match call {
        Call::Wire { .. } => "a link cannot be joined to itself",
        Call::Set { setting, .. } => match setting {
            Setting::Number(_) => "a number is 0..65535",
            Setting::Width(_) => "a width is 1 or 3",
            Setting::Direction { .. } => "bits are 0..15, directions 0..15",
            Setting::LinkDirection { .. } => "directions are 0..15",
            Setting::Network { .. } => "networks are 0..3",
            Setting::Enable { .. } => "a link is enabled by 1 and disabled by 0",
        },
        _ => "a number is 0..65535, a channel 0..31 or 255, a network 0..3",
    }
}

fn busy(call: &Call) -> &'static str {
    match call {
        Call::Wire { .. } => "one of the two links has a cable already",
        Call::Hello { .. } => {
            "the link is disabled, or a credit or a HELLO is on a line of its cable; enable it, or \
             settle, first"
        }
        Call::Set {
            setting: Setting::Network { .. },
            ..
        } => "the link is enabled; disable it first",
        _ => {
            "tokens or circuits are under way on it; let them end, with the ports at both ends of \
             the cable and both of its lines empty"
        }
    }
}
