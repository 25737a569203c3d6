//! A model that is wrong on purpose: the difference is found, and the run is reduced to a short
//! script that still has it.

use compare::calls::Apply;
use compare::pair::{self, Differing};
use compare::reduce::{reduce, report};
use compare::soak::{fill, run, Found};
use compare::wrong::is_as_short_as_can_be;
use model::network::{Claim, Network};
use model::tokens::{Destination, Kind, Token, PAUSE};
use model::{Answer, Call, No};

/// "Handing PAUSE to a program", which document 01 lists among the errors that look reasonable.
fn hands_pause_on(state: &mut Option<Network>, call: &Call) -> Answer {
    let answer = model::apply(state, call);
    let (Call::Output { slot, kind, .. }, Answer::Done) = (call.clone(), &answer) else {
        return answer;
    };
    let pauses = matches!(call, Call::Output { value: PAUSE, .. }) && kind == Kind::Control;
    let Some(network) = state.as_mut().filter(|_| pauses) else {
        return answer;
    };
    let node = &mut network.nodes[slot];
    if let Some(channel) = straight_to(node.number, call, &node.channel_ends) {
        let held = &mut node.channel_ends[channel].tokens;
        held.push_back(Token::control(PAUSE));
    }
    answer
}

/// The channel-end of its own node that a call's channel-end is aimed at.
fn straight_to(own: u32, call: &Call, ends: &[model::network::ChannelEnd; 32]) -> Option<usize> {
    let Call::Output { channel_end, .. } = *call else {
        return None;
    };
    match ends[channel_end].aim?.destination {
        Destination::Channel { number, channel } if number == own && channel < 32 => Some(channel),
        _ => None,
    }
}

/// A token that was asked for as the wrong kind is lost.
fn loses_what_traps(state: &mut Option<Network>, call: &Call) -> Answer {
    let answer = model::apply(state, call);
    if let (
        Call::Input {
            slot, channel_end, ..
        },
        Answer::No(No::Trap),
        Some(network),
    ) = (call.clone(), &answer, state)
    {
        network.nodes[slot].channel_ends[channel_end]
            .tokens
            .pop_front();
    }
    answer
}

/// "Granting 64 because the credit is 0, with 40 tokens still held."
fn grants_by_credit_alone(state: &mut Option<Network>, call: &Call) -> Answer {
    match model::apply(state, call) {
        Answer::Arrived(16) => Answer::Arrived(64),
        answer => answer,
    }
}

/// A channel that a port's circuit claims is taken for free: the answer alone is wrong.
fn overlooks_claims_by_ports(state: &mut Option<Network>, call: &Call) -> Answer {
    let answer = model::apply(state, call);
    let (Call::Output { slot, .. }, Answer::No(No::Full), Some(network)) =
        (call.clone(), &answer, state)
    else {
        return answer;
    };
    let node = &network.nodes[slot];
    let receiver = straight_to(node.number, call, &node.channel_ends);
    match receiver.and_then(|channel| node.channel_ends[channel].claim) {
        Some(Claim::ByPort(_)) => Answer::Done,
        _ => answer,
    }
}

/// The first run of some seed that differs, by random runs or by runs that fill.
fn first_differing(apply: Apply) -> Differing {
    let compared = (0..50).flat_map(|seed| [fill(apply, seed, 300), run(apply, seed, 400)]);
    let found = compared
        .filter_map(Result::err)
        .find_map(|found| match found {
            Found::Run(differing) => Some(differing),
            Found::Memory { .. } | Found::Watched(_) => None,
        });
    found.expect("a difference")
}

#[test]
fn a_short_run_is_left() {
    for (apply, lines) in [(hands_pause_on as Apply, 3), (loses_what_traps, 4)] {
        let reduced = reduce(apply, first_differing(apply));
        is_as_short_as_can_be(apply, &reduced.calls);
        assert_eq!(reduced.calls.len(), lines, "{:?}", reduced.calls);
    }
}

/// Tokens get to a far end, and claims by ports about, by Steps.
#[test]
fn a_run_with_steps_is_reduced_too() {
    let wrong = [
        (grants_by_credit_alone as Apply, "the model moved 64"),
        (
            overlooks_claims_by_ports,
            "the library no 10, the model done",
        ),
    ];
    for (apply, expected) in wrong {
        let found = first_differing(apply);
        let before = found.calls.len();
        let reduced = reduce(apply, found);
        is_as_short_as_can_be(apply, &reduced.calls);
        let text = pair::script(apply, &reduced.calls);
        println!("{before} calls, reduced to\n{text}");
        assert!(reduced.calls.len() < before);
        assert!(reduced.how.ends_with(expected), "{}", reduced.how);
    }
}

/// The script that is left behind is read by the command, whose check names its last line.
#[test]
fn the_report_is_a_script_that_differs() {
    let text = report(
        loses_what_traps,
        "seed 0",
        first_differing(loses_what_traps),
    );
    let last = text.lines().count();
    assert!(text.starts_with("// seed 0: "), "{text}");
    match script::check(&text, |_| Ok(())) {
        Err(script::Fault::Differs { line, .. }) => assert_eq!(line, last, "{text}"),
        other => panic!("{other:?}: {text}"),
    }
}
