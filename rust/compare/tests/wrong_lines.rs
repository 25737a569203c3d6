//! Models that let tokens, credits and HELLO travel wrongly, each in a way that looks reasonable: they
//! are found by random runs, and the run is made short.

use compare::pair::differing;
use compare::wrong::{are_found, Maker, Wrong};
use compare::{changing, filling, runs};
use model::credits::grant;
use model::lines::{credit, freight, Freight};
use model::network::{Link, LinkEnd, Network};
use model::set::Setting;
use model::tokens::{Token, HELLO};
use model::words::parse_call;
use model::{Answer, Call, No};

fn link(network: &mut Network, end: LinkEnd) -> &mut Link {
    &mut network.nodes[end.slot].links[end.link]
}

/// What a line step is about to bring, and from where to where.
struct Arriving {
    from: LinkEnd,
    to: LinkEnd,
    what: Freight,
    /// What is issued there before it.
    issued: usize,
}

fn arriving(state: &Option<Network>, call: &Call) -> Option<Arriving> {
    let &Call::Line { slot, link } = call else {
        return None;
    };
    let network = state.as_ref()?;
    let from = LinkEnd { slot, link };
    let sender = network.link(from).ok()?;
    let to = sender.far?;
    Some(Arriving {
        from,
        to,
        what: sender.line.front().map(freight)?,
        issued: network.link(to).ok()?.issued,
    })
}

/// The model, and then something else where a line step has brought something, with its grant.
fn behind(
    state: &mut Option<Network>,
    call: &Call,
    wrong: impl Fn(&mut Network, Arriving, usize),
) -> Answer {
    let arriving = arriving(state, call);
    let answer = model::apply(state, call);
    if let (Some(arriving), Answer::Arrived(grant), Some(network)) = (arriving, &answer, state) {
        wrong(network, arriving, *grant);
    }
    answer
}

// What arrives.

/// A token arrives, and is still counted as issued.
fn counts_no_arrival(state: &mut Option<Network>, call: &Call) -> Answer {
    behind(state, call, |network, it, _| {
        link(network, it.to).issued += usize::from(it.what == Freight::Token);
    })
}

/// What was issued before a HELLO still counts behind it.
fn count_outlasts_a_hello(state: &mut Option<Network>, call: &Call) -> Answer {
    behind(state, call, |network, it, _| {
        if it.what == Freight::Hello {
            link(network, it.to).issued += it.issued;
        }
    })
}

/// A grant is the sender's as soon as it is made.
fn credit_crosses_at_once(state: &mut Option<Network>, call: &Call) -> Answer {
    behind(state, call, |network, it, grant| {
        if grant > 0 {
            link(network, it.to).line.pop_back();
            link(network, it.from).credit += grant;
        }
    })
}

/// A credit is kept by the end that has sent it.
fn credit_stays(state: &mut Option<Network>, call: &Call) -> Answer {
    behind(state, call, |network, it, _| {
        if let Freight::Credit(size) = it.what {
            link(network, it.to).credit -= size;
            link(network, it.from).credit += size;
        }
    })
}

/// A HELLO is a token like any other, and takes one off the count.
fn hello_is_counted(state: &mut Option<Network>, call: &Call) -> Answer {
    behind(state, call, |network, it, grant| {
        if it.what == Freight::Hello && grant > 0 {
            link(network, it.to).issued -= 1;
        }
    })
}

/// The step of a line that brings a credit says how much.
fn tells_a_credit(state: &mut Option<Network>, call: &Call) -> Answer {
    let arriving = arriving(state, call);
    match (model::apply(state, call), arriving.map(|it| it.what)) {
        (Answer::Arrived(_), Some(Freight::Credit(size))) => Answer::Arrived(size),
        (answer, _) => answer,
    }
}

/// The line of an end is the one that comes to it.
fn steps_the_line_that_ends_here(state: &mut Option<Network>, call: &Call) -> Answer {
    let (&Call::Line { slot, link }, Some(network)) = (call, state.as_ref()) else {
        return model::apply(state, call);
    };
    let far = network.link(LinkEnd { slot, link });
    match far.ok().and_then(|near| near.far) {
        Some(LinkEnd { slot, link }) => model::apply(state, &Call::Line { slot, link }),
        None => model::apply(state, call),
    }
}

/// A link without a cable has no line.
fn wants_a_cable(state: &mut Option<Network>, call: &Call) -> Answer {
    let unwired = match (call, state.as_ref()) {
        (&Call::Line { slot, link }, Some(network)) => network
            .link(LinkEnd { slot, link })
            .is_ok_and(|near| near.far.is_none()),
        _ => false,
    };
    match (model::apply(state, call), unwired) {
        (Answer::Idle, true) => Answer::No(No::NoSuch),
        (answer, _) => answer,
    }
}

// Grants.

/// The model, and where a token has arrived without a grant, one that is due by another rule: it goes
/// by what is held there, the sender and the receiver.
fn also_grants(
    state: &mut Option<Network>,
    call: &Call,
    due: impl Fn(usize, &Link, &Link) -> usize,
) -> Answer {
    let token = arriving(state, call).filter(|it| it.what == Freight::Token);
    let answer = model::apply(state, call);
    let (Some(it), Answer::Arrived(0), Some(network)) = (token, &answer, state) else {
        return answer;
    };
    let held = network.nodes[it.to.slot].ports[it.to.link].tokens.len();
    let [sender, receiver] = [it.from, it.to].map(|end| link(network, end).clone());
    match due(held, &sender, &receiver) {
        grant if grant > 0 && sender.greeted => {
            let end = link(network, it.to);
            end.issued += grant;
            end.line.push_back(credit(grant));
            Answer::Arrived(grant)
        }
        _ => answer,
    }
}

/// A grant goes by the credit of the end that gives it, and not by what it has issued.
fn grants_by_the_credit_in_hand(state: &mut Option<Network>, call: &Call) -> Answer {
    also_grants(state, call, |held, _, receiver| {
        grant(receiver.credit, held)
    })
}

/// A grant is made though a HELLO is coming.
fn grants_before_a_hello(state: &mut Option<Network>, call: &Call) -> Answer {
    also_grants(state, call, |held, sender, receiver| {
        match sender.hello_on_line() {
            true => grant(receiver.issued, held),
            false => 0,
        }
    })
}

// HELLO and disabling.

/// The link on which a call says HELLO.
fn says_hello(call: &Call) -> Option<LinkEnd> {
    match *call {
        Call::Set {
            slot,
            setting: Setting::Hello { link },
        } => Some(LinkEnd { slot, link }),
        _ => None,
    }
}

/// The model, and then something else where a HELLO was said.
fn behind_hello(
    state: &mut Option<Network>,
    call: &Call,
    wrong: impl Fn(&mut Network, LinkEnd),
) -> Answer {
    let answer = model::apply(state, call);
    if let (Some(end), Answer::Granted(_), Some(network)) = (says_hello(call), &answer, state) {
        wrong(network, end);
    }
    answer
}

/// HELLO goes before the tokens that are on the line.
fn hello_overtakes(state: &mut Option<Network>, call: &Call) -> Answer {
    behind_hello(state, call, |network, end| {
        let line = &mut link(network, end).line;
        if let Some(last) = line.pop_back() {
            line.push_front(last);
        }
    })
}

/// A link is greeted as soon as it says HELLO.
fn is_greeted_at_once(state: &mut Option<Network>, call: &Call) -> Answer {
    behind_hello(state, call, |network, end| {
        let near = link(network, end);
        near.greeted |= !near.line.is_empty();
    })
}

/// A HELLO to a disabled end travels.
fn hello_to_a_disabled_end_travels(state: &mut Option<Network>, call: &Call) -> Answer {
    behind_hello(state, call, |network, end| {
        let near = link(network, end);
        if near.far.is_some() && !near.hello_on_line() {
            near.line.push_back(Token::control(HELLO));
        }
    })
}

/// The receiver's count is set to 0 when a HELLO is sent to it.
fn hello_forgets_when_it_is_sent(state: &mut Option<Network>, call: &Call) -> Answer {
    behind_hello(state, call, |network, end| {
        if let Some(far) = link(network, end).far {
            link(network, far).issued = 0;
        }
    })
}

/// HELLO is Busy while tokens travel, too.
fn hello_waits_for_tokens(state: &mut Option<Network>, call: &Call) -> Answer {
    let in_use = match (says_hello(call), state.as_ref()) {
        (Some(end), Some(network)) => network.link(end).is_ok_and(|near| {
            let far = network.far_link(near);
            !near.line.is_empty() || far.is_some_and(|far| !far.line.is_empty())
        }),
        _ => false,
    };
    match in_use {
        true => Answer::No(No::Busy),
        false => model::apply(state, call),
    }
}

/// What is on the two lines of a cable.
fn on_cable(network: &Network, near: &Link) -> Vec<Freight> {
    let far = network.far_link(near);
    let lines = std::iter::once(near).chain(far);
    lines.flat_map(Link::freight).collect()
}

/// HELLO while a credit travels.
fn hello_past_a_credit(state: &mut Option<Network>, call: &Call) -> Answer {
    let answer = model::apply(state, call);
    let (Some(end), Answer::No(No::Busy), Some(network)) = (says_hello(call), &answer, state)
    else {
        return answer;
    };
    let near = &network.nodes[end.slot].links[end.link];
    if !near.enabled || on_cable(network, near).contains(&Freight::Hello) {
        return answer;
    }
    let near = link(network, end);
    near.credit = 0;
    near.line.push_back(Token::control(HELLO));
    Answer::Granted(0)
}

/// A link is disabled with something on its line, which is lost.
fn disables_a_line_in_use(state: &mut Option<Network>, call: &Call) -> Answer {
    let answer = model::apply(state, call);
    let (
        &Call::Set {
            slot,
            setting:
                Setting::Enable {
                    link: place,
                    value: 0,
                },
        },
        Answer::No(No::Busy),
        Some(network),
    ) = (call, &answer, state)
    else {
        return answer;
    };
    let near = network.nodes[slot].links[place].clone();
    let far = near.far.filter(|_| !on_cable(network, &near).is_empty());
    let Some(far) = far.filter(|far| !is_in_use(network, LinkEnd { slot, link: place }, *far))
    else {
        return answer;
    };
    link(network, LinkEnd { slot, link: place }).enabled = false;
    for end in [LinkEnd { slot, link: place }, far] {
        let end = link(network, end);
        end.greeted = false;
        (end.credit, end.issued) = (0, 0);
        end.line.clear();
    }
    Answer::Done
}

/// Whether a port at either end holds something, or either direction is in a circuit.
fn is_in_use(network: &Network, near: LinkEnd, far: LinkEnd) -> bool {
    [near, far].into_iter().any(|LinkEnd { slot, link }| {
        let node = &network.nodes[slot];
        node.ports[link].is_taken() || node.links[link].used_by.is_some()
    })
}

/// Runs of all kinds, such as fill buffers, and such as change settings.
const MAKERS: [Maker; 3] = [runs::calls, filling::calls, changing::calls];

#[rustfmt::skip]
const ARRIVALS: [Wrong; 8] = [
    (counts_no_arrival, 20, "line ", " issued: "),
    (count_outlasts_a_hello, 20, "line ", " issued: "),
    (credit_crosses_at_once, 9, "line ", " credit: "),
    (credit_stays, 9, "line ", " credit: "),
    (hello_is_counted, 9, "line ", " issued: "),
    (tells_a_credit, 9, "line ", "the library moved 0, the model moved 64"),
    (steps_the_line_that_ends_here, 9, "line ", "the library moved 64, the model idle"),
    (wants_a_cable, 2, "line ", "the library idle, the model no 2"),
];

#[test]
fn wrong_arrivals_are_found() {
    are_found(&ARRIVALS, &MAKERS);
}

#[test]
fn a_grant_by_the_credit_in_hand_is_found() {
    let grants: Wrong = (
        grants_by_the_credit_in_hand,
        20,
        "line ",
        "the library moved 0, the model moved 16",
    );
    are_found(&[grants], &MAKERS);
}

/// Random runs seldom have a grant due just when a HELLO is coming. This script has.
#[test]
fn a_grant_before_a_hello_is_found() {
    let script = include_str!("../../script/scripts/no-grant-before-a-hello.txt");
    let stated = script.lines().filter_map(|line| line.split_once(" -> "));
    let calls = stated.map(|(call, _)| parse_call(call).expect("a call"));
    let found = differing(grants_before_a_hello, &calls.collect::<Vec<_>>());
    let how = found.map(|it| it.how);
    let expected = "line 0 0: the library moved 0, the model moved 16";
    assert_eq!(how.as_deref(), Some(expected));
}

#[rustfmt::skip]
const HELLOS: [Wrong; 7] = [
    (hello_overtakes, 30, "set ", " line: "),
    (is_greeted_at_once, 9, "set ", " greeted: false against true"),
    (hello_to_a_disabled_end_travels, 9, "set ", " line: "),
    (hello_forgets_when_it_is_sent, 20, "set ", " issued: "),
    (hello_waits_for_tokens, 30, "set ", "the library granted 0, the model no 4"),
    (hello_past_a_credit, 9, "set ", "the library no 4, the model granted 0"),
    (disables_a_line_in_use, 30, "set ", "the library no 4, the model done"),
];

#[test]
fn wrong_hellos_are_found() {
    are_found(&HELLOS, &MAKERS);
}
