//! Models that start a network or plug in a cable wrongly, each in a way that looks reasonable: they
//! are found by random runs, and the run is made short.

use compare::wrong::{are_found, Maker, Wrong};
use compare::{changing, runs};
use model::network::{Link, LinkEnd, Network, Start};
use model::set::Setting;
use model::sizes::{LINKS, MOST_NODES};
use model::{Answer, Call, No};

/// The model, and then something else with the links of every node behind such a start.
fn behind(
    start: Start,
    state: &mut Option<Network>,
    call: &Call,
    wrong: impl Fn(usize, &mut Link),
) -> Answer {
    let answer = model::apply(state, call);
    if let (true, Answer::Done, Some(network)) = (call.start() == Some(start), &answer, state) {
        for node in &mut network.nodes {
            let links = node.links.iter_mut().enumerate();
            links.for_each(|(place, link)| wrong(place, link));
        }
    }
    answer
}

// Starts.

/// "Link D is enabled by the ROM" too, for boot over a link.
fn enables_d_too(state: &mut Option<Network>, call: &Call) -> Answer {
    behind(Start::Fresh, state, call, |place, link| {
        link.enabled |= place == 3
    })
}

/// One link too few.
fn enables_e_to_g(state: &mut Option<Network>, call: &Call) -> Answer {
    behind(Start::Fresh, state, call, |place, link| {
        link.enabled &= place != 7
    })
}

/// HELLO has been said at the start.
fn greets_at_the_start(state: &mut Option<Network>, call: &Call) -> Answer {
    behind(Start::Fresh, state, call, |_, link| {
        link.greeted = link.enabled
    })
}

/// .. and has been answered.
fn grants_at_the_start(state: &mut Option<Network>, call: &Call) -> Answer {
    behind(Start::Fresh, state, call, |_, link| {
        link.credit = if link.enabled { 64 } else { 0 }
    })
}

/// Fresh of document 01.
fn knows_the_old_start_alone(state: &mut Option<Network>, call: &Call) -> Answer {
    behind(Start::Fresh, state, call, |_, link| link.enabled = false)
}

/// Both starts are the new one.
fn blank_enables_e_to_h(state: &mut Option<Network>, call: &Call) -> Answer {
    behind(Start::Blank, state, call, |place, link| {
        link.enabled = place >= 4
    })
}

/// "The lowest number wins."
fn blank_looks_at_the_memory_first(state: &mut Option<Network>, call: &Call) -> Answer {
    let answer = model::apply(state, call);
    match (call.start(), &answer) {
        (Some(Start::Blank), Answer::No(No::NoSuch)) => Answer::No(No::Unsound),
        _ => answer,
    }
}

/// The old start takes one node less.
fn blank_takes_no_sixteenth_node(state: &mut Option<Network>, call: &Call) -> Answer {
    let begins = call.begins().filter(|begins| begins.start == Start::Blank);
    match begins.is_some_and(|begins| begins.nodes == MOST_NODES) {
        true => Answer::No(No::NoSuch),
        false => model::apply(state, call),
    }
}

// Cables.

/// The ends that a call is about to join, if both are there.
fn ends(state: &Option<Network>, call: &Call) -> Option<[(LinkEnd, Link); 2]> {
    let Call::Wire { one, other } = *call else {
        return None;
    };
    let network = state.as_ref()?;
    let end = |end: LinkEnd| Some((end, network.link(end).ok()?.clone()));
    Some([end(one)?, end(other)?])
}

/// The model, but for a cable of which that is so, which is Busy.
fn busy_where(state: &mut Option<Network>, call: &Call, is_busy: impl Fn(&Link) -> bool) -> Answer {
    let ends = ends(state, call);
    let mut after = state.clone();
    let answer = model::apply(&mut after, call);
    match (ends, &answer) {
        (Some(ends), Answer::Done) if ends.iter().any(|(_, link)| is_busy(link)) => {
            Answer::No(No::Busy)
        }
        _ => {
            *state = after;
            answer
        }
    }
}

/// Wire of document 01.
fn is_busy_where_enabled(state: &mut Option<Network>, call: &Call) -> Answer {
    busy_where(state, call, |link| link.enabled)
}

/// A link in use is no place for a cable.
fn is_busy_where_in_use(state: &mut Option<Network>, call: &Call) -> Answer {
    busy_where(state, call, |link| link.used_by.is_some())
}

/// A wired end is taken, and its old cable pulled.
fn takes_a_wired_end(state: &mut Option<Network>, call: &Call) -> Answer {
    let ends = ends(state, call);
    let answer = model::apply(state, call);
    let (Some([(one, _), (other, _)]), Answer::No(No::Busy), Some(network)) =
        (ends.clone(), &answer, state)
    else {
        return answer;
    };
    let old = ends.into_iter().flatten().filter_map(|(_, link)| link.far);
    for end in old {
        network.nodes[end.slot].links[end.link].far = None;
    }
    network.nodes[one.slot].links[one.link].far = Some(other);
    network.nodes[other.slot].links[other.link].far = Some(one);
    Answer::Done
}

/// The model, and then something else with the ends that were joined.
fn joined(state: &mut Option<Network>, call: &Call, wrong: impl Fn(&mut Link)) -> Answer {
    let ends = ends(state, call);
    let answer = model::apply(state, call);
    if let (Some(ends), Answer::Done, Some(network)) = (ends, &answer, state) {
        for (end, _) in ends {
            wrong(&mut network.nodes[end.slot].links[end.link]);
        }
    }
    answer
}

/// A circuit that waits for the cable has to find another way.
fn joining_frees_the_link(state: &mut Option<Network>, call: &Call) -> Answer {
    joined(state, call, |link| link.used_by = None)
}

/// A cable begins with both ends disabled, as it did before.
fn joining_disables(state: &mut Option<Network>, call: &Call) -> Answer {
    joined(state, call, |link| link.enabled = false)
}

/// A HELLO that was said before there was a cable is heard when it is plugged in: both ends are
/// enabled, and so both are greeted.
fn joining_greets(state: &mut Option<Network>, call: &Call) -> Answer {
    joined(state, call, |link| link.greeted = link.enabled)
}

/// What leaves by a link without a cable is lost at once.
fn is_lost_without_a_cable(state: &mut Option<Network>, call: &Call) -> Answer {
    let before = state.clone();
    let answer = model::apply(state, call);
    let (Call::Step { slot, port }, Answer::Waiting, Some(before)) = (call, &answer, before) else {
        return answer;
    };
    let node = &before.nodes[*slot];
    let lost = (0..LINKS).any(|link| {
        let link = &node.links[link];
        link.far.is_none() && link.used_by == Some(*port)
    });
    match lost {
        true => Answer::Moved,
        false => answer,
    }
}

/// HELLO on an enabled link without a cable is Busy.
fn hello_wants_a_cable(state: &mut Option<Network>, call: &Call) -> Answer {
    let (
        &Call::Set {
            slot,
            setting: Setting::Hello { link },
        },
        Some(network),
    ) = (call, state.as_ref())
    else {
        return model::apply(state, call);
    };
    let end = network.link(LinkEnd { slot, link });
    match end.is_ok_and(|link| link.enabled && link.far.is_none()) {
        true => Answer::No(No::Busy),
        false => model::apply(state, call),
    }
}

/// Runs of all kinds, and some without a cable at the start.
const MAKERS: [Maker; 2] = [runs::calls, changing::calls_without_cables];

#[rustfmt::skip]
const STARTS: [Wrong; 8] = [
    (enables_d_too, 1, "fresh 1 832 lines 528", " link 3 enabled: false against true"),
    (enables_e_to_g, 1, "fresh 1 832 lines 528", " link 7 enabled: true against false"),
    (greets_at_the_start, 1, "fresh 1 832 lines 528", " link 4 greeted: false against true"),
    (grants_at_the_start, 1, "fresh 1 832 lines 528", " link 4 credit: 0 against 64"),
    (knows_the_old_start_alone, 1, "fresh 1 832 lines 528", " link 4 enabled: true against false"),
    (blank_enables_e_to_h, 1, "blank 1 832 lines 528", " link 4 enabled: false against true"),
    (blank_looks_at_the_memory_first, 1, "blank ", "the library no 2, the model no 1"),
    (blank_takes_no_sixteenth_node, 1, "blank 16 ", "the library no 1, the model no 2"),
];

#[test]
fn wrong_starts_are_found() {
    are_found(&STARTS, &MAKERS);
}

#[rustfmt::skip]
const CABLES: [Wrong; 8] = [
    (is_busy_where_enabled, 2, "wire ", "the library done, the model no 4"),
    (is_busy_where_in_use, 9, "wire ", "the library done, the model no 4"),
    (takes_a_wired_end, 3, "wire ", "the library no 4, the model done"),
    (joining_frees_the_link, 9, "wire ", " user: Some(8) against None"),
    (joining_disables, 2, "wire ", " enabled: true against false"),
    (joining_greets, 2, "wire ", " greeted: false against true"),
    (is_lost_without_a_cable, 9, "step ", "the library waiting, the model moved"),
    (hello_wants_a_cable, 3, "set ", "the library granted 0, the model no 4"),
];

#[test]
fn wrong_cables_are_found() {
    are_found(&CABLES, &MAKERS);
}
