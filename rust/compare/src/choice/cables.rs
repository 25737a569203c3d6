//! Cables, made up at random: often plugged into links that are enabled or in use already.

use model::calls::Call;
use model::network::{Link, LinkEnd, Network};
use model::random::Random;
use model::set::Setting;
use model::sizes::LINKS;

use super::any_end;

/// A cable, often between links that are without one and enabled, or in use.
pub(super) fn any(random: &mut Random, network: Option<&Network>, nodes: usize) -> Call {
    let links = |is_meant: fn(&Link) -> bool| network.map(|network| links(network, is_meant));
    let enabled = links(|link| link.far.is_none() && link.enabled).unwrap_or_default();
    let in_use = links(|link| link.far.is_none() && link.used_by.is_some()).unwrap_or_default();
    let [one, other] = [(); 2].map(|()| {
        let any = any_end(random, nodes);
        match random.below(10) {
            0..=3 => random.pick(&in_use).unwrap_or(any),
            4..=6 => random.pick(&enabled).unwrap_or(any),
            _ => any,
        }
    });
    Call::Wire { one, other }
}

/// The links of which that is so.
fn links(network: &Network, is_meant: impl Fn(&Link) -> bool) -> Vec<LinkEnd> {
    let slots = 0..network.nodes.len();
    let all = slots.flat_map(|slot| (0..LINKS).map(move |link| LinkEnd { slot, link }));
    all.filter(|end| is_meant(&network.nodes[end.slot].links[end.link]))
        .collect()
}

/// The ends at which lines start that have something on them.
pub fn lines_in_use(network: &Network) -> Vec<LinkEnd> {
    links(network, |link| !link.line.is_empty())
}

/// A cable for a link without one by which a circuit is to leave, often to another such, and what
/// puts both ends to work behind it, HELLO left out now and then, or left on its line; nothing where
/// there is no such link.
pub fn plug(random: &mut Random, network: Option<&Network>) -> Vec<Call> {
    let links = |is_meant: fn(&Link) -> bool| network.map(|network| links(network, is_meant));
    let free = links(|link| link.far.is_none()).unwrap_or_default();
    let in_use = links(|link| link.far.is_none() && link.used_by.is_some()).unwrap_or_default();
    let Some(one) = random.pick(&in_use) else {
        return Vec::new();
    };
    let but_it = |ends: Vec<LinkEnd>| ends.into_iter().filter(|end| *end != one).collect();
    let [in_use, free]: [Vec<LinkEnd>; 2] = [in_use, free].map(but_it);
    let in_use = random.pick(&in_use).filter(|_| random.chance(70));
    let Some(other) = in_use.or(random.pick(&free)) else {
        return Vec::new();
    };
    let set = |LinkEnd { slot, .. }: LinkEnd, setting| Call::Set { slot, setting };
    let enable = |end: LinkEnd| Setting::Enable {
        link: end.link,
        value: 1,
    };
    let mut calls = vec![Call::Wire { one, other }];
    calls.extend([one, other].map(|end| set(end, enable(end))));
    for (end, far) in [(one, other), (other, one)] {
        if random.chance(85) {
            calls.push(set(end, Setting::Hello { link: end.link }));
        }
        if random.chance(90) {
            calls.extend([end, far].map(line));
        }
    }
    calls
}

fn line(LinkEnd { slot, link }: LinkEnd) -> Call {
    Call::Line { slot, link }
}
