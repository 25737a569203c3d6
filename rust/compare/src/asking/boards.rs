//! The two boards of a run that asks control units.

use model::calls::Call;
use model::network::{LinkEnd, Network, Start};
use model::set::Setting;

use crate::calls::beginning;

pub(super) const NODES: usize = 2;

/// The links by which the boards are joined.
const JOINED: [usize; 2] = [0, 1];
/// The two ends of the cable that each board has with itself. Circuits leave by the first.
pub(super) const OWN: [usize; 2] = [4, 5];
/// The address at which enable and HELLO of the first of them stand: "C D A B G H E F".
pub(super) const OWN_START: u32 = 0x86;
/// The bit in which another number differs from a board's own for its own cable to be taken.
pub(super) const OWN_BIT: u32 = 8;

/// Directions: towards the other board, and over the board's own cable.
const TO_OTHER: u32 = 1;
const TO_SELF: u32 = 2;

/// The start and the cables.
pub(super) fn cabling(start: Start) -> Vec<Call> {
    let end = |slot, link| LinkEnd { slot, link };
    let wire = |one, other| Call::Wire { one, other };
    let mut calls = vec![beginning(start, NODES)];
    calls.extend(JOINED.map(|link| wire(end(0, link), end(1, link))));
    calls.extend((0..NODES).map(|slot| wire(end(slot, OWN[0]), end(slot, OWN[1]))));
    calls
}

/// All settings: numbers that differ in bit 0, three bytes, and every cable greeted from both ends.
pub(super) fn settings(number: u32) -> Vec<Call> {
    let mut calls = Vec::new();
    for slot in 0..NODES {
        let mut settings = of_node(number + slot as u32);
        let links = JOINED.map(|link| (link, TO_OTHER));
        settings.extend(links.into_iter().flat_map(of_link));
        settings.extend(of_link((OWN[0], TO_SELF)));
        settings.extend(of_link((OWN[1], 0)));
        calls.extend(
            settings
                .into_iter()
                .map(|setting| Call::Set { slot, setting }),
        );
    }
    // A HELLO is heard by an end that is enabled.
    let links = [JOINED, OWN].concat();
    for slot in 0..NODES {
        let hellos = links.iter().map(|link| Setting::Hello { link: *link });
        calls.extend(hellos.map(|setting| Call::Set { slot, setting }));
    }
    calls
}

fn of_node(number: u32) -> Vec<Setting> {
    let own_bit = OWN_BIT.trailing_zeros() as usize;
    vec![
        Setting::Number { value: number },
        Setting::Width { value: 3 },
        Setting::Direction {
            bit: 0,
            value: TO_OTHER,
        },
        Setting::Direction {
            bit: own_bit,
            value: TO_SELF,
        },
    ]
}

fn of_link((link, direction): (usize, u32)) -> Vec<Setting> {
    vec![
        Setting::LinkDirection {
            link,
            value: direction,
        },
        Setting::Network { link, value: 0 },
        Setting::Enable { link, value: 1 },
    ]
}

/// Would this setting change anything that matters? A link that is greeted is not greeted again, and
/// neither is one whose HELLO is on its way.
pub(super) fn is_undone(network: &Option<Network>, call: &Call) -> bool {
    if let Call::Set {
        slot,
        setting: Setting::Hello { link },
    } = *call
    {
        let end = network.as_ref().and_then(|network| network.nodes.get(slot));
        return end.is_some_and(|node| {
            let link = &node.links[link];
            !link.greeted && !link.hello_on_line()
        });
    }
    let mut after = network.clone();
    model::apply(&mut after, call);
    after != *network
}
