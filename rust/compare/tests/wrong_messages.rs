//! Models that end a switch message wrongly, each in a way that looks reasonable: the runs that ask
//! control units find every one of them.

use compare::calls::Apply;
use compare::soak::{ask, Found};
use model::messages::reply_address;
use model::network::{Hop, Network};
use model::sizes::REPLY_PORT;
use model::tokens::{header, Token, HELLO, NACK};
use model::{Answer, Call};

/// Links by their place in the registers: C, D, A, B, G, H, E, F.
const LINK_ORDER: [usize; 8] = [2, 3, 0, 1, 6, 7, 4, 5];

/// The END or PAUSE of a message, which the call took.
struct Ended {
    slot: usize,
    port: usize,
    heard: Vec<Token>,
    /// The width that the node had before.
    width: u32,
}

/// What this call is going to end, if it ends a message.
fn ended(before: Option<&Network>, call: &Call) -> Option<Ended> {
    let Call::Step { slot, port } = *call else {
        return None;
    };
    let node = before?.nodes.get(slot)?;
    let here = node.ports.get(port)?;
    let ends = here.hop == Some(Hop::Control) && here.tokens.front()?.ends_circuit();
    ends.then(|| Ended {
        slot,
        port,
        heard: node.control_unit.heard.clone(),
        width: node.width,
    })
}

/// The model, and then something else at the end of a message.
fn with(state: &mut Option<Network>, call: &Call, wrong: fn(&mut Network, Ended)) -> Answer {
    let ended = ended(state.as_ref(), call);
    let answer = model::apply(state, call);
    if let (Some(ended), Some(network), Answer::Moved) = (ended, state, &answer) {
        wrong(network, ended);
    }
    answer
}

/// The reply's header is made before the write: it has the width that the node had.
fn replies_before_it_writes(state: &mut Option<Network>, call: &Call) -> Answer {
    with(state, call, |network, ended| {
        let address = reply_address(&ended.heard);
        let made = address.and_then(|address| header(address, ended.width));
        let reply = &mut network.nodes[ended.slot].ports[REPLY_PORT].tokens;
        reply.retain(|token| token.header.is_none());
        for token in made.unwrap_or_default().into_iter().rev() {
            reply.push_front(token);
        }
    })
}

/// The write is made before the END is taken: a HELLO on the link that sent it is on its way when a
/// grant is considered, and is not refused for the credit that there would be.
fn greets_before_it_takes(state: &mut Option<Network>, call: &Call) -> Answer {
    with(state, call, |network, ended| {
        let far = |link: &model::network::Link| link.far;
        let links = &network.nodes[ended.slot].links;
        let Some(sender) = links.get(ended.port).and_then(far) else {
            return;
        };
        let greets = ended.heard.get(6) == Some(&Token::data(0x81)) && ended.heard.len() == 10;
        let address = Token::data(0x86);
        let node = &mut network.nodes[ended.slot];
        let credit = node.links[ended.port].credit_on_line();
        if greets && ended.heard[5] == address && sender.slot == ended.slot && credit > 0 {
            node.links[ended.port].line.pop_back();
            node.links[ended.port].issued -= credit;
            let sender = &mut node.links[sender.link];
            sender.credit = 0;
            sender.line.push_back(Token::control(HELLO));
        }
    })
}

/// A write that is refused at the network has set the direction.
fn writes_in_part(state: &mut Option<Network>, call: &Call) -> Answer {
    with(state, call, |network, ended| {
        let node = &mut network.nodes[ended.slot];
        let refused = node.ports[REPLY_PORT]
            .tokens
            .contains(&Token::control(NACK));
        let [address, data] = [5, 8].map(|place| ended.heard.get(place).map(|token| token.value));
        if let (true, 10, Some(place @ 0x20..=0x27), Some(data)) =
            (refused, ended.heard.len(), address, data)
        {
            let link = LINK_ORDER[usize::from(place - 0x20)];
            node.links[link].direction = u32::from(data & 0xF);
        }
    })
}

/// A write that nobody hears of is not made.
fn undoes_what_is_unheard(state: &mut Option<Network>, call: &Call) -> Answer {
    let before = ended(state.as_ref(), call);
    let answer = model::apply(state, call);
    if let (Some(before), Some(network), Answer::Unheard) = (before, state, &answer) {
        network.nodes[before.slot].width = before.width;
    }
    answer
}

#[test]
fn wrong_ends_are_found() {
    let wrong = [
        (replies_before_it_writes as Apply, " port 12 tokens: "),
        (greets_before_it_takes, " link 4 "),
        (writes_in_part, " direction: "),
        (undoes_what_is_unheard, " width: 1 against 3 "),
    ];
    for (apply, expected) in wrong {
        let found = (0..40).find_map(|seed| ask(apply, seed, 3000).err());
        let Some(Found::Run(differing)) = found else {
            panic!("nothing differs in{expected}");
        };
        assert!(differing.how.contains(expected), "{}", differing.how);
    }
}
