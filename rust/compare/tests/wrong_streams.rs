//! Benches whose streams go wrong, each in a way that could happen: the watcher finds every one of
//! them, by the sentence that names it; and each sentence, held alone, finds some of them.

use std::collections::VecDeque;

use compare::books;
use compare::calls::Apply;
use compare::reduce::reduce_by;
use compare::watch::{watched, Broken, Modelled, Sentence, Watcher};
use compare::{asking, changing};
use model::answers::{Cause, Opening};
use model::lines::{freight, Freight};
use model::messages::reply_address;
use model::network::{Claim, Hop, LinkEnd, Network, Node, Port, Sending, Start};
use model::sizes::{CHANNEL_ENDS, CHANNEL_END_CAPACITY, REPLY_PORT};
use model::tokens::{header, Destination, Kind, Token, SINK};
use model::{Answer, Call, No};

const SEEDS: u64 = 30;
const CALLS: usize = 1500;

/// Where a Step is made, with the port as it stands before.
struct Before {
    slot: usize,
    port: usize,
    hop: Option<Hop>,
    first: Option<Token>,
    width: u32,
}

fn before(state: &Option<Network>, call: &Call) -> Option<Before> {
    let Call::Step { slot, port } = *call else {
        return None;
    };
    let node = state.as_ref()?.nodes.get(slot)?;
    let here = node.ports.get(port)?;
    Some(Before {
        slot,
        port,
        hop: here.hop,
        first: here.tokens.front().copied(),
        width: node.width,
    })
}

/// The model, and then something else behind a Step.
fn behind_step(
    state: &mut Option<Network>,
    call: &Call,
    wrong: impl FnOnce(&mut Network, Before, &mut Answer),
) -> Answer {
    let before = before(state, call);
    let mut answer = model::apply(state, call);
    if let (Some(before), Some(network), false) = (before, state, matches!(answer, Answer::No(_))) {
        wrong(network, before, &mut answer);
    }
    answer
}

/// The model, and then something else behind a done Output of this channel-end.
fn behind_output(
    state: &mut Option<Network>,
    call: &Call,
    wrong: impl FnOnce(&mut Node, usize, Token),
) -> Answer {
    let answer = model::apply(state, call);
    if let (
        Call::Output {
            slot,
            channel_end,
            kind,
            value,
        },
        Answer::Done,
        Some(network),
    ) = (call.clone(), &answer, state)
    {
        let token = Token::plain(kind, value);
        wrong(&mut network.nodes[slot], channel_end, token);
    }
    answer
}

/// May stand anywhere behind a header and leaves the state sound.
fn is_inner(token: &Token) -> bool {
    token.header.is_none() && !token.ends_circuit()
}

/// The line on to which a Step moved a token, which is the last of it.
fn line_sent_on<'a>(
    network: &'a mut Network,
    before: &Before,
    answer: &Answer,
) -> Option<&'a mut VecDeque<Token>> {
    let (Some(Hop::Outward(link)), Answer::Moved) = (before.hop, answer) else {
        return None;
    };
    Some(&mut network.nodes[before.slot].links[link].line)
}

/// The model, and then something else with the port into which a line step has brought a token.
fn behind_arrival(
    state: &mut Option<Network>,
    call: &Call,
    wrong: impl FnOnce(&mut Port),
) -> Answer {
    let far = arriving(state.as_ref(), call);
    let answer = model::apply(state, call);
    if let (Some(far), Answer::Arrived(_), Some(network)) = (far, &answer, state) {
        wrong(&mut network.nodes[far.slot].ports[far.link]);
    }
    answer
}

/// Where the token is going to arrive that a line step is going to bring.
fn arriving(network: Option<&Network>, call: &Call) -> Option<LinkEnd> {
    let Call::Line { slot, link } = *call else {
        return None;
    };
    let link = network?.link(LinkEnd { slot, link }).ok()?;
    let first = link.freight().next()?;
    link.far.filter(|_| first == Freight::Token)
}

/// The channel, other than the sink, to which a Step had a circuit opened.
fn landed(network: &Network, before: &Before, answer: &Answer) -> Option<usize> {
    let hop = network.nodes[before.slot].ports[before.port].hop;
    match (answer, hop) {
        (Answer::Opened(Opening::Channel), Some(Hop::Channel(channel))) if channel != SINK => {
            Some(channel)
        }
        _ => None,
    }
}

// Tokens out of order, lost or too many.

/// The newest token of a circuit goes in front of those that are still in its port.
fn puts_the_newest_first(state: &mut Option<Network>, call: &Call) -> Answer {
    behind_output(state, call, |node, end, token| {
        let Some(Sending::ByPort(port)) = node.channel_ends[end].sending else {
            return;
        };
        let tokens = &mut node.ports[port].tokens;
        if is_inner(&token) && tokens.back() == Some(&token) {
            tokens.pop_back();
            let header = tokens.iter().take_while(|it| it.header.is_some()).count();
            tokens.insert(header, token);
        }
    })
}

fn swaps_on_the_way(state: &mut Option<Network>, call: &Call) -> Answer {
    behind_step(state, call, |network, before, answer| {
        if let Some(line) = line_sent_on(network, &before, answer) {
            let last = line.len().saturating_sub(2);
            let inner = |token: &Token| is_inner(token) && freight(token) == Freight::Token;
            if line.len() >= 2 && line.range(last..).all(inner) {
                line.swap(last, last + 1);
            }
        }
    })
}

fn loses_a_token(state: &mut Option<Network>, call: &Call) -> Answer {
    behind_arrival(state, call, |port| {
        if port.tokens.back().is_some_and(is_inner) {
            port.tokens.pop_back();
        }
    })
}

/// What comes off a line goes in front of what the port holds of its circuit.
fn arrives_in_front(state: &mut Option<Network>, call: &Call) -> Answer {
    behind_arrival(state, call, |port| {
        let last = port.tokens.len().saturating_sub(2);
        if port.tokens.len() >= 2 && port.tokens.range(last..).all(is_inner) {
            port.tokens.swap(last, last + 1);
        }
    })
}

/// What came on to a line last comes off it first.
fn takes_the_newest_off(state: &mut Option<Network>, call: &Call) -> Answer {
    if let (Call::Line { slot, link }, Some(network)) = (call, state.as_mut()) {
        let node = network.nodes.get_mut(*slot);
        let line = node.and_then(|node| node.links.get_mut(*link));
        let inner = |token: &Token| is_inner(token) && freight(token) == Freight::Token;
        if let Some(link) = line.filter(|link| link.line.iter().all(inner)) {
            link.line.make_contiguous().reverse();
        }
    }
    model::apply(state, call)
}

/// "one that stores nothing": the Output is done, and the token is nowhere.
fn stores_nothing(state: &mut Option<Network>, call: &Call) -> Answer {
    behind_output(state, call, |node, end, token| {
        if let Some(Sending::ByPort(port)) = node.channel_ends[end].sending {
            let tokens = &mut node.ports[port].tokens;
            if is_inner(&token) && tokens.back() == Some(&token) && tokens.len() > 4 {
                tokens.pop_back();
            }
        }
    })
}

fn hands_twice(state: &mut Option<Network>, call: &Call) -> Answer {
    behind_step(state, call, |network, before, answer| {
        hand_too(network, &before, answer, |token| is_inner(&token));
    })
}

/// Hands the token that a Step took to the channel once more.
fn hand_too(network: &mut Network, before: &Before, answer: &Answer, which: fn(Token) -> bool) {
    let (Some(Hop::Channel(channel)), Answer::Moved, Some(token)) =
        (before.hop, answer, before.first)
    else {
        return;
    };
    let node = &mut network.nodes[before.slot];
    if let Some(end) = node.channel_ends.get_mut(channel) {
        if which(token) && end.tokens.len() < CHANNEL_END_CAPACITY {
            end.tokens.push_back(token);
        }
    }
}

/// Handing PAUSE to a program.
fn hands_pause(state: &mut Option<Network>, call: &Call) -> Answer {
    behind_step(state, call, |network, before, answer| {
        hand_too(network, &before, answer, |token| token.is_pause());
    })
}

/// The last token of a header stays and is taken for the first of the stream.
fn hands_a_header_token_on(state: &mut Option<Network>, call: &Call) -> Answer {
    let third = third_token(state, call);
    behind_step(state, call, |network, before, answer| {
        if let (Some(_), Some(token)) = (landed(network, &before, answer), third) {
            let tokens = &mut network.nodes[before.slot].ports[before.port].tokens;
            tokens.push_front(Token::data(token.value));
        }
    })
}

/// The same, with its mark, and at once.
fn hands_a_marked_token(state: &mut Option<Network>, call: &Call) -> Answer {
    let third = third_token(state, call);
    behind_step(state, call, |network, before, answer| {
        if let (Some(channel), Some(token)) = (landed(network, &before, answer), third) {
            let end = &mut network.nodes[before.slot].channel_ends[channel];
            end.tokens.push_back(token);
        }
    })
}

fn third_token(state: &Option<Network>, call: &Call) -> Option<Token> {
    let at = before(state, call)?;
    let node = &state.as_ref()?.nodes[at.slot];
    let third = node.ports[at.port].tokens.get(2).copied();
    third.filter(|token| token.header == Some(3))
}

fn gives_the_newest(state: &mut Option<Network>, call: &Call) -> Answer {
    if let (
        Call::Input {
            slot, channel_end, ..
        },
        Some(network),
    ) = (call.clone(), state.as_mut())
    {
        let node = network.nodes.get_mut(slot);
        let end = node.and_then(|node| node.channel_ends.get_mut(channel_end));
        if let Some(end) = end.filter(|end| !end.tokens.is_empty()) {
            end.tokens.rotate_right(1);
        }
    }
    model::apply(state, call)
}

/// Input gives the token, and keeps it.
fn gives_it_again(state: &mut Option<Network>, call: &Call) -> Answer {
    let kept = state.clone();
    let answer = model::apply(state, call);
    if let (Call::Input { .. }, Answer::Token(_)) = (call, &answer) {
        *state = kept;
    }
    answer
}

// The wrong door.

/// The circuit's claim and hop go to the next channel that is free.
fn lead_elsewhere(node: &mut Node, port: usize, channel: usize) {
    let free = |other: &usize| node.channel_ends[*other].claim.is_none();
    if let Some(other) = (0..CHANNEL_ENDS).find(free) {
        node.channel_ends[channel].claim = None;
        node.channel_ends[other].claim = Some(Claim::ByPort(port));
        node.ports[port].hop = Some(Hop::Channel(other));
    }
}

fn lands_at_another_channel(state: &mut Option<Network>, call: &Call) -> Answer {
    behind_step(state, call, |network, before, answer| {
        if let Some(channel) = landed(network, &before, answer) {
            let node = &mut network.nodes[before.slot];
            lead_elsewhere(node, before.port, channel);
        }
    })
}

/// After its first token a circuit goes to another channel.
fn hands_at_two_places(state: &mut Option<Network>, call: &Call) -> Answer {
    behind_step(state, call, |network, before, answer| {
        let first = before.first.is_some_and(|token| is_inner(&token));
        if let (Some(Hop::Channel(channel)), Answer::Moved, true) = (before.hop, &*answer, first) {
            if channel != SINK {
                let node = &mut network.nodes[before.slot];
                lead_elsewhere(node, before.port, channel);
            }
        }
    })
}

/// Three bits are compared at any width.
fn compares_three_bits(state: &mut Option<Network>, call: &Call) -> Answer {
    let Some((slot, own, named)) = header_number(state, call) else {
        return model::apply(state, call);
    };
    let same = own % 8 == named % 8;
    let number = if same { named } else { own };
    with_numbers(state, call, &[(slot, number)])
}

/// The node's number and that of the whole three-byte header that a Step is going to read.
fn header_number(state: &Option<Network>, call: &Call) -> Option<(usize, u32, u32)> {
    let at = before(state, call)?;
    let node = &state.as_ref()?.nodes[at.slot];
    let tokens = &node.ports[at.port].tokens;
    let [high, low, last] = [0, 1, 2].map(|place| tokens.get(place).copied());
    let whole = at.hop.is_none() && last?.header == Some(3);
    let named = u32::from(high?.value) * 256 + u32::from(low?.value);
    whole.then_some((at.slot, node.number, named))
}

/// Makes a call while these slots have other numbers, which they lose again. A number that a
/// message has written stays.
fn with_numbers(state: &mut Option<Network>, call: &Call, numbers: &[(usize, u32)]) -> Answer {
    let mut swapped = Vec::new();
    for &(slot, number) in numbers {
        let node = state
            .as_mut()
            .and_then(|network| network.nodes.get_mut(slot));
        let had = node.map(|node| std::mem::replace(&mut node.number, number));
        swapped.extend(had.map(|had| (slot, number, had)));
    }
    let answer = model::apply(state, call);
    for (slot, number, had) in swapped {
        let node = state
            .as_mut()
            .and_then(|network| network.nodes.get_mut(slot));
        if let Some(node) = node.filter(|node| node.number == number) {
            node.number = had;
        }
    }
    answer
}

/// A header is compared with the number that the node had when something was last sent.
fn compares_the_number_at_sending() -> impl FnMut(&mut Option<Network>, &Call) -> Answer {
    let mut numbers = Vec::new();
    move |state, call| {
        match call {
            Call::Step { .. } => return with_numbers(state, call, &numbers),
            _ if call.start().is_some() || matches!(call, Call::Output { .. }) => {
                let nodes = state.iter().flat_map(|network| &network.nodes);
                numbers = nodes.map(|node| node.number).enumerate().collect();
            }
            _ => {}
        }
        model::apply(state, call)
    }
}

// Widths.

/// The accident: the first byte is read as the whole header, and the next two as counts.
fn reads_another_width_as_its_own(state: &mut Option<Network>, call: &Call) -> Answer {
    if let (Some(at), Some(third)) = (before(state, call), third_token(state, call)) {
        if let (Some(network), true) = (state.as_mut(), at.hop.is_none() && at.width == 1) {
            let tokens = &mut network.nodes[at.slot].ports[at.port].tokens;
            if third.kind == Kind::Data {
                tokens[0].header = Some(1);
                tokens[1].header = None;
                tokens[2].header = None;
            }
        }
    }
    model::apply(state, call)
}

/// A header of the other width waits, as if it were short.
fn waits_at_another_width(state: &mut Option<Network>, call: &Call) -> Answer {
    let kept = state.clone();
    let answer = model::apply(state, call);
    if answer != Answer::Refused(Cause::Split) {
        return answer;
    }
    *state = kept;
    Answer::Waiting
}

/// A circuit that has handed a token is refused as Split.
fn hands_one_and_splits(state: &mut Option<Network>, call: &Call) -> Answer {
    let at = before(state, call);
    let (Some(at), Some(network)) = (at, state.as_mut()) else {
        return model::apply(state, call);
    };
    let node = &mut network.nodes[at.slot];
    let (Some(Hop::Channel(channel)), true) = (at.hop, at.first.is_some_and(|it| is_inner(&it)))
    else {
        return model::apply(state, call);
    };
    let holds = |end: &model::network::ChannelEnd| !end.tokens.is_empty();
    let Some(end) = node.channel_ends.get_mut(channel).filter(|end| holds(end)) else {
        return model::apply(state, call);
    };
    end.claim = None;
    for user in node
        .tile_links
        .iter_mut()
        .filter(|user| **user == Some(at.port))
    {
        *user = None;
    }
    node.ports[at.port].hop = Some(Hop::Dropped(Cause::Split));
    Answer::Refused(Cause::Split)
}

/// A circuit that is refused as Split has its first token handed all the same.
fn splits_and_hands_one(state: &mut Option<Network>, call: &Call) -> Answer {
    behind_step(state, call, |network, before, answer| {
        let node = &mut network.nodes[before.slot];
        let tokens = &node.ports[before.port].tokens;
        let token = tokens.iter().find(|token| is_inner(token)).copied();
        if let (Answer::Refused(Cause::Split), Some(token)) = (&*answer, token) {
            node.channel_ends[0].tokens.push_back(token);
        }
    })
}

/// What has no route is called Split.
fn calls_it_split(state: &mut Option<Network>, call: &Call) -> Answer {
    behind_step(state, call, |network, before, answer| {
        if *answer == Answer::Refused(Cause::NoRoute) {
            *answer = Answer::Refused(Cause::Split);
            let port = &mut network.nodes[before.slot].ports[before.port];
            port.hop = Some(Hop::Dropped(Cause::Split));
        }
    })
}

/// A header token has lost its mark on a line.
fn loses_a_mark(state: &mut Option<Network>, call: &Call) -> Answer {
    behind_step(state, call, |network, before, answer| {
        if let Some(last) = line_sent_on(network, &before, answer).and_then(VecDeque::back_mut) {
            last.header = None;
        }
    })
}

/// A header token that is to come round into its own port is marked with the other width.
fn marks_anew_what_comes_round(state: &mut Option<Network>, call: &Call) -> Answer {
    behind_step(state, call, |network, before, answer| {
        let Some(Hop::Outward(link)) = before.hop else {
            return;
        };
        let far = network.nodes[before.slot].links[link].far;
        let round = far.is_some_and(|far| (far.slot, far.link) == (before.slot, before.port));
        let line = line_sent_on(network, &before, answer).filter(|_| round);
        if let Some(token) = line.and_then(VecDeque::back_mut) {
            token.header = token.header.map(|width| 4 - width);
        }
    })
}

// Control units.

/// The model, and then something else to the reply that it has put out.
fn with_reply(
    state: &mut Option<Network>,
    call: &Call,
    wrong: impl FnOnce(&mut Node, &[Token], u32),
) -> Answer {
    let heard = before(state, call).and_then(|at| {
        let node = &state.as_ref()?.nodes[at.slot];
        let ends = at.hop == Some(Hop::Control) && at.first?.ends_circuit();
        ends.then(|| node.control_unit.heard.clone())
    });
    behind_step(state, call, |network, before, answer| {
        if let (Some(heard), Answer::Moved) = (heard, &*answer) {
            wrong(&mut network.nodes[before.slot], &heard, before.width);
        }
    })
}

/// The reply's header is made before the write: it has the width that the node had.
fn replies_before_it_writes(state: &mut Option<Network>, call: &Call) -> Answer {
    with_reply(state, call, |node, heard, width| {
        let made = reply_address(heard).and_then(|address| header(address, width));
        let reply = &mut node.ports[REPLY_PORT].tokens;
        reply.retain(|token| token.header.is_none());
        for token in made.unwrap_or_default().into_iter().rev() {
            reply.push_front(token);
        }
    })
}

/// The reply goes to the next channel.
fn replies_to_another(state: &mut Option<Network>, call: &Call) -> Answer {
    with_reply(state, call, |node, _, _| {
        if let Some(last) = node.ports[REPLY_PORT].tokens.get_mut(2) {
            if last.header.is_some() && last.value != 0 {
                last.value = 0;
            }
        }
    })
}

/// A control unit does not keep its first token.
fn mishears(state: &mut Option<Network>, call: &Call) -> Answer {
    behind_step(state, call, |network, before, _| {
        let heard = &mut network.nodes[before.slot].control_unit.heard;
        if before.hop == Some(Hop::Control) && heard.len() == 2 {
            heard.remove(0);
        }
    })
}

// Channel-ends.

/// A second Aim is done, and the first stays.
fn keeps_its_first_aim(state: &mut Option<Network>, call: &Call) -> Answer {
    let Call::Aim {
        slot, channel_end, ..
    } = *call
    else {
        return model::apply(state, call);
    };
    let aim = |state: &Option<Network>| {
        let end = state.as_ref()?.channel_end(slot, channel_end).ok()?;
        end.aim
    };
    let had = aim(state);
    let answer = model::apply(state, call);
    if let (Answer::Done, Some(_), Some(network)) = (&answer, had, state) {
        network.nodes[slot].channel_ends[channel_end].aim = had;
    }
    answer
}

/// A channel-end is turned elsewhere by a Set of its node.
fn turns_by_itself(state: &mut Option<Network>, call: &Call) -> Answer {
    let answer = model::apply(state, call);
    if let (Call::Set { slot, .. }, Answer::Done, Some(network)) = (call.clone(), &answer, state) {
        let (number, channel) = (0, 0);
        let ends = network.nodes[slot].channel_ends.iter_mut();
        let free = ends.filter(|end| end.sending.is_none());
        for aim in free.filter_map(|end| end.aim.as_mut()) {
            aim.destination = Destination::Channel { number, channel };
        }
    }
    answer
}

/// One of the two starts leaves what channel-ends held.
fn keeps_tokens_at(start: Start) -> impl FnMut(&mut Option<Network>, &Call) -> Answer {
    move |state, call| {
        let before = state.clone();
        let answer = model::apply(state, call);
        if let (true, Answer::Done, Some(before), Some(network)) =
            (call.start() == Some(start), &answer, before, state)
        {
            for (node, was) in network.nodes.iter_mut().zip(before.nodes) {
                for (end, was) in node.channel_ends.iter_mut().zip(was.channel_ends) {
                    end.tokens = was.tokens;
                }
            }
        }
        answer
    }
}

/// A cable that is plugged into a link in use takes the first token of the circuit with it.
fn joining_loses_a_token(state: &mut Option<Network>, call: &Call) -> Answer {
    let answer = model::apply(state, call);
    let (Call::Wire { one, other }, Answer::Done, Some(network)) = (call, &answer, state) else {
        return answer;
    };
    for end in [one, other] {
        let node = &mut network.nodes[end.slot];
        if let Some(port) = node.links[end.link].used_by {
            node.ports[port].tokens.pop_front();
        }
    }
    answer
}

/// A circuit is opened by a port, and its channel-end has forgotten it.
fn forgets_its_circuit(state: &mut Option<Network>, call: &Call) -> Answer {
    behind_output(state, call, |node, end, _| {
        if let Some(Sending::ByPort(_)) = node.channel_ends[end].sending {
            node.channel_ends[end].sending = None;
        }
    })
}

/// "one that moves the first token and then answers Waiting"
fn moves_and_waits(state: &mut Option<Network>, call: &Call) -> Answer {
    behind_step(state, call, |_, before, answer| {
        if let (Some(Hop::Outward(_)), Answer::Moved) = (before.hop, &*answer) {
            *answer = Answer::Waiting;
        }
    })
}

/// A port that waits for a link says that a token has moved.
fn waits_and_moves(state: &mut Option<Network>, call: &Call) -> Answer {
    behind_step(state, call, |_, before, answer| {
        if let (None, Answer::Waiting) = (before.hop, &*answer) {
            *answer = Answer::Moved;
        }
    })
}

/// "one that refuses all"
fn refuses_all(state: &mut Option<Network>, call: &Call) -> Answer {
    match call.start() {
        Some(_) => model::apply(state, call),
        None => Answer::No(No::Busy),
    }
}

/// "one that says Idle always": no header is ever read, and so none is refused.
fn says_idle_always(state: &mut Option<Network>, call: &Call) -> Answer {
    match call {
        Call::Step { .. } => Answer::Idle,
        _ => model::apply(state, call),
    }
}

/// A bench made of the model, begun anew for each run.
type Make = fn() -> Box<dyn FnMut(&mut Option<Network>, &Call) -> Answer>;

/// The first of these sentences that a watcher finds broken on such a bench, in some run.
fn complaint(make: Make, held: &[Sentence]) -> Option<Broken> {
    let makers = [asking::calls, changing::calls];
    let runs = (0..SEEDS).flat_map(|seed| makers.map(|calls| (calls, seed)));
    let mut complaints = runs.filter_map(|(calls, seed)| {
        let mut watcher = Watcher::with(books::note, held);
        let mut bench = Modelled::new(make());
        let broken = watcher.run(&mut bench, &calls(seed, CALLS)).err();
        broken.filter(|broken| held.contains(&broken.sentence))
    });
    complaints.next()
}

/// A wrong bench, the sentence by which it is found, and others that find it when held alone.
type Wrong = (Make, Sentence, &'static [Sentence]);

const OUT_OF_ORDER: [Wrong; 13] = [
    (
        || Box::new(puts_the_newest_first),
        Sentence::Cells,
        &[Sentence::Order],
    ),
    (
        || Box::new(swaps_on_the_way),
        Sentence::Cells,
        &[Sentence::Order],
    ),
    (
        || Box::new(loses_a_token),
        Sentence::Cells,
        &[Sentence::Order],
    ),
    (
        || Box::new(arrives_in_front),
        Sentence::Cells,
        &[Sentence::Order],
    ),
    (
        || Box::new(takes_the_newest_off),
        Sentence::Cells,
        &[Sentence::Order],
    ),
    (
        || Box::new(stores_nothing),
        Sentence::Cells,
        &[Sentence::Order],
    ),
    (|| Box::new(moves_and_waits), Sentence::Cells, &[]),
    (
        || Box::new(hands_a_header_token_on),
        Sentence::Cells,
        &[Sentence::Order],
    ),
    (
        || Box::new(hands_a_marked_token),
        Sentence::Inputs,
        &[Sentence::Marks],
    ),
    (|| Box::new(hands_twice), Sentence::Inputs, &[]),
    (
        || Box::new(hands_pause),
        Sentence::Pause,
        &[Sentence::Inputs],
    ),
    (|| Box::new(gives_the_newest), Sentence::Inputs, &[]),
    (|| Box::new(gives_it_again), Sentence::Inputs, &[]),
];

const WRONG_DOOR: [Wrong; 4] = [
    (|| Box::new(lands_at_another_channel), Sentence::Door, &[]),
    (|| Box::new(hands_at_two_places), Sentence::Places, &[]),
    (|| Box::new(compares_three_bits), Sentence::Door, &[]),
    (
        || Box::new(compares_the_number_at_sending()),
        Sentence::Door,
        &[],
    ),
];

const WRONG_WIDTH: [Wrong; 8] = [
    (
        || Box::new(reads_another_width_as_its_own),
        Sentence::Split,
        &[Sentence::Order, Sentence::Door, Sentence::Marks],
    ),
    (|| Box::new(waits_at_another_width), Sentence::Split, &[]),
    (|| Box::new(says_idle_always), Sentence::Split, &[]),
    (
        || Box::new(hands_one_and_splits),
        Sentence::Split,
        &[Sentence::Door],
    ),
    (|| Box::new(splits_and_hands_one), Sentence::Inputs, &[]),
    (|| Box::new(calls_it_split), Sentence::Split, &[]),
    (|| Box::new(loses_a_mark), Sentence::Marks, &[]),
    (
        || Box::new(marks_anew_what_comes_round),
        Sentence::Marks,
        &[],
    ),
];

const WRONG_ENDS: [Wrong; 10] = [
    (
        || Box::new(replies_before_it_writes),
        Sentence::Replies,
        &[Sentence::Cells, Sentence::Marks],
    ),
    (
        || Box::new(replies_to_another),
        Sentence::Replies,
        &[Sentence::Cells],
    ),
    (|| Box::new(mishears), Sentence::Hearing, &[]),
    (|| Box::new(keeps_its_first_aim), Sentence::Aims, &[]),
    (|| Box::new(turns_by_itself), Sentence::Aims, &[]),
    (|| Box::new(forgets_its_circuit), Sentence::Outputs, &[]),
    (|| Box::new(waits_and_moves), Sentence::Answers, &[]),
    (
        || Box::new(keeps_tokens_at(Start::Fresh)),
        Sentence::Inputs,
        &[],
    ),
    (
        || Box::new(keeps_tokens_at(Start::Blank)),
        Sentence::Inputs,
        &[],
    ),
    (|| Box::new(joining_loses_a_token), Sentence::Cells, &[]),
];

/// Each is found by the sentence that is said first, and by the others held alone.
fn are_found(wrong: &[Wrong]) {
    for (place, (make, first, alone)) in wrong.iter().enumerate() {
        let broken = complaint(*make, &Sentence::ALL);
        let found = broken.as_ref().map(|broken| broken.sentence);
        assert_eq!(found, Some(*first), "bench {place}: {broken:?}");
        if let Some(broken) = broken {
            println!("{broken}\n");
        }
        for sentence in *alone {
            let found = complaint(*make, &[*sentence]);
            assert!(found.is_some(), "bench {place}: {sentence}");
        }
    }
}

#[test]
fn tokens_out_of_order_are_found() {
    are_found(&OUT_OF_ORDER);
}

#[test]
fn wrong_doors_are_found() {
    are_found(&WRONG_DOOR);
}

#[test]
fn wrong_widths_are_found() {
    are_found(&WRONG_WIDTH);
}

#[test]
fn wrong_replies_aims_and_circuits_are_found() {
    are_found(&WRONG_ENDS);
}

/// Every sentence has a bench that breaks it.
#[test]
fn every_sentence_can_be_broken() {
    let all = OUT_OF_ORDER
        .iter()
        .chain(&WRONG_DOOR)
        .chain(&WRONG_WIDTH)
        .chain(&WRONG_ENDS);
    let broken: Vec<Sentence> = all
        .flat_map(|(_, first, alone)| [&[*first], *alone].concat())
        .collect();
    for sentence in Sentence::ALL {
        assert!(broken.contains(&sentence), "{sentence}");
    }
}

/// What `soak` leaves behind: a board that takes itself for another of the same three low bits.
#[test]
fn a_run_that_breaks_a_sentence_is_made_short() {
    let fails = |calls: &[Call]| watched(&mut Modelled::new(compares_three_bits), calls).err();
    let found = (0..SEEDS).filter_map(|seed| fails(&changing::calls(seed, CALLS)));
    let shortest = found.min_by_key(|run| run.calls.len());
    let reduced = reduce_by(&fails, shortest.expect("a run that breaks a sentence"));
    println!("{}\n{:#?}", reduced.how, reduced.calls);
    assert!(reduced.how.contains("; Door: "), "{}", reduced.how);
    assert_eq!(reduced.calls.len(), 5);
}

/// "demand 3 alone would let them by": a bench that moves nothing keeps every promise about
/// streams. The other demands shut it out.
#[test]
fn what_the_third_demand_alone_lets_by() {
    let calls = changing::calls(0, CALLS);
    for apply in [model::apply as Apply, refuses_all] {
        let broken = Watcher::default().run(&mut Modelled::new(apply), &calls);
        assert_eq!(broken, Ok(()));
    }
}
