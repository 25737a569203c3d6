//! Damaged memories, asked of both sides: the proved tests, looks and calls answer for any words,
//! change none that they are not to, and agree with the model wherever the words are a state of it.

use bench::sizes::{
    BITS, CHANNEL_ENDS, DIRECTIONS, END_BUFFER, LINE_BUFFER, LINKS, PORTS, PORT_BUFFER,
};
use bench::Looks;
use model::calls::Call;
use model::network::Network;
use model::random::Random;
use model::{Answer, No};

use crate::calls::{hold_unchanged, make, Lent};
use crate::choice::any;
use crate::damage::{disturb, things};
use crate::pair::Pair;
use crate::reached::Reached;
use crate::verdict::{verdict, Verdict};

/// How many calls are made on each memory.
pub const CALLS: usize = 3;

/// A state of the model with one to three of its words changed.
pub fn other_words(network: &Network, random: &mut Random) -> Lent {
    let mut lent = Lent::of(Some(network), random);
    disturb(random, &mut lent);
    lent
}

/// A state of the model with one to three things in it changed.
pub fn other_things(network: &Network, random: &mut Random) -> Lent {
    let mut network = network.clone();
    things::disturb(random, &mut network);
    Lent::of(Some(&network), random)
}

/// Asks both sides of a memory, makes every look at it, and [`CALLS`] calls on copies of it. Gives
/// what both say, and what the calls have reached on both sides.
pub fn check(lent: &Lent) -> Result<(Verdict, Reached), String> {
    let before = lent.clone();
    let (verdict, read) = verdict(lent)?;
    look_everywhere(lent.looks())?;
    if *lent != before {
        return Err("a look has changed a word".to_owned());
    }
    let mut random = Random::new(sum(&lent.state));
    let mut reached = Reached::default();
    for _ in 0..CALLS {
        let call = any(&mut random, read.as_ref());
        reached += call_on(read.as_ref(), lent.clone(), &call)?;
    }
    Ok((verdict, reached))
}

/// A seed, so that the same words meet the same calls.
fn sum(words: &[u32]) -> u64 {
    let mix = |sum: u64, word: &u32| sum.wrapping_mul(31) ^ u64::from(*word);
    words.iter().fold(0, mix)
}

/// Makes a call on a damaged memory. Where its words are a state of the model, sound or not, the
/// model must answer the same. Where they are none the proved bench refuses the call as Unsound, and
/// leaves every word as it is.
pub fn call_on(read: Option<&Network>, lent: Lent, call: &Call) -> Result<Reached, String> {
    let no_state = read.is_none();
    if no_state && call.start().is_none() {
        return refuses(lent, call).map(|()| Reached::default());
    }
    let mut pair = Pair::on(model::apply, read.cloned(), lent);
    pair.call(call)?;
    Ok(pair.reached())
}

/// Holds that a call on an unsound memory is refused as that, and changes no word. Of a list that is
/// said of each record, behind the length of its results.
fn refuses(mut lent: Lent, call: &Call) -> Result<(), String> {
    let unsound = Answer::No(No::Unsound);
    let expected = match call {
        Call::Steps { results, records } if *results != records.len() => Answer::No(No::NoSuch),
        Call::Steps { records, .. } => Answer::Results(vec![unsound; records.len()]),
        _ => unsound,
    };
    let before = lent.clone();
    let found = make(&mut lent, call);
    match found == expected {
        true => hold_unchanged(&found, &before, &lent),
        false => Err(format!("{call} on an unsound memory: {found:?}")),
    }
}

/// Makes every look at every place of the nodes, and at one place beyond in each direction.
fn look_everywhere(looks: Looks) -> Result<(), String> {
    let beyond = [looks.nodes(), usize::MAX];
    for slot in (0..looks.nodes()).chain(beyond) {
        if !look_at_node(looks, slot) {
            return Err(format!("a look at slot {slot} shows too much"));
        }
    }
    looks.digest();
    looks.is_tight();
    looks.is_quiet();
    Ok(())
}

/// Makes every look at a node. False where one shows an entry or a number of tokens that cannot be.
fn look_at_node(looks: Looks, slot: usize) -> bool {
    looks.node(slot);
    looks.control_unit(slot);
    for link in 0..=LINKS {
        looks.link(slot, link);
        looks.tile_link(slot, link);
    }
    let lines = (0..=LINKS).all(|link| {
        looks.line(slot, link);
        looks.line_tokens(slot, link).count() <= LINE_BUFFER
    });
    let entries = (0..=BITS).all(|bit| looks.direction(slot, bit) < DIRECTIONS);
    let ports = (0..=PORTS).all(|port| {
        looks.port(slot, port);
        looks.port_tokens(slot, port).count() <= PORT_BUFFER
    });
    let ends = (0..=CHANNEL_ENDS).all(|end| {
        looks.channel_end(slot, end);
        looks.end_tokens(slot, end).count() <= END_BUFFER
    });
    lines && entries && ports && ends
}
