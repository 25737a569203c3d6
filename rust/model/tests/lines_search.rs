//! A search for a call that leads from a sound and tight state out of it, over disturbed
//! states of small networks by line; and whether the search would find one, with a tie
//! left out.

#[path = "common/disturb.rs"]
mod disturb;

use disturb::{any_call, disturb, reached, wandering};
use model::calls::{apply, Call};
use model::network::Network;
use model::random::Random;
use model::sound;
use model::tight::{self, Tie};

/// How many states are disturbed in how many ways, and how many calls each is given.
const DISTURBANCES: usize = 150;
const CALLS: usize = 8;

/// What leads out: a state and a call.
type Found = (Network, Call);

/// Is the state sound, and keeps all ties but perhaps this one?
fn is_kept(network: &Network, left_out: Option<Tie>) -> bool {
    let may_fail = |tie: &Tie| Some(*tie) == left_out;
    sound::is_sound(network) && tight::failing(network).iter().all(may_fail)
}

/// A small network that was set up for this, or one in the middle of a random run.
fn begun(random: &mut Random) -> Network {
    match random.chance(50) {
        true => reached(random),
        false => wandering(random),
    }
}

/// Looks at so many networks, disturbed. Gives how many calls were made on states that
/// are sound and keep the ties, and the first that leads to one that is or does not.
fn search(seed: u64, networks: usize, left_out: Option<Tie>) -> (usize, Option<Found>) {
    let mut random = Random::new(seed);
    let mut made = 0;
    for _ in 0..networks {
        let begun = begun(&mut random);
        for _ in 0..DISTURBANCES {
            let mut state = begun.clone();
            disturb(&mut random, &mut state);
            if !is_kept(&state, left_out) {
                continue;
            }
            made += CALLS;
            let mut calls = (0..CALLS).map(|_| any_call(&mut random, &state));
            if let Some(call) = calls.find(|call| leads_out(&state, call, left_out)) {
                return (made, Some((state, call)));
            }
        }
    }
    (made, None)
}

fn leads_out(state: &Network, call: &Call, left_out: Option<Tie>) -> bool {
    let mut copy = Some(state.clone());
    apply(&mut copy, call);
    !copy.is_some_and(|after| is_kept(&after, left_out))
}

#[track_caller]
fn finds_nothing(seed: u64, networks: usize, left_out: Option<Tie>) {
    let (made, found) = search(seed, networks, left_out);
    println!("{made} calls on disturbed states");
    if let Some((state, call)) = found {
        let mut after = Some(state.clone());
        let answer = apply(&mut after, &call);
        let after = after.expect("a network");
        let failing = (sound::failing(&after), tight::failing(&after));
        panic!("{call} -> {answer} leads to {failing:?} from {state:#?}");
    }
    assert!(made > 20 * networks, "{made}");
}

/// "A random search over disturbed reachable states found no call that leads from a sound
/// and tight state out of it."
#[test]
fn no_call_leads_out_of_sound_and_tight() {
    finds_nothing(1, 150, None);
}

/// A disabled link that is in use leads nowhere any more: the other ties carry
/// themselves.
#[test]
fn the_other_ties_do_not_need_idle() {
    finds_nothing(2, 150, Some(Tie::Idle));
}

/// The same for some minutes.
#[test]
#[ignore = "takes minutes"]
fn no_call_leads_out_in_a_long_search() {
    for seed in 10..18 {
        finds_nothing(seed, 1_000, None);
        finds_nothing(seed + 100, 300, Some(Tie::Idle));
    }
}

/// With a tie left out the search finds a way out: so it would find one that the ties
/// leave open.
#[test]
fn without_a_tie_the_search_finds_a_way_out() {
    for tie in [
        Tie::Fed,
        Tie::Sends,
        Tie::LineEnabled,
        Tie::CreditGreeted,
        Tie::HelloAlone,
    ] {
        let (made, found) = search(3, 400, Some(tie));
        assert!(found.is_some(), "{tie:?}: none in {made} calls");
        println!("{tie:?}: after {made} calls");
    }
}
