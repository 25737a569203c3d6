//! What `bench capture` says that a run sends over a link, beside the model: what is put on the link's
//! line, tokens, credits and HELLO, arrived or not.

use std::collections::BTreeMap;

use bench::probe::{self, Form};
use bench::LinkEnd;
use compare::{asking, layout, runs};
use model::network::{Link, Network};
use model::{apply, Answer, Call};
use script::capture;

/// The words of all that each end of a cable has sent, by slot and link.
type Sent = BTreeMap<(usize, usize), Vec<u16>>;

/// What a call has put on a line: what stands behind all that was there and was not taken off.
fn put(before: &Link, after: &Link, is_taken: bool) -> Vec<u16> {
    let stays = before.line.len() - usize::from(is_taken);
    let new = after.line.iter().skip(stays);
    new.map(|token| layout::word(token) as u16).collect()
}

/// Makes a call on the model, and writes down what it has put on each line.
fn make(network: &mut Option<Network>, call: &Call, sent: &mut Sent) {
    let before = network.clone();
    let answer = apply(network, call);
    if call.start().is_some() && answer == Answer::Done {
        return sent.clear();
    }
    let (Some(before), Some(after)) = (before, network.as_ref()) else {
        return;
    };
    for (slot, (node, before)) in after.nodes.iter().zip(&before.nodes).enumerate() {
        for (link, (end, before)) in node.links.iter().zip(&before.links).enumerate() {
            let own = *call == Call::Line { slot, link };
            let words = put(before, end, own && matches!(answer, Answer::Arrived(_)));
            if !words.is_empty() {
                sent.entry((slot, link)).or_default().extend(words);
            }
        }
    }
}

/// What the calls of a run send, by the model.
fn sent_by_model(calls: &[Call]) -> Sent {
    let (mut network, mut sent) = (None, Sent::new());
    for call in calls {
        make(&mut network, call, &mut sent);
    }
    sent
}

/// What the command says of every end that has sent something, and of two more: how many tokens in all.
fn compared(calls: &[Call]) -> usize {
    let script: String = calls.iter().map(|call| format!("{call}\n")).collect();
    let mut sent = sent_by_model(calls);
    for silent in [(0, 0), (0, 7)] {
        sent.entry(silent).or_default();
    }
    let mut tokens = 0;
    for (end, expected) in sent {
        let (slot, link) = end;
        let found = capture::sent(&script, LinkEnd { slot, link }, |_| Ok(()));
        let (found, _) = found.expect("a script");
        assert_eq!(found, expected, "{end:?} of\n{script}");
        assert_can_be_captured(&found);
        tokens += found.len();
    }
    tokens
}

/// What a run sends has a form, and is read back without marks.
fn assert_can_be_captured(words: &[u16]) {
    let bare: Vec<u16> = words.iter().map(|word| word % 0x200).collect();
    for form in Form::ALL {
        let transitions = probe::write(form, words).expect("transitions");
        assert_eq!(probe::read(form, &transitions).as_ref(), Ok(&bare));
    }
}

#[test]
fn random_runs() {
    let runs = (0..20).map(|seed| runs::calls(seed, 400));
    let tokens: usize = runs.map(|calls| compared(&calls)).sum();
    assert!(tokens > 500, "{tokens}");
}

#[test]
fn runs_with_lists() {
    let runs = (0..12).map(|seed| runs::calls_with_lists(seed, 300));
    let tokens: usize = runs.map(|calls| compared(&calls)).sum();
    assert!(tokens > 300, "{tokens}");
}

#[test]
fn runs_that_ask_control_units() {
    let runs = (0..5).map(|seed| asking::calls(seed, 600));
    let tokens: usize = runs.map(|calls| compared(&calls)).sum();
    assert!(tokens > 300, "{tokens}");
}

/// A token that leaves a port over a cable of the same board and is to arrive at that very port.
#[test]
fn a_cable_of_one_board() {
    let script = std::fs::read_to_string(format!(
        "{}/../script/scripts/own-cable.txt",
        env!("CARGO_MANIFEST_DIR")
    ));
    let script = script.expect("a script");
    let lines = model::script::parse(&script).expect("calls");
    let calls: Vec<Call> = lines.into_iter().map(|line| line.call).collect();
    let tokens = compared(&calls);
    assert!(tokens > 0, "{tokens}");
}
