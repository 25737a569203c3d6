//! The grant rule, on both sides and at every count of what was issued and number of tokens held: also
//! where no run of calls leads. A grant is considered whenever the count falls below 8, so that no run
//! comes to count 7 with nothing held; a memory that a host lends may.

use compare::calls::{begun, compare, Lent};
use model::answers::Cause;
use model::network::{Hop, LinkEnd, Network, Start};
use model::random::Random;
use model::tokens::Token;
use model::{Answer, Call};

/// Two boards joined by their links A, both enabled. Slot 0's is greeted, and has all in hand that
/// slot 1 has issued; slot 1 holds so many tokens of a circuit that is being dropped.
fn joined(issued: usize, held: usize) -> Network {
    let mut network = begun(Start::Fresh, 2);
    for slot in 0..2 {
        let link = &mut network.nodes[slot].links[0];
        let far = LinkEnd {
            slot: 1 - slot,
            link: 0,
        };
        (link.far, link.enabled) = (Some(far), true);
    }
    let near = &mut network.nodes[0].links[0];
    (near.greeted, near.credit) = (true, issued);
    network.nodes[1].links[0].issued = issued;
    let far = &mut network.nodes[1].ports[0];
    far.hop = Some(Hop::Dropped(Cause::Split));
    far.tokens.resize(held, Token::data(7));
    network
}

/// The same, and one of what was issued is a token on the line.
fn sent(issued: usize, held: usize) -> Network {
    let mut network = joined(issued, held);
    let near = &mut network.nodes[0].links[0];
    near.credit -= 1;
    near.line.push_back(Token::data(9));
    network
}

/// Makes a call on both sides. Gives its answer, what slot 1 has issued behind it, by the library's
/// looks, and the words on the line back; the model has the same.
fn made(network: Network, call: &Call) -> (Answer, usize, Vec<u32>) {
    let mut lent = Lent::of(Some(&network), &mut Random::new(3));
    let mut network = Some(network);
    let answer = compare(model::apply, &mut network, &mut lent, call);
    let answer = answer.unwrap_or_else(|difference| panic!("{difference}"));
    let looks = lent.looks();
    let back = looks.line_tokens(1, 0).collect();
    (answer, looks.line(1, 0).issued as usize, back)
}

/// One of the tokens held is dropped, and a grant considered, which is on the line back then; gives
/// what is issued behind it.
fn after_one_is_taken(issued: usize, held_before: usize) -> usize {
    let network = joined(issued, held_before);
    let (answer, behind, back) = made(network, &Call::Step { slot: 1, port: 0 });
    assert_eq!(answer, Answer::Dropped(Cause::Split));
    assert_eq!(back, on_line_back(behind - issued));
    behind
}

/// One token more arrives, and a grant is considered, which the answer tells; gives what is issued
/// behind it.
fn after_one_arrives(issued_before: usize, held_before: usize) -> usize {
    let network = sent(issued_before, held_before);
    let (answer, behind, back) = made(network, &Call::Line { slot: 0, link: 0 });
    let grant = behind + 1 - issued_before;
    assert_eq!(answer, Answer::Arrived(grant));
    assert_eq!(back, on_line_back(grant));
    behind
}

/// "CREDIT8 0xE0", "CREDIT16 0xE4", "CREDIT64 0xE1", as control words.
fn on_line_back(grant: usize) -> Vec<u32> {
    match grant {
        0 => vec![],
        8 => vec![0x1E0],
        16 => vec![0x1E4],
        64 => vec![0x1E1],
        other => panic!("a grant of {other}"),
    }
}

/// "room = 64 − held − issued, below 8 as before": "the largest of 64, 16, 8 that room covers, else
/// none"
fn granted(issued: usize, held: usize) -> usize {
    let room = 64 - held - issued;
    let largest = [64, 16, 8].into_iter().find(|grant| *grant <= room);
    if issued < 8 {
        largest.unwrap_or(0)
    } else {
        0
    }
}

/// Document 01 has it of a credit: "Credit 7, held 0: 16, making 23. Credit 8: none."
#[test]
fn seven_issued_with_none_held_makes_twenty_three() {
    assert_eq!(after_one_is_taken(7, 1), 23);
    assert_eq!(after_one_is_taken(8, 1), 8);
}

/// "Grants at credit 0, by tokens held: 0 gives 64; 40 gives 16; 56 gives 8; 57 gives none."
#[test]
fn grants_with_nothing_issued() {
    let after = [0, 40, 56, 57].map(|held| after_one_is_taken(0, held + 1));
    assert_eq!(after, [64, 16, 8, 0]);
}

#[test]
fn a_token_taken_at_every_count_and_number_held() {
    for issued in 0..64 {
        for held in 0..64 - issued {
            let expected = issued + granted(issued, held);
            let found = after_one_is_taken(issued, held + 1);
            assert_eq!(found, expected, "{issued} issued, {held} held");
        }
    }
}

#[test]
fn a_token_that_arrives_at_every_count_and_number_held() {
    for issued in 0..64 {
        for held in 1..=64 - issued {
            let expected = issued + granted(issued, held);
            let found = after_one_arrives(issued + 1, held - 1);
            assert_eq!(found, expected, "{issued} issued, {held} held");
        }
    }
}
