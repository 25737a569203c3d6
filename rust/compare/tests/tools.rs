//! What the shop's people use, on the states of random runs: every verb has an answer.

use compare::{filling, runs};
use model::Call;
use script::diff::{diff, Side};
use script::matrix::Matrix;
use script::question::{Door, Question};
use script::{draw, route, show, Host};

/// The network that these calls leave, where the proved bench can make all of them.
fn network(calls: &[Call]) -> Option<Host> {
    let text: String = calls.iter().map(|call| format!("{call}\n")).collect();
    script::run(&text, |_| Ok(())).ok()
}

/// Asks all that can be asked of a network; what was asked has not changed it.
fn ask(host: &Host) {
    let (bench, before) = (host.copy(), host.digest());
    let boards = bench.looks().nodes();
    for door in [Door::Channel(0), Door::Channel(255), Door::Control] {
        let matrix = Matrix::of(&bench, door, 1);
        assert_eq!(matrix.csv().lines().count(), 1 + boards * boards);
        assert_eq!(matrix.table().lines().count(), 3 + boards);
    }
    let question = Question {
        slot: boards - 1,
        number: 9,
        door: Door::Channel(7),
        network: 0,
    };
    let (lines, _) = route::route(bench.clone(), question);
    assert!(lines.starts_with("sends: END from board ") && lines.contains("\nends: "));
    assert!(show::show(&bench).starts_with("board 0: number "));
    assert!(draw::draw(&bench).starts_with("digraph bench {\n"));
    let side = || Side {
        name: "it",
        bench: &bench,
    };
    let (lines, same) = diff(&side(), &side(), Door::Channel(0), 0);
    assert!(same && lines.contains("\nthe same network: "), "{lines}");
    assert_eq!(bench.looks().digest(), before);
}

/// Random runs have a bad start now and then, and the proved bench does not end messages yet: runs
/// that it cannot make, or that leave no network, are passed over.
#[test]
fn every_verb_answers_on_random_states() {
    let random = (0..60).map(|seed| runs::calls(seed, 150));
    let filling = (0..20).map(|seed| filling::calls(seed, 300));
    let networks = random.chain(filling).filter_map(|calls| network(&calls));
    let asked = networks.filter(|host| host.looks().nodes() > 0);
    let count = asked.map(|host| ask(&host)).count();
    println!("{count} networks");
    assert!(count > 30);
}
