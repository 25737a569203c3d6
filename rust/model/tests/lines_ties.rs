//! Why each tie of Ask 4 is needed: a sound state that keeps all other ties, and calls
//! behind which the next is Unsound. Each is the smallest that was found: one board with
//! a cable between its links 0 and 1, begun with every link disabled.

#[path = "common/cable.rs"]
#[allow(dead_code)]
mod cable;

use cable::{
    board, cable, count, data, end, greeted, hello, hold, joined, leaves, link, one_byte, put,
};
use model::calls::apply;
use model::lines::credit;
use model::network::Network;
use model::sound::{failing, Clause};
use model::tight::{self, Tie};
use model::words::parse_call;

/// The state is sound, keeps all ties but this one, and the calls lead out to where that
/// clause fails first; then every call is Unsound. The twin keeps the tie, and with the
/// same calls stays sound and tight.
#[track_caller]
fn leads_out(tie: Tie, state: Network, calls: &str, clause: Clause) {
    assert_eq!(failing(&state), []);
    assert_eq!(tight::failing(&state), [tie]);
    let state = play(state, calls);
    assert_eq!(failing(&state).first(), Some(&clause));
    let mut last = Some(state.clone());
    let call = parse_call("line 0 0").expect("a call");
    assert_eq!(apply(&mut last, &call).to_string(), "no 1");
    assert_eq!(last, Some(state));
}

#[track_caller]
fn stays_in(state: Network, calls: &str) {
    assert_eq!((failing(&state), tight::failing(&state)), (vec![], vec![]));
    let state = play(state, calls);
    assert_eq!((failing(&state), tight::failing(&state)), (vec![], vec![]));
}

/// Makes the calls, a line each, and compares their answers.
#[track_caller]
fn play(state: Network, calls: &str) -> Network {
    let mut state = Some(state);
    for line in calls.lines().map(str::trim).filter(|line| !line.is_empty()) {
        let (words, answer) = line.split_once(" -> ").expect("an answer");
        let call = parse_call(words).expect("a call");
        assert_eq!(apply(&mut state, &call).to_string(), answer, "{words}");
    }
    state.expect("a network")
}

// "a line is in use only where both ends are enabled"

/// A HELLO on a line between disabled ends: it greets a disabled link.
#[test]
fn a_line_between_disabled_ends() {
    for enabled in [&[][..], &[0], &[1]] {
        let mut state = joined();
        put(&mut state, 0, [hello()]);
        for end in enabled {
            link(&mut state, *end).enabled = true;
        }
        leads_out(
            Tie::LineEnabled,
            state,
            "line 0 0 -> moved 64",
            Clause::GreetedWired,
        );
    }
    let mut twin = cable();
    put(&mut twin, 0, [hello()]);
    stays_in(twin, "line 0 0 -> moved 64\nline 0 1 -> moved 0");
}

// "a credit is on a line only towards a greeted end"

#[test]
fn a_credit_towards_an_ungreeted_end() {
    let mut state = cable();
    put(&mut state, 0, [credit(8)]);
    count(&mut state);
    let mut twin = state.clone();
    leads_out(
        Tie::CreditGreeted,
        state,
        "line 0 0 -> moved 0",
        Clause::CreditGreeted,
    );
    greeted(&mut twin, 1, 0);
    stays_in(twin, "line 0 0 -> moved 0");
}

// "while a HELLO is on a line: its sender's credit is 0, no credit is on the line back,
// no token stands behind it"

/// The sender still has one credit in hand, and 64 more are granted.
#[test]
fn a_hello_from_an_end_with_credit() {
    let with_credit = |credit| {
        let mut state = cable();
        greeted(&mut state, 0, credit);
        put(&mut state, 0, [hello()]);
        state
    };
    leads_out(
        Tie::HelloAlone,
        with_credit(1),
        "line 0 0 -> moved 64",
        Clause::CreditAndHeld,
    );
    stays_in(with_credit(0), "line 0 0 -> moved 64\nline 0 1 -> moved 0");
}

/// A credit is still on the line back, and another is granted.
#[test]
fn a_hello_with_a_credit_on_the_line_back() {
    let mut state = cable();
    greeted(&mut state, 0, 0);
    put(&mut state, 0, [hello()]);
    let twin = state.clone();
    put(&mut state, 1, [credit(8)]);
    let calls = "line 0 0 -> moved 64";
    leads_out(Tie::HelloAlone, state, calls, Clause::CreditAndHeld);
    stays_in(twin, calls);
}

/// The same where there is room for both: the clause that fails is the one that allows
/// one credit on a line.
#[test]
fn a_hello_with_a_credit_on_the_line_back_and_little_room() {
    let mut state = cable();
    greeted(&mut state, 0, 0);
    put(&mut state, 0, [hello()]);
    put(&mut state, 1, [credit(8)]);
    hold(&mut state, 1, [one_byte()]);
    state.nodes[0].ports[1].tokens.extend([data(); 38]);
    hold(&mut state, 1, [end()]);
    leads_out(
        Tie::HelloAlone,
        state,
        "line 0 0 -> moved 16",
        Clause::OneCreditOneHello,
    );
}

/// Tokens stand behind it: they are forgotten in the count, and 64 are granted.
#[test]
fn a_hello_with_tokens_behind_it() {
    let mut state = cable();
    put(&mut state, 0, [hello(), one_byte(), end()]);
    leads_out(
        Tie::HelloAlone,
        state,
        "line 0 0 -> moved 64",
        Clause::CreditAndHeld,
    );
    let mut twin = cable();
    put(&mut twin, 0, [one_byte(), end(), hello()]);
    link(&mut twin, 1).issued = 2;
    stays_in(
        twin,
        "line 0 0 -> moved 0\nline 0 0 -> moved 0\nline 0 0 -> moved 16",
    );
}

/// The same where the tokens are those of a circuit that is still open.
#[test]
fn a_hello_with_the_tokens_of_an_open_circuit_behind_it() {
    let mut state = cable();
    leaves(&mut state, 8, 0);
    put(&mut state, 0, [hello(), one_byte()]);
    leads_out(
        Tie::HelloAlone,
        state,
        "line 0 0 -> moved 64",
        Clause::CreditAndHeld,
    );
}

/// A credit is on the line back, which is full: there is no room for the grant.
#[test]
fn a_hello_with_a_full_line_back() {
    let mut state = cable();
    greeted(&mut state, 0, 0);
    put(&mut state, 0, [hello()]);
    put(&mut state, 1, [one_byte()]);
    put(&mut state, 1, [data(); 62]);
    put(&mut state, 1, [end(), hello(), credit(8)]);
    assert_eq!(state.nodes[0].links[1].line.len(), 66);
    leads_out(
        Tie::HelloAlone,
        state,
        "line 0 0 -> moved 0",
        Clause::IssuedCount,
    );
}

// "fed and unfed read the port with its line"

/// On the line is a circuit that nobody goes on with: a header is put behind its header.
/// The port alone ends fresh, as the hop's front has it.
#[test]
fn a_header_behind_a_header_on_the_line() {
    let mut state = cable();
    greeted(&mut state, 0, 1);
    leaves(&mut state, 8, 0);
    hold(&mut state, 8, [one_byte()]);
    let mut twin = state.clone();
    put(&mut state, 0, [one_byte()]);
    count(&mut state);
    leads_out(Tie::Fed, state, "step 0 8 -> moved", Clause::LegalHeaders);
    put(&mut twin, 0, [one_byte(), end()]);
    count(&mut twin);
    stays_in(twin, "step 0 8 -> moved");
}

/// On the line is the END of the circuit that the hop goes on with. The port alone ends
/// in a body, as the hop's front has it.
#[test]
fn data_behind_an_end_on_the_line() {
    let mut state = cable();
    greeted(&mut state, 0, 1);
    leaves(&mut state, 8, 0);
    hold(&mut state, 8, [data()]);
    hold(&mut state, 1, [one_byte()]);
    let mut twin = state.clone();
    put(&mut state, 0, [end()]);
    count(&mut state);
    leads_out(Tie::Fed, state, "step 0 8 -> moved", Clause::HeaderAfterEnd);
    put(&mut twin, 0, [data()]);
    count(&mut twin);
    stays_in(twin, "step 0 8 -> moved");
}

/// A cable is plugged into a link whose port ends in an unfinished circuit: what then
/// comes over it is a header, and stands behind a header.
#[test]
fn a_cable_to_an_unfinished_port() {
    let mut state = board();
    for end in 0..2 {
        link(&mut state, end).enabled = true;
    }
    leaves(&mut state, 8, 0);
    hold(&mut state, 8, [one_byte()]);
    let mut twin = state.clone();
    let calls = "wire 0 0 0 1 -> done
                 set 0 hello 0 0 -> granted 0
                 line 0 0 -> moved 16
                 line 0 1 -> moved 0
                 step 0 8 -> moved";
    hold(&mut state, 1, [one_byte()]);
    leads_out(Tie::Unfed, state, calls, Clause::LegalHeaders);
    hold(&mut twin, 1, [one_byte(), end()]);
    stays_in(twin, calls);
}
