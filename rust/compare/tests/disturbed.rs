//! For each sentence of the list "Sound" a state that fails it alone, and its twin, which is sound.
//! Both sides say so, and every call on a state that fails is refused with 1 and changes no word.

use bench::raw;
use compare::calls::{begun, compare, hold_unchanged, make, Lent};
use compare::layout::{FIRST_PORT, NODE_LINES, NODE_TOKENS, NODE_WORDS, PORT};
use model::answers::Cause;
use model::lines::{credit, Crossing};
use model::network::{Aim, Claim, Hop, LinkEnd, Network, Node, Sending, Start};
use model::random::Random;
use model::sizes::PORTS;
use model::sound::{self, Clause};
use model::tokens::{Destination, Token, END, HELLO, PAUSE, READC, SINK, SSCTRL};
use model::words::parse_call;
use model::{Answer, Call, No, StepRecord};

/// Changes slot 1 of a fresh network of two nodes.
type Change = fn(&mut Node);

/// A sentence and what it is about, what fails it alone, and the twin that passes.
struct Pair {
    about: &'static str,
    fails: Change,
    passes: Change,
}

const fn pair(about: &'static str, fails: Change, passes: Change) -> Pair {
    Pair {
        about,
        fails,
        passes,
    }
}

fn one_byte_header() -> Token {
    Token::data(0x27).in_header(1)
}

/// A token of a three-byte header: of its number, or its last.
fn of_three(value: u8) -> Token {
    Token::data(value).in_header(3)
}

fn data() -> Token {
    Token::data(5)
}

/// Port 12 holds these, with no circuit.
fn reply_port<const N: usize>(node: &mut Node, tokens: [Token; N]) {
    node.ports[12].tokens = tokens.into();
}

/// Port 0 has a circuit with the last token of its header in front.
fn header_in_front(node: &mut Node, hop: Hop) {
    node.ports[0].tokens = [of_three(7), data()].into();
    node.ports[0].hop = Some(hop);
}

fn to_the_sink(node: &mut Node, port: usize, tile_link: usize) {
    node.ports[port].hop = Some(Hop::Channel(SINK));
    node.tile_links[tile_link] = Some(port);
}

fn outward(node: &mut Node, port: usize, link: usize) {
    node.ports[port].hop = Some(Hop::Outward(link));
    node.links[link].used_by = Some(port);
}

fn served(node: &mut Node, port: usize) {
    node.ports[port].hop = Some(Hop::Control);
    node.control_unit.serves = Some(port);
}

/// A channel-end that is open by a port, which holds the header.
fn open_by(node: &mut Node, end: usize, port: usize) {
    node.ports[port].tokens = [one_byte_header()].into();
    opened(node, end, Sending::ByPort(port));
}

fn opened(node: &mut Node, end: usize, sending: Sending) {
    node.channel_ends[end].aim = Some(Aim {
        destination: Destination::Control { number: 0 },
        network: 0,
    });
    node.channel_ends[end].sending = Some(sending);
}

/// "tokens and headers are legal"
#[rustfmt::skip]
const LEGAL_TOKENS: &[Pair] = &[
    pair("0xC2 behind a header; 0xC1",
        |node| reply_port(node, [one_byte_header(), Token::control(0xC2)]),
        |node| reply_port(node, [one_byte_header(), Token::control(READC)])),
    pair("0xE0 behind a header; 0xBF",
        |node| reply_port(node, [one_byte_header(), Token::control(0xE0)]),
        |node| reply_port(node, [one_byte_header(), Token::control(0xBF)])),
];

#[rustfmt::skip]
const LEGAL_HEADERS: &[Pair] = &[
    pair("channel 32; channel 31",
        |node| reply_port(node, [of_three(0), of_three(1), of_three(32)]),
        |node| reply_port(node, [of_three(0), of_three(1), of_three(31)])),
    pair("two widths in one header; SSCTRL behind the number",
        |node| reply_port(node, [of_three(0), of_three(1), one_byte_header()]),
        |node| reply_port(node, [of_three(0), of_three(1), Token::control(SSCTRL).in_header(3)])),
    pair("control in a header's number; data",
        |node| reply_port(node, [of_three(0), Token::control(SSCTRL).in_header(3)]),
        |node| reply_port(node, [of_three(0), of_three(SSCTRL)])),
];

/// "a port with no circuit is empty or starts with a header"
#[rustfmt::skip]
const STARTS: &[Pair] = &[
    pair("data; a header", |node| reply_port(node, [data()]), |node| reply_port(node, [one_byte_header()])),
    pair("END; empty", |node| reply_port(node, [Token::control(END)]), |node| reply_port(node, [])),
];

/// ".. and so does what follows an END or PAUSE"
#[rustfmt::skip]
const FOLLOWS: &[Pair] = &[
    pair("data behind END; a header",
        |node| reply_port(node, [one_byte_header(), Token::control(END), data()]),
        |node| reply_port(node, [one_byte_header(), Token::control(END), one_byte_header()])),
    pair("data behind PAUSE; a header",
        |node| reply_port(node, [one_byte_header(), Token::control(PAUSE), data()]),
        |node| reply_port(node, [one_byte_header(), Token::control(PAUSE), one_byte_header()])),
];

/// "such a header is short only at its port's end"
#[rustfmt::skip]
const SHORT: &[Pair] = &[
    pair("two of three tokens, then data; two at the end",
        |node| reply_port(node, [of_three(0), of_three(1), data()]),
        |node| reply_port(node, [of_three(0), of_three(1)])),
    pair("one of three tokens, then END; one at the end",
        |node| reply_port(node, [of_three(0), Token::control(END)]),
        |node| reply_port(node, [of_three(0)])),
];

/// "header tokens stand elsewhere only at the front of a circuit still sending its header outward or
/// being dropped"
#[rustfmt::skip]
const ELSEWHERE: &[Pair] = &[
    pair("a header behind data; behind END",
        |node| reply_port(node, [one_byte_header(), data(), one_byte_header()]),
        |node| reply_port(node, [one_byte_header(), Token::control(END), one_byte_header()])),
    pair("in front towards a channel; being dropped",
        |node| { to_the_sink(node, 0, 1); header_in_front(node, Hop::Channel(SINK)) },
        |node| header_in_front(node, Hop::Dropped(Cause::Split))),
    pair("in front towards the control unit; on its way outward",
        |node| { served(node, 0); header_in_front(node, Hop::Control) },
        |node| { outward(node, 0, 2); header_in_front(node, Hop::Outward(2)) }),
    pair("behind the front of a circuit outward; in front",
        |node| { outward(node, 0, 2); node.ports[0].tokens = [data(), of_three(7)].into() },
        |node| { outward(node, 0, 2); node.ports[0].tokens = [of_three(7), data()].into() }),
];

/// "a port's output names that port back and no other": links, tile links, the control unit
#[rustfmt::skip]
const OUTPUTS: &[Pair] = &[
    pair("a hop by a link that nobody uses; that names its port",
        |node| node.ports[8].hop = Some(Hop::Outward(2)),
        |node| outward(node, 8, 2)),
    pair("two hops by one link; by two",
        |node| { outward(node, 9, 2); outward(node, 8, 2) },
        |node| { outward(node, 9, 3); outward(node, 8, 2) }),
    pair("a link that names a port with no circuit; with its own",
        |node| node.links[2].used_by = Some(8),
        |node| outward(node, 8, 2)),
    pair("two links that name one port; one",
        |node| { outward(node, 8, 2); node.links[3].used_by = Some(8) },
        |node| outward(node, 8, 3)),
    pair("a hop by a tile link that nobody uses; that names its port",
        |node| node.ports[0].hop = Some(Hop::Channel(SINK)),
        |node| to_the_sink(node, 0, 1)),
    pair("two hops by one tile link; by two",
        |node| { to_the_sink(node, 3, 1); to_the_sink(node, 0, 1) },
        |node| { to_the_sink(node, 3, 2); to_the_sink(node, 0, 1) }),
    pair("a tile link that names a port with no circuit; with its own",
        |node| node.tile_links[1] = Some(0),
        |node| to_the_sink(node, 0, 1)),
    pair("two tile links that name one port; one",
        |node| { to_the_sink(node, 0, 1); to_the_sink(node, 0, 2) },
        |node| to_the_sink(node, 0, 2)),
    pair("a hop to a control unit that serves nobody; that serves its port",
        |node| node.ports[0].hop = Some(Hop::Control),
        |node| served(node, 0)),
    pair("two hops to one control unit; one",
        |node| { served(node, 3); served(node, 0) },
        |node| served(node, 3)),
    pair("a control unit that serves a port with no circuit; with its own",
        |node| node.control_unit.serves = Some(0),
        |node| served(node, 0)),
];

/// "each .. open channel-end names one circuit that exists". One that sends straight to a channel
/// that is not there has no claim either, and so fails two clauses.
#[rustfmt::skip]
const OPEN: &[Pair] = &[
    pair("open by a port and not aimed; aimed",
        |node| { open_by(node, 4, 9); node.channel_ends[4].aim = None },
        |node| open_by(node, 4, 9)),
    pair("open straight to the sink and not aimed; aimed",
        |node| node.channel_ends[4].sending = Some(Sending::Straight(SINK)),
        |node| opened(node, 4, Sending::Straight(SINK))),
    pair("open by port 7; by port 8", |node| open_by(node, 4, 7), |node| open_by(node, 4, 8)),
    pair("open by port 12; by port 11", |node| open_by(node, 4, 12), |node| open_by(node, 4, 11)),
    pair("open by a port that nothing has taken; that holds its header",
        |node| opened(node, 4, Sending::ByPort(9)),
        |node| open_by(node, 4, 9)),
    pair("two open by one port; by two",
        |node| { open_by(node, 4, 9); open_by(node, 5, 9) },
        |node| { open_by(node, 4, 9); open_by(node, 5, 10) }),
];

/// Links A and D joined and enabled, A greeted or not, with some credit, which D has issued.
fn joined(node: &mut Node, greeted: bool, credit: usize) {
    for (link, far) in [(0, 3), (3, 0)] {
        node.links[link].far = Some(LinkEnd { slot: 1, link: far });
        node.links[link].enabled = true;
    }
    node.links[0].greeted = greeted;
    node.links[0].credit = credit;
    node.links[3].issued = credit;
}

fn held_at_the_far_end(node: &mut Node, credit: usize) {
    joined(node, true, credit);
    node.ports[3].tokens = [one_byte_header()].into();
}

/// A control unit that serves port 0 and has heard one token.
fn heard(node: &mut Node, token: Token) {
    served(node, 0);
    node.control_unit.heard = vec![token];
}

fn held(node: &mut Node, token: Token) {
    node.channel_ends[31].tokens = [token].into();
}

/// The other clauses, one state each.
#[rustfmt::skip]
const COUNTS: &[Pair] = &[pair("width two; one", |node| node.width = 2, |node| node.width = 1)];

#[rustfmt::skip]
const CREDIT: &[Pair] = &[
    pair("on an ungreeted link; on a greeted one", |node| joined(node, false, 8), |node| joined(node, true, 8)),
];

#[rustfmt::skip]
const GREETED: &[Pair] = &[
    pair("the far end disabled; enabled",
        |node| { joined(node, true, 0); node.links[3].enabled = false },
        |node| joined(node, true, 0)),
    pair("no cable; one",
        |node| (node.links[0].enabled, node.links[0].greeted) = (true, true),
        |node| joined(node, true, 0)),
];

#[rustfmt::skip]
const ROOM: &[Pair] = &[
    pair("credit 64 and one token held at the far end; credit 63",
        |node| held_at_the_far_end(node, 64),
        |node| held_at_the_far_end(node, 63)),
];

/// A is greeted and has no credit; these are on its line, and D has issued so much.
fn on_line<const N: usize>(node: &mut Node, tokens: [Token; N], issued: usize) {
    joined(node, true, 0);
    node.links[0].line = tokens.into();
    node.links[3].issued = issued;
}

fn hello() -> Token {
    Token::control(HELLO)
}

/// A HELLO is on its way to D, where a token is held, and a credit on the line back.
fn credit_behind_a_hello(node: &mut Node, size: usize) {
    on_line(node, [hello()], 0);
    node.links[3].line = [credit(size)].into();
    node.ports[3].tokens = [one_byte_header()].into();
}

/// The same of tokens and credits on lines.
#[rustfmt::skip]
const ROOM_OVER_LINES: &[Pair] = &[
    pair("a credit of 64 on the line and one token held at the far end; a credit of 16",
        |node| credit_behind_a_hello(node, 64),
        |node| credit_behind_a_hello(node, 16)),
];

/// A port is read with the line to it behind.
#[rustfmt::skip]
const LEGAL_ON_LINES: &[Pair] = &[
    pair("0xC2 behind a header on a line; 0xC1",
        |node| on_line(node, [one_byte_header(), Token::control(0xC2)], 2),
        |node| on_line(node, [one_byte_header(), Token::control(READC)], 2)),
];

#[rustfmt::skip]
const STARTS_ON_LINES: &[Pair] = &[
    pair("data on the line to an empty port; a header",
        |node| on_line(node, [data()], 1),
        |node| on_line(node, [one_byte_header()], 1)),
];

#[rustfmt::skip]
const SHORT_ON_LINES: &[Pair] = &[
    pair("a header short on its line, then data; the rest of it",
        |node| { on_line(node, [of_three(1), data()], 2); node.ports[3].tokens = [of_three(0)].into() },
        |node| { on_line(node, [of_three(1), of_three(7)], 2); node.ports[3].tokens = [of_three(0)].into() }),
];

/// How much of a header is left is told by the port alone.
#[rustfmt::skip]
const ELSEWHERE_ON_LINES: &[Pair] = &[
    pair("a header token on the line to a port with a circuit; data",
        |node| { on_line(node, [of_three(7)], 1); node.ports[3].hop = Some(Hop::Dropped(Cause::Split)) },
        |node| { on_line(node, [data()], 1); node.ports[3].hop = Some(Hop::Dropped(Cause::Split)) }),
];

/// "allows one credit and one HELLO there"
#[rustfmt::skip]
const FEW: &[Pair] = &[
    pair("two credits on a line; one",
        |node| { on_line(node, [], 16); node.links[3].line = [credit(8), credit(8)].into() },
        |node| { on_line(node, [], 8); node.links[3].line = [credit(8)].into() }),
    pair("two HELLOs on a line; one",
        |node| on_line(node, [hello(), hello()], 0),
        |node| on_line(node, [hello()], 0)),
];

/// "while no HELLO is coming to a receiver, holds its count to the far end's credit plus the credit on
/// the line to that end and the tokens on the line from it"
#[rustfmt::skip]
const COUNTED: &[Pair] = &[
    pair("one less than the far end's credit; as much",
        |node| { joined(node, true, 8); node.links[3].issued = 7 },
        |node| joined(node, true, 8)),
    pair("a token on the line that is not counted; that is",
        |node| on_line(node, [one_byte_header()], 0),
        |node| on_line(node, [one_byte_header()], 1)),
    pair("a credit on the line that is not counted; that is",
        |node| { on_line(node, [], 0); node.links[3].line = [credit(16)].into() },
        |node| { on_line(node, [], 16); node.links[3].line = [credit(16)].into() }),
    pair("another count than the line's token; while a HELLO is coming",
        |node| on_line(node, [one_byte_header()], 9),
        |node| on_line(node, [one_byte_header(), hello()], 9)),
];

/// An end without a cable has no line.
#[rustfmt::skip]
const UNLINED: &[Pair] = &[
    pair("something on it; nothing", |node| node.links[2].line = [data()].into(), |_| ()),
    pair("something issued; nothing", |node| node.links[2].issued = 1, |_| ()),
];

#[rustfmt::skip]
const CABLES: &[Pair] = &[
    pair("known at one end; at both",
        |node| { joined(node, false, 0); node.links[3].far = None },
        |node| joined(node, false, 0)),
];

#[rustfmt::skip]
const LEGAL_OUTSIDE_PORTS: &[Pair] = &[
    pair("PAUSE in a channel-end; END",
        |node| held(node, Token::control(PAUSE)),
        |node| held(node, Token::control(END))),
    pair("END kept by a control unit; READC",
        |node| heard(node, Token::control(END)),
        |node| heard(node, Token::control(READC))),
];

#[rustfmt::skip]
const HEADER_OUTSIDE_PORTS: &[Pair] = &[
    pair("a header in a channel-end; data", |node| held(node, one_byte_header()), |node| held(node, data())),
    pair("a header kept by a control unit; data", |node| heard(node, of_three(7)), |node| heard(node, data())),
];

#[rustfmt::skip]
const CLAIMS: &[Pair] = &[
    pair("by a port with no circuit; by the port whose circuit goes there",
        |node| node.channel_ends[5].claim = Some(Claim::ByPort(0)),
        |node| {
            to_the_sink(node, 0, 1);
            node.ports[0].hop = Some(Hop::Channel(5));
            node.channel_ends[5].claim = Some(Claim::ByPort(0));
        }),
];

#[rustfmt::skip]
const REPLY_PORT: &[Pair] = &[
    pair("a reply in port 12 while a circuit is served; none",
        |node| { served(node, 0); reply_port(node, [one_byte_header()]) },
        |node| served(node, 0)),
];

/// What the library numbers and the model names, with the states of it.
const SENTENCES: [(u32, Clause, &[Pair]); 25] = [
    (2, Clause::Counts, COUNTS),
    (3, Clause::CreditGreeted, CREDIT),
    (4, Clause::GreetedWired, GREETED),
    (5, Clause::CreditAndHeld, ROOM),
    (5, Clause::CreditAndHeld, ROOM_OVER_LINES),
    (6, Clause::Cables, CABLES),
    (7, Clause::LegalTokens, LEGAL_TOKENS),
    (7, Clause::LegalHeaders, LEGAL_HEADERS),
    (7, Clause::StartsWithHeader, STARTS),
    (7, Clause::HeaderAfterEnd, FOLLOWS),
    (7, Clause::ShortHeader, SHORT),
    (7, Clause::HeaderElsewhere, ELSEWHERE),
    (7, Clause::LegalTokens, LEGAL_ON_LINES),
    (7, Clause::StartsWithHeader, STARTS_ON_LINES),
    (7, Clause::ShortHeader, SHORT_ON_LINES),
    (7, Clause::HeaderElsewhere, ELSEWHERE_ON_LINES),
    (8, Clause::LegalTokens, LEGAL_OUTSIDE_PORTS),
    (8, Clause::HeaderElsewhere, HEADER_OUTSIDE_PORTS),
    (9, Clause::OutputNamesBack, OUTPUTS),
    (10, Clause::Claims, CLAIMS),
    (11, Clause::OpenChannelEnds, OPEN),
    (12, Clause::ReplyPort, REPLY_PORT),
    (13, Clause::OneCreditOneHello, FEW),
    (14, Clause::IssuedCount, COUNTED),
    (15, Clause::UnwiredLine, UNLINED),
];

fn with(change: Change) -> Network {
    let mut network = begun(Start::Fresh, 2);
    change(&mut network.nodes[1]);
    network
}

fn words(network: &Network) -> Lent {
    Lent::of(Some(network), &mut Random::new(11))
}

fn clause_of(lent: &Lent) -> u32 {
    raw::unsound_clause(&lent.state, &lent.memory, &lent.lines)
}

/// Every call but a start and a Step, each with arguments that are in range and lie apart from what was
/// changed.
const CALLS: [&str; 15] = [
    "wire 0 4 1 4",
    "set 1 number 0 1",
    "set 1 width 0 1",
    "set 1 direction 3 1",
    "set 1 linkdirection 4 1",
    "set 1 network 4 1",
    "set 1 enable 4 1",
    "set 1 hello 4 0",
    "aim 1 20 channel 0 1 0",
    "aim 1 20 control 0 0 0",
    "output 1 20 data 1",
    "output 1 20 control 1",
    "input 1 20 data",
    "input 1 20 control",
    "line 1 4",
];

/// These, a Step of every port, and all such Steps as one list.
fn calls() -> Vec<Call> {
    let lines = CALLS.into_iter().map(|line| parse_call(line).expect(line));
    let records = (0..PORTS).map(|port| StepRecord { slot: 1, port });
    let list = Call::Steps {
        results: PORTS,
        records: records.clone().collect(),
    };
    lines.chain(records.map(Call::from)).chain([list]).collect()
}

/// Refused as Unsound; of a list that is said of every record.
fn is_unsound(answer: &Answer) -> bool {
    match answer {
        Answer::No(No::Unsound) => true,
        Answer::Results(each) => each.len() == PORTS && each.iter().all(is_unsound),
        _ => false,
    }
}

/// Makes a call on both sides, on a copy.
fn answer(network: &Network, lent: &Lent, call: &Call, about: &str) -> Answer {
    let (mut network, mut lent) = (Some(network.clone()), lent.clone());
    let answer = compare(model::apply, &mut network, &mut lent, call);
    answer.unwrap_or_else(|difference| panic!("{about}: {difference}"))
}

#[test]
fn each_state_fails_its_sentence_alone_and_every_call_is_refused() {
    for (number, clause, pairs) in SENTENCES {
        for Pair { about, fails, .. } in pairs {
            let network = with(*fails);
            let lent = words(&network);
            assert_eq!(clause_of(&lent), number, "{about}");
            assert_eq!(sound::failing(&network), [clause], "{about}");
            for call in calls() {
                let found = answer(&network, &lent, &call, about);
                assert!(is_unsound(&found), "{about}: {call} -> {found}");
            }
        }
    }
}

#[test]
fn each_twin_is_sound_and_no_call_is_refused_as_unsound() {
    for (_, _, pairs) in SENTENCES {
        for Pair { about, passes, .. } in pairs {
            let network = with(*passes);
            let lent = words(&network);
            assert_eq!(clause_of(&lent), 0, "{about}");
            assert_eq!(sound::failing(&network), [], "{about}");
            for call in calls() {
                let found = answer(&network, &lent, &call, about);
                assert!(!is_unsound(&found), "{about}: {call} -> {found}");
            }
        }
    }
}

/// Every call on memories of other lengths than the network's is refused.
fn is_refused_at(tokens: usize, things: usize) {
    let mut network = with(|_| ());
    let mut lent = words(&network);
    network.memory_words = tokens;
    network.crossing = Crossing::ByLine { line_words: things };
    lent.memory.resize(tokens, 0);
    lent.lines.resize(things, 0);
    assert_eq!(clause_of(&lent), 1);
    for call in calls() {
        let found = answer(&network, &lent, &call, "another length");
        assert!(is_unsound(&found), "{call} -> {found}");
    }
}

/// Clause 1, "memory of the wrong length": one word more or less, of either memory.
#[test]
fn a_memory_of_another_length() {
    let (tokens, things) = (2 * NODE_TOKENS, 2 * NODE_LINES);
    for (tokens, things) in [
        (tokens - 1, things),
        (tokens + 1, things),
        (tokens, things - 1),
        (tokens, things + 1),
        (tokens, 0),
    ] {
        is_refused_at(tokens, things);
    }
}

/// Where the words of slot 1 say who sends by a port: the last circuit of the port's record.
fn sender_of(port: usize) -> usize {
    NODE_WORDS + FIRST_PORT + PORT * port + PORT - 2
}

/// The words of a channel-end that is open by port 9, with another sender named there.
fn with_sender(change: Change, kind: u32, end: u32) -> Lent {
    let mut lent = words(&with(change));
    let at = sender_of(9);
    (lent.state[at], lent.state[at + 1]) = (kind, end);
    lent
}

/// What a port says of its sender is a word that the model has not: it searches.
#[test]
fn ports_and_the_channel_ends_that_send_by_them() {
    let open: Change = |node| open_by(node, 4, 9);
    let held: Change = |node| node.ports[9].tokens = [one_byte_header()].into();
    assert_eq!(clause_of(&with_sender(open, 2, 4)), 0);
    assert_eq!(clause_of(&with_sender(held, 0, 0)), 0);
    for lent in [
        with_sender(open, 0, 0),
        with_sender(open, 2, 5),
        with_sender(held, 2, 4),
    ] {
        assert_eq!(clause_of(&lent), 11);
        for call in calls() {
            let mut after = lent.clone();
            let found = make(&mut after, &call);
            assert!(is_unsound(&found), "{call} -> {found}");
            assert_eq!(hold_unchanged(&found, &lent, &after), Ok(()), "{call}");
        }
    }
}
