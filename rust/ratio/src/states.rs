//! What the measures begin from.

use bench::{raw, StepRecord, Stepped};
use compare::calls::{self, Lent};
use compare::reading;
use model::network::{LinkEnd, Start};
use model::random::Random;
use model::set::Setting;
use model::sizes::{LINKS, REPLY_PORT, TILE_PORTS};
use model::tokens::{header, Destination, Kind, Token, ACK, END, NACK, SINK, THREE_BYTES};
use model::{Answer, Call, Network};

/// Links A..D are in circuits that channel-ends have open.
const OPEN: usize = 4;

/// One state in the two forms that the sides need.
#[derive(Clone, Default)]
pub struct State {
    pub lent: Lent,
    pub network: Option<Network>,
}

/// Before the first Fresh.
pub fn nothing() -> State {
    State::default()
}

/// As Fresh leaves so many boards.
pub fn empty(boards: usize) -> State {
    let mut lent = Lent::default();
    make(&mut lent, fresh(boards));
    of_lent(lent, boards)
}

/// Every port of every board holds 32 tokens, and half of the ports are in a circuit: built by calls,
/// but for the replies in port 12, which no calls can heap up.
///
/// Link L of a board leads to the next board, and streams to number 2^L leave by it. Links A..D are
/// in the circuits of ports 8..11, which channel-ends 0..3 send by. The ports behind links E..H have
/// circuits too, port 4 to channel 7 and the others outward. Channel-ends 8..11 send straight to 16..19.
pub fn half_full(boards: usize) -> State {
    let mut lent = linked(boards);
    for slot in 0..boards {
        send_streams(&mut lent, slot);
        send_straight(&mut lent, slot);
    }
    for slot in 0..boards {
        open_circuits(&mut lent, slot);
    }
    of_lent(with_replies(lent, 1), boards)
}

/// The same, with a token of port 8 on the line from link A of every board.
pub fn sent(boards: usize) -> State {
    let mut lent = half_full(boards).lent;
    for slot in 0..boards {
        step_alone(&mut lent, slot, TILE_PORTS.start, 1);
    }
    of_lent(lent, boards)
}

/// Every port of every board holds 32 tokens, and the list of Steps that is timed does not come to an
/// end of its work.
///
/// The links are as in [`half_full`], and all boards have number 0. In each of ports 0..7 there are
/// four messages for a number that no board has: they leave for the lines, those in one port by one
/// link, which has credit for all of them. Of the ports 8..11 the first two have a message for the sink of their own
/// board, the others one for channel 7, where the replies in port 12 are for too.
pub fn going_round(boards: usize) -> State {
    let mut lent = linked(boards);
    for slot in 0..boards {
        send_round(&mut lent, slot);
        send_home(&mut lent, slot);
    }
    of_lent(with_replies(lent, 0), boards)
}

/// So many boards with their cables, links enabled and greeted.
fn linked(boards: usize) -> Lent {
    let mut lent = Lent::default();
    make(&mut lent, fresh(boards));
    for slot in 0..boards {
        connect(&mut lent, slot, boards);
    }
    for slot in 0..boards {
        enable(&mut lent, slot);
    }
    for slot in 0..boards {
        greet(&mut lent, slot);
    }
    lent
}

/// Four messages of 8 tokens over each link.
fn send_round(lent: &mut Lent, slot: usize) {
    for link in 0..LINKS {
        for _ in 0..4 {
            message(lent, slot, 0, (1 << link, 7), 4);
            step(lent, slot, TILE_PORTS.start, 1 + 3 + 4 + 1);
        }
    }
}

/// A message of 32 tokens in each of ports 8..11, sent while the board has another number, so that it
/// goes by a port, and for the number that the board has then.
fn send_home(lent: &mut Lent, slot: usize) {
    set(lent, slot, Setting::Number { value: 1 << 8 });
    for (end, channel) in [SINK, SINK, 7, 7].into_iter().enumerate() {
        message(lent, slot, end, (0, channel), 28);
    }
    set(lent, slot, Setting::Number { value: 0 });
}

/// A channel-end sends so many data tokens and END to a number and channel.
fn message(lent: &mut Lent, slot: usize, channel_end: usize, to: (u32, usize), data: usize) {
    aim(lent, slot, channel_end, to.0, to.1);
    output(lent, slot, channel_end, data);
    end(lent, slot, channel_end);
}

fn of_lent(lent: Lent, boards: usize) -> State {
    let network = read(&lent);
    assert_eq!(network.nodes.len(), boards);
    let network = Some(network);
    State { lent, network }
}

fn read(lent: &Lent) -> Network {
    match reading::read(lent) {
        Ok(network) => network,
        Err(unreadable) => unreachable!("calls leave a state: {}", unreadable.0),
    }
}

fn fresh(nodes: usize) -> Call {
    calls::beginning(Start::Fresh, nodes)
}

/// Makes a call that is done.
fn make(lent: &mut Lent, call: Call) {
    let answer = calls::make(lent, &call);
    let refused = matches!(answer, Answer::No(_) | Answer::Waiting | Answer::Idle);
    assert!(!refused, "{call}: {answer}");
}

fn set(lent: &mut Lent, slot: usize, setting: Setting) {
    make(lent, Call::Set { slot, setting });
}

/// Links A, C, E and G lead to links B, D, F and H of the next board.
fn connect(lent: &mut Lent, slot: usize, boards: usize) {
    for link in (0..LINKS).step_by(2) {
        let one = LinkEnd { slot, link };
        let other = LinkEnd {
            slot: (slot + 1) % boards,
            link: link + 1,
        };
        make(lent, Call::Wire { one, other });
    }
    for link in 0..LINKS {
        let (bit, value) = (link, link as u32 + 1);
        set(lent, slot, Setting::Direction { bit, value });
        set(lent, slot, Setting::LinkDirection { link, value });
    }
}

fn enable(lent: &mut Lent, slot: usize) {
    for link in 0..LINKS {
        set(lent, slot, Setting::Enable { link, value: 1 });
    }
}

fn greet(lent: &mut Lent, slot: usize) {
    for link in 0..LINKS {
        set(lent, slot, Setting::Hello { link });
        empty_lines(lent);
    }
}

/// Steps lines until nothing is on any.
fn empty_lines(lent: &mut Lent) {
    while let Some(call) = line_in_use(lent) {
        make(lent, call);
    }
}

fn line_in_use(lent: &Lent) -> Option<Call> {
    let looks = lent.looks();
    let lines = (0..looks.nodes()).flat_map(|slot| (0..LINKS).map(move |link| (slot, link)));
    let mut used = lines.filter(|&(slot, link)| looks.line(slot, link).held > 0);
    used.next().map(|(slot, link)| Call::Line { slot, link })
}

/// 32 tokens over each link, in streams of 8, and 32 more behind in each of ports 8..11.
fn send_streams(lent: &mut Lent, slot: usize) {
    for link in 0..LINKS {
        let open = link < OPEN;
        // The header of the first stream over link F is to be removed (see `open_circuits`).
        let more = if link == 5 { 3 } else { 0 };
        for stream in 0..4 - usize::from(open) {
            let data = if stream == 0 { 4 + more } else { 4 };
            message(lent, slot, 0, (1 << link, 7), data);
            step(lent, slot, TILE_PORTS.start, 1 + 3 + data + 1);
        }
    }
    for link in 0..OPEN {
        aim(lent, slot, link, 1 << link, 7);
        output(lent, slot, link, 5);
        step(lent, slot, TILE_PORTS.start + link, 1 + 3 + 5);
        output(lent, slot, link, 32);
    }
}

/// Four channel-ends each hold four tokens of a circuit within the board, four more of one that is
/// closed.
fn send_straight(lent: &mut Lent, slot: usize) {
    for place in 0..8 {
        aim(lent, slot, 8 + place, 0, 16 + place);
        output(lent, slot, 8 + place, 4);
        if place >= 4 {
            end(lent, slot, 8 + place);
        }
    }
}

/// The board takes the number 2^5: the streams in port 4, which came over a link F, are for it.
fn open_circuits(lent: &mut Lent, slot: usize) {
    set(lent, slot, Setting::Number { value: 1 << 5 });
    for port in OPEN..LINKS {
        step(lent, slot, port, 1);
    }
}

fn aim(lent: &mut Lent, slot: usize, channel_end: usize, number: u32, channel: usize) {
    let destination = Destination::Channel { number, channel };
    make(
        lent,
        Call::Aim {
            slot,
            channel_end,
            destination,
            network: 0,
        },
    );
}

/// So many data tokens, each of another value.
fn output(lent: &mut Lent, slot: usize, channel_end: usize, many: usize) {
    for value in 0..many as u8 {
        make(
            lent,
            Call::Output {
                slot,
                channel_end,
                kind: Kind::Data,
                value,
            },
        );
    }
}

fn end(lent: &mut Lent, slot: usize, channel_end: usize) {
    let (kind, value) = (Kind::Control, END);
    make(
        lent,
        Call::Output {
            slot,
            channel_end,
            kind,
            value,
        },
    );
}

/// So many Steps of a port, each of which changes something, and all that they put on lines arrives.
fn step(lent: &mut Lent, slot: usize, port: usize, times: usize) {
    step_alone(lent, slot, port, times);
    empty_lines(lent);
}

/// The same, and nothing arrives.
fn step_alone(lent: &mut Lent, slot: usize, port: usize, times: usize) {
    let list = vec![StepRecord { slot, port }; times];
    let mut results = vec![0; times];
    let Lent {
        state,
        memory,
        lines,
    } = lent;
    let answer = raw::steps(state, memory, lines, &list, &mut results);
    assert_eq!(answer, bench::Answer::Done);
    for answer in results.into_iter().map(bench::Answer::from_crossed) {
        let changed = matches!(answer, Some(bench::Answer::Step(stepped))
            if !matches!(stepped, Stepped::Idle | Stepped::Waiting));
        assert!(changed, "slot {slot}, port {port}: {answer:?}");
    }
}

/// Three replies to reads and one to a message that was not obeyed, in each port 12, to channel 7 of a
/// number. The rings begin anywhere, as they do after a while.
fn with_replies(lent: Lent, number: u32) -> Lent {
    let mut network = read(&lent);
    for node in &mut network.nodes {
        let port = &mut node.ports[REPLY_PORT];
        for _ in 0..3 {
            port.tokens.extend(reply(number, ACK, 4));
        }
        port.tokens.extend(reply(number, NACK, 0));
    }
    Lent::of(Some(&network), &mut Random::new(1))
}

fn reply(number: u32, first: u8, data: usize) -> Vec<Token> {
    let channel = 7;
    let to = Destination::Channel { number, channel };
    let mut tokens = header(to, THREE_BYTES).unwrap_or_default();
    tokens.push(Token::control(first));
    tokens.resize(tokens.len() + data, Token::data(0xA5));
    tokens.push(Token::control(END));
    tokens
}
