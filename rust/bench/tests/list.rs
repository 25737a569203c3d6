//! A list of Steps: the same as its Steps made one by one, on any memories.

use bench::{raw, Answer, Bench, Destination, Kind, LinkEnd, Setting};
use bench::{Cause, Opening, Refusal, StepRecord, StepResult, Stepped};

/// The memories of a network.
#[derive(Clone, Debug, PartialEq, Eq)]
struct Lent {
    state: Vec<u32>,
    memory: Vec<u16>,
    lines: Vec<u16>,
}

impl Lent {
    /// A network that owns them.
    fn bench(self) -> Bench {
        Bench::over(self.state, self.memory, self.lines)
    }

    /// The memories of a network.
    fn of(bench: Bench) -> Lent {
        let (state, memory, lines) = bench.into_parts();
        Lent {
            state,
            memory,
            lines,
        }
    }
}

/// The number of an Unsound.
const UNSOUND: u64 = 1;
/// What no Step answers, so that it is seen where it stands.
const UNTOUCHED: u64 = 0xDEAD;

fn steps(lent: &mut Lent, list: &[StepRecord], results: &mut [u64]) -> Answer {
    let (memory, lines) = (&mut lent.memory, &mut lent.lines);
    raw::steps(&mut lent.state, memory, lines, list, results)
}

/// The same Steps one by one, with what they answer.
fn singles(lent: &mut Lent, list: &[StepRecord]) -> Vec<Answer> {
    let step = |record: &StepRecord| {
        let (memory, lines) = (&mut lent.memory, &mut lent.lines);
        raw::step(&mut lent.state, memory, lines, record.slot, record.port)
    };
    list.iter().map(step).collect()
}

fn aim(lent: &mut Lent, slot: usize, end: usize, number: u32, channel: u32) {
    let (memory, lines) = (&lent.memory, &lent.lines);
    let answer = raw::aim_channel(
        &mut lent.state,
        memory,
        lines,
        slot,
        end,
        number,
        channel,
        0,
    );
    assert_eq!(answer, Answer::Done);
}

fn output(lent: &mut Lent, slot: usize, end: usize, kind: Kind, value: u8) {
    let (state, memory, lines) = (&mut lent.state, &mut lent.memory, &lent.lines);
    let answer = match kind {
        Kind::Data => raw::output_data(state, memory, lines, slot, end, value),
        Kind::Control => raw::output_control(state, memory, lines, slot, end, value),
    };
    assert_eq!(answer, Answer::Done);
}

/// A message of three tokens: two counts and END.
fn send(lent: &mut Lent, slot: usize, end: usize, number: u32, channel: u32) {
    aim(lent, slot, end, number, channel);
    output(lent, slot, end, Kind::Data, 40);
    output(lent, slot, end, Kind::Data, 41);
    output(lent, slot, end, Kind::Control, 1);
}

/// Boards 0 and 1 of numbers 0 and 1, a cable between their links A, which are the only ones enabled.
/// Bit 8 leads nowhere on board 0.
fn cabled() -> Lent {
    let mut bench = Bench::blank(2).expect("two boards");
    let enable = Setting::Enable { link: 0, value: 1 };
    let calls = [
        bench.set(1, Setting::Number(1)),
        bench.wire(LinkEnd { slot: 0, link: 0 }, LinkEnd { slot: 1, link: 0 }),
        bench.set(0, Setting::Direction { bit: 8, value: 5 }),
        bench.set(0, enable),
        bench.set(1, enable),
    ];
    assert_eq!(calls, [Ok(()); 5]);
    for (slot, far) in [(0, 1), (1, 0)] {
        assert_eq!(bench.hello(slot, 0), Ok(0));
        assert_eq!(bench.line(slot, 0), Ok(Some(64)));
        assert_eq!(bench.line(far, 0), Ok(Some(0)));
    }
    Lent::of(bench)
}

/// Messages there and back, one to a channel that is soon full, one that has no way.
fn busy() -> Lent {
    let mut lent = cabled();
    for (slot, far) in [(0, 1), (1, 0)] {
        send(&mut lent, slot, 0, far, 7);
        send(&mut lent, slot, 1, far, 8);
        send(&mut lent, slot, 2, far, 255);
    }
    send(&mut lent, 0, 3, 0x0100, 7);
    lent
}

/// The same with all three messages of each board on the lines and in the far ports: lists do not step
/// lines.
fn arrived() -> Lent {
    let mut bench = busy().bench();
    for _ in 0..60 {
        for slot in [0, 1] {
            for port in 8..11 {
                bench.step(slot, port).expect("a port that is there");
            }
            bench.line(slot, 0).expect("a link that is there");
        }
    }
    Lent::of(bench)
}

/// A list of so many records, the same each time: most of them of ports that hold something, one in
/// eight of a slot or port that is not there.
fn mixed(many: usize) -> Vec<StepRecord> {
    let ports = [8, 0, 9, 10, 0, 11, 12, 4];
    let record = |at: usize| match at % 8 {
        3 => StepRecord {
            slot: 2 + at,
            port: 8,
        },
        6 if at % 3 < 1 => StepRecord {
            slot: at % 2,
            port: usize::MAX - at,
        },
        turn => StepRecord {
            slot: at / 8 % 2,
            port: ports[(turn + at / 16) % 8],
        },
    };
    (0..many).map(record).collect()
}

/// Memories that no call takes: of no words, of wrong lengths, of words that are no network.
fn unsound() -> Vec<Lent> {
    let good = busy();
    let mut odd = vec![good.clone(); 8];
    odd[0].state.clear();
    odd[0].memory.clear();
    odd[1].memory.pop();
    odd[2].memory.push(0);
    odd[3].state.pop();
    odd[4].state.fill(7);
    // A width that no switch has.
    odd[5].state[1] = 2;
    odd[6].lines.pop();
    odd[7].lines.push(0);
    for lent in &odd {
        assert!(!raw::is_sound(&lent.state, &lent.memory, &lent.lines));
    }
    odd
}

#[test]
fn an_empty_list_is_done_on_any_memory() {
    let mut memories = unsound();
    memories.extend([cabled(), busy()]);
    for before in memories {
        let mut lent = before.clone();
        assert_eq!(steps(&mut lent, &[], &mut []), Answer::Done);
        assert_eq!(lent, before);
    }
}

/// Shorter or longer, and none against some both ways: before anything else is looked at.
#[test]
fn results_of_another_length_are_refused_and_nothing_is_done() {
    let mut memories = unsound();
    memories.push(busy());
    for before in memories {
        for (records, room) in [(3, 2), (3, 4), (3, 0), (0, 3), (1, 0), (0, 1), (5000, 4999)] {
            let mut lent = before.clone();
            let mut results = vec![UNTOUCHED; room];
            let answer = steps(&mut lent, &mixed(records), &mut results);
            assert_eq!(answer, Answer::No(Refusal::NoSuch), "{records} and {room}");
            assert_eq!(results, vec![UNTOUCHED; room]);
            assert_eq!(lent, before);
        }
    }
}

#[test]
fn on_unsound_memory_each_step_is_refused_and_no_word_changes() {
    for before in unsound() {
        for many in [1, 2, 100] {
            let mut lent = before.clone();
            let mut results = vec![UNTOUCHED; many];
            let answer = steps(&mut lent, &mixed(many), &mut results);
            assert_eq!(answer, Answer::Done);
            assert_eq!(results, vec![UNSOUND; many]);
            assert_eq!(lent, before);
        }
    }
}

/// A record of no slot and one of no port between those that carry a header over the cable.
#[test]
fn a_refused_record_stops_nothing() {
    let mut bench = busy().bench();
    let places = [(0, 8), (2, 8), (0, 8), (0, 13), (usize::MAX, 0), (0, 8)];
    let list = places.map(|(slot, port)| StepRecord { slot, port });
    let answers = bench.steps(&list);
    let opened = Stepped::Opened(Opening::Link(0));
    let (moved, refused) = (Ok(Stepped::Moved), Err(Refusal::NoSuch));
    assert_eq!(answers[0], Ok(opened));
    assert_eq!(answers[1..], [refused, moved, refused, refused, moved]);
    assert_eq!(bench.looks().line(0, 0).held, 2);
}

/// Answers and every word behind them, for lists of every small length and some long ones.
#[test]
fn a_list_is_its_steps_one_by_one() {
    let mut seen = Vec::new();
    let lengths = (0..40).chain([257, 1000, 5000]);
    for (many, before) in lengths.flat_map(|many| [(many, busy()), (many, arrived())]) {
        let list = mixed(many);
        let (mut lent, mut one_by_one) = (before.clone(), before);
        let mut results = vec![UNTOUCHED; many];
        assert_eq!(steps(&mut lent, &list, &mut results), Answer::Done);
        let expected = singles(&mut one_by_one, &list);
        let answers = results.into_iter().filter_map(Answer::from_crossed);
        assert!(answers.eq(expected.iter().copied()), "{many} records");
        assert_eq!(lent, one_by_one);
        seen.extend(expected);
    }
    let has = |answer: Answer| assert!(seen.contains(&answer), "{answer:?}");
    has(Answer::No(Refusal::NoSuch));
    has(Answer::Step(Stepped::Idle));
    has(Answer::Step(Stepped::Waiting));
    has(Answer::Step(Stepped::Moved));
    has(Answer::Step(Stepped::Opened(Opening::Link(0))));
    has(Answer::Step(Stepped::Opened(Opening::Channel)));
    has(Answer::Step(Stepped::Refused(Cause::NoRoute)));
    has(Answer::Step(Stepped::Dropped(Cause::NoRoute)));
}

/// The begin of another header at the far end of the cable, behind which nobody who keeps to the calls
/// would send: the state is sound, and not tight.
fn untight() -> Lent {
    let mut lent = cabled();
    send(&mut lent, 0, 0, 1, 7);
    let opened = singles(&mut lent, &[StepRecord { slot: 0, port: 8 }]);
    assert_eq!(opened, [Answer::Step(Stepped::Opened(Opening::Link(0)))]);
    let (state, memory, lines) = (&mut lent.state, &mut lent.memory, &lent.lines);
    let first = raw::port_token(state, memory, 0, 8, 0).expect("a header");
    // Port 0 of board 1 holds one token, and link A of board 0 has credit for the others.
    let board = raw::state_words();
    let (port, credit) = (board + 4 + 8 * 10, 4 + 7);
    state[port + 1] = 1;
    state[credit] = 63;
    // Its count is what link A of board 1 has issued.
    let issued = board + 4 + 8 * 10 + 13 * 8 + 4 * 2 + 32 * 17 + 14 + 2;
    state[issued] = 63;
    memory[raw::memory_words()] = first as u16;
    assert!(raw::is_sound(state, memory, lines) && !raw::is_tight(state, memory, lines));
    lent
}

/// Each Step is tested for itself: one of them leads out of what is sound, and those behind it are
/// refused for that, in the middle of the list.
#[test]
fn a_list_that_leads_out_of_sound() {
    let list = [StepRecord { slot: 0, port: 8 }; 7];
    let (mut lent, mut one_by_one) = (untight(), untight());
    let mut results = [UNTOUCHED; 7];
    assert_eq!(steps(&mut lent, &list, &mut results), Answer::Done);
    let expected = singles(&mut one_by_one, &list);
    let answers = results.into_iter().filter_map(Answer::from_crossed);
    assert!(answers.eq(expected.iter().copied()));
    assert_eq!(lent, one_by_one);
    assert_eq!(expected[..3], [Answer::Step(Stepped::Moved); 3]);
    assert_eq!(expected[3..], [Answer::No(Refusal::Unsound); 4]);
}

/// Two lists are the list of both.
#[test]
fn a_list_may_be_cut_anywhere() {
    let list = mixed(60);
    let (mut whole, mut results) = (busy(), vec![UNTOUCHED; 60]);
    steps(&mut whole, &list, &mut results);
    for cut in 0..=60 {
        let (mut lent, mut parts) = (busy(), vec![UNTOUCHED; 60]);
        let (first, second) = parts.split_at_mut(cut);
        steps(&mut lent, &list[..cut], first);
        steps(&mut lent, &list[cut..], second);
        assert_eq!((&lent, &parts), (&whole, &results), "cut at {cut}");
    }
}

/// A switch message that ends in the middle of a list is obeyed there: the Steps behind it find the
/// board as it has been written.
#[test]
fn a_message_is_obeyed_where_its_end_stands() {
    let mut bench = Bench::fresh(1).expect("a board");
    let aimed = bench.aim(0, 2, Destination::Control { number: 0 }, 0);
    aimed.expect("a destination");
    let mut put = |kind, value| bench.output(0, 2, kind, value).expect("room");
    put(Kind::Control, 0xC0);
    for byte in [0x01, 0x25, 7, 0x00, 0x05, 0x00, 0x00, 0x01, 0x25] {
        put(Kind::Data, byte);
    }
    put(Kind::Control, 1);
    let mut list = vec![StepRecord { slot: 0, port: 8 }; 12];
    list.extend([StepRecord { slot: 0, port: 12 }; 3]);
    let answers = bench.steps(&list);
    assert_eq!(answers[0], Ok(Stepped::Opened(Opening::Control)));
    assert_eq!(answers[1..12], [Ok(Stepped::Moved); 11]);
    assert_eq!(answers[12], Ok(Stepped::Opened(Opening::Channel)));
    assert_eq!(bench.looks().node(0).number, 0x0125);
    assert_eq!(bench.input(0, 7, Kind::Control), Ok(3));
}

/// The buffer of a caller and the new one have the same, and a refused call leaves the buffer alone.
#[test]
fn into_a_buffer_and_into_a_new_one() {
    let list = mixed(30);
    let mut bench = busy().bench();
    let mut other = bench.clone();
    let mut results = [StepResult::default(); 31];
    assert_eq!(
        bench.steps_into(&list, &mut results),
        Err(Refusal::NoSuch),
        "one too many"
    );
    assert_eq!(bench.looks().digest(), other.looks().digest());
    assert!(results.iter().all(|result| result.answer().is_none()));
    assert_eq!(bench.steps_into(&list, &mut results[..30]), Ok(()));
    let answers = results[..30].iter().map(|result| result.answer());
    assert!(answers.eq(other.steps(&list).into_iter().map(Some)));
    assert_eq!(bench.looks().digest(), other.looks().digest());
    assert_eq!(results[30], StepResult::default());
}

/// A network that was never made: each Step is Unsound, and the call is done.
#[test]
fn a_bench_over_no_memory_says_so_for_each_record() {
    let mut bench = Bench::over(Vec::new(), Vec::new(), Vec::new());
    assert_eq!(bench.steps(&mixed(3)), [Err(Refusal::Unsound); 3]);
    let end = LinkEnd { slot: 0, link: 0 };
    assert_eq!(bench.wire(end, end), Err(Refusal::Unsound));
    assert_eq!(bench.set(0, Setting::Width(1)), Err(Refusal::Unsound));
}

/// A record is the two words that the library reads, the slot first; a result is its number.
#[test]
fn records_and_results_lie_as_they_cross() {
    assert_eq!(size_of::<StepRecord>(), 2 * size_of::<usize>());
    assert_eq!(std::mem::offset_of!(StepRecord, slot), 0);
    assert_eq!(
        std::mem::offset_of!(StepRecord, port),
        size_of::<usize>(),
        "the port is the second word"
    );
    assert_eq!(size_of::<StepResult>(), size_of::<u64>());
}
