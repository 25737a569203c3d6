//! Transitions for the logic probe (document 02, Ask 8): the papers' own bits, the worked examples,
//! and every token, state of the wires and sequence that there is.

use std::collections::{BTreeMap, BTreeSet};

use model::probe::{read, write, Form, Refused, Says, Wires};
use model::tokens::{Token, CREDIT16, CREDIT64, CREDIT8, END, HELLO, PAUSE, SSCTRL, WRITEC};

/// Room for all that is written or read here.
const ENOUGH: usize = 10_000;

fn data(value: u8) -> Token {
    Token::data(value)
}

fn control(value: u8) -> Token {
    Token::control(value)
}

/// The transitions of a text of digits; blanks part sequences.
fn wires(digits: &str) -> Vec<u8> {
    let digits = digits.bytes().filter(|digit| *digit != b' ');
    digits.map(|digit| digit - b'0').collect()
}

fn written(form: Form, tokens: &[Token]) -> Vec<u8> {
    write(form, tokens, ENOUGH).unwrap_or_else(|no| panic!("{tokens:?}: {no:?}"))
}

fn without_marks(tokens: &[Token]) -> Vec<Token> {
    let bare = |token: &Token| Token::plain(token.kind, token.value);
    tokens.iter().map(bare).collect()
}

/// Every token: 256 data, 256 control.
fn all_tokens() -> impl Iterator<Item = Token> {
    let values = || 0..=255;
    values().map(data).chain(values().map(control))
}

/// Those that the form can write.
fn writable(form: Form) -> Vec<Token> {
    let can = |token: &Token| form.one(Wires::LOW, *token).is_some();
    all_tokens().filter(can).collect()
}

/// Every sequence of symbols 0..=highest that the form has.
fn sequences(form: Form, highest: u8) -> Vec<Vec<u8>> {
    let mut all = vec![Vec::new()];
    for _ in 0..form.sequence() {
        let longer = |before: &Vec<u8>| {
            let before = before.clone();
            (0..=highest).map(move |symbol| [&before[..], &[symbol]].concat())
        };
        all = all.iter().flat_map(longer).collect();
    }
    all
}

/// The wires of the tokens of each row, sequence by sequence, stand in the last column: the wires
/// that are high behind each. An empty column is not asked.
struct Example {
    tokens: Vec<Token>,
    serial: &'static str,
    fast: &'static str,
    high: &'static [&'static [u8]],
}

#[rustfmt::skip]
fn examples() -> Vec<Example> {
    let header3 = |token: Token| token.in_header(3);
    vec![
        // 002, 4.2 and 4.3: "to send control token 0x09".
        Example { tokens: vec![control(0x09)], serial: "0000100111", fast: "0214", high: &[&[0, 1, 2, 4]] },
        // 002, 4.3: "to send an end-of-message after the control token sent earlier".
        Example {
            tokens: vec![control(0x09), control(END)],
            serial: "0000100111 0000000110",
            fast: "0214 4401 4332",
            high: &[&[0, 1, 2, 4], &[2, 4], &[]],
        },
        // 000, 3.2.1: "A HELLO is transmitted as 1110011010".
        Example { tokens: vec![control(HELLO)], serial: "1110011010", fast: "4242", high: &[&[]] },
        // 002, 4.3: the table of link-level tokens.
        Example {
            tokens: vec![control(CREDIT8), control(CREDIT64), control(CREDIT16), control(HELLO)],
            serial: "1110000010 1110000111 1110010011 1110011010",
            fast: "4040 4141 4343 4242",
            high: &[&[], &[], &[], &[]],
        },
        // From here on worked by hand.
        Example {
            tokens: vec![header3(data(0x01)), header3(data(0x25)), header3(data(0x07)), data(0x2A), control(END)],
            serial: "0000000101 0010010101 0000011101 0010101001 0000000110",
            fast: "0001 0211 0013 0222 4403",
            high: &[&[0, 1], &[1, 2], &[2, 3], &[0, 3], &[]],
        },
        Example {
            tokens: vec![
                header3(data(0x01)), header3(data(0x25)), header3(control(SSCTRL)), control(WRITEC), control(END),
            ],
            serial: "",
            fast: "0001 0211 4003 4000 4401 4234",
            high: &[&[0, 1], &[1, 2], &[1, 2, 3, 4], &[0, 1, 2, 3], &[2, 3], &[]],
        },
        Example {
            tokens: vec![data(0xA7).in_header(1), control(PAUSE)],
            serial: "1010011101 0000001010",
            fast: "2213 1344",
            high: &[&[1, 3], &[]],
        },
        Example { tokens: vec![data(0xFF), control(END)], serial: "", fast: "3333 4400", high: &[&[], &[]] },
        Example {
            tokens: vec![control(0xBF), control(END)],
            serial: "",
            fast: "3433 4400 4333",
            high: &[&[3, 4], &[3, 4], &[]],
        },
        Example {
            tokens: vec![
                control(0x09), control(HELLO), control(CREDIT8), control(CREDIT16), control(CREDIT64), control(END),
            ],
            serial: "",
            fast: "0214 4242 4040 4343 4141 4401 4332",
            high: &[
                &[0, 1, 2, 4], &[0, 1, 2, 4], &[0, 1, 2, 4], &[0, 1, 2, 4], &[0, 1, 2, 4], &[2, 4], &[],
            ],
        },
        Example {
            tokens: vec![data(0x2A), control(END), control(PAUSE)],
            serial: "0010101001 0000000110 0000001010",
            fast: "0222 4402 0044",
            high: &[&[0, 2], &[], &[]],
        },
        Example { tokens: vec![], serial: "", fast: "", high: &[] },
    ]
}

#[test]
fn the_papers_bits_and_the_worked_examples() {
    for example in examples() {
        let tokens = &example.tokens;
        for (form, digits) in [(Form::Serial, example.serial), (Form::Fast, example.fast)] {
            if digits.is_empty() && !tokens.is_empty() {
                continue;
            }
            let transitions = wires(digits);
            assert_eq!(written(form, tokens), transitions, "{form:?} {digits}");
            let back = Ok(without_marks(tokens));
            assert_eq!(read(form, &transitions, ENOUGH), back, "{digits}");
        }
    }
}

#[test]
fn the_levels_of_the_worked_examples() {
    for example in examples() {
        let fast = wires(example.fast);
        let sequences = fast.chunks(4);
        assert_eq!(sequences.len(), example.high.len(), "{}", example.fast);
        let mut levels = Wires::LOW;
        for (sequence, high) in sequences.zip(example.high) {
            levels = levels.after(sequence);
            assert_eq!(levels.high(), *high, "{}", example.fast);
        }
    }
}

/// What each kind of sequence is called in the count of them.
fn called(form: Form, sequence: &[u8]) -> &'static str {
    match form.says(sequence) {
        Says::Return => "return",
        Says::Nothing => "nothing",
        Says::Token(token) if token == data(token.value) => "data",
        Says::Token(token) => match token.value {
            END => "END",
            PAUSE => "PAUSE",
            CREDIT8 | CREDIT16 | CREDIT64 | HELLO => "link-level",
            _ => "control",
        },
    }
}

fn counted(form: Form, highest: u8) -> BTreeMap<&'static str, usize> {
    let mut counts = BTreeMap::new();
    for sequence in sequences(form, highest) {
        *counts.entry(called(form, &sequence)).or_default() += 1;
    }
    counts
}

/// Every sequence of five symbols, and of a sixth that is no wire.
#[test]
fn how_many_fast_sequences_say_what() {
    let mut counts = BTreeMap::from([
        ("data", 256),
        ("control", 246),
        ("END", 16),
        ("PAUSE", 16),
        ("link-level", 4),
        ("return", 20),
        ("nothing", 67),
    ]);
    assert_eq!(counted(Form::Fast, 4), counts);
    counts.insert("nothing", 67 + 6_usize.pow(4) - 5_usize.pow(4));
    assert_eq!(counted(Form::Fast, 5), counts);
}

/// Of the 1,024 sequences those have a meaning that leave both wires low: half of them. "an even
/// parity bit" and "causes both wires to go back to low" are one rule.
#[test]
fn parity_and_low_wires_are_one_rule() {
    for sequence in sequences(Form::Serial, 1) {
        let is_low = Wires::LOW.after(&sequence) == Wires::LOW;
        let ones = sequence.iter().filter(|bit| **bit == 1).count();
        let says = Form::Serial.says(&sequence);
        assert_eq!(is_low, ones % 2 == 0, "{sequence:?}");
        assert_eq!(is_low, says != Says::Nothing, "{sequence:?}");
        assert_ne!(says, Says::Return);
    }
    let counts = BTreeMap::from([
        ("data", 256),
        ("control", 250),
        ("END", 1),
        ("PAUSE", 1),
        ("link-level", 4),
        ("nothing", 512),
    ]);
    assert_eq!(counted(Form::Serial, 1), counts);
}

/// The states of five wires that tokens lead to from all low.
fn reached() -> BTreeSet<Wires> {
    let mut reached = BTreeSet::from([Wires::LOW]);
    loop {
        let step = |wires: &Wires| {
            let wires = *wires;
            let tokens = all_tokens().filter_map(move |token| Form::Fast.one(wires, token));
            tokens.map(move |one| wires.after(&one)).collect::<Vec<_>>()
        };
        let next: BTreeSet<Wires> = reached.iter().flat_map(step).collect();
        if next.is_subset(&reached) {
            return reached;
        }
        reached.extend(next);
    }
}

/// "After transmitting one token, none, two, or four wires are high", and each such state is reached.
#[test]
fn the_states_of_the_wires() {
    let even: BTreeSet<Wires> = Wires::all()
        .filter(|wires| wires.high().len() % 2 == 0)
        .collect();
    assert_eq!(even.len(), 16);
    assert_eq!(reached(), even);
    let by_one = |token| Form::Fast.one(Wires::LOW, token);
    let by_one = all_tokens().filter_map(by_one);
    let by_one: BTreeSet<Wires> = by_one.map(|one| Wires::LOW.after(&one)).collect();
    assert_eq!(by_one, even);
}

/// What END and PAUSE are written as, by which wires are high.
#[rustfmt::skip]
const ENDINGS: [(&[u8], &str, &str); 16] = [
    (&[], "4400", "0044"),
    (&[0, 1], "4401", "0144"),
    (&[0, 2], "4402", "0244"),
    (&[0, 3], "4403", "0344"),
    (&[1, 2], "4412", "1244"),
    (&[1, 3], "4413", "1344"),
    (&[2, 3], "4423", "2344"),
    (&[0, 1, 2, 3], "4401 4234", "0144 4234"),
    (&[0, 4], "4400 4330", "0044 4330"),
    (&[1, 4], "4400 4331", "0044 4331"),
    (&[2, 4], "4400 4332", "0044 4332"),
    (&[3, 4], "4400 4333", "0044 4333"),
    (&[0, 1, 2, 4], "4401 4332", "0144 4332"),
    (&[0, 1, 3, 4], "4401 4333", "0144 4333"),
    (&[0, 2, 3, 4], "4402 4333", "0244 4333"),
    (&[1, 2, 3, 4], "4412 4333", "1244 4333"),
];

#[test]
fn end_and_pause_in_every_state() {
    let known = |high: &[u8]| ENDINGS.iter().find(|(levels, ..)| *levels == high);
    for levels in reached() {
        let high = levels.high();
        let (_, end, pause) = known(&high).unwrap_or_else(|| panic!("{high:?}"));
        for (value, digits) in [(END, end), (PAUSE, pause)] {
            let one = Form::Fast.one(levels, control(value));
            assert_eq!(one, Some(wires(digits)), "{high:?}");
        }
    }
}

/// "After END or PAUSE with its return all wires must be low", and the returns are the papers': RTNZ
/// where wire 4 is high, NOPD where two others are, none where none is.
#[test]
fn all_wires_are_low_behind_an_end() {
    for levels in reached() {
        for value in [END, PAUSE] {
            let one = Form::Fast.one(levels, control(value)).expect("a form");
            assert_eq!(levels.after(&one), Wires::LOW);
            let left = levels.after(&one[..4]).high();
            match one[4..] {
                [] => assert_eq!(left, []),
                [4, 3, 3, last] => assert_eq!(left, [last, 4]),
                [4, first, second, 4] => assert_eq!(left, [first, second]),
                _ => panic!("no return: {one:?}"),
            }
        }
    }
}

/// "Reading what was written gives the tokens back without their header marks": every pair of tokens,
/// and so every token behind every state of the wires, each marked in some way.
#[test]
fn every_pair_is_read_back() {
    let marks = [None, Some(1), Some(3)];
    for form in Form::ALL {
        for (count, first) in writable(form).into_iter().enumerate() {
            for second in writable(form) {
                let header = marks[count % 3];
                let pair = [Token { header, ..first }, second];
                let back = read(form, &written(form, &pair), ENOUGH);
                assert_eq!(back, Ok(without_marks(&pair)), "{form:?} {pair:?}");
            }
        }
    }
}

/// All but the four returns have a fast form, and every one a serial form.
#[test]
fn what_has_no_form() {
    assert_eq!(writable(Form::Serial).len(), 512);
    assert_eq!(writable(Form::Fast).len(), 508);
    for value in 0xFC..=0xFF {
        let tokens = [data(1), control(2), control(value), control(0xFF)];
        assert_eq!(write(Form::Fast, &tokens, ENOUGH), Err(Refused::Bad(2)));
        assert_eq!(write(Form::Fast, &tokens, 0), Err(Refused::Bad(2)));
        let mark = [control(value).in_header(3)];
        assert_eq!(write(Form::Fast, &mark, ENOUGH), Err(Refused::Bad(0)));
    }
}

#[rustfmt::skip]
const REFUSED: [(Form, &str, Refused); 17] = [
    (Form::Fast, "0014", Refused::Bad(0)),
    (Form::Fast, "0024", Refused::Bad(0)),
    (Form::Fast, "3333 4200", Refused::Bad(4)),
    (Form::Fast, "4344", Refused::Bad(0)),
    (Form::Fast, "444", Refused::Cut),
    (Form::Fast, "44", Refused::Cut),
    (Form::Fast, "02144401 43", Refused::Cut),
    (Form::Fast, "0214440", Refused::Cut),
    (Form::Fast, "0005", Refused::Bad(0)),
    (Form::Fast, "9", Refused::Cut),
    (Form::Fast, "4234 0000 4141 4140 444", Refused::Bad(12)),
    (Form::Serial, "0000100110", Refused::Bad(0)),
    (Form::Serial, "0000100111 0000000100", Refused::Bad(10)),
    (Form::Serial, "00002", Refused::Cut),
    (Form::Serial, "0000200110", Refused::Bad(0)),
    (Form::Serial, "0000100111 000010011", Refused::Cut),
    (Form::Serial, "0000100110 000010011", Refused::Bad(0)),
];

/// With any room: what is wrong with a capture is found before the room is looked at.
#[test]
fn what_is_refused() {
    for (form, digits, refused) in REFUSED {
        for room in [0, 1, ENOUGH] {
            let said = read(form, &wires(digits), room);
            assert_eq!(said, Err(refused), "{form:?} {digits}, room {room}");
        }
    }
}

/// "an output buffer too short for the whole result is NoSuch", and one that just fits is not.
#[test]
fn room_for_the_whole_result() {
    for form in Form::ALL {
        let tokens = [data(7), control(0x09), control(END), control(PAUSE)];
        let transitions = written(form, &tokens);
        for room in 0..=transitions.len() + 1 {
            let expected = match room < transitions.len() {
                true => Err(Refused::NoSuch),
                false => Ok(transitions.clone()),
            };
            assert_eq!(write(form, &tokens, room), expected);
        }
        for room in 0..=tokens.len() + 1 {
            let expected = match room < tokens.len() {
                true => Err(Refused::NoSuch),
                false => Ok(tokens.to_vec()),
            };
            assert_eq!(read(form, &transitions, room), expected);
        }
    }
}

/// "the physical layer shall discard any NOP tokens that are received": any, wherever they stand.
#[test]
fn returns_are_passed_over_anywhere() {
    let digits = "4004 4330 0001 4334 4124 4333 4423 4330 4004";
    let tokens = vec![data(1), control(END)];
    assert_eq!(read(Form::Fast, &wires(digits), 2), Ok(tokens));
    assert_eq!(read(Form::Fast, &wires("4004 4331"), 0), Ok(vec![]));
}

/// A capture that ends behind END and before its return is whole, and so is one whose END leaves
/// wires high: "all END and PAUSE forms" are read.
#[test]
fn every_form_of_an_end_is_read() {
    for first in 0..4 {
        for second in 0..4 {
            let end = [&wires("0214")[..], &[4, 4, first, second]].concat();
            let tokens = vec![control(0x09), control(END)];
            assert_eq!(read(Form::Fast, &end, 2), Ok(tokens));
            let pause = [first, second, 4, 4];
            assert_eq!(read(Form::Fast, &pause, 1), Ok(vec![control(PAUSE)]));
        }
    }
}

/// The most transitions that so many tokens take: ten each in serial; in fast twelve for two of them,
/// as a return needs wires that a token before has left high.
#[test]
fn how_many_transitions_at_most() {
    let mut most = BTreeMap::from([(Wires::LOW, 0)]);
    for count in 1..=66 {
        let mut next: BTreeMap<Wires, usize> = BTreeMap::new();
        for (wires, before) in &most {
            for one in all_tokens().filter_map(|token| Form::Fast.one(*wires, token)) {
                let entry = next.entry(wires.after(&one)).or_default();
                *entry = (*entry).max(before + one.len());
            }
        }
        most = next;
        let longest = most.values().max().copied();
        assert_eq!(longest, Some(count / 2 * 12 + count % 2 * 4), "{count}");
    }
    let each = writable(Form::Serial).into_iter();
    let mut each = each.map(|token| written(Form::Serial, &[token]).len());
    assert!(each.all(|length| length == 10));
}
