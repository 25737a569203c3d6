//! `include/tarvelgyo.h` says what `src/proved.rs` says: the same functions with the same parameters
//! and results, a comment on each of them, the sizes, the numbers for no, the cases of answers and the
//! words of records. A C program that is written by it is compiled, linked and run.

use std::collections::BTreeMap;
use std::fs;
use std::io::Write;
use std::path::{Path, PathBuf};
use std::process::Command;

use bench::{raw, sizes, Answer, Bench, Refusal, Token};

/// Each function with the names and types of its parameters; its result last, without a name.
type Functions = BTreeMap<String, Vec<(String, String)>>;

/// The numbers that the header has names for, without `TARVELGYO_`.
type Numbers = BTreeMap<String, u64>;

fn read(name: &str) -> String {
    let path = Path::new(env!("CARGO_MANIFEST_DIR")).join(name);
    fs::read_to_string(&path).unwrap_or_else(|e| panic!("{path:?}: {e}"))
}

fn header() -> String {
    read("../../include/tarvelgyo.h")
}

fn words(text: &str) -> String {
    text.split_whitespace().collect::<Vec<_>>().join(" ")
}

/// `pub fn NAME(NAME: TYPE, ..) -> TYPE;`
fn declared_in_rust(text: &str) -> Functions {
    let heads = text.split("pub fn ").skip(1).map(|rest| {
        let (head, _) = rest.split_once(';').expect("the end of a declaration");
        let (name, rest) = head.split_once('(').expect("parameters");
        let (parameters, result) = rest.split_once(')').expect("their end");
        let parameters = parameters.split(',').filter(|p| !p.trim().is_empty());
        let named = parameters.map(|p| p.split_once(':').expect("a type"));
        let mut all: Vec<_> = named
            .map(|(name, kind)| (words(name), words(kind)))
            .collect();
        let result = result.trim().strip_prefix("->").expect("a result");
        all.push((String::new(), words(result)));
        (words(name), all)
    });
    heads.collect()
}

/// What Rust calls a type of C's.
fn rust_type(kind: &str) -> String {
    let (points, plain) = match kind.split_once('*') {
        Some((pointed, _)) => match pointed.trim().strip_prefix("const ") {
            Some(pointed) => ("*const ", pointed.trim()),
            None => ("*mut ", pointed.trim()),
        },
        None => ("", kind.trim()),
    };
    let plain = match plain {
        "uint8_t" => "u8",
        "uint16_t" => "u16",
        "uint32_t" => "u32",
        "uint64_t" => "u64",
        "size_t" => "usize",
        "bool" => "bool",
        "tarvelgyo_step_record" => "StepRecord",
        other => panic!("no type that crosses: {other}"),
    };
    format!("{points}{plain}")
}

/// `TYPE *NAME` or `TYPE NAME`.
fn c_parameter(text: &str) -> (String, String) {
    let text = words(text);
    let start = text.rfind([' ', '*']).expect("a type and a name") + 1;
    (text[start..].to_owned(), rust_type(&text[..start]))
}

/// The header without its comments and its lines for the preprocessor.
fn code(text: &str) -> String {
    let mut parts = text.split("/*");
    let first = parts.next().unwrap_or_default().to_owned();
    let code = parts.map(|part| part.split_once("*/").expect("the end of a comment").1);
    let code = first + &code.collect::<String>();
    let lines = code.lines().filter(|line| !line.starts_with('#'));
    lines.collect::<Vec<_>>().join("\n")
}

/// `TYPE NAME(TYPE NAME, ..);`
fn declared_in_c(text: &str) -> Functions {
    let code = code(text);
    let declarations = code
        .split([';', '{', '}'])
        .filter(|part| part.contains('('));
    let read = declarations.map(|declaration| {
        let (head, parameters) = declaration.split_once('(').expect("parameters");
        let (name, result) = c_parameter(head);
        let parameters = parameters.trim().strip_suffix(')').expect("their end");
        let parameters = parameters.split(',').filter(|p| p.trim() != "void");
        let mut all: Vec<_> = parameters.map(c_parameter).collect();
        all.push((String::new(), result));
        (name, all)
    });
    read.collect()
}

#[test]
fn the_functions_are_those_that_the_rust_side_declares() {
    let (ours, theirs) = (
        declared_in_rust(&read("src/proved.rs")),
        declared_in_c(&header()),
    );
    assert!(ours.len() > 30);
    for (name, parameters) in &ours {
        assert_eq!(
            theirs.get(name),
            Some(parameters),
            "{name} in include/tarvelgyo.h"
        );
    }
    assert_eq!(theirs, ours);
}

/// The record of a list is two words in the order of `StepRecord`, which tests/declared.rs holds.
#[test]
fn a_record_of_a_list_has_the_fields_of_the_rust_side() {
    let record =
        "typedef struct tarvelgyo_step_record { size_t slot; size_t port; } tarvelgyo_step_record;";
    assert!(words(&code(&header())).contains(record));
}

/// A change of any type, name or order in the header is seen.
#[test]
fn a_change_of_the_header_is_seen() {
    let text = header();
    let right = declared_in_c(&text);
    for (from, to) in [
        ("size_t slot, uint32_t value", "uint32_t value, size_t slot"),
        ("uint8_t value", "uint32_t value"),
        ("const uint16_t *memory", "uint16_t *memory"),
        ("size_t room", "size_t many"),
        ("bool tarvelgyo_is_quiet", "uint32_t tarvelgyo_is_quiet"),
        (
            "uint32_t tarvelgyo_direction",
            "uint32_t tarvelgyo_directed",
        ),
    ] {
        let changed = text.replacen(from, to, 1);
        assert!(declared_in_c(&changed) != right, "{from}");
    }
}

/// What the head of the file says of these holds everywhere.
const EVERYWHERE: [&str; 7] = [
    "state", "words", "memory", "tokens", "lines", "things", "slot",
];

/// Before each function stands a comment, and it names each of the parameters that are its own.
#[test]
fn each_function_says_what_its_parameters_are() {
    let text = header();
    for (name, parameters) in declared_in_c(&text) {
        let (before, _) = text
            .rsplit_once(&format!("{name}("))
            .expect("a declaration");
        let (before, result) = before.rsplit_once("*/").expect("a comment");
        assert!(!result.contains(';'), "{name} has a comment of its own");
        let (_, comment) = before.rsplit_once("/*").expect("its start");
        let own = parameters.iter().map(|(parameter, _)| parameter.as_str());
        for parameter in own.filter(|own| !own.is_empty() && !EVERYWHERE.contains(own)) {
            let named = format!("`{parameter}`");
            assert!(
                comment.contains(&named),
                "{name}: {parameter} is not explained"
            );
        }
    }
}

/// `#define TARVELGYO_NAME NUMBER`.
fn numbers(text: &str) -> Numbers {
    let lines = text
        .lines()
        .filter_map(|line| line.strip_prefix("#define TARVELGYO_"));
    let pairs = lines.filter_map(|line| line.split_once(' '));
    let plain = pairs.filter(|(name, _)| !name.contains('('));
    let read = plain.map(|(name, rest)| {
        let word = rest.split_whitespace().next().expect("a number");
        let number = match word.strip_prefix("0x") {
            Some(digits) => u64::from_str_radix(digits, 16),
            None => word.parse(),
        };
        (
            name.to_owned(),
            number.unwrap_or_else(|e| panic!("{name}: {e}")),
        )
    });
    read.collect()
}

/// A name of Rust's as the header has it: `NoSuch` is `NO_SUCH`.
fn upper(name: &str) -> String {
    let mut text = String::new();
    for letter in name.chars() {
        if letter.is_uppercase() && !text.is_empty() {
            text.push('_');
        }
        text.extend(letter.to_uppercase());
    }
    text
}

#[rustfmt::skip]
fn expected_sizes() -> Vec<(&'static str, usize)> {
    vec![
        ("STATE_WORDS", raw::state_words()), ("MEMORY_WORDS", raw::memory_words()),
        ("LINE_MEMORY_WORDS", raw::line_words()), ("LINE_BUFFER", sizes::LINE_BUFFER),
        ("MOST_NODES", sizes::MOST_NODES), ("LINKS", sizes::LINKS), ("TILE_LINKS", sizes::TILE_LINKS),
        ("FIRST_TILE_PORT", sizes::TILE_PORTS.start), ("REPLY_PORT", sizes::REPLY_PORT),
        ("PORTS", sizes::PORTS), ("CHANNEL_ENDS", sizes::CHANNEL_ENDS), ("CHANNELS", sizes::CHANNELS),
        ("PORT_BUFFER", sizes::PORT_BUFFER), ("END_BUFFER", sizes::END_BUFFER),
        ("UNIT_BUFFER", sizes::UNIT_BUFFER), ("DIRECTIONS", sizes::DIRECTIONS as usize),
        ("BITS", sizes::BITS as usize),
    ]
}

/// What document 01 gives numbers to: the sink, control tokens, and the marks of a token's word, which
/// `Token::from_word` reads; and the answers of the probe that the papers give no number.
#[rustfmt::skip]
const GIVEN: [(&str, u64); 20] = [
    ("SINK", 255), ("END", 1), ("PAUSE", 2), ("ACK", 3), ("NACK", 4), ("WRITEC", 0xC0), ("READC", 0xC1),
    ("CREDIT8", 0xE0), ("CREDIT16", 0xE4), ("CREDIT64", 0xE1), ("HELLO", 0xE6),
    ("SEEN_NOTHING", 0), ("SEEN_TOKEN", 1), ("PROBE_FILLED", 0), ("PROBE_BAD", 14), ("PROBE_CUT", 15),
    ("TOKEN_VALUE", 0xFF), ("TOKEN_CONTROL", 0x100), ("TOKEN_HEADER", 0x200), ("TOKEN_THREE", 0x400),
];

/// The cases by number, each as it is written of an answer of that case that carries 1, or else 0.
fn expected_cases() -> Vec<(String, u64)> {
    let answers = (0..64).map_while(|case| {
        let carrying = |value| Answer::from_crossed(case << 32 | value);
        let answer = carrying(1).or(carrying(0))?;
        let written = format!("{answer:?}")
            .replace("Step(", "")
            .replace("Opened(", "Opened");
        let name = written
            .split(['(', ')'])
            .next()
            .unwrap_or_default()
            .to_owned();
        Some((format!("CASE_{}", upper(&name)), case))
    });
    answers.collect()
}

/// The places of words in records, and how many words each has: what `src/records.rs` takes, in order.
fn expected_records() -> Vec<(String, u64)> {
    let text = read("src/records.rs");
    let bodies = text.split("\nimpl Record<").skip(1);
    let all = bodies.flat_map(|body| {
        let (count, rest) = body.split_once("> for ").expect("a record");
        let (name, rest) = rest.split_once(' ').expect("its name");
        let (fields, _) = rest.split_once("\n}").expect("its end");
        let count: u64 = count.parse().expect("how many words it has");
        places(&upper(name), count, fields)
    });
    all.collect()
}

/// One word, two of a circuit, or as many as are left of an array.
fn places(record: &str, count: u64, fields: &str) -> Vec<(String, u64)> {
    let taken = fields
        .lines()
        .filter_map(|line| line.split_once(": words."));
    let taken: Vec<(&str, &str)> = taken.collect();
    let fixed = |(_, kind): &(&str, &str)| match kind.split('(').next() {
        Some("one") => 1,
        Some("circuit") => 2,
        _ => 0,
    };
    let rest = count - taken.iter().map(fixed).sum::<u64>();
    let mut place = 0;
    let mut all = vec![(format!("{record}_WORDS"), count)];
    for field in &taken {
        let name = field.0.trim().to_uppercase();
        all.push((format!("{record}_{name}"), place));
        place += match fixed(field) {
            0 => rest,
            words => words,
        };
    }
    assert_eq!(place, count, "{record}");
    all
}

#[test]
fn the_numbers_are_those_of_the_rust_side() {
    let mut expected = Numbers::new();
    let sizes = expected_sizes().into_iter();
    expected.extend(sizes.map(|(name, size)| (name.to_owned(), size as u64)));
    expected.extend(GIVEN.map(|(name, number)| (name.to_owned(), number)));
    let refusals = Refusal::ALL.into_iter();
    expected.extend(refusals.map(|no| (format!("NO_{}", upper(no.name())), no.number().into())));
    expected.extend([
        ("CAUSE_SPLIT".to_owned(), 0),
        ("CAUSE_NO_ROUTE".to_owned(), 1),
    ]);
    expected.extend(expected_cases());
    expected.extend(expected_records());
    assert_eq!(numbers(&header()), expected);
    // The marks of a token, and the causes, are read so.
    let of_three = Token::from_word(0x700 | 0xC3).map(|token| token.value);
    assert_eq!(of_three, Some(0xC3));
    let causes = [0, 1].map(|cause| format!("{:?}", Answer::from_crossed(10 << 32 | cause)));
    assert!(causes[0].contains("Split") && causes[1].contains("NoRoute"));
}

/// A record has as many words as the header says, and no other number of them is filled.
#[test]
fn records_have_the_words_that_the_header_says() {
    let numbers = numbers(&header());
    let (state, ..) = Bench::fresh(1).expect("a board").into_parts();
    type Look = fn(&[u32], &mut [u32]) -> bool;
    let looks: [(&str, Look); 7] = [
        ("NODE", |state, out| raw::node(state, 0, out)),
        ("LINK", |state, out| raw::link(state, 0, 0, out)),
        ("PORT", |state, out| raw::port(state, 0, 0, out)),
        ("TILE_LINK", |state, out| raw::tile_link(state, 0, 0, out)),
        ("CHANNEL_END", |state, out| {
            raw::channel_end(state, 0, 0, out)
        }),
        ("CONTROL_UNIT", |state, out| {
            raw::control_unit(state, 0, out)
        }),
        ("LINE", |state, out| raw::line(state, 0, 0, out)),
    ];
    for (name, look) in looks {
        let count = numbers[&format!("{name}_WORDS")] as usize;
        let fits: Vec<usize> = (0..32)
            .filter(|words| look(&state, &mut vec![0; *words]))
            .collect();
        assert_eq!(fits, [count], "{name}");
    }
}

/// Says it past the test's own output, which the harness keeps to itself: the gate shows it.
fn left_out(what: &str) {
    let line = format!("\nleft out: {what}\n");
    let written = std::io::stderr().write_all(line.as_bytes());
    written.expect("a line");
}

/// What the program says: each call with its answer.
const SAID: &str = "\
fresh: done
number of board 1: done
wire: done
enable link A of board 1: done
HELLO of board 0: granted
  HELLO's line: arrived 64
  HELLO's line: idle
  the credit's line: arrived
  the credit's line: idle
HELLO of board 1: granted
  HELLO's line: arrived 64
  HELLO's line: idle
  the credit's line: arrived
  the credit's line: idle
aim: done
output 9: done
output END: done
steps of board 0: done
  step: opened link 4
  step: moved
  step: moved
  step: moved
  step: moved
  step: moved
the line from board 0: arrived
the line from board 0: arrived
the line from board 0: arrived
the line from board 0: arrived
the line from board 0: arrived
the line from board 0: idle
steps of board 1: done
  step: opened channel
  step: moved
  step: moved
input: token 9
input of END: token 1
credit of link E: 59
board 1 got 9, and the network is quiet
";

/// The archive is the one that the Rust side links, for this processor.
#[test]
fn a_program_in_c() {
    if Command::new("cc").arg("--version").output().is_err() {
        return left_out("c-example (no cc on this machine)");
    }
    let root = Path::new(env!("CARGO_MANIFEST_DIR")).join("../..");
    let program = PathBuf::from(env!("CARGO_TARGET_TMPDIR")).join("c-first");
    let mut compile = Command::new("cc");
    compile.args([
        "-std=c99",
        "-Wall",
        "-Wextra",
        "-Wpedantic",
        "-Werror",
        "-I",
    ]);
    compile
        .arg(root.join("include"))
        .arg(root.join("examples/c/first.c"));
    compile
        .arg(env!("TARVELGYO_ARCHIVE"))
        .arg("-o")
        .arg(&program);
    let compiled = compile.output().expect("a compiler");
    assert!(
        compiled.status.success(),
        "{}",
        String::from_utf8_lossy(&compiled.stderr)
    );
    let ran = Command::new(&program).output().expect("the program");
    assert_eq!(String::from_utf8_lossy(&ran.stdout), SAID);
    assert!(ran.status.success());
}
