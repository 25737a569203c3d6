//! The functions that `src/proved.rs` declares are those that crate `host` exports: the same names,
//! and of each the same parameters and result, by kind, width and order. The linker asks for names
//! alone, so a width that differs would go unseen.

use std::collections::BTreeMap;
use std::fs;
use std::path::{Path, PathBuf};

/// Each function with the types that it crosses with, its result last.
type Functions = BTreeMap<String, Vec<String>>;

/// Each record that crosses as it lies in memory, with the name and type of its fields in order.
type Records = BTreeMap<String, Vec<(String, String)>>;

fn here(name: &str) -> PathBuf {
    Path::new(env!("CARGO_MANIFEST_DIR")).join(name)
}

/// A file without its comments, each stretch of blanks one blank.
fn read(path: &Path) -> String {
    let text = fs::read_to_string(path).unwrap_or_else(|e| panic!("{path:?}: {e}"));
    let code = text.lines().map(|line| line.split("//").next());
    let code: Vec<&str> = code.map(Option::unwrap_or_default).collect();
    let words: Vec<&str> = code
        .iter()
        .flat_map(|line| line.split_whitespace())
        .collect();
    words.join(" ")
}

/// All code of crate `host`.
fn host() -> String {
    let folder = here("../../crates/host/src");
    let entries = fs::read_dir(&folder).unwrap_or_else(|e| panic!("{folder:?}: {e}"));
    let paths = entries.map(|entry| entry.expect("an entry").path());
    paths.map(|path| read(&path) + " ").collect()
}

/// What stands behind each place of a mark, to the end of the text.
fn behind<'a>(text: &'a str, mark: &'a str) -> impl Iterator<Item = &'a str> {
    let places = text.match_indices(mark);
    places.map(move |(place, _)| &text[place + mark.len()..])
}

/// The functions that follow the mark, each `NAME(NAME: TYPE, ..) -> TYPE` up to the end mark.
fn functions(text: &str, mark: &str, end: &str) -> Functions {
    let mut found = Functions::new();
    for rest in behind(text, mark) {
        let (name, rest) = rest.split_once('(').expect("parameters");
        let (parameters, rest) = rest.split_once(')').expect("their end");
        let (result, _) = rest.split_once(end).expect("the end of a function's head");
        let result = result.trim().strip_prefix("->").expect("a result");
        let parameters = parameters.split(',').filter(|p| !p.trim().is_empty());
        let types = parameters.map(|p| p.split_once(':').expect("a type").1);
        let mut crossed: Vec<String> = types.flat_map(crossing).collect();
        crossed.extend(crossing(result));
        let before = found.insert(name.trim().to_owned(), crossed);
        assert!(before.is_none(), "{name} stands there twice");
    }
    found
}

/// What a type crosses as: a slice as two words, its pointer and its length; one word of the caller's
/// as its pointer.
fn crossing(kind: &str) -> Vec<String> {
    let kind = kind.trim();
    let slice = |start| {
        kind.strip_prefix(start)
            .and_then(|rest: &str| rest.strip_suffix(']'))
    };
    if let Some(words) = slice("&mut [") {
        return vec![format!("*mut {words}"), "usize".to_owned()];
    }
    if let Some(words) = slice("&[") {
        return vec![format!("*const {words}"), "usize".to_owned()];
    }
    if let Some(word) = kind.strip_prefix("&mut ") {
        return vec![format!("*mut {word}")];
    }
    vec![kind.to_owned()]
}

/// The records that have C's layout. Where they are derived from stands between, or nothing.
fn records(text: &str) -> Records {
    let heads = behind(text, "#[repr(C)]").map(|rest| rest.split_once("pub struct "));
    let bodies = heads.map(|head| head.expect("a record").1.split_once('{'));
    bodies
        .map(|body| {
            let (name, rest) = body.expect("its fields");
            let (fields, _) = rest.split_once('}').expect("their end");
            (name.trim().to_owned(), fields_of(fields))
        })
        .collect()
}

/// `pub NAME: TYPE, ..`.
fn fields_of(text: &str) -> Vec<(String, String)> {
    let fields = text.split(',').filter(|field| !field.trim().is_empty());
    let named = fields.map(|field| field.split_once(':').expect("a type"));
    named
        .map(|(name, kind)| {
            let name = name.trim().strip_prefix("pub ").expect("a public field");
            (name.trim().to_owned(), kind.trim().to_owned())
        })
        .collect()
}

fn exported(text: &str) -> Functions {
    functions(text, "#[unsafe(no_mangle)] pub extern \"C\" fn ", "ensures")
}

fn declared(text: &str) -> Functions {
    functions(text, "pub fn ", ";")
}

#[test]
fn what_is_declared_is_what_is_exported() {
    let (exports, declarations) = (host(), read(&here("src/proved.rs")));
    let found = exported(&exports);
    assert_eq!(
        found.len(),
        exports.matches("extern").count(),
        "all are read"
    );
    assert_eq!(found.len(), declarations.matches("tarvelgyo_").count());
    assert_eq!(declared(&declarations), found);
}

/// The pointers that slices cross as. A record behind one has the same fields on both sides
/// (`the_records_that_cross_are_the_same`).
#[rustfmt::skip]
const POINTERS: [&str; 9] = [
    "*mut u32", "*const u32", "*mut u16", "*const u16", "*mut u64", "*const StepRecord",
    "*mut u8", "*const u8", "*mut usize",
];

/// A type that crosses both ways under one name and width, and no other.
#[test]
fn the_types_are_those_that_cross_as_they_are() {
    let all = exported(&host());
    for kind in all.values().flatten() {
        let known = ["u8", "u32", "u64", "usize", "bool"].contains(&kind.as_str());
        assert!(known || POINTERS.contains(&kind.as_str()), "{kind}");
    }
}

/// What a list looks like in `crates/host`.
const EXPORTED_LIST: &str =
    "#[repr(C)] pub struct StepRecord { pub slot: usize, pub port: usize } \
    #[unsafe(no_mangle)] pub extern \"C\" fn tarvelgyo_steps( st: &mut [u32], mem: &mut [u16], \
    ls: &mut [u16], list: &[StepRecord], results: &mut [u64], ) -> u64 ensures { true } { 0 }";

/// And here.
const DECLARED_LIST: &str = "pub fn tarvelgyo_steps( state: *mut u32, words: usize, \
    memory: *mut u16, tokens: usize, lines: *mut u16, things: usize, list: *const StepRecord, \
    records: usize, results: *mut u64, room: usize, ) -> u64;";

#[test]
fn a_list_of_records_crosses_as_pointer_and_length() {
    let found = exported(EXPORTED_LIST);
    assert_eq!(declared(DECLARED_LIST), found);
    let types = &found["tarvelgyo_steps"];
    assert_eq!(types[6..8], ["*const StepRecord", "usize"]);
    for (from, to) in [("&[StepRecord]", "&mut [StepRecord]"), ("[u64]", "[u32]")] {
        let changed = exported(&EXPORTED_LIST.replace(from, to));
        assert_ne!(changed, found, "{from}");
    }
}

/// A record's fields have the same names and types, in the same order, on both sides.
#[test]
fn the_records_that_cross_are_the_same() {
    let ours = records(&read(&here("src/list.rs")));
    assert_eq!(ours.len(), 1);
    assert_eq!(records(EXPORTED_LIST), ours);
    assert_eq!(records(&read(&here("../../crates/bench/src/lib.rt"))), ours);
    let other_order = "{ pub port: usize, pub slot: usize }";
    for (from, to) in [
        ("{ pub slot: usize, pub port: usize }", other_order),
        ("port: usize", "port: u32"),
        ("#[repr(C)]", ""),
    ] {
        assert_ne!(records(&EXPORTED_LIST.replace(from, to)), ours, "{from}");
    }
}

/// Any one type of a declaration changed, or a declaration less, is seen.
#[test]
fn a_change_of_any_declaration_is_seen() {
    let text = read(&here("src/proved.rs"));
    let right = declared(&text);
    for (from, to) in [
        ("usize", "u32"),
        ("u32", "u64"),
        ("u8", "u32"),
        ("mut", "const"),
        ("bool", "u8"),
    ] {
        for (place, _) in text.match_indices(from) {
            let changed = format!("{}{to}{}", &text[..place], &text[place + from.len()..]);
            assert_ne!(declared(&changed), right, "{from} at {place}");
        }
    }
    for (place, _) in text.match_indices("pub fn ") {
        let changed = format!("{}fn {}", &text[..place], &text[place + 7..]);
        assert_ne!(declared(&changed), right, "{place}");
    }
}
