//! The archive that `rt lib` writes for x86-64, linked into a C program and run on the calls of
//! scripts: each answers as it does here, and leaves the same network. On another processor all
//! other tests run code that was compiled for that one; there this one needs the archive, which a
//! build for x86-64 leaves, and an emulator.

mod common;

use std::env::consts::ARCH;
use std::fs::{self, File};
use std::path::{Path, PathBuf};
use std::process::Command;

use bench::{Destination, Kind, Looks, Setting, StepRecord};
use common::{left_out, scripts_in};
use script::{Answer, Call, Host};

/// The five numbers of a call, or those of a list, and the function that it is.
fn form(call: &Call) -> (&'static str, Vec<usize>) {
    match *call {
        Call::Fresh {
            nodes,
            memory_words,
            line_words,
        } => ("fresh", vec![nodes, memory_words, line_words]),
        Call::Blank {
            nodes,
            memory_words,
            line_words,
        } => ("blank", vec![nodes, memory_words, line_words]),
        Call::Wire { one, other } => ("wire", vec![one.slot, one.link, other.slot, other.link]),
        Call::Set { slot, setting } => set_form(slot, setting),
        Call::Hello { slot, link } => ("hello", vec![slot, link]),
        Call::Aim {
            slot,
            channel_end,
            destination,
            network,
        } => aim_form(slot, channel_end, destination, network as usize),
        Call::Output {
            slot,
            channel_end,
            kind,
            value,
        } => (output_name(kind), vec![slot, channel_end, value.into()]),
        Call::Input {
            slot,
            channel_end,
            kind,
        } => (input_name(kind), vec![slot, channel_end]),
        Call::Step { slot, port } => ("step", vec![slot, port]),
        Call::Line { slot, link } => ("line_step", vec![slot, link]),
        Call::Steps { results, ref list } => list_form(results, list),
    }
}

fn output_name(kind: Kind) -> &'static str {
    match kind {
        Kind::Data => "output_data",
        Kind::Control => "output_control",
    }
}

fn input_name(kind: Kind) -> &'static str {
    match kind {
        Kind::Data => "input_data",
        Kind::Control => "input_control",
    }
}

fn set_form(slot: usize, setting: Setting) -> (&'static str, Vec<usize>) {
    let (name, place, value) = match setting {
        Setting::Number(value) => ("set_number", None, value),
        Setting::Width(value) => ("set_width", None, value),
        Setting::Direction { bit, value } => ("set_direction", Some(bit as usize), value),
        Setting::LinkDirection { link, value } => ("set_link_direction", Some(link), value),
        Setting::Network { link, value } => ("set_network", Some(link), value),
        Setting::Enable { link, value } => ("set_enable", Some(link), value),
    };
    let numbers = [Some(slot), place, Some(value as usize)];
    (name, numbers.into_iter().flatten().collect())
}

fn aim_form(
    slot: usize,
    end: usize,
    destination: Destination,
    network: usize,
) -> (&'static str, Vec<usize>) {
    match destination {
        Destination::Channel { number, channel } => (
            "aim_channel",
            vec![slot, end, number as usize, channel as usize, network],
        ),
        Destination::Control { number } => ("aim_unit", vec![slot, end, number as usize, network]),
    }
}

/// How many results, how many records, and each of them. One result too many is as wrong as more.
fn list_form(results: usize, list: &[StepRecord]) -> (&'static str, Vec<usize>) {
    let mut numbers = vec![results.min(list.len() + 1), list.len()];
    numbers.extend(list.iter().flat_map(|record| [record.slot, record.port]));
    ("steps", numbers)
}

/// A call as a line of the C program's.
fn line(call: &Call) -> String {
    let (name, mut numbers) = form(call);
    if name != "steps" {
        numbers.resize(5, 0);
    }
    let numbers: Vec<String> = numbers.iter().map(usize::to_string).collect();
    format!("{name} {}\n", numbers.join(" "))
}

/// The toolchain's folder, as `rust/bench/build.rs` finds it.
fn tools() -> PathBuf {
    let said = Command::new("rt").arg("doc").output().expect("rt doc");
    let page = String::from_utf8_lossy(&said.stdout).trim().to_owned();
    let kit = Path::new(&page).parent();
    kit.expect("the toolchain's folder").to_owned()
}

/// Where a build for x86-64 keeps the archive (`rust/bench/build/kept.rs`).
fn archive() -> PathBuf {
    let root = Path::new(env!("CARGO_MANIFEST_DIR")).join("../..");
    root.join("target/crossing/x86_64-unknown-linux-gnu/libhost.a")
}

fn run(command: &mut Command) {
    let ended = command.output().expect("a tool of the toolchain");
    let errors = String::from_utf8_lossy(&ended.stderr);
    assert!(ended.status.success(), "{command:?}: {errors}");
}

/// The C program, linked with the archive.
fn linked(tools: &Path, room: &Path) -> PathBuf {
    let (here, archive) = (Path::new(env!("CARGO_MANIFEST_DIR")), archive());
    assert!(archive.is_file(), "no archive was kept: {archive:?}");
    let (object, program) = (room.join("calls.o"), room.join("calls"));
    let mut compile = Command::new(tools.join("toolchain/bin/clang"));
    compile.args(["--target=x86_64-unknown-linux-gnu", "--no-default-config"]);
    compile.args(["-O2", "-fPIC", "-fno-builtin", "-Wall", "-Werror", "-c"]);
    run(compile
        .arg(here.join("tests/archive/calls.c"))
        .arg("-o")
        .arg(&object));
    let mut link = Command::new(tools.join("bin/rattle-link"));
    link.args(["--target", "x86_64-unknown-linux-gnu", "--toolchain"]);
    run(link
        .arg(tools.join("toolchain"))
        .arg("-o")
        .args([&program, &object, &archive]));
    program
}

/// What runs a program for x86-64 here: nothing more on such a machine, an emulator elsewhere.
fn emulator(tools: &Path) -> Option<Vec<PathBuf>> {
    if ARCH == "x86_64" {
        return Some(Vec::new());
    }
    let path = std::env::var_os("PATH").unwrap_or_default();
    let mut places = vec![tools.join("toolchain/bin")];
    places.extend(std::env::split_paths(&path));
    let names = ["qemu-x86_64", "qemu-x86_64-static"];
    let all = places.iter().flat_map(|place| names.map(|n| place.join(n)));
    all.into_iter()
        .find(|path| path.is_file())
        .map(|found| vec![found])
}

/// The C program with the toolchain's own loader and C library.
fn program(tools: &Path, emulator: &[PathBuf], linked: &Path) -> Command {
    let library = tools.join("toolchain/lib");
    let mut words = emulator.to_vec();
    words.push(library.join("ld-linux-x86-64.so.2"));
    let mut command = Command::new(&words[0]);
    command.args(&words[1..]).arg("--library-path");
    command.arg(library).arg(linked);
    command
}

/// What a program has written, taken piece by piece.
struct Written<'a>(&'a [u8]);

impl Written<'_> {
    fn take<const N: usize>(&mut self) -> [u8; N] {
        let (first, rest) = self.0.split_first_chunk().expect("more bytes");
        self.0 = rest;
        *first
    }

    fn number(&mut self) -> u64 {
        u64::from_le_bytes(self.take())
    }

    /// So many words of 16 bits.
    fn halves(&mut self, count: u64) -> Vec<u16> {
        (0..count)
            .map(|_| u16::from_le_bytes(self.take()))
            .collect()
    }

    /// A call's answer and the network behind it, as a script has them.
    fn outcome(&mut self, call: &Call) -> String {
        let answer = answer(self.number());
        let [words, tokens, things, room] = [(); 4].map(|()| self.number());
        let state: Vec<u32> = (0..words)
            .map(|_| u32::from_le_bytes(self.take()))
            .collect();
        let [memory, lines] = [tokens, things].map(|count| self.halves(count));
        let results: Vec<u64> = (0..room).map(|_| self.number()).collect();
        let answer = match (call, answer) {
            (Call::Steps { .. }, Answer::Done) => {
                Answer::Results(results.into_iter().map(crate::answer).collect())
            }
            (_, refused) => {
                assert!(results.iter().all(|result| *result == UNWRITTEN), "{call}");
                refused
            }
        };
        let looks = Looks::over(&state, &memory, &lines);
        let digest = if words == 0 { 0 } else { looks.digest() };
        format!("{answer} # {digest:016x}")
    }
}

/// What the C program has in results before a list is made.
const UNWRITTEN: u64 = 0xDEAD;

fn answer(number: u64) -> Answer {
    let answer = bench::Answer::from_crossed(number);
    answer.expect("an answer").into()
}

/// Makes a script's calls on both, and answers how many there were.
fn same(command: &mut Command, script: &Path, room: &Path) -> usize {
    let text = fs::read_to_string(script).expect("a script");
    let lines = script::parse(&text).expect("calls");
    let calls: String = lines.iter().map(|each| line(&each.call)).collect();
    let (asked, said) = (room.join("asked"), room.join("said"));
    fs::write(&asked, calls).expect("a file");
    command.stdin(File::open(asked).expect("a file"));
    command.stdout(File::create(&said).expect("a file"));
    assert!(command.status().expect("a run").success(), "{script:?}");
    let said = fs::read(said).expect("what it wrote");
    let (mut written, mut host) = (Written(&said), Host::default());
    for each in &lines {
        let made = host.make(each.number, each.call.clone());
        assert_eq!(
            written.outcome(&each.call),
            made.found.to_string(),
            "{script:?}: {made}"
        );
    }
    assert!(written.0.is_empty());
    lines.len()
}

#[test]
fn the_archive_answers_as_the_library_here() {
    if ARCH == "x86_64" {
        left_out(
            "library-other (the library compiled for a processor that is not x86-64: this one is)",
        );
    }
    let tools = tools();
    let Some(emulator) = emulator(&tools) else {
        return left_out("archive-x86-64 (no qemu-x86_64 on this machine)");
    };
    if ARCH != "x86_64" && !archive().is_file() {
        return left_out("archive-x86-64 (no build for x86-64 was made here)");
    }
    let room = Path::new(env!("CARGO_TARGET_TMPDIR")).join("archive");
    fs::create_dir_all(&room).expect("a folder");
    let linked = linked(&tools, &room);
    let scripts = scripts_in("scripts")
        .into_iter()
        .chain(scripts_in("../../examples/traces"));
    let calls: usize = scripts
        .map(|script| same(&mut program(&tools, &emulator, &linked), &script, &room))
        .sum();
    assert!(calls > 500, "{calls}");
}
