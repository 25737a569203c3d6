//! The same script on both sides, as text: the product has a reader of its own, and so has the
//! model. What they print is the same, and a line that one does not take the other does not take.

use compare::{asking, filling, runs};
use model::random::Random;
use model::runs::Runner;
use model::{Answer, Call, No};

/// What the command prints for a script.
fn run_library(text: &str) -> Result<String, script::Fault> {
    let mut printed = String::new();
    script::run(text, |made| {
        printed += &format!("{made}\n");
        Ok(())
    })?;
    Ok(printed)
}

fn as_script(calls: &[Call]) -> String {
    calls.iter().map(|call| format!("{call}\n")).collect()
}

/// Which Asks a trace is made with, its first line says: a comment to every reader.
fn without_remarks(text: &str) -> String {
    let lines = text.lines().filter(|line| !line.starts_with("//"));
    lines.map(|line| format!("{line}\n")).collect()
}

fn same_text(calls: &[Call]) -> usize {
    let text = as_script(calls);
    let library = run_library(&text).unwrap_or_else(|fault| panic!("{fault}"));
    let model = model::script::run(&text).unwrap_or_else(|fault| panic!("{fault}"));
    let [library, model] = [library, model].map(|text| without_remarks(&text));
    for (one, other) in library.lines().zip(model.lines()) {
        assert_eq!(one, other);
    }
    assert_eq!(library, model);
    assert_eq!(script::check(&model, |_| Ok(())).unwrap(), calls.len());
    assert_eq!(model::script::check(&library), Ok(calls.len()));
    calls.len()
}

#[test]
fn the_same_text_from_both_sides() {
    let random: usize = (0..60).map(|seed| same_text(&runs::calls(seed, 400))).sum();
    let filling: usize = (0..20)
        .map(|seed| same_text(&filling::calls(seed, 600)))
        .sum();
    let asking: usize = (0..10)
        .map(|seed| same_text(&asking::calls(seed, 2000)))
        .sum();
    println!("{} lines", random + filling + asking);
}

/// The scripts of a folder.
fn scripts_in(folder: &str) -> Vec<String> {
    let folder = format!("{}/{folder}", env!("CARGO_MANIFEST_DIR"));
    let entries = std::fs::read_dir(folder).expect("a folder of scripts");
    let paths = entries.map(|entry| entry.expect("a file").path());
    let scripts = paths.filter(|path| path.extension().is_some_and(|end| end == "txt"));
    scripts
        .map(|path| std::fs::read_to_string(path).expect("a script"))
        .collect()
}

/// The model agrees with what every script of a folder states.
fn model_agrees(folder: &str) {
    for text in scripts_in(folder) {
        let agree = model::script::check(&text);
        assert!(
            agree.as_ref().is_ok_and(|calls| *calls > 10),
            "{agree:?} of\n{text}"
        );
    }
}

/// What the scripts state of lists: the length of the results is the one refusal of a list, and the
/// refusals among its results are those of a Step.
#[test]
fn what_the_scripts_state_of_lists() {
    let mut lists = Vec::new();
    for text in scripts_in("../script/scripts") {
        let lines = model::script::parse(&text).expect("a script");
        let listed = lines
            .into_iter()
            .filter(|line| matches!(line.call, Call::Steps { .. }));
        lists.extend(listed.filter_map(|line| Some(line.stated?.answer)));
    }
    let of_step = [Answer::No(No::Unsound), Answer::No(No::NoSuch)];
    for answer in &lists {
        match answer {
            Answer::Results(each) => {
                let mut refusals = each.iter().filter(|it| matches!(it, Answer::No(_)));
                assert!(refusals.all(|it| of_step.contains(it)), "{answer}");
            }
            answer => assert_eq!(*answer, Answer::No(No::NoSuch)),
        }
    }
    let refused = lists.contains(&Answer::No(No::NoSuch));
    assert!(lists.is_empty() || refused, "no script states it");
}

/// The scripts that stand beside the command state what the model says too.
#[test]
fn the_model_agrees_with_the_scripts_beside_the_command() {
    model_agrees("../script/scripts");
}

/// So do the examples, the one with a switch message too.
#[test]
fn the_model_agrees_with_the_examples() {
    model_agrees("../../examples/traces");
}

/// Words to be put into lines.
#[rustfmt::skip]
const NAMES: [&str; 33] = [
    "fresh", "blank", "wire", "set", "aim", "output", "input", "step", "number", "width", "direction",
    "linkdirection", "network", "enable", "hello", "channel", "control", "data", "tile", "->", "#",
    "no", "done", "granted", "token", "opened", "link", "refused", "split", "//", "line", "lines", "moved",
];

/// Numbers at the edges, and what is nearly a number.
#[rustfmt::skip]
const NUMBERS: [&str; 17] = [
    "0", "1", "3", "8", "13", "0012", "255", "256", "0xFF", "0xff", "0X1", "0x", "-1", "+1",
    "4294967295", "4294967296", "18446744073709551616",
];

/// A line with one or two of its words changed, left out or added; mostly a number for a number.
fn damaged(random: &mut Random, line: &str, names: &[&'static str]) -> String {
    let mut words: Vec<&str> = line.split(' ').collect();
    for _ in 0..1 + random.below(2) {
        let place = random.below(words.len());
        let name = random.pick(names).unwrap_or("0");
        let number = random.pick(&NUMBERS).unwrap_or("0");
        let was_number = words[place].parse::<u64>().is_ok();
        match random.below(12) {
            0 if words.len() > 1 => drop(words.remove(place)),
            1 => words.insert(place, name),
            2 => words.insert(place, number),
            3 => words[place] = name,
            _ if was_number => words[place] = number,
            _ => {}
        }
    }
    words.join(if random.chance(90) { " " } else { "\t  " })
}

/// What the library's side reads a line as, written again; none where it is no call.
fn read_by_library(line: &str) -> Option<String> {
    let lines = script::parse(line).ok()?;
    let written = lines.iter().map(|line| match &line.stated {
        Some(stated) => format!("{} -> {stated}", line.call),
        None => line.call.to_string(),
    });
    Some(written.collect())
}

/// A start of before, which lends no memory for lines. The model still has networks whose tokens cross
/// at once; to the command it is no call.
fn lends_no_lines(line: &model::script::Line) -> bool {
    matches!(line.call, Call::Fresh { .. } | Call::Blank { .. })
}

fn read_by_model(line: &str) -> Option<String> {
    let lines = model::script::parse(line).ok()?;
    if lines.iter().any(lends_no_lines) {
        return None;
    }
    let written = lines.iter().map(|line| match &line.stated {
        Some(stated) => format!("{} -> {stated}", line.call),
        None => line.call.to_string(),
    });
    Some(written.collect())
}

#[test]
fn both_take_the_same_lines_and_no_others() {
    let (mut taken, mut not_taken) = (0, 0);
    for seed in 0..60 {
        let mut random = Random::new(seed ^ 0x11E5);
        let mut runner = Runner::by_line(seed);
        for _ in 0..400 {
            let (call, found) = runner.call();
            let line = damaged(&mut random, &format!("{call} -> {found}"), &NAMES);
            let read = read_by_library(&line);
            assert_eq!(read, read_by_model(&line), "{line}");
            match read {
                Some(_) => taken += 1,
                None => not_taken += 1,
            }
        }
    }
    println!("{taken} lines taken, {not_taken} not");
    assert!(taken > 1000 && not_taken > 1000);
}

/// Lists as text: run on both sides, checked by each against the other's.
#[test]
fn lists_are_the_same_text_from_both_sides() {
    let makers = [runs::calls_with_lists, asking::calls_with_lists];
    let runs = (0..20).flat_map(|seed| makers.map(|calls| calls(seed, 300)));
    let lines: usize = runs.map(|calls| same_text(&calls)).sum();
    assert!(lines > 10_000);
}

/// Words to be put into lines that have lists.
#[rustfmt::skip]
const LIST_NAMES: [&str; 10] = [
    "steps", "results", "moved;", "idle;", "idle", ";", "results;", "2;", "done", "no",
];

#[test]
fn both_take_the_same_lists_and_no_others() {
    let (mut taken, mut not_taken) = (0, 0);
    for seed in 0..60 {
        let mut random = Random::new(seed ^ 0x1157);
        let mut runner = Runner::by_line(seed).and_lists();
        let made = (0..400).map(|_| runner.call());
        let lists = made.filter(|(call, _)| matches!(call, Call::Steps { .. }));
        for (call, found) in lists {
            let line = damaged(&mut random, &format!("{call} -> {found}"), &LIST_NAMES);
            let read = read_by_library(&line);
            assert_eq!(read, read_by_model(&line), "{line}");
            match read {
                Some(_) => taken += 1,
                None => not_taken += 1,
            }
        }
    }
    println!("{taken} lists taken, {not_taken} not");
    assert!(taken > 1000 && not_taken > 1000);
}

/// The first line that the model does not read, or that is a start of before.
fn first_unread_by_model(text: &str) -> Option<usize> {
    match model::script::parse(text) {
        Ok(lines) => lines
            .iter()
            .find(|line| lends_no_lines(line))
            .map(|it| it.number),
        Err(model::script::Fault::Unreadable { line, .. }) => {
            let before: Vec<&str> = text.lines().take(line - 1).collect();
            first_unread_by_model(&before.join("\n")).or(Some(line))
        }
        Err(other) => panic!("{other}"),
    }
}

/// Both name the same line as the first that is none.
#[test]
fn both_name_the_same_line() {
    let mut random = Random::new(7);
    for seed in 0..200 {
        let calls = runs::calls(seed % 20, 40);
        let mut lines: Vec<String> = calls.iter().map(Call::to_string).collect();
        let place = random.below(lines.len());
        lines[place] = damaged(&mut random, &lines[place], &NAMES);
        let text = lines.join("\n");
        let library = script::parse(&text).map_err(|bad| bad.line);
        assert_eq!(library.err(), first_unread_by_model(&text), "{text}");
    }
}
