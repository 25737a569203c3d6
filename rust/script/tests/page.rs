//! The page of a run: that it is whole and needs nothing from outside, what its data say, and, where
//! the machine has a browser, what that shows.

mod common;

use std::collections::BTreeMap;
use std::path::{Path, PathBuf};
use std::process::{Command, Stdio};
use std::time::{Duration, Instant};

use bench::sizes::PORTS;
use common::json::Json;
use common::{bench, file, left_out, scripts_in, text};

/// The page of a script, which runs to its end.
fn page(path: &str) -> String {
    let output = bench(&["page", path]);
    assert!(output.status.success(), "{}", text(&output.stderr));
    text(&output.stdout)
}

fn examples() -> Vec<String> {
    let paths = scripts_in("../../examples");
    let paths = paths.iter().filter_map(|path| path.to_str());
    paths.map(str::to_owned).collect()
}

fn example(name: &str) -> String {
    let mut all = examples().into_iter();
    all.find(|path| path.ends_with(&format!("/{name}.txt")))
        .expect("an example")
}

/// What stands between two texts that are there once.
#[track_caller]
fn between<'a>(page: &'a str, before: &str, behind: &str) -> &'a str {
    assert_eq!(page.matches(before).count(), 1, "{before}");
    let (_, rest) = page.split_once(before).expect("once");
    rest.split_once(behind).expect("an end").0
}

fn data(page: &str) -> BTreeMap<String, Json> {
    let data = between(
        page,
        "<script type=\"application/json\" id=\"data\">",
        "</script>",
    );
    Json::read(data).object().clone()
}

/// A call of a page.
struct Shown {
    line: usize,
    call: String,
    answer: String,
    said: String,
    tone: String,
    changes: BTreeMap<String, Json>,
    crossed: Vec<Json>,
}

fn shown(data: &BTreeMap<String, Json>) -> Vec<Shown> {
    let calls = data["calls"].array().iter();
    let one = |call: &Json| {
        let parts = call.array();
        assert_eq!(parts.len(), 7);
        Shown {
            line: parts[0].number(),
            call: parts[1].text().to_owned(),
            answer: parts[2].text().to_owned(),
            said: parts[3].text().to_owned(),
            tone: parts[4].text().to_owned(),
            changes: parts[5].object().clone(),
            crossed: parts[6].array().to_vec(),
        }
    };
    calls.map(one).collect()
}

/// The parts of the state behind the last of these calls.
fn state(calls: &[Shown]) -> BTreeMap<String, Json> {
    let mut state = BTreeMap::new();
    for (name, part) in calls.iter().flat_map(|call| &call.changes) {
        match part {
            Json::Null => assert!(state.remove(name).is_some(), "{name} was not there"),
            part => assert_ne!(
                state.insert(name.clone(), part.clone()).as_ref(),
                Some(part)
            ),
        }
    }
    state
}

/// Elements that have no end.
const SINGLE: [&str; 3] = ["meta", "input", "!doctype"];

/// The page without the insides of its scripts and its style.
fn skeleton(page: &str) -> String {
    let mut text = page.to_owned();
    for (begin, end) in [("<style>", "</style>"), ("<script>", "</script>")] {
        let inside = between(page, begin, end);
        text = text.replace(inside, "");
    }
    let begin = "<script type=\"application/json\" id=\"data\">";
    text.replace(between(page, begin, "</script>"), "")
}

#[test]
fn the_page_is_whole() {
    for path in examples() {
        let page = page(&path);
        assert!(page.starts_with("<!doctype html>\n") && page.ends_with("</html>\n"));
        assert!(!page.contains("{{"), "a mark is left");
        let skeleton = skeleton(&page);
        let mut open = Vec::new();
        let mut ids = Vec::new();
        for tag in skeleton.split('<').skip(1) {
            let (tag, _) = tag.split_once('>').expect("the end of a tag");
            let name = tag.split_whitespace().next().expect("a name");
            match name.strip_prefix('/') {
                Some(closed) => assert_eq!(open.pop(), Some(closed), "{tag}"),
                None if SINGLE.contains(&name) => {}
                None => open.push(name),
            }
            ids.extend(tag.split_once(" id=\"").map(|(_, id)| id.split('"').next()));
        }
        assert!(open.is_empty(), "{open:?}");
        let count = ids.len();
        ids.sort();
        ids.dedup();
        assert_eq!(ids.len(), count, "an id twice");
    }
}

/// Every element that the page's own script asks for is there.
#[test]
fn the_script_finds_its_elements() {
    let page = page(&example("half-update"));
    let script = between(&page, "<script>\n", "</script>");
    let asked = script.split("byId(\"").skip(1);
    let asked: Vec<&str> = asked.filter_map(|rest| rest.split('"').next()).collect();
    assert!(asked.len() > 20);
    for id in asked {
        assert_eq!(page.matches(&format!(" id=\"{id}\"")).count(), 1, "{id}");
    }
}

#[test]
fn nothing_comes_from_outside() {
    for path in examples() {
        let page = page(&path).to_lowercase();
        let namespace = "http://www.w3.org/2000/svg";
        let page = page.replace(namespace, "");
        #[rustfmt::skip]
        let outside = [
            "http:", "https:", "src=", "href", "url(", "@import", "<link", "<img", "<iframe", "fetch(",
            "import(", "xmlhttprequest", "eval(", "innerhtml",
        ];
        for word in outside {
            assert!(!page.contains(word), "{word} in {path}");
        }
        let policy = "default-src 'none'; style-src 'unsafe-inline'; script-src 'unsafe-inline'";
        assert!(page.contains(policy), "and the browser is told so");
    }
}

/// The calls are those of the trace, each with a sentence, and each under its line of the script.
#[test]
fn the_calls_are_the_run() {
    for path in examples() {
        let data = data(&page(&path));
        let calls = shown(&data);
        let trace = text(&bench(&["run", &path]).stdout);
        let trace = trace.lines().skip(1).map(|line| line.split(" # ").next());
        let found = calls
            .iter()
            .map(|it| format!("{} -> {}", it.call, it.answer));
        let trace: Vec<String> = trace.flatten().map(str::to_owned).collect();
        assert_eq!(found.collect::<Vec<_>>(), trace, "{path}");
        let script = std::fs::read_to_string(&path).expect("a script");
        let script: Vec<&str> = script.lines().collect();
        for call in &calls {
            assert!(
                !call.said.is_empty() && !call.said.contains('\n'),
                "{}",
                call.call
            );
            let line = data["lines"].array()[call.line].array();
            assert_eq!(script[line[0].number() - 1], line[1].text());
        }
        assert_eq!(data["more"].number(), 0);
    }
}

/// Behind the last call the parts are what the looks show.
#[test]
fn the_last_state_is_the_network() {
    for path in examples() {
        let state = state(&shown(&data(&page(&path))));
        let script = std::fs::read_to_string(&path).expect("a script");
        let host = script::run(&script, |_| Ok(())).expect("a run");
        let looks = host.looks();
        assert_eq!(state["n"].number(), looks.nodes());
        for slot in 0..looks.nodes() {
            let node = looks.node(slot);
            let board = state[&format!("b{slot}")].array();
            assert_eq!(board[0].number() as u32, node.number);
            assert_eq!(board[1].number() as u32, node.width);
            for port in 0..PORTS {
                let seen = looks.port(slot, port);
                let part = state.get(&format!("p{slot}.{port}"));
                assert_eq!(part.is_some(), seen.held > 0 || seen.hop().is_some());
                let circuit = part.map(|part| part.array()[0] != Json::Null);
                assert_eq!(circuit.unwrap_or(false), seen.hop().is_some(), "{path}");
            }
        }
        let shown = text(&bench(&["show", &path]).stdout);
        let waits = shown.lines().filter(|line| line.contains(": waits "));
        let parts = state.keys().filter(|name| name.starts_with('w'));
        assert_eq!(parts.count(), waits.count(), "{path}");
    }
}

/// The place of the first call that answers so.
fn first(calls: &[Shown], answer: &str) -> usize {
    let found = calls.iter().position(|call| call.answer == answer);
    found.expect("such an answer")
}

/// A circuit has one number all the way: the lane's, which the hub refuses, is the lane's at the hub.
#[test]
fn a_circuit_has_one_colour() {
    let calls = shown(&data(&page(&example("half-update"))));
    let at = first(&calls, "refused split");
    assert_eq!(calls[at].tone, "bad");
    let state = state(&calls[..=at]);
    let circuit = |name: &str| state[name].array()[0].number();
    assert_eq!(circuit("p0.0"), circuit("p1.8"));
    let crossed: Vec<String> = calls[..at]
        .iter()
        .flat_map(|call| &call.crossed)
        .map(|token| {
            let [slot, link, token] = token.array() else {
                panic!("a crossing");
            };
            ((slot.number(), link.number()), token.array()[1].text())
        })
        .filter(|(_, text)| !text.starts_with("CREDIT") && *text != "HELLO")
        .map(|(from, text)| {
            assert_eq!(from, (1, 0));
            text.to_owned()
        })
        .collect();
    assert_eq!(
        crossed,
        ["00", "00", "07"],
        "the header, over link A of lane 1"
    );
}

/// Two headers in one port: each hop has the number of the circuit that it was opened for.
#[test]
fn circuits_behind_each_other() {
    let two = "blank 2\nboard 1 number 1\ncable 0.A 1.A\nsend 0.0 to 1.7: END\n\
               send 0.1 to 1.8: END\nstep 0.8 5 times\nstep 0.9 5 times\n\
               line 0.A 8 times\nstep 1.A 4 times\n";
    let calls = shown(&data(&page(&file("page-two.txt", two))));
    let circuit_of = |name: &str| {
        let parts = calls.iter().filter_map(|call| call.changes.get(name));
        let parts = parts.filter_map(|part| match part {
            Json::Array(part) if part[0] != Json::Null => Some(part[0].number()),
            _ => None,
        });
        let mut found: Vec<usize> = parts.collect();
        found.dedup();
        found
    };
    assert_eq!(circuit_of("p0.8"), [0]);
    assert_eq!(circuit_of("p0.9"), [1]);
    assert_eq!(circuit_of("p1.0"), [0, 1]);
}

/// A list of Steps is one call; what it puts on a line crosses by line steps, one a call.
#[test]
fn a_list_of_steps() {
    let script = "blank 2\nboard 1 number 1\ncable 0.A 1.A\nsend 0.0 to 1.7: END\n\
                  steps 3 0 8 0 8 0 8\nline 0.A 2 times\nsteps 2 1 0 9 9\n";
    let calls = shown(&data(&page(&file("page-list.txt", script))));
    let [list, first, second, last] = calls.last_chunk().expect("four calls");
    assert_eq!(list.answer, "results opened link 0; moved; moved");
    let said = &list.said;
    assert!(said.contains("2 tokens moved: header 00.01"), "{said}");
    let crossed = [list, first, second, last].map(|call| call.crossed.len());
    assert_eq!(crossed, [0, 1, 1, 0]);
    let on_line = |call: &Shown| call.changes["l0.0"].array()[4].array().len();
    assert_eq!([list, first, second].map(on_line), [1, 1, 0]);
    let waits = ("results waiting; no 2", "bad");
    assert_eq!((last.answer.as_str(), last.tone.as_str()), waits);
}

/// What a script and a file are called cannot begin anything on the page.
#[test]
fn nothing_of_a_script_is_taken_for_the_page() {
    let evil = "</script><script>alert(1)</script><!-- \u{2028} \" \\ & \u{1b} ü";
    let script = format!("// {evil}\nfresh 1\nboard 0 number 1 // {evil}\n");
    let path = file("page-<b>&.txt", &script);
    let page = page(&path);
    assert_eq!(page.matches("</script>").count(), 2);
    assert!(!page.contains("<b>") && !page.contains("alert(1)</"));
    assert!(page.contains("page-&lt;b&gt;&amp;.txt</h1>"));
    let data = data(&page);
    let note = data["notes"].array()[0].array()[0].text();
    assert_eq!(note, evil);
}

#[test]
fn the_matrix_is_a_table() {
    for (name, arrived) in [("half-update", 4), ("head-before", 16)] {
        let page = page(&example(name));
        let table = between(&page, "<table>", "</table>");
        assert!(table.contains(&format!("<caption>{arrived} of 16 arrived</caption>")));
        assert_eq!(
            table.matches("<td class=\"good\">arrived</td>").count(),
            arrived
        );
        assert_eq!(
            table.matches("<td class=\"bad\">Split</td>").count(),
            16 - arrived
        );
        assert!(table.contains("<th scope=\"row\">lane1<small>number 1</small></th>"));
    }
}

/// Of a long run the first calls are shown, and how many more there were.
#[test]
fn a_long_run() {
    let steps = "step 0 8\n".repeat(5010);
    let data = data(&page(&file("page-long.txt", &format!("blank 1\n{steps}"))));
    assert_eq!(data["calls"].array().len(), script::page::MOST_CALLS);
    assert_eq!(data["more"].number(), 11);
}

/// The run up to a line that receives something else; of a script without a network nothing is asked.
#[test]
fn a_run_that_does_not_come_to_its_end() {
    let path = file(
        "page-differs.txt",
        "fresh 1\nboard 0 number 5\nreceive 0.7: 4\nsettle\n",
    );
    let output = bench(&["page", &path]);
    assert_eq!(output.status.code(), Some(1));
    let named = format!("{path}: line 3: input 0 7 data gives no 11, the line expects token 4\n");
    assert_eq!(text(&output.stderr), named);
    assert_eq!(shown(&data(&text(&output.stdout))).len(), 3);
    let empty = page(&file("page-empty.txt", "// nothing\nfresh 17\n"));
    assert!(!empty.contains("<table>"));
    let bad = bench(&["page", &file("page-bad.txt", "fresh 1\njump\n")]);
    assert_eq!(bad.status.code(), Some(2));
    assert!(bad.stdout.is_empty() && text(&bad.stderr).contains("line 2, column 1: expected "));
}

// ---- in a browser

/// A browser that can be started here.
fn browser() -> Option<PathBuf> {
    let path = std::env::var_os("PATH")?;
    let names = ["chromium", "chromium-browser", "google-chrome"];
    let places = names.iter().flat_map(|name| {
        let folders: Vec<PathBuf> = std::env::split_paths(&path).collect();
        folders.into_iter().map(move |folder| folder.join(name))
    });
    let mut found = places.filter(|place| place.is_file());
    found.find(|place| {
        let mut version = Command::new(place);
        let version = version
            .arg("--version")
            .stdout(Stdio::null())
            .stderr(Stdio::null());
        version.status().is_ok_and(|status| status.success())
    })
}

/// What a browser makes of a page that was loaded and then given these keys.
fn loaded(browser: &Path, name: &str, page: &str, keys: &[&str]) -> String {
    let keys: String = keys.iter().map(|key| format!("'{key}',")).collect();
    let typed = format!(
        "<script>for (const key of [{keys}]) document.dispatchEvent(new KeyboardEvent('keydown', {{ key }}));</script></body>"
    );
    let path = file(&format!("{name}.html"), &page.replace("</body>", &typed));
    let profile = Path::new(env!("CARGO_TARGET_TMPDIR")).join(format!("{name}-profile"));
    let dumped = file(&format!("{name}.dom"), "");
    let mut command = Command::new(browser);
    command.args([
        "--headless",
        "--no-sandbox",
        "--disable-gpu",
        "--no-first-run",
    ]);
    command.arg(format!("--user-data-dir={}", profile.display()));
    command.args([
        "--virtual-time-budget=5000",
        "--window-size=1366,900",
        "--dump-dom",
    ]);
    command.arg(format!("file://{path}"));
    let out = std::fs::File::create(&dumped).expect("a file");
    let mut child = command
        .stdout(out)
        .stderr(Stdio::null())
        .spawn()
        .expect("a browser");
    let begun = Instant::now();
    while child.try_wait().expect("an end").is_none() {
        if begun.elapsed() > Duration::from_secs(90) {
            child.kill().expect("an end");
            panic!("the browser does not come to its end");
        }
        std::thread::sleep(Duration::from_millis(50));
    }
    let _ = std::fs::remove_dir_all(profile);
    std::fs::read_to_string(dumped).expect("the page as it stands then")
}

/// The text of an element without its tags.
fn text_of(dom: &str, begins: &str, ends: &str) -> String {
    let inside = between(dom, begins, ends);
    let parts = inside.split('<');
    let first = parts.clone().take(1);
    let rest = parts
        .skip(1)
        .filter_map(|part| Some(part.split_once('>')?.1));
    first.chain(rest).collect()
}

/// That no script failed, and what is said of the call that the page stands at.
#[track_caller]
fn said_in(dom: &str) -> String {
    let trouble = text_of(
        dom,
        "<p id=\"trouble\" class=\"trouble\" role=\"alert\"",
        "</p>",
    );
    assert_eq!(trouble, " hidden=\"\">", "a script has failed");
    text_of(dom, "<p id=\"said\">", "</p>")
}

/// The hub refuses the lane's circuit: what is said, and what is drawn.
fn assert_at_the_split(dom: &str, count: usize, all: usize) {
    let why = "refused as Split: a header of three bytes, read at one byte";
    assert_eq!(said_in(dom), format!("hub, port 0 (in by link A): {why}"));
    let shown = text_of(dom, "<output id=\"count\" for=\"slider\">", "</output>");
    assert_eq!(shown, format!("{count} of {all}"));
    let times = |part: &str| dom.matches(part).count();
    assert_eq!(times("<section class=\"board"), 4);
    assert_eq!(times("<section class=\"board one\""), 1, "the hub's width");
    assert_eq!(
        times("<path d="),
        3 + 2,
        "three cables, and a way with its arrow"
    );
    assert_eq!(times("class=\"row lit refused\""), 1, "what has changed");
}

#[test]
fn a_browser_goes_through_it() {
    let Some(browser) = browser() else {
        return left_out("page-browser (no Chromium that starts on this machine)");
    };
    let made = page(&example("half-update"));
    let calls = shown(&data(&made));
    let split = first(&calls, "refused split") + 1;
    // Step by step to the Split, and the same by the key for the next refusal.
    let dom = loaded(&browser, "page-steps", &made, &vec!["ArrowRight"; split]);
    assert_at_the_split(&dom, split, calls.len());
    let dom = loaded(&browser, "page-next", &made, &["r"]);
    assert_at_the_split(&dom, split, calls.len());
    let made = page(&example("deadlock"));
    let dom = loaded(&browser, "page-end", &made, &["End", "PageUp", "PageDown"]);
    assert_eq!(
        said_in(&dom),
        "left, channel-end 1: holds nothing, as the line expects"
    );
    let waits = text_of(&dom, "<ul id=\"waits\">", "</ul>");
    let held = "waits for channel-end 0, which holds 8 tokens";
    assert_eq!(
        waits,
        format!("left, in by A: {held}right, in by A: {held}")
    );
}
