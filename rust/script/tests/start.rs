//! The script `bench` at the repository's root, in a repository of a few small files, with an `rt`
//! and a `cargo` that write down how they are called and make nothing but a command that says what
//! it was given.

use std::fs;
use std::io::Read;
use std::os::unix::fs::{symlink, PermissionsExt};
use std::path::{Path, PathBuf};
use std::process::{Child, Command, Output, Stdio};
use std::sync::{Mutex, MutexGuard, PoisonError};
use std::thread::sleep;
use std::time::{Duration, Instant};

/// `rt version`, and `rt lib` in a crate's folder: what it says of it. A crate whose file says `wrong`
/// is not proved; while there is a file `slow` it takes a minute.
const RT: &str = r#"#!/bin/sh
[ "$1" = version ] && { echo some-kit; exit; }
name=$(basename "$PWD")
echo "rt $* in $name" >>"$NOTES/calls"
[ ! -f "$NOTES/slow" ] || { echo "$$" >"$NOTES/running"; sleep 60; }
mkdir -p out
echo kept >>out/incremental
if grep -q wrong lib.txt; then
    echo "fn $name::some: not proved"
    echo "logic=not-proved"
    exit 1
fi
echo "logic=proved functions=1"
"#;

/// `cargo clean` and `cargo build`: the command is the repository's file `rust/main`, as a script.
const CARGO: &str = r#"#!/bin/sh
echo "cargo $1" >>"$NOTES/calls"
[ "$1" = build ] || exit 0
mkdir -p crates/host/out rust/target/release
: >crates/host/out/libhost.a
cp rust/main rust/target/release/bench
chmod +x rust/target/release/bench
"#;

const PROGRAM: &str = r#"#!/bin/sh
pwd
for word; do echo "<$word>"; done
exit 7
"#;

/// Held while a script is written and while a process is started: a file that one test has open for
/// writing, and a process that another test starts just then has too, cannot be executed.
static STARTING: Mutex<()> = Mutex::new(());

fn alone() -> MutexGuard<'static, ()> {
    STARTING.lock().unwrap_or_else(PoisonError::into_inner)
}

fn spawned(command: &mut Command) -> Child {
    let _alone = alone();
    command.stdout(Stdio::piped()).stderr(Stdio::piped());
    command.spawn().expect("a start")
}

fn output(command: &mut Command) -> Output {
    spawned(command).wait_with_output().expect("an end")
}

/// A repository that nothing has been built of, and the folder where its tools write their notes.
struct Clone {
    root: PathBuf,
}

impl Clone {
    fn new(name: &str) -> Clone {
        let root = Path::new(env!("CARGO_TARGET_TMPDIR")).join(name);
        let _ = fs::remove_dir_all(&root);
        let clone = Clone { root };
        let script = Path::new(env!("CARGO_MANIFEST_DIR")).join("../../bench");
        clone.executable("bench", &fs::read_to_string(script).expect("the script"));
        clone.executable("tools/rt", RT);
        clone.executable("tools/cargo", CARGO);
        clone.file(
            "crates.txt",
            "# some crates\nlow:\nother: low\nhigh: low io\nhost staticlib: high\nprogram: low\n",
        );
        // not .rt: rt takes every file of that name below a repository's root for one to be proved
        for name in ["low", "high", "host", "other", "program"] {
            clone.file(&format!("crates/{name}/lib.txt"), "fine\n");
        }
        clone.file("rust/main", PROGRAM);
        clone.file("elsewhere/a file.txt", "");
        clone
    }

    fn file(&self, name: &str, text: &str) -> PathBuf {
        let path = self.root.join(name);
        fs::create_dir_all(path.parent().expect("a folder")).expect("a folder");
        fs::write(&path, text).expect("a file");
        path
    }

    fn executable(&self, name: &str, text: &str) {
        let _alone = alone();
        let path = self.file(name, text);
        fs::set_permissions(path, fs::Permissions::from_mode(0o755)).expect("a script");
    }

    fn command(&self, words: &[&str]) -> Command {
        self.equipped(Command::new(self.root.join("bench")), words)
    }

    /// The script as one who can interrupt it starts it. Behind `nohup .. &` the tests themselves run
    /// with interrupts ignored, and a shell that begins so stays so.
    fn interruptible(&self) -> Command {
        let mut command = Command::new("env");
        command.arg("--default-signal=INT");
        command.arg(self.root.join("bench"));
        self.equipped(command, &[])
    }

    fn equipped(&self, mut command: Command, words: &[&str]) -> Command {
        let path = std::env::var("PATH").expect("a path");
        let tools = self.root.join("tools");
        command.args(words).current_dir(self.root.join("elsewhere"));
        command.env("PATH", format!("{}:{path}", tools.display()));
        command.env("NOTES", &tools).stdin(Stdio::null());
        command
    }

    fn start(&self, words: &[&str]) -> Output {
        output(&mut self.command(words))
    }

    /// What the tools were called for since they were last asked.
    fn calls(&self) -> Vec<String> {
        let path = self.root.join("tools/calls");
        let text = fs::read_to_string(&path).unwrap_or_default();
        let _ = fs::remove_file(path);
        text.lines().map(str::to_owned).collect()
    }
}

fn text(bytes: &[u8]) -> String {
    String::from_utf8_lossy(bytes).into_owned()
}

const ALL: [&str; 4] = [
    "rt lib in low",
    "rt lib in high",
    "cargo clean",
    "cargo build",
];

#[test]
fn the_first_start_builds_and_runs() {
    let clone = Clone::new("first");
    let said = clone.start(&["run", "a file.txt", "*", ""]);
    let errors = text(&said.stderr);
    assert_eq!(said.status.code(), Some(7), "{errors}");
    let here = clone.root.join("elsewhere").canonicalize().expect("a path");
    let expected = format!("{}\n<run>\n<a file.txt>\n<*>\n<>\n", here.display());
    assert_eq!(text(&said.stdout), expected);
    assert_eq!(clone.calls(), ALL);
    let told: Vec<&str> = errors
        .lines()
        .filter_map(|line| line.split_once(" of 3 crates proved: "))
        .filter_map(|(_, behind)| behind.split_once(", at "))
        .map(|(name, _)| name)
        .collect();
    assert_eq!(told, ["low", "high", "host"], "{errors}");
    for number in 1..=3 {
        assert!(
            errors.contains(&format!("bench: {number} of 3 crates proved: ")),
            "{errors}"
        );
    }
}

#[test]
fn a_second_start_builds_nothing() {
    let clone = Clone::new("second");
    clone.start(&[]);
    clone.calls();
    let said = clone.start(&["again"]);
    assert_eq!(said.status.code(), Some(7));
    assert!(text(&said.stdout).ends_with("<again>\n"));
    assert_eq!(text(&said.stderr), "");
    assert!(clone.calls().is_empty());
}

/// A file with other contents and its old time, a new file, a file less, and another command in its
/// place: each is built anew.
#[test]
fn what_has_changed_is_built_anew() {
    let clone = Clone::new("changed");
    clone.start(&[]);
    let main = clone.root.join("rust/main");
    let old = fs::metadata(&main).and_then(|data| data.modified());
    clone.file("rust/main", &PROGRAM.replace("exit 7", "exit 8"));
    let file = fs::File::options().write(true).open(&main).expect("a file");
    file.set_modified(old.expect("a time")).expect("its time");
    clone.calls();
    assert_eq!(clone.start(&[]).status.code(), Some(8));
    assert_eq!(clone.calls(), ALL);
    let added = clone.file("crates/low/more.txt", "");
    clone.start(&[]);
    assert_eq!(clone.calls(), ALL);
    fs::remove_file(added).expect("a file less");
    clone.start(&[]);
    assert_eq!(clone.calls(), ALL);
    clone.executable("rust/target/release/bench", "#!/bin/sh\n");
    assert_eq!(clone.start(&[]).status.code(), Some(8));
    assert_eq!(clone.calls(), ALL);
}

#[test]
fn what_is_not_proved_is_not_run() {
    let clone = Clone::new("unproved");
    clone.start(&[]);
    clone.file("crates/high/lib.txt", "wrong\n");
    clone.calls();
    for _ in 0..2 {
        let said = clone.start(&[]);
        assert_eq!(said.status.code(), Some(125));
        assert_eq!(text(&said.stdout), "");
        let errors = text(&said.stderr);
        assert!(errors.contains("fn high::some: not proved"), "{errors}");
        assert!(errors.contains("bench: the library is not proved"));
        assert_eq!(clone.calls(), ALL[..2]);
    }
    clone.file("crates/high/lib.txt", "fine\n");
    assert_eq!(clone.start(&[]).status.code(), Some(7));
}

/// A folder with links to some of a machine's tools.
fn links(folder: &Path, names: &[&str]) {
    fs::create_dir_all(folder).expect("a folder");
    let path = std::env::var_os("PATH").expect("a path");
    for name in names {
        let mut places = std::env::split_paths(&path).map(|place| place.join(name));
        let found = places.find(|place| place.is_file()).expect("a tool");
        symlink(found, folder.join(name)).expect("a link");
    }
}

#[test]
fn a_tool_that_is_missing_is_named() {
    let clone = Clone::new("missing");
    let tools = clone.root.join("few-tools");
    let few = ["bash", "cat", "dirname", "find", "readlink", "sha256sum"];
    links(&tools, &few);
    let said = output(clone.command(&[]).env("PATH", &tools));
    assert_eq!(said.status.code(), Some(125));
    let errors = text(&said.stderr);
    assert!(errors.contains("rt is not on the PATH"), "{errors}");
}

/// The number that a file has, once it is there.
fn awaited(path: &Path) -> String {
    let begun = Instant::now();
    while begun.elapsed() < Duration::from_secs(20) {
        let found = fs::read_to_string(path).unwrap_or_default();
        if found.ends_with('\n') {
            return found.trim().to_owned();
        }
        sleep(Duration::from_millis(20));
    }
    panic!("{path:?} is not there");
}

/// What a child that was told to end said, and its exit status.
fn interrupted(child: &mut Child) -> (String, Option<i32>) {
    let id = child.id().to_string();
    let told = output(Command::new("kill").args(["-INT", &id]));
    assert!(told.status.success());
    let status = child.wait().expect("an end");
    let mut errors = String::new();
    let mut pipe = child.stderr.take().expect("its errors");
    pipe.read_to_string(&mut errors).expect("text");
    (errors, status.code())
}

#[test]
fn an_interrupt_leaves_nothing_running_and_nothing_broken() {
    let clone = Clone::new("interrupted");
    let slow = clone.file("tools/slow", "");
    let mut child = spawned(&mut clone.interruptible());
    let tool = awaited(&clone.root.join("tools/running"));
    let (errors, status) = interrupted(&mut child);
    assert_eq!(status, Some(130), "{errors}");
    assert!(errors.contains("the next start goes on"), "{errors}");
    assert!(!Path::new("/proc").join(tool).exists());
    fs::remove_file(slow).expect("a file less");
    assert_eq!(clone.start(&[]).status.code(), Some(7));
}
