//! Has the Rattle toolchain prove crate `host` and all it stands on, and links the static library
//! that comes of it. Cargo runs this again only where a crate or the toolchain has changed, the
//! library is kept for other builds of the same source, and the toolchain proves again only the
//! crates that have changed.
//!
//! `rt lib` in the crate's folder writes the library there, as `out/libhost.a`, for x86-64 or for
//! Arm, as it is asked: the proved functions are lowered once more for each.

use std::path::{Path, PathBuf};
use std::process::{Command, Output};
use std::time::Instant;
use std::{env, fs};

use kept::Kept;

#[path = "build/kept.rs"]
mod kept;

/// The crate that crosses, and so the library `libhost.a`.
const CRATE: &str = "host";

/// What a crate's proof and its code are made of, beside what rt keeps in `out`.
const PARTS: [&str; 3] = ["src", "specs", "proofs"];

fn main() {
    let root = repository();
    let sources = sources(&root, &kit());
    rerun_where_changed(&sources);
    let target = target();
    let kept = Kept::new(&root, &sources, &target);
    let begun = Instant::now();
    if kept.is_current() {
        say(&format!(
            "crate {CRATE}, proved and compiled for {target} before, is linked"
        ));
    } else {
        kept.clear();
        static_library(&root, &target, &kept.archive());
        kept.seal();
        let seconds = begun.elapsed().as_secs();
        say(&format!(
            "crate {CRATE} was proved by rt, compiled for {target} and linked ({seconds} s)"
        ));
    }
    let out = PathBuf::from(variable("OUT_DIR"));
    let archive = out.join(format!("lib{CRATE}.a"));
    fs::copy(kept.archive(), &archive).expect("the archive, copied for cargo");
    // The tests link it into C programs.
    println!("cargo:rustc-env=TARVELGYO_ARCHIVE={}", archive.display());
    println!("cargo:rustc-link-search=native={}", out.display());
    println!("cargo:rustc-link-lib=static={CRATE}");
}

/// Cargo shows nothing else of what a build script says.
fn say(what: &str) {
    println!("cargo:warning={what}");
}

/// The folder with `crates.txt`.
fn repository() -> PathBuf {
    let here = PathBuf::from(variable("CARGO_MANIFEST_DIR"));
    let root = here.join("../..").canonicalize().expect("the repository");
    assert!(
        root.join("crates.txt").is_file(),
        "no crates.txt in {root:?}"
    );
    root
}

/// Where the toolchain is: the page that `rt doc` names lies right in its folder.
fn kit() -> PathBuf {
    let said = run(Command::new("rt").arg("doc"));
    let page = String::from_utf8_lossy(&said.stdout).trim().to_owned();
    let home = Path::new(&page).parent();
    home.unwrap_or_else(|| panic!("rt doc named no page: {page}"))
        .to_owned()
}

/// What the toolchain calls the processor and system of this build.
fn target() -> String {
    let (system, processor) = (
        variable("CARGO_CFG_TARGET_OS"),
        variable("CARGO_CFG_TARGET_ARCH"),
    );
    assert!(
        system == "linux" && ["x86_64", "aarch64"].contains(&processor.as_str()),
        "the proved library is for Linux on x86-64 or Arm, and this build is for {}",
        variable("TARGET")
    );
    format!("{processor}-unknown-linux-gnu")
}

/// Has the crate proved, and the library for that target written.
fn static_library(root: &Path, target: &str, archive: &Path) {
    let folder = root.join("crates").join(CRATE);
    let mut rt = Command::new("rt");
    rt.args(["lib", "--target", target]);
    run(rt.current_dir(&folder));
    let written = folder.join(format!("out/lib{CRATE}.a"));
    fs::copy(written, archive).expect("the archive that rt wrote");
}

/// All that the library is made of: files, and folders with all that they hold.
fn sources(root: &Path, kit: &Path) -> Vec<PathBuf> {
    let crates = root.join("crates");
    let entries = fs::read_dir(&crates).unwrap_or_else(|e| panic!("{crates:?}: {e}"));
    let folders = entries.flatten().map(|entry| entry.path());
    let parts = folders.flat_map(|folder| PARTS.map(|part| folder.join(part)));
    let mut all: Vec<PathBuf> = parts.filter(|part| part.is_dir()).collect();
    all.sort();
    let here = root.join("rust/bench");
    all.extend([
        kit.join("KIT-ID"),
        root.join("crates.txt"),
        here.join("build.rs"),
        here.join("build"),
    ]);
    all
}

fn rerun_where_changed(sources: &[PathBuf]) {
    for path in sources {
        println!("cargo:rerun-if-changed={}", path.display());
    }
}

/// Runs a command to its end; where it fails, all that it said is the error.
fn run(command: &mut Command) -> Output {
    let ended = command.output();
    let ended = ended.unwrap_or_else(|e| panic!("{command:?} cannot be run: {e}"));
    if !ended.status.success() {
        let said = String::from_utf8_lossy(&ended.stdout);
        let errors = String::from_utf8_lossy(&ended.stderr);
        panic!("{command:?} failed, {}:\n{said}{errors}", ended.status);
    }
    ended
}

/// A variable that cargo sets for every build script.
fn variable(name: &str) -> String {
    env::var(name).unwrap_or_else(|e| panic!("{name}: {e}"))
}
