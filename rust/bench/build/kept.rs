//! The library that an earlier build has had proved and written, in `target/crossing`, so that the
//! builds of one source (debug, release, doc) have it proved once. The gate removes it.

use std::collections::hash_map::DefaultHasher;
use std::fs;
use std::hash::{Hash, Hasher};
use std::path::{Path, PathBuf};

/// The folder for a target, and what the library is to be made of.
pub struct Kept {
    folder: PathBuf,
    fingerprint: String,
}

impl Kept {
    pub fn new(root: &Path, sources: &[PathBuf], target: &str) -> Kept {
        let mut hasher = DefaultHasher::new();
        for path in sources {
            hash(path, &mut hasher);
        }
        Kept {
            folder: root.join("target/crossing").join(target),
            fingerprint: format!("{:016x}", hasher.finish()),
        }
    }

    pub fn archive(&self) -> PathBuf {
        self.folder.join("libhost.a")
    }

    fn stamp(&self) -> PathBuf {
        self.folder.join("stamp")
    }

    /// Is the library there, made of the very same?
    pub fn is_current(&self) -> bool {
        let found = fs::read_to_string(self.stamp());
        self.archive().is_file() && found.is_ok_and(|found| found == self.fingerprint)
    }

    /// Makes room for a library that is to be written anew.
    pub fn clear(&self) {
        let _ = fs::remove_dir_all(&self.folder);
        fs::create_dir_all(&self.folder).expect("a folder for the library");
    }

    /// The library has been written.
    pub fn seal(&self) {
        fs::write(self.stamp(), &self.fingerprint).expect("the library's stamp");
    }
}

/// Takes in a file's name and contents, or all that a folder has, in order.
fn hash(path: &Path, hasher: &mut DefaultHasher) {
    path.hash(hasher);
    if !path.is_dir() {
        let contents = fs::read(path).unwrap_or_else(|e| panic!("{path:?}: {e}"));
        return contents.hash(hasher);
    }
    let entries = fs::read_dir(path).unwrap_or_else(|e| panic!("{path:?}: {e}"));
    let mut paths: Vec<PathBuf> = entries.flatten().map(|entry| entry.path()).collect();
    paths.sort();
    for path in paths {
        hash(&path, hasher);
    }
}
