//! Every stored file of sheets, images and answers is what its maker writes
//! today. A maker is a command of `tools/` that asks the oracle; it is run in
//! an empty folder, and what it writes there is compared byte for byte with
//! the repository's. Needs Python 3, as the makers do.

use std::collections::BTreeMap;
use std::fs;
use std::os::unix::fs::symlink;
use std::path::{Path, PathBuf};
use std::process::Command;

/// The commands that write stored files.
const MAKERS: &[&[&str]] = &[
    &["samples"],
    &["check-vectors"],
    &["lower-vectors"],
    &["image-vectors"],
    &["image-rows"],
    &["agreement-table", "stored"],
];

fn root() -> PathBuf {
    Path::new(env!("CARGO_MANIFEST_DIR")).join("..")
}

/// A file of the repository that holds sheets, images or answers, by its path.
fn is_stored(path: &str) -> bool {
    let parts: Vec<&str> = path.split('/').collect();
    match parts[..] {
        ["samples", _] => true,
        ["crates", _, "stdin" | "stdout" | "args"] => true,
        ["crates", _, "data", ..] => true,
        ["crates", "test_agreement" | "test_image", "specs", file] => {
            file.starts_with("Table") || file.starts_with("Refused")
        }
        _ => false,
    }
}

/// The paths of all files below a folder, from `base` on.
fn files(base: &Path, folder: &str, found: &mut Vec<String>) {
    for entry in fs::read_dir(base.join(folder)).expect(folder) {
        let entry = entry.unwrap();
        // what rt makes
        if entry.file_name() == "out" {
            continue;
        }
        let path = format!("{folder}/{}", entry.file_name().to_str().unwrap());
        if entry.file_type().unwrap().is_dir() {
            files(base, &path, found);
        } else {
            found.push(path);
        }
    }
}

/// The stored files below a folder that is laid out as the repository.
fn stored(base: &Path) -> Vec<String> {
    let mut found = Vec::new();
    files(base, "samples", &mut found);
    files(base, "crates", &mut found);
    found.retain(|path| is_stored(path));
    found.sort();
    found
}

/// An empty folder for a maker: the oracle where the makers look for it, and
/// the folders of all stored files.
fn empty(name: &str) -> PathBuf {
    let folder = Path::new(env!("CARGO_TARGET_TMPDIR")).join(name);
    let _ = fs::remove_dir_all(&folder);
    let oracle = folder.join("oracle/target/release/oracle");
    fs::create_dir_all(oracle.parent().unwrap()).unwrap();
    symlink(env!("CARGO_BIN_EXE_oracle"), oracle).unwrap();
    for path in stored(&root()) {
        fs::create_dir_all(folder.join(path).parent().unwrap()).unwrap();
    }
    folder
}

/// Run a maker and compare what it writes. The answer is the files that it wrote.
fn made_by(maker: &[&str]) -> Vec<String> {
    let (tool, rest) = maker.split_first().unwrap();
    let folder = empty(tool);
    let path = fs::canonicalize(root().join("tools").join(tool)).unwrap();
    let done = Command::new("python3")
        .arg(path)
        .args(rest)
        .current_dir(&folder)
        .output()
        .expect("python3");
    assert!(
        done.status.success(),
        "{tool}: {}",
        String::from_utf8_lossy(&done.stderr)
    );
    let mut made = Vec::new();
    files(&folder, "samples", &mut made);
    files(&folder, "crates", &mut made);
    for path in &made {
        let (fresh, kept) = (fs::read(folder.join(path)), fs::read(root().join(path)));
        let kept = kept.unwrap_or_else(|error| panic!("{tool} writes {path}: {error}"));
        assert!(
            fresh.unwrap() == kept,
            "{path} is not what tools/{tool} writes today"
        );
    }
    fs::remove_dir_all(&folder).unwrap();
    made
}

#[test]
fn stored_files_are_what_their_makers_write() {
    let mut makers: BTreeMap<String, &str> = BTreeMap::new();
    for maker in MAKERS {
        for path in made_by(maker) {
            if let Some(other) = makers.insert(path.clone(), maker[0]) {
                panic!("{path} has two makers: {other} and {}", maker[0]);
            }
        }
    }
    for path in stored(&root()) {
        assert!(makers.contains_key(&path), "{path} has no maker");
    }
}

/// Document 01 writes this line out.
#[test]
fn the_line_of_one_unit() {
    let stored = fs::read_to_string(root().join("crates/lower_unit/stdout")).unwrap();
    assert_eq!(stored, "1 0 0 0 0 0 0 0 0 0 1 1 2 0 0 0 0\n");
}
