//! docs/src is what was published: the same files, the same bytes.

#[path = "../sha256.rs"]
mod sha256;

use std::collections::BTreeSet;
use std::fs;
use std::path::{Path, PathBuf};

fn published() -> PathBuf {
    Path::new(env!("CARGO_MANIFEST_DIR")).join("../../docs/src")
}

fn listed() -> Vec<(&'static str, &'static str)> {
    include_str!("../docs-src.sha256")
        .lines()
        .map(|line| line.split_once("  ").expect("checksum, two spaces, name"))
        .collect()
}

fn files_below(folder: &Path, prefix: &str) -> BTreeSet<String> {
    let mut names = BTreeSet::new();
    for entry in fs::read_dir(folder).expect("docs/src can be read") {
        let entry = entry.expect("docs/src can be read");
        let name = format!("{prefix}{}", entry.file_name().to_string_lossy());
        if entry.path().is_dir() {
            names.extend(files_below(&entry.path(), &format!("{name}/")));
        } else {
            names.insert(name);
        }
    }
    names
}

#[test]
fn sha256_of_known_texts() {
    assert_eq!(
        sha256::hex(b""),
        "e3b0c44298fc1c149afbf4c8996fb92427ae41e4649b934ca495991b7852b855"
    );
    assert_eq!(
        sha256::hex(b"abc"),
        "ba7816bf8f01cfea414140de5dae2223b00361a396177a9cb410ff61f20015ad"
    );
    assert_eq!(
        sha256::hex(&[b'a'; 1000]),
        "41edece42d63e8d9bf515a9ba6932e1c20cbc9f5a5d134645adb5db1b9737ea3"
    );
}

#[test]
fn every_byte_is_as_published() {
    for (sum, name) in listed() {
        let bytes = fs::read(published().join(name)).expect("a listed file is there");
        assert_eq!(sha256::hex(&bytes), sum, "docs/src/{name}");
    }
}

#[test]
fn no_file_is_missing_or_added() {
    let listed: BTreeSet<String> = listed().iter().map(|(_, name)| name.to_string()).collect();
    assert_eq!(files_below(&published(), ""), listed);
}
