//! The C example compiles without a warning against the header and the linked
//! libraries, and prints what it should.

use std::env;
use std::path::{Path, PathBuf};
use std::process::Command;

fn bindings() -> PathBuf {
    Path::new(env!("CARGO_MANIFEST_DIR")).join("..")
}

fn libraries() -> [PathBuf; 2] {
    let folder = option_env!("DOPPELBLOCK_LIB_DIR")
        .map_or_else(|| bindings().join("../target/staticlib"), PathBuf::from);
    ["libdoppelblock.a", "libdoppelblock_classroom.a"].map(|library| folder.join(library))
}

#[test]
fn compiles_and_prints_the_expected_lines() {
    let program = Path::new(env!("CARGO_TARGET_TMPDIR")).join("c_example");
    let compiled = Command::new(env::var_os("CC").unwrap_or("cc".into()))
        .args([
            "-std=c11",
            "-Wall",
            "-Wextra",
            "-Wpedantic",
            "-Werror",
            "-o",
        ])
        .arg(&program)
        .arg(bindings().join("c/example.c"))
        .args(libraries())
        .status()
        .expect("a C compiler is at hand as `cc`");
    assert!(compiled.success(), "the C example does not compile");

    let ran = Command::new(&program).output().expect("the program starts");
    assert!(ran.status.success(), "the C example fails");
    assert_eq!(
        String::from_utf8_lossy(&ran.stdout),
        include_str!("../../example-output.txt")
    );
}
