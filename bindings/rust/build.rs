//! Links the libraries of the hall and of the classrooms, which bindings/build makes.

use std::path::{Path, PathBuf};
use std::{env, process};

const LIBRARIES: [&str; 2] = ["doppelblock", "doppelblock_classroom"];
const FOLDER: &str = "DOPPELBLOCK_LIB_DIR";

fn main() {
    let folder = folder();
    println!("cargo::rerun-if-env-changed={FOLDER}");
    println!("cargo::rerun-if-changed=build.rs");
    println!("cargo::rustc-link-search=native={}", folder.display());
    for name in LIBRARIES {
        let library = folder.join(format!("lib{name}.a"));
        println!("cargo::rerun-if-changed={}", library.display());
        if !library.is_file() {
            refuse(&library);
        }
        println!("cargo::rustc-link-lib=static={name}");
    }
}

/// The folder named by the environment, else the one that bindings/build writes to.
fn folder() -> PathBuf {
    match env::var_os(FOLDER) {
        Some(folder) => PathBuf::from(folder),
        None => Path::new(&env::var_os("CARGO_MANIFEST_DIR").expect("cargo sets this"))
            .join("../../target/staticlib"),
    }
}

fn refuse(library: &Path) -> ! {
    println!(
        "cargo::error=the engine's library is not at {}: run bindings/build first, \
         or name its folder in {FOLDER} (as an absolute path)",
        library.display()
    );
    process::exit(1);
}
