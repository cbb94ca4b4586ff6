//! Takes the published files from docs/src, refuses to build if a byte of them
//! changed, and hands copies to the compiler. Two copies get an addition: a
//! reader for the private candidate table, and one for the private subsets.

#[path = "sha256.rs"]
mod sha256;

use std::path::{Path, PathBuf};
use std::{env, fs, process};

/// What the calls under comparison need; the other solvers are not built.
const MODULES: [&str; 5] = ["backtrack", "grid", "queue_solver", "recorder", "solver"];

const TABLE_READER: &str = "
// ── Added by oracle/rublock/build.rs; not part of the published file ──────────

impl<const N: usize, R: Recorder> QueueSolverState<N, R> {
    pub fn domains(&self) -> &[[CellDomain; N]; N] {
        &self.domains
    }
}
";

const SUBSET_READER: &str = "
// ── Added by oracle/rublock/build.rs; not part of the published file ──────────

/// The size and the mask of each set of digits with this sum, as they are visited.
pub fn subsets_of_sum(num_digits: usize, sum: usize) -> Vec<(usize, CellDomain)> {
    Tables::build(num_digits).valid_tuples_for_target(sum).collect()
}
";

fn main() {
    let here = PathBuf::from(env::var_os("CARGO_MANIFEST_DIR").expect("cargo sets this"));
    let out = PathBuf::from(env::var_os("OUT_DIR").expect("cargo sets this"));
    let published = here.join("../../docs/src");
    let list = here.join("docs-src.sha256");
    for path in [&published, &list, &here.join("sha256.rs")] {
        println!("cargo::rerun-if-changed={}", path.display());
    }
    println!("cargo::rerun-if-changed=build.rs");

    if let Err(message) = check(&published, &list).and_then(|()| copy(&published, &out)) {
        println!("cargo::error={message}");
        process::exit(1);
    }
}

/// Every listed file has its listed checksum.
fn check(published: &Path, list: &Path) -> Result<(), String> {
    for line in read(list)?.lines() {
        let (sum, name) = line.split_once("  ").ok_or("docs-src.sha256 is damaged")?;
        let path = published.join(name);
        let bytes = fs::read(&path).map_err(|e| format!("{}: {e}", path.display()))?;
        if sha256::hex(&bytes) != sum {
            return Err(format!(
                "docs/src/{name} is not the published file: its SHA-256 differs from docs-src.sha256"
            ));
        }
    }
    Ok(())
}

fn copy(published: &Path, out: &Path) -> Result<(), String> {
    let mut modules = String::new();
    for name in MODULES {
        let mut text = read(&published.join(format!("src/{name}.rs")))?;
        match name {
            "queue_solver" => text.push_str(TABLE_READER),
            "solver" => text.push_str(SUBSET_READER),
            _ => {}
        }
        let copy = out.join(format!("{name}.rs"));
        write(&copy, &text)?;
        modules.push_str(&format!("#[path = {copy:?}]\npub mod {name};\n"));
    }
    write(&out.join("modules.rs"), &modules)
}

fn read(path: &Path) -> Result<String, String> {
    fs::read_to_string(path).map_err(|e| format!("{}: {e}", path.display()))
}

fn write(path: &Path, text: &str) -> Result<(), String> {
    fs::write(path, text).map_err(|e| format!("{}: {e}", path.display()))
}
