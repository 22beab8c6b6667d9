//! Copies the source of the lowering, unchanged, into `source/`, which git ignores. To `lower.rs` it appends one line,
//! by which the harness becomes a module of it and so reaches its private functions.

use std::path::{Path, PathBuf};
use std::{env, fs, process};

/// Each file with the FNV-1a hash of its text at commit 0e0a971135: another text would be another oracle.
const FILES: [(&str, u64); 6] = [
    ("ast/mod.rs", 0xa439_9a57_cf8c_09cb),
    ("diagnostic.rs", 0xbd06_6a59_25a4_8612),
    ("ir/mod.rs", 0x565c_de89_e81d_a69a),
    ("ir/types.rs", 0x8931_476c_63bc_249e),
    ("lower.rs", 0x9d31_a0cb_02d3_5ec8),
    ("span.rs", 0xea37_b8a4_18fc_68eb),
];

const HARNESS: &str = "#[path = \"../src/harness/mod.rs\"] pub mod harness;\n";

fn main() {
    println!("cargo:rerun-if-env-changed=VEXIL_SRC");
    let here = PathBuf::from(env::var("CARGO_MANIFEST_DIR").unwrap());
    let from = source(&here.join("../..")).join("crates/vexil-lang/src");
    let to = here.join("source");
    for (name, hash) in FILES {
        let path = from.join(name);
        println!("cargo:rerun-if-changed={}", path.display());
        let mut text = fs::read(&path).unwrap_or_else(|e| stop(&format!("{}: {e}", path.display())));
        if fnv(&text) != hash {
            stop(&format!("{} is not the text of commit 0e0a971135 (hash {:#018x})", path.display(), fnv(&text)));
        }
        if name == "lower.rs" {
            text.extend_from_slice(HARNESS.as_bytes());
        }
        put(&to.join(name), &text);
    }
    println!("cargo:rerun-if-changed=source");
    println!("cargo:rerun-if-changed=shims/visit.rs");
    put(&to.join("ast/visit.rs"), &fs::read(here.join("shims/visit.rs")).unwrap());
}

/// Where the source is: `$VEXIL_SRC`, else the first of `docs/src` and `../shared/docs/src`, seen from the root of the
/// repository.
fn source(root: &Path) -> PathBuf {
    let given = env::var_os("VEXIL_SRC").map(PathBuf::from);
    let places = given.map_or(vec![root.join("docs/src"), root.join("../shared/docs/src")], |p| vec![p]);
    let there = |p: &PathBuf| p.join("crates/vexil-lang/src/lower.rs").is_file();
    places.into_iter().find(there).unwrap_or_else(|| {
        stop(
            "the source of the Vexil repository (commit 0e0a971135) is not here: set VEXIL_SRC to a folder that has \
             crates/vexil-lang/src/lower.rs, or put it at docs/src",
        )
    })
}

/// Writes a file, unless it already has that text.
fn put(path: &Path, text: &[u8]) {
    if fs::read(path).is_ok_and(|old| old == text) {
        return;
    }
    fs::create_dir_all(path.parent().unwrap()).unwrap();
    fs::write(path, text).unwrap();
}

fn fnv(text: &[u8]) -> u64 {
    text.iter().fold(0xcbf2_9ce4_8422_2325, |h, b| (h ^ *b as u64).wrapping_mul(0x0100_0000_01b3))
}

fn stop(why: &str) -> ! {
    eprintln!("{why}");
    process::exit(1)
}
