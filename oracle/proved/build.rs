//! Finds the static library of the crate `book`, where it is asked for: in the folder `$SIGNAL_BOOK_STATICLIB`, else where
//! `tools/staticlib` writes it. That of `lower` is found by the crate `signal-book`.

use std::path::PathBuf;
use std::{env, process};

fn main() {
    println!("cargo:rerun-if-env-changed=SIGNAL_BOOK_STATICLIB");
    if env::var_os("CARGO_FEATURE_READING").is_none() {
        return;
    }
    let root = PathBuf::from(env::var("CARGO_MANIFEST_DIR").unwrap()).join("../..");
    let folder = env::var_os("SIGNAL_BOOK_STATICLIB").map_or(root.join("target/staticlib"), PathBuf::from);
    let archive = folder.join("libbook.a");
    println!("cargo:rerun-if-changed={}", archive.display());
    if !archive.is_file() {
        eprintln!("target/staticlib/libbook.a is not there: run `tools/staticlib book` in the root of the repository");
        process::exit(1);
    }
    println!("cargo:rustc-link-search=native={}", folder.display());
    println!("cargo:rustc-link-lib=static=book");
}
