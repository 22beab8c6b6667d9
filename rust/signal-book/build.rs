//! Finds the archive of the proved library: in the folder that `$SIGNAL_BOOK_STATICLIB` names, else where `tools/staticlib lower`
//! writes it.

use std::path::PathBuf;
use std::{env, process};

/// Ends the build, with what to do.
fn stop(why: String) -> ! {
    eprintln!("signal-book: {why}");
    process::exit(1);
}

fn main() {
    println!("cargo:rerun-if-env-changed=SIGNAL_BOOK_STATICLIB");
    println!("cargo:rerun-if-changed=build.rs");
    let (arch, os) = (env::var("CARGO_CFG_TARGET_ARCH").unwrap(), env::var("CARGO_CFG_TARGET_OS").unwrap());
    if (arch.as_str(), os.as_str()) != ("x86_64", "linux") {
        stop(format!("the proved library is made for x86-64 Linux, and this build is for {arch} {os}"));
    }
    let root = PathBuf::from(env::var("CARGO_MANIFEST_DIR").unwrap()).join("../..");
    let folder = env::var_os("SIGNAL_BOOK_STATICLIB").map_or(root.join("target/staticlib"), PathBuf::from);
    let archive = folder.join("liblower.a");
    println!("cargo:rerun-if-changed={}", archive.display());
    if !archive.is_file() {
        stop(format!(
            "{} is not there: run `tools/staticlib lower` in the root of the repository, \
             or name the folder that has liblower.a in SIGNAL_BOOK_STATICLIB",
            archive.display()
        ));
    }
    println!("cargo:rustc-link-search=native={}", folder.display());
    println!("cargo:rustc-link-lib=static=lower");
}
