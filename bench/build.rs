//! The program `clearing` counts what is handed to memset: there, calls of it go to a function of ours first.

fn main() {
    println!("cargo:rerun-if-changed=build.rs");
    println!("cargo:rustc-link-arg-bin=clearing=-Wl,--wrap=memset");
}
