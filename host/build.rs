//! Tells the linker where the static library lies.

use std::env;
use std::path::PathBuf;

fn main() {
    let here = PathBuf::from(env::var("CARGO_MANIFEST_DIR").expect("cargo sets this"));
    let given = env::var("ZEFRWYLL_LIB_DIR").unwrap_or_else(|_| "../crates/hostcall/out".to_string());
    // A relative folder counts from this package.
    let folder = here.join(given);
    let archive = folder.join("libhostcall.a");
    println!("cargo:rustc-link-search=native={}", folder.display());
    println!("cargo:rustc-link-lib=static=hostcall");
    println!("cargo:rerun-if-env-changed=ZEFRWYLL_LIB_DIR");
    println!("cargo:rerun-if-changed={}", archive.display());
    println!("cargo:rerun-if-changed=build.rs");
}
