//! Links libmant.a from the folder MANT_LIB_DIR, or from target/staticlib of
//! the repository where that is not set. The latter is for x86-64. Where there
//! is none it only warns, since `cargo doc` and `cargo check` need none; what
//! links fails then.

use std::env;
use std::path::{Path, PathBuf};

const ELSEWHERE: &str = "libmant.a is for x86-64 Linux. On another processor: \
    `tools/build boards` in the repository, on x86-64, and MANT_LIB_DIR=../target/boards/TARGET, \
    which counts from its folder rust";

fn main() {
    let target = ["CARGO_CFG_TARGET_ARCH", "CARGO_CFG_TARGET_OS"]
        .map(|name| env::var(name).unwrap_or_default());
    let library = folder().join("libmant.a");
    println!("cargo:rerun-if-env-changed=MANT_LIB_DIR");
    println!("cargo:rerun-if-changed={}", library.display());
    println!("cargo:rustc-link-lib=static=mant");
    if target != ["x86_64", "linux"] && env::var_os("MANT_LIB_DIR").is_none() {
        println!("cargo:warning={ELSEWHERE}");
    } else if library.is_file() {
        println!("cargo:rustc-link-search=native={}", folder().display());
    } else {
        println!(
            "cargo:warning={} is not there: make it with `tools/build staticlib mant`, or set MANT_LIB_DIR to its folder",
            library.display()
        );
    }
}

/// The library's folder; one that is not absolute counts from the folder of
/// the workspace.
fn folder() -> PathBuf {
    let package = env::var_os("CARGO_MANIFEST_DIR").expect("cargo sets CARGO_MANIFEST_DIR");
    let folder = env::var_os("MANT_LIB_DIR").unwrap_or("../target/staticlib".into());
    Path::new(&package).join("..").join(folder)
}
