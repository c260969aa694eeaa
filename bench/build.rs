//! Compiles plain.c with gcc -O3, or with the compiler that CC names, and
//! openssl.c too where OpenSSL's headers and library are installed.

use std::env;
use std::path::Path;
use std::process::{Command, Stdio};

fn main() {
    println!("cargo:rerun-if-changed=plain.c");
    println!("cargo:rerun-if-changed=plain");
    println!("cargo:rerun-if-changed=openssl.c");
    println!("cargo:rustc-check-cfg=cfg(openssl)");
    println!("cargo:rerun-if-env-changed=CC");
    let folder = env::var("OUT_DIR").expect("cargo sets OUT_DIR");
    let folder = Path::new(&folder);
    run(&mut compilation("plain.c", &folder.join("plain.o")));
    archive(folder, "plain");
    println!("cargo:rustc-link-search=native={}", folder.display());
    if has_openssl(folder) {
        archive(folder, "openssl");
        println!("cargo:rustc-link-lib=dylib=crypto");
        println!("cargo:rustc-cfg=openssl");
    }
}

/// Whether openssl.c could be compiled and linked.
fn has_openssl(folder: &Path) -> bool {
    let compiled = compilation("openssl.c", &folder.join("openssl.o"))
        .stderr(Stdio::null())
        .status();
    let linked = Command::new(compiler())
        .args(["-shared", "-o"])
        .arg(folder.join("openssl.so"))
        .arg(folder.join("openssl.o"))
        .arg("-lcrypto")
        .stderr(Stdio::null())
        .status();
    [compiled, linked]
        .iter()
        .all(|status| status.as_ref().is_ok_and(|status| status.success()))
}

/// The compilation of a file to an object.
fn compilation(source: &str, object: &Path) -> Command {
    let mut command = Command::new(compiler());
    command
        .args(["-std=c11", "-Wall", "-Wextra", "-O3", "-fPIC", "-c"])
        .arg(source)
        .arg("-o")
        .arg(object);
    command
}

fn compiler() -> String {
    env::var("CC").unwrap_or(String::from("gcc"))
}

/// Makes the archive of an object and has it linked.
fn archive(folder: &Path, name: &str) {
    let library = folder.join(format!("lib{name}.a"));
    let object = folder.join(format!("{name}.o"));
    run(Command::new("ar").arg("crs").arg(library).arg(object));
    println!("cargo:rustc-link-lib=static={name}");
}

/// Runs a command that must succeed.
fn run(command: &mut Command) {
    match command.status() {
        Ok(status) if status.success() => {}
        Ok(status) => panic!("{command:?}: {status}"),
        Err(error) => panic!("{command:?}: {error}"),
    }
}
