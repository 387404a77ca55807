//! Compiles the plain C loops, and links zlib for its crc32.

use std::path::PathBuf;
use std::process::Command;

fn run(command: &mut Command) {
    let status = command.status().unwrap_or_else(|error| panic!("{command:?}: {error}"));
    assert!(status.success(), "{command:?}: {status}");
}

fn main() {
    println!("cargo:rerun-if-changed=plain.c");
    println!("cargo:rerun-if-changed=build.rs");
    let out = PathBuf::from(std::env::var("OUT_DIR").expect("set by cargo"));
    let (object, archive) = (out.join("plain.o"), out.join("libplain.a"));
    run(Command::new("cc")
        .args(["-std=c99", "-O3", "-Wall", "-Wextra", "-c", "plain.c", "-o"])
        .arg(&object));
    run(Command::new("ar").arg("crs").arg(&archive).arg(&object));
    println!("cargo:rustc-link-search=native={}", out.display());
    println!("cargo:rustc-link-lib=static=plain");
    println!("cargo:rustc-link-lib=z");
}
