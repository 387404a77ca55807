//! Links the proved library: the archive that RNT_LIB names, or the one that
//! tools/staticlib.sh writes.

use std::path::{Path, PathBuf};

fn main() {
    println!("cargo:rerun-if-env-changed=RNT_LIB");
    let here = PathBuf::from(std::env::var("CARGO_MANIFEST_DIR").expect("set by cargo"));
    let library = match std::env::var("RNT_LIB") {
        Ok(name) => PathBuf::from(name),
        Err(_) => here.join("../../target/staticlib/libexports.a"),
    };
    println!("cargo:rerun-if-changed={}", library.display());
    let library = library.canonicalize().unwrap_or_else(|error| {
        panic!(
            "{}: {error}. Write it with tools/staticlib.sh, or set RNT_LIB to another archive.",
            library.display()
        )
    });
    let name = library
        .file_stem()
        .and_then(|stem| stem.to_str())
        .and_then(|stem| stem.strip_prefix("lib"))
        .expect("a file name that starts with lib");
    let folder = library.parent().unwrap_or(Path::new("."));
    println!("cargo:rustc-link-search=native={}", folder.display());
    println!("cargo:rustc-link-lib=static={name}");
}
