//! Links the library under test. RNT_LIB names another archive, or is `none`:
//! then nothing is linked and the reference stands in for the library, which
//! serves its unit tests and compares nothing.

use std::path::{Path, PathBuf};

fn main() {
    println!("cargo:rerun-if-env-changed=RNT_LIB");
    println!("cargo:rustc-check-cfg=cfg(reference_only)");
    let root = PathBuf::from(std::env::var("CARGO_MANIFEST_DIR").expect("set by cargo"));
    let library = match std::env::var("RNT_LIB") {
        Ok(name) if name == "none" => {
            println!("cargo:rustc-cfg=reference_only");
            return;
        }
        Ok(name) => PathBuf::from(name),
        Err(_) => root.join("../../target/staticlib/libexports.a"),
    };
    println!("cargo:rerun-if-changed={}", library.display());
    let library = library.canonicalize().unwrap_or_else(|error| {
        panic!(
            "{}: {error}. Write it with tools/staticlib.sh, or set RNT_LIB to another \
             archive, or to `none` for the reference alone.",
            library.display()
        )
    });
    let name = library
        .file_stem()
        .and_then(|stem| stem.to_str())
        .expect("a library name");
    let name = name.strip_prefix("lib").expect("a file name that starts with lib");
    let folder = library.parent().unwrap_or(Path::new("."));
    println!("cargo:rustc-link-search=native={}", folder.display());
    println!("cargo:rustc-link-lib=static={name}");
}
