//! Links the proved library's archive. LEVEECRUMB_LIB names another one.

use std::path::PathBuf;

fn main() {
    println!("cargo:rerun-if-changed=build.rs");
    println!("cargo:rerun-if-env-changed=LEVEECRUMB_LIB");
    let manifest = PathBuf::from(std::env::var_os("CARGO_MANIFEST_DIR").expect("cargo sets it"));
    let archive = match std::env::var_os("LEVEECRUMB_LIB") {
        Some(path) => PathBuf::from(path),
        None => manifest.join("../../target/staticlib/libleveecrumb.a"),
    };
    // Said here, because the compiler's own message does not tell how to write it.
    if !archive.is_file() {
        eprintln!(
            "{} is not there: `bin/install PREFIX` builds it",
            archive.display()
        );
        std::process::exit(1);
    }
    let name = archive
        .file_stem()
        .and_then(|stem| stem.to_str()?.strip_prefix("lib"));
    let name = name.expect("an archive is named libNAME.a");
    let folder = archive.parent().expect("a file stands in a folder");
    println!("cargo:rerun-if-changed={}", archive.display());
    println!("cargo:rustc-link-search=native={}", folder.display());
    println!("cargo:rustc-link-lib=static={name}");
}
