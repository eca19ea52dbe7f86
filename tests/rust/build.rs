//! Compiles tests/c/bridge.c, for x86-64, with the proved library's archive. LEVEECRUMB_LIB names another archive.

use std::path::{Path, PathBuf};
use std::process::{exit, Command};

const BRIDGE: &str = "tests/c/bridge.c";
const COMPILER: &str = "tests/c/compiler";

fn variable(name: &str) -> PathBuf {
    PathBuf::from(std::env::var_os(name).expect("cargo sets it"))
}

/// Ends the build with a message that says what is missing.
fn missing(message: &str) -> ! {
    eprintln!("{message}");
    exit(1)
}

/// The compiler for x86-64, as its script names it.
fn compiler(root: &Path) -> String {
    let script = root.join(COMPILER);
    let output = Command::new(&script).arg("gcc").output();
    let output = output.unwrap_or_else(|fault| missing(&format!("{}: {fault}", script.display())));
    let name = String::from_utf8(output.stdout).expect("a compiler's name is text");
    name.trim_end().to_string()
}

fn compile(root: &Path, archive: &Path, program: &Path) {
    let compiler = compiler(root);
    let status = Command::new(&compiler)
        .args(["-std=c99", "-O2", "-Wall", "-Wextra", "-Werror"])
        .args(["-pedantic", "-I"])
        .arg(root.join("include"))
        .arg(root.join(BRIDGE))
        .arg(archive)
        .arg("-o")
        .arg(program)
        .status();
    let fault = match status {
        Ok(status) if status.success() => return,
        Ok(status) => status.to_string(),
        Err(fault) => fault.to_string(),
    };
    missing(&format!(
        "{BRIDGE} is not compiled by {compiler}: {fault}. It needs Debian's package gcc or, on another \
         processor than x86-64, gcc-x86-64-linux-gnu and libc6-dev-amd64-cross"
    ));
}

fn main() {
    println!("cargo:rerun-if-changed=build.rs");
    println!("cargo:rerun-if-env-changed=LEVEECRUMB_LIB");
    let manifest = variable("CARGO_MANIFEST_DIR");
    let root = manifest.ancestors().nth(2);
    let root = root.expect("this package is tests/rust");
    let archive = match std::env::var_os("LEVEECRUMB_LIB") {
        Some(path) => PathBuf::from(path),
        None => root.join("target/staticlib/libleveecrumb.a"),
    };
    for file in [BRIDGE, COMPILER, "include/leveecrumb.h"] {
        println!("cargo:rerun-if-changed={}", root.join(file).display());
    }
    println!("cargo:rerun-if-changed={}", archive.display());
    if !archive.is_file() {
        let archive = archive.display();
        missing(&format!(
            "{archive} is not there: `bin/install PREFIX` builds it"
        ));
    }
    let program = variable("OUT_DIR").join("bridge");
    compile(root, &archive, &program);
    println!("cargo:rustc-env=LEVEECRUMB_BRIDGE={}", program.display());
}
