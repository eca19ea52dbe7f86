//! Programs for x86-64, started through bin/run: on this processor, or under an emulator on another.

use std::path::Path;
use std::process::{Command, Stdio};

/// The repository's folder.
pub fn repository() -> &'static Path {
    let above = Path::new(env!("CARGO_MANIFEST_DIR")).ancestors().nth(2);
    above.expect("this package is tests/rust")
}

/// A program that is written to and read from.
pub fn command(program: &Path) -> Command {
    let mut command = Command::new(repository().join("bin/run"));
    command.arg(program);
    command.stdin(Stdio::piped()).stdout(Stdio::piped());
    command
}
