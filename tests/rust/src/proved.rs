//! The proved program.

use crate::started::{command, repository};
use std::io::Write;

/// What the proved pathcheck prints for an input.
pub fn pathcheck(input: &[u8]) -> Vec<u8> {
    let program = repository().join("target/bin/pathcheck");
    assert!(
        program.is_file(),
        "{} is not there: `bin/pathcheck FILE` builds it",
        program.display()
    );
    let mut child = command(&program).spawn().expect("bin/run can be started");
    // The program may stop reading before the end. Its answer fits the pipe, so it waits for nobody.
    let _ = child.stdin.take().expect("it is piped").write_all(input);
    let output = child.wait_with_output().expect("its output can be read");
    assert!(output.status.success(), "pathcheck: {}", output.status);
    output.stdout
}
