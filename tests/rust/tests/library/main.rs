//! The proved library, in another process: numbers, values, answers and every lent byte.

mod areas;
mod calls;
mod damage;
mod last;
mod refusals;
mod replays;
mod runs;
mod samples;

use second::library::Library;
use second::process::Process;
use std::cell::RefCell;

thread_local! {
    /// A test has a thread, and so a process, of its own.
    static PROCESS: RefCell<Process> = RefCell::new(Process::start());
}

/// Hands the library out, for some calls.
fn with_library<T>(calls: impl FnOnce(&mut dyn Library) -> T) -> T {
    PROCESS.with_borrow_mut(|process| calls(process))
}
