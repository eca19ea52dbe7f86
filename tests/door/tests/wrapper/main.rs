//! The wrapper, in this process: all that is tested of the library in another one, and what only it has.

#[path = "../../../rust/tests/library/areas.rs"]
mod areas;
#[path = "../../../rust/tests/library/calls.rs"]
mod calls;
#[path = "../../../rust/tests/library/damage.rs"]
mod damage;
#[path = "../../../rust/tests/library/last.rs"]
mod last;
#[path = "../../../rust/tests/library/refusals.rs"]
mod refusals;
#[path = "../../../rust/tests/library/replays.rs"]
mod replays;
#[path = "../../../rust/tests/library/runs.rs"]
mod runs;
#[path = "../../../rust/tests/library/samples.rs"]
mod samples;
mod slices;

use door::Door;
use second::library::Library;

/// Hands the library out, for some calls.
fn with_library<T>(calls: impl FnOnce(&mut dyn Library) -> T) -> T {
    calls(&mut Door)
}
