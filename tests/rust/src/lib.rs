//! A second, plain implementation of the specification, written to be compared with the first.
//!
//! `policy` loads the text (`lines`), `model` is the model as the specification words it, `tables` is the same
//! model worked out into arrays, `search` goes over them; `ask` and `replay` are the calls, `layout` is what
//! they leave in a store, `pathcheck` is the program. `plain` and `finite` check the search in two further ways.
//! `library` has the proved library's calls, over `lent` areas, `process` makes them in another process;
//! `against` holds them to the calls above. `proved` runs the proved program; both are `started` through
//! bin/run.
//! `frames`, `load_cases`, `large`, `clock` and, with `random` numbers, `generator` make texts, `samples` whole
//! inputs of the program.

pub mod against;
pub mod ask;
pub mod clock;
pub mod finite;
pub mod frames;
pub mod generator;
pub mod large;
pub mod layout;
pub mod lent;
pub mod library;
pub mod lines;
pub mod load_cases;
pub mod model;
pub mod pathcheck;
pub mod plain;
pub mod policy;
pub mod process;
pub mod proved;
pub mod random;
pub mod replay;
pub mod samples;
pub mod search;
pub mod started;
pub mod tables;
