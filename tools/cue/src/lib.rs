//! From clang's text to the lines of a stack machine: [`read()`] makes typed functions of the text, [`run()`] does all of
//! the work on bytes in memory.
mod alike;
pub mod files;
mod lines;
pub mod pieces;
pub mod read;
mod run;

pub use read::{read, Fault, Unit};
pub use run::{run, Options, Outcome, Stats};
