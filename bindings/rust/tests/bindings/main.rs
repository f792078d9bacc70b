//! Tests of the writer and the calls, through what the crate offers.
mod calls;
mod common;
mod writer;
