//! Root of the crate that holds the published files. The build copies them beside this one.
pub mod ast;
pub mod codegen;
pub mod from_ast;
pub mod layout;
